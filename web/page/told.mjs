// What the page says of pages, keys and messages, beside the sentences of frames.

import { textOf } from "./rows.mjs";
import { count, number, shortDigest } from "./sentences.mjs";

const SIGNS = { same: "=", other: "≠", asked: "?", stale: "…", unseen: "" };
const STATES = {
    same: "the other side has this page too",
    other: "the other side hasn't this page: something on it or below it differs",
    asked: "asked for just now",
    stale: "changed, and not hashed yet",
    unseen: "not compared yet",
};
const MARKS = {
    asked: ["?", "asked for"],
    lacked: ["≠", "lacked"],
    came: ["↓", "came just now"],
    new: ["✓", "new here"],
    same: ["=", "the same on both sides"],
};
const DIFFERENCES = { only: ["+", "only in this store"], other: ["≠", "the other store has another value"] };

// What is in front of a page's digest in its box, and what its tooltip says.
export const pageSigns = ({ state, isFresh }) => `${isFresh ? "↻" : ""}${SIGNS[state]}`;

export function pageTold({ page, state, isFresh, count: keys }) {
    const fresh = isFresh ? ", hashed just now" : "";
    return `level ${page.level}, ${count(keys, "key")} on it and below it, digest ${page.digest ?? "none"}: ${STATES[state]}${fresh}`;
}

// A key as its chip has it, and in full.
export function chipSign({ mark, difference }) {
    return (MARKS[mark] ?? DIFFERENCES[difference] ?? [""])[0];
}

export function chipTold({ key, mark, difference }, value) {
    const words = [MARKS[mark]?.[1], DIFFERENCES[difference]?.[1]].filter(Boolean);
    return [key, ...(value === undefined ? [] : [textOf(value)]), ...words].join(", ");
}

// The name of a tree: what it is of, and its root hash.
export function treeTold(name, rows, pages, digest) {
    return `${name}: ${count(rows, "row")} on ${count(pages, "page")}, root hash ${digest === null ? "not known yet" : digest.slice(0, 8)}`;
}

// The verdict on two trees, by their root hashes.
export function verdictOf({ names, trees }) {
    const [first, second] = trees.map(({ digest }) => digest);
    if (first === null || second === null) return { sign: "stale", text: "The root page isn't hashed yet." };
    const isSame = first === second;
    const what = isSame ? "The root hashes are equal" : "The root hashes differ";
    const sign = isSame ? "same" : "other";
    return { sign, text: `${what}: ${names[0]} ${shortDigest(first)} ${SIGNS[sign]} ${names[1]} ${shortDigest(second)}.` };
}

// What was sent so far, beside all rows.
export function costTold({ sent }, all, name) {
    const far = `${count(sent, "byte")} sent so far.`;
    return all === 0 ? far : `${far} All rows of ${name} would be ${number(all)} bytes: ${number(Math.round((100 * sent) / all))} % of that.`;
}

const HEX = 48;

// Bytes in hexadecimal digits, those behind the first as a number.
export function hexTold(bytes, most = HEX) {
    const digits = Array.from(bytes.subarray(0, most), (byte) => byte.toString(16).padStart(2, "0")).join(" ");
    return bytes.length > most ? `${digits} … ${number(bytes.length - most)} more` : digits;
}
