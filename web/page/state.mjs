// The state of the page, and its spelling behind # in the address: what a link has, and what back and forward go through.

import { hasBytes } from "./keys.mjs";
import { MOST_ROWS } from "./rows.mjs";
import { WAYS } from "./sync.mjs";

export const SCENES = ["sync", "order", "key", "edit"];
export const BASES = [4, 8, 16, 32];
const LONGEST = { key: 40, text: 80 };
const SIDES = "AB";
const SEEDS = 2 ** 32;
// More acts than a link should have.
const MOST_ACTS = 500;

// What a page begins with: two stores made of `rows` keys by a seed, of which `differ` differ, and what was done since; who asks first in
// a sync, and in which way; the scene that is shown, how far it is, and which key is typed in it.
export const BEGINNING = {
    rows: 400, differ: 3, seed: 9, base: 16, acts: [], first: 0, way: "messages", scene: "sync", step: 0, key: "window", folds: false,
};

// A number of an address, where it is one of those that are allowed.
function numberIn(text, least, most, otherwise) {
    return /^\d{1,10}$/.test(text ?? "") && Number(text) >= least && Number(text) <= most ? Number(text) : otherwise;
}

const oneOf = (word, words, otherwise) => (words.includes(word) ? word : otherwise);

function decoded(text) {
    try {
        return decodeURIComponent(text);
    } catch {
        return null;
    }
}

// Why a text is no key; null where it is one.
export function keyFault(key) {
    if (key.trim() === "") return "A key needs at least one character that isn't blank.";
    if (!hasBytes(key)) return "This key has half of a character, which has no bytes.";
    return key.length > LONGEST.key ? `A key here has at most ${LONGEST.key} characters.` : null;
}

// The same for the text of a value, which may be empty.
export function textFault(text) {
    if (!hasBytes(text)) return "This value has half of a character, which has no bytes.";
    return text.length > LONGEST.text ? `A value here has at most ${LONGEST.text} characters.` : null;
}

// A row that is put is `A+key=value`, one that is removed `A-key`, and a sync `~A` or, by ranges, `~Aranges`.
function actSpelt(act) {
    if (act.kind === "sync") return `~${SIDES[act.first]}${act.way === WAYS[0] ? "" : act.way}`;
    const key = encodeURIComponent(act.key);
    return act.kind === "put" ? `${SIDES[act.at]}+${key}=${encodeURIComponent(act.text)}` : `${SIDES[act.at]}-${key}`;
}

// An act of its spelling, or null where it has none.
function actOf(spelling) {
    const sync = /^~([AB])(\w*)$/.exec(spelling);
    if (sync) return { kind: "sync", first: SIDES.indexOf(sync[1]), way: oneOf(sync[2], WAYS, WAYS[0]) };
    const edit = /^([AB])(?:\+([^=]*)=(.*)|-(.*))$/.exec(spelling);
    if (!edit) return null;
    const [key, text] = [decoded(edit[2] ?? edit[4]), decoded(edit[3] ?? "")];
    if (key === null || text === null || keyFault(key) || textFault(text)) return null;
    const at = SIDES.indexOf(edit[1]);
    return edit[4] === undefined ? { kind: "put", at, key, text } : { kind: "remove", at, key };
}

// The state that an address spells; what it leaves out, or spells otherwise than it may, is as in the beginning.
export function stateOf(address) {
    const parts = new Map(address.replace(/^#/, "").split("&").map((part) => [part.split("=", 1)[0], part.slice(part.indexOf("=") + 1)]));
    const rows = numberIn(parts.get("rows"), 0, MOST_ROWS, BEGINNING.rows);
    const key = decoded(parts.get("key") ?? "") ?? "";
    return {
        rows,
        differ: Math.min(rows, numberIn(parts.get("differ"), 0, MOST_ROWS, BEGINNING.differ)),
        seed: numberIn(parts.get("seed"), 0, SEEDS - 1, BEGINNING.seed),
        base: oneOf(numberIn(parts.get("base"), 0, 255, 0), BASES, BEGINNING.base),
        acts: (parts.get("acts") || "").split(",").slice(0, MOST_ACTS).map(actOf).filter(Boolean),
        first: Math.max(0, SIDES.indexOf(oneOf(parts.get("first"), [...SIDES], "A"))),
        way: oneOf(parts.get("way"), WAYS, BEGINNING.way),
        scene: oneOf(parts.get("scene"), SCENES, BEGINNING.scene),
        step: numberIn(parts.get("step"), 0, 9999, 0),
        key: keyFault(key) ? BEGINNING.key : key,
        folds: parts.get("folds") === "yes",
    };
}

// The address of a state: what isn't as in the beginning.
export function addressOf(state) {
    const spelt = {
        ...state,
        first: SIDES[state.first],
        folds: state.folds ? "yes" : "no",
        key: encodeURIComponent(state.key),
        acts: state.acts.map(actSpelt).join(","),
    };
    const plain = { ...BEGINNING, first: "A", folds: "no", acts: "" };
    const names = Object.keys(plain).filter((name) => spelt[name] !== plain[name] || ["rows", "differ", "seed"].includes(name));
    return `#${names.map((name) => `${name}=${spelt[name]}`).join("&")}`;
}

export const nextSeed = ({ seed }) => (seed + 1) % SEEDS;
