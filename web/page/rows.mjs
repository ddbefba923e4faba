// Rows for two stores by a seed, their values, and random changes.

import { WORDS } from "./words.mjs";

const NAMES = ["Ada", "Blaise", "Carl", "Emmy", "Grace", "Henri", "Sofia", "Alan"];
const DIGITS = 4;
export const MOST_ROWS = 2000;

// Numbers below 1 that look random, and are the same for the same seed (mulberry32).
export function chooserOf(seed) {
    let state = seed >>> 0;
    return () => {
        state = (state + 0x6d2b79f5) >>> 0;
        let mixed = Math.imul(state ^ (state >>> 15), state | 1);
        mixed ^= mixed + Math.imul(mixed ^ (mixed >>> 7), mixed | 61);
        return ((mixed ^ (mixed >>> 14)) >>> 0) / 2 ** 32;
    };
}

export const below = (choose, limit) => Math.floor(choose() * limit);

export function shuffled(choose, items) {
    const mixed = [...items];
    for (let left = mixed.length; left > 1; left -= 1) {
        const at = below(choose, left);
        [mixed[at], mixed[left - 1]] = [mixed[left - 1], mixed[at]];
    }
    return mixed;
}

// The key at a place of a list without an end: the words, and then each with a number behind it.
function keyAt(place) {
    const [round, word] = [Math.floor(place / WORDS.length), WORDS[place % WORDS.length]];
    return round === 0 ? word : `${word}.${round + 1}`;
}

// A value has the time at which it was written in front, so that of two values the greater is the later one.
export const valueOf = (time, text) => `${String(time).padStart(DIGITS, "0")} ${text}`;
export const timeOf = (value) => Number(value.slice(0, DIGITS));
export const textOf = (value) => value.slice(DIGITS + 1);

// The text of a value: some 35 bytes.
export function randomText(choose) {
    const name = NAMES[below(choose, NAMES.length)];
    return `${1 + below(choose, 99)} crates, hall ${1 + below(choose, 9)}, counted by ${name}`;
}

// The rows of two stores that have so many keys between them, of which so many differ: by turns one that the first store hasn't, one that
// was written later in the second, one that the second hasn't, and one that was written later in the first.
export function rowsOfTwo(seed, count, differing) {
    const choose = chooserOf(seed);
    const keys = shuffled(choose, Array.from({ length: Math.max(count, WORDS.length) }, (_, place) => keyAt(place))).slice(0, count);
    const [first, second] = [[], []];
    for (const [at, key] of keys.entries()) {
        const [old, late] = [valueOf(1, randomText(choose)), valueOf(2, randomText(choose))];
        const kind = at < differing ? at % 4 : -1;
        if (kind !== 0) first.push({ key, value: kind === 3 ? late : old });
        if (kind !== 2) second.push({ key, value: kind === 1 ? late : old });
    }
    return [first, second];
}
