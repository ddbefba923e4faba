// The order of keys, which is that of their bytes in UTF-8, and gaps between keys.

const SURROGATES = 0xd800;
const BEHIND_SURROGATES = 0xe000;

// A half of a character counts as behind all characters of 16 bits, since its character is.
function weight(unit) {
    if (unit < SURROGATES) return unit;
    return unit < BEHIND_SURROGATES ? unit + 0x2000 : unit - 0x800;
}

// Below 0 where the first key is in front of the other, above 0 where it is behind, and 0 where they are equal.
export function compareKeys(one, other) {
    const shorter = Math.min(one.length, other.length);
    let at = 0;
    while (at < shorter && one.charCodeAt(at) === other.charCodeAt(at)) at += 1;
    return at < shorter ? weight(one.charCodeAt(at)) - weight(other.charCodeAt(at)) : one.length - other.length;
}

export const byKey = (one, other) => compareKeys(one.key, other.key);

// Whether a key is in a range, whose ends are in it.
export const lies = (key, { first, last }) => compareKeys(first, key) <= 0 && compareKeys(key, last) <= 0;

// The gap of all keys. A gap is between two keys that aren't in it; null is no bound.
export const WHOLE = { above: null, below: null };

export function isInGap(key, { above, below }) {
    return (above === null || compareKeys(above, key) < 0) && (below === null || compareKeys(key, below) < 0);
}

// Whether a text has bytes in UTF-8: one that has half of a character has none.
export function hasBytes(text) {
    try {
        encodeURIComponent(text);
        return true;
    } catch {
        return false;
    }
}
