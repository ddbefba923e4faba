// Parts of what the page says.

const NAMED = 3;

const spelling = new Intl.NumberFormat("en-US");

export const number = (value) => spelling.format(value);

export const count = (value, word) => `${number(value)} ${word}${value === 1 ? "" : "s"}`;

// Items as a sentence has them, the first few by name.
export function listed(items) {
    if (items.length > NAMED + 1) return `${items.slice(0, NAMED).join(", ")} and ${number(items.length - NAMED)} more`;
    return items.length < 2 ? items.join("") : `${items.slice(0, -1).join(", ")} and ${items.at(-1)}`;
}

// A range of keys.
export const spelt = ({ first, last }) => (first === last ? first : `${first} to ${last}`);

// A digest, by its first digits.
export const shortDigest = (digest) => (digest === null ? "…" : digest.slice(0, 4));
