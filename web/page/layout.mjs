// Where the pages and keys of two trees stand, without the page: on one axis of keys, so that equal keys face each other, and in one row for
// each level. A page reaches over all keys below it, and the pages below it fill the gaps between its keys. The axis has a given length:
// keys that matter now get room to be read, and a page that is equal is folded to a narrow block.

import { compareKeys } from "./keys.mjs";
import { keysBelow, pagesOf } from "./pages.mjs";

// Along the axis, in pixels: the least and the wanted room of keys and of folded pages, what a key needs to be read, and what its letters and
// its edges take. Across, keys are written along the axis; downward they stand below each other.
const ROOM = {
    across: { vital: [82, 112], told: [3, 56], above: [12, 60], plain: [0.4, 56], unseen: [0.4, 6], folded: [16, 46], read: 38, letter: 8, edge: 26, widest: 130 },
    down: { vital: [17, 22], told: [2, 17], above: [6, 17], plain: [0.3, 17], unseen: [0.3, 2], folded: [8, 20], read: 14, letter: 0, edge: 16, widest: 30 },
};
const VITAL = new Set(["asked", "lacked", "came", "new"]);

// The keys of both trees in their order.
function unionOf(trees) {
    const [first, second] = trees.map(keysBelow);
    const keys = [];
    for (let [at, other] = [0, 0]; at < first.length || other < second.length;) {
        const order = at === first.length ? 1 : other === second.length ? -1 : compareKeys(first[at], second[other]);
        keys.push(order <= 0 ? first[at] : second[other]);
        if (order <= 0) at += 1;
        if (order >= 0) other += 1;
    }
    return keys;
}

// The highest pages of a tree that are equal, but for the root: they are folded.
function foldedOf(tree, states) {
    const below = (page) => page.below.flatMap((it) => (states.get(it) === "same" ? [it] : below(it)));
    return below(tree);
}

// The folded page that each key is in, by its digest, where both trees have it folded; and its page.
function foldsOf(frame) {
    const folds = frame.trees.map((tree, at) => foldedOf(tree, frame.states[at]));
    const both = folds.map((pages) => new Set(pages.map((page) => page.digest)));
    const shared = folds.map((pages, at) => pages.filter((page) => both[1 - at].has(page.digest)));
    return {
        pages: new Set(shared.flat()),
        of: new Map(shared[0].flatMap((page) => keysBelow(page).map((key) => [key, page.digest]))),
    };
}

// Whether the two sides don't agree on a key, and how: each side's own word.
function differenceAt(values, key, at) {
    if (!values[1 - at].has(key)) return "only";
    return values[0].get(key) === values[1].get(key) ? "" : "other";
}

// The kind of room that a key gets.
function kindsOf(frame) {
    const [seen, above] = [new Set(), new Set()];
    for (const [at, tree] of frame.trees.entries()) {
        for (const page of pagesOf(tree)) {
            for (const key of page.keys) {
                if (frame.states[at].has(page)) seen.add(key);
                if (page.below.length) above.add(key);
            }
        }
    }
    const differs = ({ values: [first, second] }, key) => first.get(key) !== second.get(key);
    return (key) => {
        const [first, second] = [frame.marks[0].get(key), frame.marks[1].get(key)];
        if (VITAL.has(first) || VITAL.has(second) || (frame.folds && frame.differs && differs(frame, key))) return "vital";
        if (frame.folds && !seen.has(key)) return "unseen";
        if (above.has(key)) return "above";
        return first === "same" || second === "same" ? "told" : "plain";
    };
}

// The slots of the axis: keys, and folded pages as one each.
function slotsOf(frame, folds) {
    const slots = [];
    const kindOf = kindsOf(frame);
    for (const key of unionOf(frame.trees)) {
        const fold = folds.of.get(key);
        if (fold !== undefined && slots.at(-1)?.fold === fold) slots.at(-1).keys.push(key);
        else slots.push({ keys: [key], fold, kind: fold === undefined ? kindOf(key) : "folded" });
    }
    return slots;
}

const sumOf = (numbers) => numbers.reduce((sum, one) => sum + one, 0);

// The room of each slot, so that all together are as long as the axis, or shorter where each has as much as it can use. Where there isn't
// the least that each should have, the others give way to the keys that matter now.
function lengthsOf(slots, room, sizes) {
    const [least, wanted] = [0, 1].map((at) => slots.map(({ kind }) => sizes[kind][at]));
    const [short, long] = [sumOf(least), sumOf(wanted)];
    if (long <= room) return wanted.map((one) => Math.min(sizes.widest, (one * room) / Math.max(long, 1)));
    if (short < room) return least.map((one, at) => one + ((wanted[at] - one) * (room - short)) / (long - short));
    const vital = sumOf(least.filter((_, at) => slots[at].kind === "vital"));
    const kept = Math.min(1, room / 2 / Math.max(vital, 1));
    const rest = (room - kept * vital) / Math.max(short - vital, 1);
    return least.map((one, at) => one * (slots[at].kind === "vital" ? kept : rest));
}

// Where each key stands: the slot that it is in.
function axisOf(frame, folds, room, sizes) {
    const slots = slotsOf(frame, folds);
    const lengths = lengthsOf(slots, room, sizes);
    const at = new Map();
    let from = Math.max(0, (room - sumOf(lengths)) / 2);
    for (const [place, { keys }] of slots.entries()) {
        const slot = { from, to: from + lengths[place] };
        for (const key of keys) at.set(key, slot);
        from = slot.to;
    }
    return at;
}

// The boxes of a tree's pages, each before those below it.
function boxesOf(tree, frame, side, { axis, folds, rows, room }) {
    const boxes = [];
    const place = (page, above) => {
        const keys = keysBelow(page);
        const [from, to] = keys.length ? [axis.get(keys[0]).from, axis.get(keys.at(-1)).to] : [room * 0.4, room * 0.6];
        const isFolded = folds.pages.has(page);
        const box = { page, above, from, to, row: rows.indexOf(page.level), state: frame.states[side].get(page) ?? "unseen", isFolded,
            isFresh: frame.fresh.has(page), count: keys.length, id: `${side} ${page.level} ${keys[0] ?? ""}` };
        boxes.push(box);
        if (!isFolded) page.below.forEach((it) => place(it, box));
    };
    place(tree, null);
    return boxes;
}

const middleOf = ({ from, to }) => (from + to) / 2;

// Where the room of one key ends and that of the next one on its page begins: halfway between them, but each has its own slot.
function between(one, next) {
    return Math.min(Math.max((middleOf(one) + middleOf(next)) / 2, one.to), next.from);
}

// The part of this room that a chip takes, around a middle as far as the room lets it.
function within(middle, { from, to }, length) {
    const taken = Math.min(length, to - from);
    const begin = Math.min(Math.max(middle - taken / 2, from), to - taken);
    return { from: begin, to: begin + taken };
}

// The chips of a box: its keys, each with its place in the room up to the next.
function chipsOf({ page, from, to, row, isFolded }, frame, side, axis, sizes) {
    if (isFolded) return [];
    const slots = page.keys.map((key) => axis.get(key));
    return page.keys.map((key, at) => {
        const room = {
            from: at === 0 ? from : between(slots[at - 1], slots[at]),
            to: at === slots.length - 1 ? to : between(slots[at], slots[at + 1]),
        };
        const mark = frame.marks[side].get(key) ?? "";
        const difference = frame.differs ? differenceAt(frame.values, key, side) : "";
        const middle = middleOf(slots[at]);
        const place = within(middle, room, Math.min(sizes.widest, sizes.letter * [...key].length + sizes.edge));
        return { key, row, middle, ...place, isRead: place.to - place.from >= sizes.read, mark, difference };
    });
}

// Both trees of a frame, on an axis of so many pixels: each side's boxes and chips, and the levels that there are, the highest first.
export function layoutOf(frame, room, isDown) {
    const sizes = isDown ? ROOM.down : ROOM.across;
    const folds = frame.folds ? foldsOf(frame) : { pages: new Set(), of: new Map() };
    const rows = [...new Set(frame.trees.flatMap(pagesOf).map((page) => page.level))].sort((one, other) => other - one);
    const parts = { axis: axisOf(frame, folds, room, sizes), folds, rows, room };
    const sides = frame.trees.map((tree, side) => {
        const boxes = boxesOf(tree, frame, side, parts);
        return { boxes, chips: boxes.flatMap((box) => chipsOf(box, frame, side, parts.axis, sizes)) };
    });
    return { sides, rows, room };
}

// Across the axis: where the row of each level begins and how deep it is, the highest first; the part of it that has the sign and the digest of
// a page; and how deep all are. Downward they share the breadth of a tree, and the lowest, which has most keys, gets more of it.
export function levelsOf(count, isDown, breadth) {
    const gap = isDown ? 5 : 9;
    const shares = Array.from({ length: count }, (_, row) => (isDown && row === count - 1 ? 1.8 : 1));
    const whole = isDown ? breadth : Math.max(count * 38, Math.min(count * 52, (breadth - 330) / 2));
    const part = (whole - gap * (count - 1)) / shares.reduce((sum, share) => sum + share, 0);
    const rows = shares.map((share, row) => ({ at: shares.slice(0, row).reduce((sum, it) => sum + it * part + gap, 0), size: share * part }));
    return { rows, whole, strip: isDown ? 13 : 15 };
}
