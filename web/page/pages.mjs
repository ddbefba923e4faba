// Questions on the pages of a tree, as lists.mjs reads them.

import { compareKeys, isInGap, WHOLE } from "./keys.mjs";

// A function of pages, which never change, that keeps what it answered.
function kept(answer) {
    const known = new WeakMap();
    return (page) => {
        if (!known.has(page)) known.set(page, answer(page));
        return known.get(page);
    };
}

// All pages of a tree, each before those below it.
export const pagesOf = kept((page) => [page, ...page.below.flatMap(pagesOf)]);

// All keys of a page and below it, in their order.
export const keysBelow = kept((page) => {
    const keys = [];
    let done = 0;
    for (const below of page.below) {
        keys.push(...page.keys.slice(done, below.place), ...keysBelow(below));
        done = below.place;
    }
    return [...keys, ...page.keys.slice(done)];
});

// The gap that a page below another fills, where that one fills this gap.
function gapOf(below, page, gap) {
    return { above: page.keys[below.place - 1] ?? gap.above, below: page.keys[below.place] ?? gap.below };
}

// The page over a gap: the highest that has a key in it. Null where the tree has no key there.
export function pageOver(tree, gap) {
    let [page, around] = [tree, WHOLE];
    while (page && !page.keys.some((key) => isInGap(key, gap))) {
        const above = page;
        const next = above.below.find((it) => covers(gapOf(it, above, around), gap));
        around = next && gapOf(next, above, around);
        page = next;
    }
    return page ?? null;
}

// Whether a gap has all keys of another.
function covers({ above, below }, gap) {
    const isAbove = above === null || (gap.above !== null && compareKeys(above, gap.above) <= 0);
    const isBelow = below === null || (gap.below !== null && compareKeys(gap.below, below) <= 0);
    return isAbove && isBelow;
}

// The pages from the root to the one that a key stands on, or would stand below.
export function pathTo(tree, key) {
    const path = [tree];
    for (let page = tree; page && !page.keys.includes(key);) {
        const place = page.keys.filter((it) => compareKeys(it, key) < 0).length;
        page = page.below.find((it) => it.place === place);
        if (page) path.push(page);
    }
    return path;
}
