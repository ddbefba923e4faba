// Three moments as frames: the same rows in another order, a key whose digest picks its level, and an edit that hashes one path anew.

import { pagesOf, pathTo } from "./pages.mjs";
import { compared, Recording, restFrame } from "./recording.mjs";
import { chooserOf, shuffled, valueOf } from "./rows.mjs";
import { count, number } from "./sentences.mjs";
import { over, Store } from "./store.mjs";

const PARTS = 12;

// The rows of a store, put into an empty tree in another order.
export function orderFrames(library, store, seed) {
    const rows = shuffled(chooserOf(seed), store.rows());
    return over([new Store(library, "Another order", store.base)], ([other]) => {
        const recording = new Recording([store, other]);
        for (let part = 0; part <= PARTS; part += 1) {
            const [from, to] = [Math.max(0, part - 1), part].map((it) => Math.floor((rows.length * it) / PARTS));
            const put = rows.slice(from, to);
            for (const { key, value } of put) other.put(key, value);
            recording.see();
            recording.forget();
            recording.states = compared(recording.trees);
            for (const { key } of put) recording.marks[1].set(key, "new");
            recording.show(orderSaid(recording.trees, to, rows.length), { differs: false });
        }
        return recording.frames;
    });
}

function orderSaid(trees, done, all) {
    if (done < all) return `The rows of Store A are put into an empty tree, in another order: ${number(done)} of ${number(all)}.`;
    const isSame = trees[0].digest === trees[1].digest;
    const root = isSame ? "the same root hash, page by page the same tree" : "another root hash";
    return `All ${count(all, "row")} are in, one by one and in another order: ${root}.`;
}

// What the digest of a key says: its bytes, how many zero bytes are in front, the byte behind these, and the level, as the library has it.
export function digestOfKey(library, key, base) {
    return over([new Store(library, "", base)], ([store]) => {
        store.put(key, key);
        const digest = store.digestAt(key);
        const bytes = digest.match(/../g).map((two) => parseInt(two, 16));
        const zeros = bytes.findIndex((byte) => byte !== 0);
        return { key, digest, zeros, next: bytes[zeros], base, level: store.tree().level };
    });
}

// Why a key has its level.
function levelSaid({ key, digest, zeros, next, base, level }) {
    const front = zeros === 0 ? "begins with no zero byte" : `begins with ${count(zeros, "zero byte")}, ${2 * zeros} levels`;
    const what = next % base === 0 ? `${base} divides the next byte, ${next}, one level more` : `${base} doesn't divide the next byte, ${next}`;
    return `The digest of “${key}” is ${digest.slice(0, 12)}…: it ${front}, and ${what}. So the key is on level ${level}, in every tree.`;
}

// A key as it would stand in a store.
export function keyFrames(library, stores, key) {
    const digest = digestOfKey(library, key, stores[0].base);
    return over([stores[0].copy()], ([own]) => {
        const recording = new Recording([own, stores[1]]);
        if (own.value(key) === undefined) own.put(key, valueOf(1, "typed"));
        recording.joined(0, [key], levelSaid(digest), { digest });
        return recording.frames;
    });
}

// A tree in which so many of these pages have their digest again, the lowest first; the others have none.
function partly(tree, stale, done) {
    const without = new Set(stale.slice(done));
    const copied = (page) => ({ ...page, digest: without.has(page) ? null : page.digest, below: page.below.map(copied) });
    return copied(tree);
}

// Does an edit of one of two stores by a function, and keeps what its frames are made of: the frame before, and which pages it left without
// a digest.
export function editOf(stores, { at, key, kind }, act) {
    const isThere = stores[at].value(key) !== undefined;
    const what = kind === "remove" ? "lose the row" : isThere ? "get another value at" : "get the row";
    const before = restFrame(stores, `${stores[at].name} is about to ${what} ${key}.`);
    act(stores[at]);
    return { at, key, before, isStale: pagesOf(stores[at].tree()).map((page) => page.digest === null) };
}

// An edit of a store, page by page: the stores are as it left them.
export function editFrames(stores, { at, key, before, isStale }) {
    const recording = new Recording(stores);
    const tree = recording.trees[at];
    const stale = pagesOf(tree).filter((_, place) => isStale[place]).sort((one, other) => one.level - other.level);
    const path = new Set(pathTo(tree, key));
    const which = stale.every((page) => path.has(page)) ? "those on its path" : "those on its path, and those that it parted";
    for (let done = 0; done <= stale.length; done += 1) {
        const digests = new Set(stale.slice(0, done).map((page) => page.digest));
        recording.trees[at] = partly(tree, stale, done);
        recording.states = compared(recording.trees);
        recording.marks[at].set(key, "new");
        recording.show(editSaid(stores[at].name, key, { which, stale: stale.length, done, all: pagesOf(tree).length }), {
            fresh: new Set(pagesOf(recording.trees[at]).filter((page) => digests.has(page.digest))),
        });
    }
    return [before, ...recording.frames];
}

function editSaid(name, key, { which, stale, done, all }) {
    if (done === 0) return `${name}: ${number(stale)} of ${count(all, "page")} have no digest after the edit of ${key}, up to the root.`;
    if (done < stale) return `From the lowest up, each is hashed anew: ${number(done)} of ${number(stale)}.`;
    const what = `${number(stale)} of ${count(all, "page")} ${stale === 1 ? "was" : "were"} hashed anew after the edit of ${key}`;
    return `${name}: ${what}, ${which}. No other digest changed.`;
}

