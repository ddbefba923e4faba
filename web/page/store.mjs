// A store of the page: rows, and the tree of their keys and values beside them.

import { Place } from "./library.mjs";
import { hexOf, listOfRows, rangesOf, rowsOf, treeOf } from "./lists.mjs";
import { byKey, compareKeys, lies } from "./keys.mjs";
import { PAGE_FORMAT, ZERO_KEY } from "./replica.mjs";

const encoder = new TextEncoder();

export class Store {
    #library;
    #handle;
    #rows = new Map();
    // The pages, all with a digest, where they were read since the last change.
    #hashed = null;

    constructor(library, name, base) {
        this.#library = library;
        this.name = name;
        this.base = base;
        this.#handle = library.newHandle();
        library.done("mst_tree_new_with", this.#handle, new Place(ZERO_KEY), base, PAGE_FORMAT);
    }

    // A store of the same rows and name, whose tree is a copy.
    copy() {
        const copy = new Store(this.#library, this.name, this.base);
        this.#library.call("mst_tree_free", copy.#handle);
        this.#library.done("mst_tree_clone", this.#handle, copy.#handle);
        copy.#rows = new Map(this.#rows);
        return copy;
    }

    free() {
        this.#library.call("mst_tree_free", this.#handle);
        this.#library.giveBack(this.#handle);
    }

    get size() {
        return this.#rows.size;
    }

    // The rows in the order of their keys.
    rows() {
        return [...this.#rows].map(([key, value]) => ({ key, value })).sort(byKey);
    }

    // The value at each key, as it is now.
    values() {
        return new Map(this.#rows);
    }

    value(key) {
        return this.#rows.get(key);
    }

    put(key, value) {
        this.#hashed = null;
        this.#library.done("mst_tree_upsert", this.#handle, encoder.encode(key), encoder.encode(value));
        this.#rows.set(key, value);
    }

    remove(key) {
        this.#hashed = null;
        this.#library.done("mst_tree_remove", this.#handle, encoder.encode(key));
        this.#rows.delete(key);
    }

    // Makes these rows the store's, in place of those that it has.
    load(rows) {
        const ascending = [...rows].sort(byKey);
        this.#hashed = null;
        this.#library.done("mst_tree_load", this.#handle, listOfRows(ascending));
        this.#rows = new Map(ascending.map(({ key, value }) => [key, value]));
    }

    // The root hash, for which the pages without a digest are hashed.
    hash() {
        return hexOf(this.#library.filled(ZERO_KEY.length, "mst_tree_root_hash", this.#handle));
    }

    // The pages as they are: those that changed since the last hash have no digest.
    tree() {
        return treeOf(this.#library.written("mst_tree_pages", this.#handle));
    }

    // The pages, all with a digest.
    hashedTree() {
        if (!this.#hashed) {
            this.hash();
            this.#hashed = this.tree();
        }
        return this.#hashed;
    }

    // The digest of the value at a key, as the tree has it.
    digestAt(key) {
        return hexOf(this.#library.filled(ZERO_KEY.length, "mst_tree_find", this.#handle, encoder.encode(key)));
    }

    // The list of page ranges, as bytes for a peer.
    pageRanges() {
        return this.#library.written("mst_tree_page_ranges", this.#handle);
    }

    // The list of the ranges of keys to ask the peer for, whose page ranges these are.
    ask(pageRanges) {
        return this.#library.written("mst_diff", this.pageRanges(), pageRanges);
    }

    // The list of the rows in a list of key ranges.
    answer(keyRanges) {
        const ranges = rangesOf(keyRanges);
        return listOfRows(this.rows().filter(({ key }) => ranges.some((range) => lies(key, range))));
    }

    // Takes the rows of a list: of two values of a key the greater stays. The keys whose value is new here are answered.
    join(list) {
        const isNew = ({ key, value }) => !this.#rows.has(key) || compareKeys(this.#rows.get(key), value) < 0;
        const taken = rowsOf(list).filter(isNew);
        for (const { key, value } of taken) this.put(key, value);
        return taken.map(({ key }) => key);
    }
}

// Runs a function over stores or replicas, which are given back behind it.
export function over(held, run) {
    try {
        return run(held);
    } finally {
        held.forEach((it) => it.free());
    }
}
