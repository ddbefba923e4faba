// replay.mjs MODULE CALLS: makes the calls of a file by a module, and fails at the first that the module answers otherwise than the file says.
// Each line of the file is a step of tests/soak_parts/library.py and its answer; bytes are a text of hexadecimal digits behind a `x`.

import { readFileSync } from "node:fs";
import { Library, Place, Refused, STATUS } from "./page/library.mjs";
import { hexOf } from "./page/lists.mjs";

const spelt = (bytes) => `x${hexOf(bytes)}`;
const bytesOf = (text) => Uint8Array.from(text.slice(1).match(/../g) ?? [], (two) => parseInt(two, 16));
const read = (word) => (typeof word === "string" && word.startsWith("x") ? bytesOf(word) : word);

// What a function answers with `done`, or the status that it is refused with.
function answered(run) {
    try {
        return [STATUS.done, run() ?? null];
    } catch (refused) {
        if (!(refused instanceof Refused)) throw refused;
        return [refused.status, null];
    }
}

// The steps, each by the calls that it is made of.
class Trees {
    constructor(library) {
        this.library = library;
        this.at = [0, 1, 2].map(() => library.newHandle());
    }

    done(name, slot, ...words) {
        return answered(() => this.library.done(name, this.at[slot], ...words));
    }

    written(name, ...words) {
        return answered(() => spelt(this.library.written(name, ...words)));
    }

    // The number of eight bytes that a call writes.
    numberFrom(name, ...words) {
        return Number(new DataView(this.library.filled(8, name, ...words).buffer).getBigUint64(0, true));
    }

    new(slot, key, ...settings) {
        if (!key) return this.done("mst_tree_new", slot);
        const name = settings.length === 3 ? "mst_tree_new_as" : "mst_tree_new_with";
        return this.done(name, slot, new Place(key), ...settings);
    }

    clone(slot, to) {
        return this.done("mst_tree_clone", slot, this.at[to]);
    }

    free(slot) {
        this.library.call("mst_tree_free", this.at[slot]);
        return [null, null];
    }

    upsert(slot, key, value) {
        return this.done("mst_tree_upsert", slot, key, value);
    }

    upsert_digest(slot, key, digest) {
        return this.done("mst_tree_upsert_digest", slot, key, new Place(digest));
    }

    upsert_rows(slot, list) {
        return answered(() => this.numberFrom("mst_tree_upsert_rows", this.at[slot], list));
    }

    remove(slot, key) {
        return this.done("mst_tree_remove", slot, key);
    }

    load(slot, list) {
        return this.done("mst_tree_load", slot, list);
    }

    load_digests(slot, list) {
        return this.done("mst_tree_load_digests", slot, list);
    }

    find(slot, key) {
        return answered(() => spelt(this.library.filled(16, "mst_tree_find", this.at[slot], key)));
    }

    count(slot) {
        return answered(() => this.numberFrom("mst_tree_len", this.at[slot]));
    }

    root_hash(slot) {
        return answered(() => spelt(this.library.filled(16, "mst_tree_root_hash", this.at[slot])));
    }

    page_ranges(slot) {
        return this.written("mst_tree_page_ranges", this.at[slot]);
    }

    digests(slot) {
        return this.written("mst_tree_digests", this.at[slot]);
    }

    pages(slot) {
        return this.written("mst_tree_pages", this.at[slot]);
    }

    diff(local, peer) {
        return this.written("mst_diff", local, peer);
    }

    goes(list, place) {
        return this.next("mst_ranges_next", 5, list, place);
    }

    rows(list, place) {
        return this.next("mst_rows_next", 4, list, place);
    }

    // The next range or row behind a place: where that leaves off, its two strings, and the digest that it may have.
    next(name, numbers, list, place) {
        const { library } = this;
        const began = new Uint8Array(8);
        new DataView(began.buffer).setBigUint64(0, BigInt(place), true);
        return answered(() => library.over(list, (at) => library.over(began, (next) => {
            const out = library.filled(8 * numbers, name, at, BigInt(list.length), next);
            const view = new DataView(out.buffer);
            const [first, size, second, length, digest] = Array.from({ length: numbers }, (_, word) => view.getBigUint64(8 * word, true));
            const found = [library.numberAt(next), spelt(library.bytesAt(first, Number(size))), spelt(library.bytesAt(second, Number(length)))];
            return numbers === 5 ? [...found, digest ? spelt(library.bytesAt(digest, 16)) : null] : found;
        })));
    }
}

// What is wrong with the answer to a line; undefined where it is the one that the line has.
function fault(trees, line) {
    const [[name, ...words], wanted] = JSON.parse(line);
    if (!trees[name]) return `web/replay.mjs has no step ${name}`;
    const seen = JSON.stringify(trees[name](...words.map(read)));
    return seen === JSON.stringify(wanted) ? undefined : `${name}: the module answers ${seen}, and the native library ${JSON.stringify(wanted)}`;
}

const [, , module, calls] = process.argv;
const library = await Library.load(readFileSync(module));
const trees = new Trees(library);
for (const [at, line] of readFileSync(calls, "utf8").trim().split("\n").entries()) {
    const found = fault(trees, line);
    if (found) {
        console.log(`line ${at + 1}: ${found}`);
        process.exit(1);
    }
}
console.log(library.version());
