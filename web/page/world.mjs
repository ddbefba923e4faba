// Both stores as a state has them, and the frames of its scene.

import { editFrames, editOf, keyFrames, orderFrames } from "./scenes.mjs";
import { restFrame } from "./recording.mjs";
import { rowsOfTwo, timeOf, valueOf } from "./rows.mjs";
import { Store } from "./store.mjs";
import { bytesOfAll, syncOf, WAYS } from "./sync.mjs";

const NAMES = ["Store A", "Store B"];

export class World {
    #library;
    #made = null;
    #acts = [];
    // What the frames of the last act are made of, where it was an edit.
    #edit = null;
    #shown = { of: null, frames: [] };

    constructor(library) {
        this.#library = library;
        this.stores = [];
    }

    // Makes the stores those of a state. Where only acts are added since the last state, only these are done.
    go(state) {
        const { rows, differ, seed, base, acts } = state;
        const made = JSON.stringify([rows, differ, seed, base]);
        const goesOn = made === this.#made && this.#acts.every((act, at) => JSON.stringify(act) === JSON.stringify(acts[at]));
        if (!goesOn) this.#begin(rowsOfTwo(seed, rows, differ), base);
        this.#made = made;
        for (const act of acts.slice(this.#acts.length)) this.#act(act);
        this.#acts = acts;
    }

    #begin(rows, base) {
        this.stores.forEach((store) => store.free());
        this.stores = NAMES.map((name) => new Store(this.#library, name, base));
        this.stores.forEach((store, at) => {
            store.load(rows[at]);
            store.hash();
        });
        [this.#acts, this.#edit] = [[], null];
    }

    // A time behind all that the stores have.
    #now() {
        return 1 + Math.max(0, ...this.stores.flatMap((store) => [...store.values().values()].map(timeOf)));
    }

    #act(act) {
        this.#edit = null;
        if (act.kind === "sync") {
            const { rows } = syncOf(this.#library, this.stores, act.first, act.way);
            this.stores.forEach((store, at) => store.load(rows[at]));
        } else {
            this.#edit = editOf(this.stores, act, (store) => this.#change(store, act));
        }
        this.stores.forEach((store) => store.hash());
    }

    #change(store, { kind, key, text }) {
        if (kind === "put") store.put(key, valueOf(this.#now(), text));
        else if (store.value(key) !== undefined) store.remove(key);
    }

    // The frames of a state's scene; the stores have to be those of the state.
    frames(state) {
        const of = JSON.stringify({ ...state, step: 0 });
        if (this.#shown.of !== of) this.#shown = { of, frames: this.#framesOf(state) };
        return this.#shown.frames;
    }

    #framesOf({ scene, seed, key, first, way }) {
        if (scene === "order") return orderFrames(this.#library, this.stores[0], seed + 1);
        if (scene === "key") return keyFrames(this.#library, this.stores, key);
        if (scene === "edit" && this.#edit) return editFrames(this.stores, this.#edit);
        if (scene === "edit") return [restFrame(this.stores, "Nothing was edited yet: choose a row of a tree.")];
        return syncOf(this.#library, this.stores, first, way).frames;
    }

    // How many bytes each way of a sync takes on these stores, and what all rows of the side that is asked first would be.
    costs({ first }) {
        const sent = WAYS.map((way) => [way, syncOf(this.#library, this.stores, first, way).frames.at(-1).sent]);
        return { ...Object.fromEntries(sent), all: this.all(first) };
    }

    // How many bytes all rows are that the side which is asked first has.
    all(first) {
        return bytesOfAll(this.#library, this.stores[1 - first]);
    }
}

