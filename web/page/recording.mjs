// A scene as frames, which the page shows one after the other. Each has what is said of it; the names, rows and trees of two sides; of each
// side what is known of its pages (`states`) and keys (`marks`), and the pages that were hashed just now (`fresh`); whether equal pages are
// folded, and whether keys say that they differ; the message that is under way, if any, and how many bytes were sent up to there.
//
// A page is `same` or `other`, as the peer has a page of its digest or hasn't, `asked` for, or `stale`, where it has no digest; where it has
// no state nothing is known of it yet. A key is `asked` for, `lacked`, the `same` on both sides, `came`, or is `new` after that.

import { pagesOf } from "./pages.mjs";

// What is known of two trees where all their digests are: each page is `same` or `other`.
export function compared(trees) {
    const digests = trees.map((tree) => new Set(pagesOf(tree).map((page) => page.digest)));
    const stateOf = (page, at) => {
        if (page.digest === null) return "stale";
        return digests[1 - at].has(page.digest) ? "same" : "other";
    };
    return trees.map((tree, at) => new Map(pagesOf(tree).map((page) => [page, stateOf(page, at)])));
}

const nothing = () => [new Map(), new Map()];

export class Recording {
    frames = [];
    sent = 0;
    folds = false;

    // Of two stores, whose trees and rows are as they are at each frame.
    constructor(stores) {
        this.stores = stores;
        this.see();
        this.forget();
    }

    // Looks at the stores again.
    see() {
        this.trees = this.stores.map((store) => store.hashedTree());
        this.values = this.stores.map((store) => store.values());
    }

    forget() {
        [this.states, this.marks] = [nothing(), nothing()];
    }

    // A frame of what is known now.
    show(said, more = {}) {
        this.frames.push({
            said,
            names: this.stores.map(({ name }) => name),
            trees: [...this.trees],
            values: [...this.values],
            states: this.states.map((states) => new Map(states)),
            marks: this.marks.map((marks) => new Map(marks)),
            fresh: new Set(),
            folds: this.folds,
            packet: null,
            differs: true,
            sent: this.sent,
            ...more,
        });
    }

    // A frame of a message that one side sends.
    send(from, name, bytes, said) {
        this.sent += bytes.length;
        this.show(said, { packet: { from, name, bytes }, differs: false });
    }

    // A frame after a side joined rows, of which these keys are new: all is compared then.
    joined(at, keys, said, more = {}) {
        const before = new Set(pagesOf(this.trees[at]).map((page) => page.digest));
        this.see();
        this.forget();
        this.states = compared(this.trees);
        for (const key of keys) this.marks[at].set(key, "new");
        const fresh = new Set(pagesOf(this.trees[at]).filter((page) => !before.has(page.digest)));
        this.show(said, { fresh, ...more });
    }
}

// The frame of two stores at rest, of which all is known.
export function restFrame(stores, said) {
    const recording = new Recording(stores);
    recording.states = compared(recording.trees);
    recording.show(said);
    return recording.frames[0];
}
