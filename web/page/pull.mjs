// A pull by page ranges, by the lists of mst.h and the ranges of mst_diff: one store comes to hold what the other has in them.

import { lies } from "./keys.mjs";
import { bytesOf, rangesOf, rowsOf } from "./lists.mjs";
import { compared } from "./recording.mjs";
import { count, listed, number, spelt } from "./sentences.mjs";

export class Pull {
    #recording;

    constructor(recording, asking) {
        this.#recording = recording;
        [this.asking, this.answering] = [asking, 1 - asking];
        [this.own, this.peer] = [recording.stores[asking], recording.stores[1 - asking]];
        recording.forget();
    }

    // Makes all its steps, and says whether the root hashes were equal at its beginning.
    run() {
        const root = this.own.hash();
        this.#ask("sends its root hash", bytesOf("MSTh", root), `${this.own.name} sends its root hash.`);
        if (this.peer.hash() === root) {
            this.#recording.states = compared(this.#recording.trees);
            this.#answer("says that they are equal", bytesOf("MST=", ""), `${this.peer.name} has the same root hash: the stores are equal.`);
            return true;
        }
        const ranges = this.#ranges();
        const asked = this.#difference(ranges);
        this.#join(this.#rows(asked));
        return false;
    }

    #ask(name, bytes, said) {
        this.#recording.send(this.asking, name, bytes, said);
    }

    #answer(name, bytes, said) {
        this.#recording.send(this.answering, name, bytes, said);
    }

    #ranges() {
        const list = this.peer.pageRanges();
        this.#recording.states = compared(this.#recording.trees);
        this.#answer(`sends ${count(rangesOf(list).length, "page range")}`, list,
            `${this.peer.name} sends all its page ranges: of each page the first and the last key below it, and its digest.`);
        return list;
    }

    #difference(ranges) {
        const asked = this.own.ask(ranges);
        const wanted = rangesOf(asked);
        for (const key of this.peer.values().keys()) if (wanted.some((range) => lies(key, range))) this.#mark(key, "asked");
        const what = wanted.length === 0 ? "finds nothing to ask for" : `asks for ${listed(wanted.map(spelt))}`;
        this.#ask(`asks for ${count(wanted.length, "range")}`, asked, `${this.own.name} compares them with its own by mst_diff, and ${what}.`);
        return asked;
    }

    #rows(asked) {
        const list = this.peer.answer(asked);
        const rows = rowsOf(list);
        for (const { key, value } of rows) this.#mark(key, this.own.value(key) === value ? "same" : "came");
        this.#answer(`sends ${count(rows.length, "row")}`, list,
            `${this.peer.name} sends its rows in these ranges: ${number(rows.length)} of ${number(this.peer.size)}, also those that agree.`);
        return list;
    }

    #join(list) {
        const taken = this.own.join(list);
        this.#recording.joined(this.asking, taken, `${this.own.name} joins them with its own: ${count(taken.length, "row")} ${
            taken.length === 1 ? "is" : "are"} new to it.`);
    }

    #mark(key, mark) {
        for (const marks of this.#recording.marks) marks.set(key, mark);
    }
}
