// Replicas of mst_replica.h, and a catch-up of one with another by the library's own messages.

import { Place } from "./library.mjs";
import { hexOf } from "./lists.mjs";

export const PAGE_FORMAT = 2;
export const ZERO_KEY = new Uint8Array(16);
// More questions than an honest peer is asked.
const MOST = 1000;
const encoder = new TextEncoder();

export class Replica {
    #library;
    #handle;

    // A replica with these rows, which ascend.
    constructor(library, base, rows) {
        this.#library = library;
        this.#handle = library.newHandle();
        library.done("mst_replica_new_with", this.#handle, new Place(ZERO_KEY), base, PAGE_FORMAT);
        for (const { key, value } of rows) library.done("mst_replica_put", this.#handle, encoder.encode(key), encoder.encode(value));
    }

    free() {
        this.#library.call("mst_replica_free", this.#handle);
        this.#library.giveBack(this.#handle);
    }

    get rootHash() {
        return hexOf(this.#library.filled(ZERO_KEY.length, "mst_replica_root_hash", this.#handle));
    }

    // All rows, as a list of rows.
    rows() {
        return this.#library.written("mst_replica_rows", this.#handle);
    }

    #message() {
        return this.#library.written("mst_replica_message", this.#handle);
    }

    // The first question of a catch-up.
    ask() {
        this.#library.number("mst_replica_ask", this.#handle);
        return this.#message();
    }

    // The reply to a question.
    answer(question) {
        this.#library.number("mst_replica_answer", this.#handle, question);
        return this.#message();
    }

    // Takes a reply: the next question, or null where the catch-up is over.
    take(reply) {
        const length = this.#library.over(new Uint8Array(8), (joined) =>
            this.#library.over(new Uint8Array(8), (size) => {
                this.#library.done("mst_replica_take", this.#handle, reply, size, joined);
                return this.#library.numberAt(size);
            }));
        return length === 0 ? null : this.#message();
    }

    // Catches up with a peer: the questions and their replies, as bytes.
    catchUp(peer) {
        const exchanges = [];
        for (let question = this.ask(); question; question = this.take(exchanges.at(-1).reply)) {
            if (exchanges.length === MOST) throw new Error("a catch-up without an end");
            exchanges.push({ question, reply: peer.answer(question) });
        }
        return exchanges;
    }
}
