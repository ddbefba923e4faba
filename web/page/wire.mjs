// The messages of docs/WIRE.md, read to show what they say. What is asked and what is made of a reply is the library's.

import { hexOf } from "./lists.mjs";

const VERSION = 1;
const DIGEST = 16;
const LONG_FRONT = 0xf0;
const LAST = 255;
const REPLY = 128;
const decoder = new TextDecoder();

// What reads a message part by part.
class Reader {
    // The front of the key before, in a run.
    #last = new Uint8Array(0);

    constructor(bytes) {
        this.bytes = bytes;
        this.at = 0;
    }

    get isAtEnd() {
        return this.at === this.bytes.length;
    }

    take(size) {
        this.at += size;
        if (this.at > this.bytes.length) throw new RangeError("the message ends within a part");
        return this.bytes.subarray(this.at - size, this.at);
    }

    byte() {
        return this.take(1)[0];
    }

    count() {
        let [count, place] = [0, 1];
        for (let byte = 128; byte >= 128; place *= 128) {
            byte = this.byte();
            count += (byte % 128) * place;
        }
        return count;
    }

    option(part) {
        return this.byte() === 1 ? part() : null;
    }

    list(entry) {
        return Array.from({ length: this.count() }, entry);
    }

    // Entries up to the end of the message.
    rest(entry) {
        const entries = [];
        while (!this.isAtEnd) entries.push(entry(entries.length));
        return entries;
    }

    digest() {
        return hexOf(this.take(DIGEST));
    }

    text() {
        return decoder.decode(this.take(this.count()));
    }

    // Begins a run behind a key, or behind none.
    begin(key) {
        this.#last = key === null ? new Uint8Array(0) : spelt(key).subarray(0, LAST);
    }

    // The next key of a run.
    key() {
        const front = this.byte();
        const [kept, more] = front === LONG_FRONT ? [this.count(), this.count()] : [front >> 4, front & 15];
        const whole = Uint8Array.of(...this.#last.subarray(0, kept), ...this.take(more));
        this.#last = whole.subarray(0, LAST);
        return new Reader(whole).text();
    }

    bound() {
        return this.option(() => this.key());
    }

    gap() {
        return { above: this.bound(), below: this.bound() };
    }

    row() {
        return { key: this.key(), value: this.text() };
    }
}

// A key as a byte string: how many bytes it has, and these.
function spelt(key) {
    const bytes = new TextEncoder().encode(key);
    const count = [];
    for (let left = bytes.length; ; left = Math.floor(left / 128)) {
        count.push(left < 128 ? left : 128 + (left % 128));
        if (left < 128) return Uint8Array.of(...count, ...bytes);
    }
}

function begun(bytes) {
    const reader = new Reader(bytes);
    if (reader.byte() !== VERSION) throw new RangeError("a message of another version");
    return reader;
}

function settings(reader) {
    const [base, format, size] = [reader.byte(), reader.byte(), reader.count()];
    return { base, format, size, sample: reader.option(() => ({ key: reader.text(), digest: hexOf(reader.take(reader.count())) })) };
}

const QUESTIONS = {
    1: (reader) => ({ settings: settings(reader) }),
    2: (reader) => ({ most: reader.count(), gaps: reader.list(() => reader.gap()) }),
    3: (reader) => ({ most: reader.count(), gaps: reader.list(() => reader.gap()) }),
    4: (reader) => ({ keys: reader.list(() => reader.key()) }),
    5: (reader) => ({ gaps: reader.list(() => reader.gap()) }),
};

// A question: its kind, and what it asks for.
export function questionOf(bytes) {
    const reader = begun(bytes);
    const kind = reader.byte();
    const question = { kind, ...QUESTIONS[kind](reader) };
    if (!reader.isAtEnd) throw new RangeError("a question that goes on");
    return question;
}

// The nodes of a page: rows, or keys with the digests of their values; or the outline of a page with pages below it.
function outline(reader, { above }) {
    const kind = reader.byte();
    reader.begin(above);
    if (kind === 0) return { rows: reader.list(() => reader.row()) };
    if (kind === 1) {
        const keys = reader.list(() => reader.key());
        return { nodes: keys.map((key) => ({ key, digest: reader.digest() })) };
    }
    const digest = reader.digest();
    const keys = reader.list(() => reader.key());
    const below = Array.from({ length: keys.length + 1 }, () => reader.option(() => reader.digest()));
    return { digest, keys, below };
}

function part(reader, { above }) {
    reader.begin(above);
    return { rows: reader.list(() => reader.row()), isAll: reader.byte() === 1 };
}

const REPLIES = {
    1: (reader) => ({ size: reader.count(), root: reader.option(() => reader.digest()) }),
    2: (reader, { gaps }) => ({ outlines: reader.rest((at) => outline(reader, gaps[at])) }),
    3: (reader, { gaps }) => ({ outlines: reader.rest((at) => outline(reader, gaps[at])) }),
    4: (reader) => ({ values: reader.rest(() => reader.option(() => reader.text())) }),
    5: (reader, { gaps }) => ({ parts: reader.rest((at) => part(reader, gaps[at])) }),
};

// The reply to a question that was read, by its kind: the root, outlines, values or parts.
export function replyOf(bytes, question) {
    const reader = begun(bytes);
    if (reader.byte() !== REPLY + question.kind) throw new RangeError("a reply of another kind");
    return REPLIES[question.kind](reader, question);
}

// The gaps that the pages below an outline fill, in the gap that it is of, each with its digest; where there is none it is null.
export function gapsBelow({ keys, below }, gap) {
    return below.map((digest, at) => ({ digest, gap: { above: keys[at - 1] ?? gap.above, below: keys[at] ?? gap.below } }));
}
