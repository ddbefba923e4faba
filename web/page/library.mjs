// The calls of mst.h and mst_replica.h in a WebAssembly module, with what they are given put into the module's memory.

export const STATUS = { done: 0, noMemory: 1, malformed: 2, tooShort: 3, badArgument: 4, absent: 5, otherSettings: 6, refused: 7 };

// What a call is refused with: one of the statuses, but done.
export class Refused extends Error {
    constructor(status) {
        super(`refused: ${Object.keys(STATUS)[status]}`);
        this.status = status;
    }
}

// Bytes of which a call takes the place alone, since their number is fixed.
export class Place {
    constructor(bytes) {
        this.bytes = bytes;
    }
}

export class Library {
    #exports;
    #trap = null;

    // The library of the bytes of a module.
    static async load(bytes) {
        const { instance } = await WebAssembly.instantiate(bytes, {});
        return new Library(instance.exports);
    }

    constructor(exports) {
        this.#exports = exports;
    }

    // What a call of the module answers. A call that traps may leave memory half written, so none is made after it.
    #run(name, words) {
        if (this.#trap) throw this.#trap;
        try {
            return this.#exports[name](...words);
        } catch (trap) {
            this.#trap = trap;
            throw trap;
        }
    }

    // Room for so many bytes in the module's memory: its place, a BigInt.
    take(size) {
        const at = this.#run("mst_web_take", [BigInt(size)]);
        if (at === 0n) throw new Refused(STATUS.noMemory);
        return at;
    }

    giveBack(at) {
        this.#run("mst_web_give_back", [at]);
    }

    // The bytes at a place, as they are now.
    bytesAt(at, size) {
        return new Uint8Array(this.#exports.memory.buffer, Number(at), size).slice();
    }

    numberAt(at) {
        return Number(new DataView(this.#exports.memory.buffer).getBigUint64(Number(at), true));
    }

    write(at, bytes) {
        new Uint8Array(this.#exports.memory.buffer).set(bytes, Number(at));
    }

    // Runs a function over the place of these bytes, and gives the room back.
    over(bytes, run) {
        const at = this.take(bytes.length);
        try {
            this.write(at, bytes);
            return run(at);
        } finally {
            this.giveBack(at);
        }
    }

    // A handle without a tree or a replica.
    newHandle() {
        const at = this.take(8);
        this.write(at, new Uint8Array(8));
        return at;
    }

    // The answer of a call. Of its words a BigInt is a place or a length, a number a byte, a Uint8Array its place and its length, and a
    // Place its place.
    call(name, ...words) {
        const at = words.findIndex((word) => typeof word === "object");
        if (at < 0) return this.#run(name, words);
        const isPlace = words[at] instanceof Place;
        const bytes = isPlace ? words[at].bytes : words[at];
        const length = isPlace ? [] : [BigInt(bytes.length)];
        return this.over(bytes, (place) => this.call(name, ...words.slice(0, at), place, ...length, ...words.slice(at + 1)));
    }

    // The same of a call that has to be done.
    done(name, ...words) {
        const status = this.call(name, ...words);
        if (status !== STATUS.done) throw new Refused(status);
    }

    // The so many bytes that a call writes to its last argument.
    filled(size, name, ...words) {
        return this.over(new Uint8Array(size), (at) => {
            this.done(name, ...words, at);
            return this.bytesAt(at, size);
        });
    }

    // The number of eight bytes that a call writes to its last argument.
    number(name, ...words) {
        return this.over(new Uint8Array(8), (at) => {
            this.done(name, ...words, at);
            return this.numberAt(at);
        });
    }

    // The bytes that a call writes after it has said how many they are.
    written(name, ...words) {
        return this.over(new Uint8Array(8), (needed) => {
            const status = this.call(name, ...words, 0n, 0n, needed);
            if (status !== STATUS.tooShort) throw new Refused(status);
            const size = this.numberAt(needed);
            return this.over(new Uint8Array(size), (out) => {
                this.done(name, ...words, out, BigInt(size), needed);
                return this.bytesAt(out, size);
            });
        });
    }

    version() {
        const at = this.#run("mst_version", []);
        const text = this.bytesAt(at, 16);
        return new TextDecoder().decode(text.subarray(0, text.indexOf(0)));
    }
}
