// The lists of mst.h, byte by byte, as the end of that header has them. Keys and values of the page are texts.

const SIZE = 8;
const DIGEST = 16;
const decoder = new TextDecoder();
const encoder = new TextEncoder();

export const hexOf = (bytes) => Array.from(bytes, (byte) => byte.toString(16).padStart(2, "0")).join("");

// What reads a list from its front: its mark of four bytes, how many entries it has, and their parts.
class Reader {
    constructor(list) {
        this.list = list;
        this.view = new DataView(list.buffer, list.byteOffset, list.byteLength);
        this.mark = decoder.decode(list.subarray(0, 4));
        this.at = 4;
        this.count = this.number();
    }

    take(size) {
        this.at += size;
        if (this.at > this.list.length) throw new RangeError("the list ends within an entry");
        return this.list.subarray(this.at - size, this.at);
    }

    byte() {
        return this.take(1)[0];
    }

    // The byte that comes next, which stays; undefined at the end.
    next() {
        return this.list[this.at];
    }

    number() {
        this.take(SIZE);
        return Number(this.view.getBigUint64(this.at - SIZE, true));
    }

    text() {
        return decoder.decode(this.take(this.number()));
    }

    digest() {
        return hexOf(this.take(DIGEST));
    }

    entries(entry) {
        return Array.from({ length: this.count }, entry);
    }
}

// The ranges of a list of page ranges or of key ranges; those of the first kind have a digest.
export function rangesOf(list) {
    const reader = new Reader(list);
    const hasDigests = reader.mark === "MSTp";
    return reader.entries(() => {
        const range = { first: reader.text(), last: reader.text() };
        return hasDigests ? { ...range, digest: reader.digest() } : range;
    });
}

export function rowsOf(list) {
    const reader = new Reader(list);
    return reader.entries(() => ({ key: reader.text(), value: reader.text() }));
}

// The root page of a list of pages. Each page has the pages below it in their order, each with its place: how many keys of the page above it
// are in front of it.
export function treeOf(list) {
    const reader = new Reader(list);
    reader.take(1);
    return pageOf(reader);
}

// The page that follows in the list, with all below it.
function pageOf(reader, place = 0) {
    const page = { level: reader.byte(), digest: reader.byte() === 1 ? reader.digest() : null, place, keys: [], below: [] };
    for (let left = reader.number(); left > 0; left -= 1) {
        if (reader.byte() === 1) {
            page.below.push(pageOf(reader, page.keys.length));
            reader.take(1);
        }
        page.keys.push(reader.text());
    }
    if (reader.next() === 2) {
        reader.take(1);
        page.below.push(pageOf(reader, page.keys.length));
    }
    return page;
}

// A list of rows, as bytes.
export function listOfRows(rows) {
    const texts = rows.flatMap(({ key, value }) => [encoder.encode(key), encoder.encode(value)]);
    const whole = new Uint8Array(texts.reduce((size, text) => size + SIZE + text.length, 4 + SIZE));
    const view = new DataView(whole.buffer);
    whole.set(encoder.encode("MSTr"));
    view.setBigUint64(4, BigInt(rows.length), true);
    let at = 4 + SIZE;
    for (const text of texts) {
        view.setBigUint64(at, BigInt(text.length), true);
        whole.set(text, at + SIZE);
        at += SIZE + text.length;
    }
    return whole;
}

// A message that is no list: its mark, and what hexadecimal digits say.
export function bytesOf(mark, digits) {
    return Uint8Array.of(...encoder.encode(mark), ...(digits.match(/../g) ?? []).map((two) => parseInt(two, 16)));
}
