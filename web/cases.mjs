// cases.mjs MODULE: tables of what the page has to do with single inputs, without the page: addresses, keys, the three moments, and messages of
// docs/WIRE.md.

import { readFileSync } from "node:fs";
import { strict as assert } from "node:assert";
import { edited, editedAnyRow, undone, withOtherRows, withRows, withScene } from "./page/acts.mjs";
import { compareKeys } from "./page/keys.mjs";
import { Library } from "./page/library.mjs";
import { pagesOf, pathTo } from "./page/pages.mjs";
import { digestOfKey } from "./page/scenes.mjs";
import { BEGINNING, addressOf, stateOf } from "./page/state.mjs";
import { costTold } from "./page/told.mjs";
import { questionOf, replyOf } from "./page/wire.mjs";
import { World } from "./page/world.mjs";

const HALF = "\ud83d";

// Addresses, and what is read of them; all else is as in the beginning.
const ADDRESSES = [
    ["", {}],
    ["#rows=40&differ=5&seed=7", { rows: 40, differ: 5, seed: 7 }],
    ["#rows=4&differ=5", { rows: 4, differ: 4 }],
    ["#rows=2001&seed=-1&base=5&step=x&way=best&first=C&scene=none", {}],
    ["#seed=abc", {}],
    ["#seed=4294967296", {}],
    ["#seed=4294967295", { seed: 4294967295 }],
    ["#rows=1e3&differ=0x10", {}],
    ["#key=%E6%9C%A8&folds=yes&first=B&way=ranges&scene=key", { key: "木", folds: true, first: 1, way: "ranges", scene: "key" }],
    ["#key=%ED%A0%BD", {}],
    ["#key=%", {}],
    ["#acts=A+a%20b=1%2C2,~Branges,B-a%20b,C+x=y,A+=1,A+%20=1,%,~C", {
        acts: [{ kind: "put", at: 0, key: "a b", text: "1,2" }, { kind: "sync", first: 1, way: "ranges" }, { kind: "remove", at: 1, key: "a b" }],
    }],
    ["#acts=", {}],
    ["#__proto__=1&constructor=2", {}],
];

// Keys in their order, which is that of their bytes.
const ORDER = ["", "a", "a.2", "a木", "b", "é", "\ud7ff", "\ue000", "\uffff", "\u{10000}", "\u{10ffff}"];

// Rows that are no rows, and that they are refused.
const FAULTS = [["", "1"], ["   ", "1"], [`a${HALF}`, "1"], ["k".repeat(41), "1"], ["a", HALF], ["a", "1".repeat(81)], ["not there", null]];

// Messages of docs/WIRE.md, and what they say.
const MESSAGES = [
    ["010102011001 03616e74 10712257a29a4167c48995447a3781179c", "01810501 2ca91787345828c627d1eecdebeb0ccb",
        { kind: 1, settings: { base: 2, format: 1, size: 16, sample: { key: "ant", digest: "712257a29a4167c48995447a3781179c" } } },
        { size: 5, root: "2ca91787345828c627d1eecdebeb0ccb" }],
    ["010210010000", "018202 aba30ec4cb2cce892e31b271fdb4a3b9 010403646f67 01 edca394290766272a46eee24b011ea8f 00",
        { kind: 2, most: 16, gaps: [{ above: null, below: null }] },
        { outlines: [{ digest: "aba30ec4cb2cce892e31b271fdb4a3b9", keys: ["dog"], below: ["edca394290766272a46eee24b011ea8f", null] }] }],
    ["0102200100010403646f67", "01820102 0403616e74 13636f77 4415f5b7fdb8b144002bc6c583e2f2d3 e87458d53e8c29e8b2f803492cfb6236",
        { kind: 2, most: 32, gaps: [{ above: null, below: "dog" }] },
        { outlines: [{ nodes: [
            { key: "ant", digest: "4415f5b7fdb8b144002bc6c583e2f2d3" }, { key: "cow", digest: "e87458d53e8c29e8b2f803492cfb6236" }] }] }],
    ["01040204 03646f67 13636f77", "01840103616263 00", { kind: 4, keys: ["dog", "cow"] }, { values: ["abc", null] }],
    ["010501010403636f7700", "018501 13646f67 0135 01", { kind: 5, gaps: [{ above: "cow", below: null }] },
        { parts: [{ rows: [{ key: "dog", value: "5" }], isAll: true }] }],
];

const bytesOf = (text) => Uint8Array.from(text.replaceAll(" ", "").match(/../g), (two) => parseInt(two, 16));

function checkAddresses() {
    for (const [address, wanted] of ADDRESSES) {
        const state = stateOf(address);
        assert.deepEqual(state, { ...BEGINNING, ...wanted }, address);
        assert.deepEqual(stateOf(addressOf(state)), state, address);
        assert.notEqual(withOtherRows(state).seed, state.seed, address);
    }
}

function checkMessages() {
    for (const [question, reply, asks, says] of MESSAGES) {
        assert.deepEqual(questionOf(bytesOf(question)), asks);
        assert.deepEqual(replyOf(bytesOf(reply), asks), says);
        assert.throws(() => questionOf(bytesOf(`${question}00`)), RangeError);
        assert.throws(() => replyOf(bytesOf(reply).subarray(0, says.values ? -2 : -1), asks), RangeError);
    }
}

function checkOrder() {
    for (const [at, one] of ORDER.entries()) {
        for (const [place, other] of ORDER.entries()) {
            assert.equal(Math.sign(compareKeys(one, other)), Math.sign(at - place));
            assert.equal(Math.sign(compareKeys(one, other)), Math.sign(Buffer.compare(Buffer.from(one), Buffer.from(other))));
        }
    }
}

function shown(world, state) {
    world.go(state);
    return { stores: world.stores, frames: world.frames(state) };
}

function checkFaults(world) {
    const played = shown(world, BEGINNING);
    for (const [key, text] of FAULTS) {
        const { state, fault } = edited(BEGINNING, played, 0, key, text);
        assert(fault && state === BEGINNING, key);
    }
    assert.match(editedAnyRow({ ...BEGINNING, rows: 0 }, shown(world, { ...BEGINNING, rows: 0, differ: 0 })).fault, /no row/);
}

// The same rows in another order end in the same tree, and didn't have it before.
function checkOrderScene(world) {
    const { frames } = shown(world, withScene(BEGINNING, "order"));
    const roots = frames.map(({ trees }) => trees.map(({ digest }) => digest));
    assert.equal(roots.at(-1)[0], roots.at(-1)[1]);
    assert(roots.slice(0, -1).every(([first, second]) => first !== second));
    assert.deepEqual([...frames.at(-1).values[1]].sort(), [...frames.at(-1).values[0]].sort());
    assert.notDeepEqual([...frames.at(-1).values[1]], [...frames.at(-1).values[0]]);
}

// The level that a key's digest tells is the one that it has in the tree.
function checkKeyScene(library, world) {
    for (const key of ["window", "otter-9", "acorn", "jam", "木", "a", "chard.2"]) {
        const frame = shown(world, withScene(BEGINNING, "key", { key })).frames[0];
        const page = pagesOf(frame.trees[0]).find(({ keys }) => keys.includes(key));
        const { zeros, next, base, level, digest } = digestOfKey(library, key, BEGINNING.base);
        assert.equal(level, 2 * zeros + (next % base === 0 ? 1 : 0));
        assert.equal(page.level, level);
        assert.deepEqual(frame.digest.digest, digest);
    }
}

// An edit of one value hashes the path of its key anew, from below, and nothing else; it can be undone.
function checkEditScene(world) {
    const before = shown(world, BEGINNING);
    const roots = before.stores.map((store) => store.hash());
    const { state } = editedAnyRow(BEGINNING, before);
    const { frames } = shown(world, state);
    const [{ key }] = state.acts;
    const [old, tree] = [frames[0], frames.at(-1)].map(({ trees }) => trees[0]);
    const digests = new Set(pagesOf(old).map(({ digest }) => digest));
    assert.deepEqual(pagesOf(tree).filter(({ digest }) => !digests.has(digest)), pathTo(tree, key));
    assert.deepEqual(frames.at(-1).fresh, new Set(pagesOf(frames.at(-1).trees[0]).filter(({ digest }) => !digests.has(digest))));
    assert(frames.slice(1, -1).every(({ trees }) => trees[0].digest === null));
    assert.deepEqual(shown(world, undone(state)).stores.map((store) => store.hash()), roots);
}

// A sync that was played to its end is kept when a row is edited then, and one that wasn't isn't; another direction begins anew.
function checkSyncScene(world) {
    const { stores, frames } = shown(world, BEGINNING);
    const end = { ...BEGINNING, step: frames.length - 1 };
    assert.deepEqual(edited(end, { stores, frames }, 1, "acorn", "x").state.acts.map(({ kind }) => kind), ["sync", "put"]);
    assert.deepEqual(edited({ ...end, step: 3 }, { stores, frames }, 1, "acorn", "x").state.acts.map(({ kind }) => kind), ["put"]);
    const turned = withScene({ ...end, step: 2 }, "sync", { first: 1 });
    assert.equal(turned.step, 0);
    assert.match(shown(world, turned).frames[0].said, /Store B asks first/);
    assert.equal(withRows({ ...end, acts: [{}] }, { rows: 2 }).differ, 2);
    assert(frames.every(({ said }) => said.length < 300));
}

// What equal and empty stores cost.
function checkCosts(world) {
    const equal = { ...BEGINNING, differ: 0 };
    world.go(equal);
    assert.deepEqual({ ...world.costs(equal), all: 0 }, { messages: 100, ranges: 24, all: 0 });
    const empty = { ...equal, rows: 0 };
    world.go(empty);
    assert.deepEqual(world.costs(empty), { messages: 20, ranges: 24, all: 4 });
    assert.equal(costTold({ sent: 1234 }, 4936, "Store B"), "1,234 bytes sent so far. All rows of Store B would be 4,936 bytes: 25 % of that.");
}

const library = await Library.load(readFileSync(process.argv[2]));
const world = new World(library);
checkAddresses();
checkMessages();
checkOrder();
checkFaults(world);
checkOrderScene(world);
checkKeyScene(library, world);
checkEditScene(world);
checkSyncScene(world);
checkCosts(world);
