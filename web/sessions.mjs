// sessions.mjs MODULE SEED COUNT: so many random sessions of the page's two stores, without the page. After each act the trees have the keys of
// the rows, and an address that gives the same state back; each scene's frames can be laid out; each message of a sync says what the trees
// have; and syncs of both ways leave both stores with the same rows.

import { readFileSync } from "node:fs";
import { strict as assert } from "node:assert";
import { edited, editedAnyRow, undone, withOtherRows, withScene } from "./page/acts.mjs";
import { byKey, compareKeys, isInGap } from "./page/keys.mjs";
import { layoutOf } from "./page/layout.mjs";
import { Library } from "./page/library.mjs";
import { keysBelow, pageOver, pagesOf, pathTo } from "./page/pages.mjs";
import { Replica } from "./page/replica.mjs";
import { below, chooserOf, randomText } from "./page/rows.mjs";
import { BASES, BEGINNING, SCENES, addressOf, stateOf } from "./page/state.mjs";
import { over } from "./page/store.mjs";
import { syncOf, WAYS } from "./page/sync.mjs";
import { gapsBelow, questionOf, replyOf } from "./page/wire.mjs";
import { World } from "./page/world.mjs";

// Characters that may be said of a frame.
const LONGEST = 500;

const keysOf = (rows) => rows.map(({ key }) => key);

// The tree of a store has the keys of its rows in their order, a digest on each page, and lower levels below.
function checkTree(store) {
    const tree = store.hashedTree();
    assert.deepEqual(keysBelow(tree), keysOf(store.rows()));
    for (const page of pagesOf(tree)) assert(page.digest !== null && page.below.every((it) => it.level < page.level && it.keys.length));
}

// An outline says what the peer's page over its gap has.
function checkOutline(peer, tree, gap, outline) {
    const page = pageOver(tree, gap);
    const keys = page?.keys ?? [];
    assert(keys.every((key) => isInGap(key, gap)));
    if (outline.below) {
        assert.deepEqual(outline.keys, keys);
        for (const { digest, gap: lower } of gapsBelow(outline, gap)) assert.equal(digest, pageOver(tree, lower)?.digest ?? null);
    } else if (outline.rows) {
        assert.deepEqual(outline.rows, keys.map((key) => ({ key, value: peer.value(key) })));
    } else {
        assert.deepEqual(outline.nodes, keys.map((key) => ({ key, digest: peer.digestAt(key) })));
    }
}

// What a reply says is what the peer's tree and rows have.
function checkReply(peer, question, reply) {
    const tree = peer.hashedTree();
    if (question.kind === 1) {
        assert.deepEqual(reply, { size: peer.size, root: peer.size ? tree.digest : null });
        assert.equal(question.settings.base, peer.base);
    } else if (question.kind === 4) {
        assert.deepEqual(reply.values, question.keys.map((key) => peer.value(key)));
    } else if (question.kind === 5) {
        const rows = question.gaps.map((gap) => peer.rows().filter(({ key }) => isInGap(key, gap)));
        assert.deepEqual(reply.parts, rows.map((all) => ({ rows: all, isAll: true })));
    } else {
        assert.equal(reply.outlines.length, question.gaps.length);
        reply.outlines.forEach((outline, at) => checkOutline(peer, tree, question.gaps[at], outline));
    }
}

// The messages of a catch-up, as the page reads them, against the peer's tree; and that replicas have the root hashes of trees.
function checkMessages(library, stores, asking) {
    const peer = stores[1 - asking];
    over(stores.map((store) => new Replica(library, store.base, store.rows())), (replicas) => {
        replicas.forEach((replica, at) => assert.equal(replica.rootHash, stores[at].hash()));
        for (const exchange of replicas[asking].catchUp(replicas[1 - asking])) {
            const question = questionOf(exchange.question);
            checkReply(peer, question, replyOf(exchange.reply, question));
        }
    });
}

// Of two values of a key the greater, for all keys of both.
function joinOf(stores) {
    const all = new Map();
    for (const { key, value } of stores.flatMap((store) => store.rows())) {
        if (!all.has(key) || compareKeys(all.get(key), value) < 0) all.set(key, value);
    }
    return [...all].map(([key, value]) => ({ key, value })).sort(byKey);
}

function checkSync(library, stores, first) {
    const wanted = joinOf(stores);
    for (const way of WAYS) {
        const { frames, rows } = syncOf(library, stores, first, way);
        assert.deepEqual(rows, [wanted, wanted]);
        assert.equal(frames.at(-1).sent, frames.reduce((sum, { packet }) => sum + (packet ? packet.bytes.length : 0), 0));
        assert.equal(frames.at(-1).trees[0].digest, frames.at(-1).trees[1].digest);
    }
    checkMessages(library, stores, first);
    checkMessages(library, stores, 1 - first);
}

// A page that is shown as equal is on both sides.
function checkStates({ trees, states }) {
    const digests = trees.map((tree) => new Set(pagesOf(tree).map(({ digest }) => digest)));
    states.forEach((of, at) => of.forEach((state, page) => assert(state !== "same" || digests[1 - at].has(page.digest))));
}

// Boxes of one level lie beside each other within the axis, and so do the chips of a page; and each key has a chip or is folded.
function checkLayout(frame, room, isDown) {
    const { sides } = layoutOf(frame, room, isDown);
    for (const [side, { boxes, chips }] of sides.entries()) {
        const rows = new Map(boxes.map(({ row }) => [row, boxes.filter((box) => box.row === row)]));
        for (const inRow of rows.values()) {
            inRow.reduce((end, { from, to }) => (assert(end <= from + 0.01 && from <= to && to <= room + 0.01), to), 0);
        }
        for (const box of boxes) {
            const own = chips.filter(({ key }) => box.page.keys.includes(key) && !box.isFolded);
            own.reduce((end, { from, to }) => (assert(end <= from + 0.01 && from <= to + 0.01 && to <= box.to + 0.01), to), box.from);
        }
        const folded = boxes.filter((box) => box.isFolded).flatMap(({ page }) => keysBelow(page));
        assert.deepEqual([...chips.map(({ key }) => key), ...folded].sort(compareKeys), keysBelow(frame.trees[side]));
    }
}

// The frames of an edit hash the path of the key anew and nothing else.
function checkEdit(frames, { at, key }) {
    const [before, after] = [frames[0], frames.at(-1)].map(({ trees }) => pagesOf(trees[at]));
    const old = new Set(before.map((page) => page.digest));
    const path = pathTo(frames.at(-1).trees[at], key);
    const changed = after.filter((page) => !old.has(page.digest));
    assert(frames.at(-1).fresh.size >= changed.length);
    assert(changed.every((page) => path.includes(page)) || /those that it parted/.test(frames.at(-1).said));
    if (frames[0].values[at].has(key) && frames.at(-1).values[at].has(key)) {
        assert.deepEqual(changed, path);
        assert.equal(frames.length, path.length + 2);
    }
}

// A random act; faults leave the state as it is.
function acted(state, world, choose) {
    const rows = world.stores[0].rows();
    const key = rows.length && choose() < 0.7 ? rows[below(choose, rows.length)].key : `${below(choose, 99)}é, ~+-=木`;
    const kinds = [
        () => edited(state, world, below(choose, 2), key, randomText(choose)).state,
        () => edited(state, world, below(choose, 2), key, null).state,
        () => editedAnyRow(state, world).state,
        () => withScene(state, SCENES[below(choose, SCENES.length)], { first: below(choose, 2), way: WAYS[below(choose, 2)] }),
        () => ({ ...state, step: below(choose, world.frames.length) }),
        () => ({ ...withScene(state, "sync"), step: world.steps }),
        () => undone(state),
        () => (choose() < 0.2 ? withOtherRows(state) : state),
    ];
    return kinds[below(choose, kinds.length)]();
}

function run(library, world, choose) {
    const [rows, differ] = [below(choose, 2) ? below(choose, 60) : below(choose, 301), below(choose, 2) ? below(choose, 8) : below(choose, 301)];
    let state = { ...BEGINNING, rows, differ: Math.min(rows, differ), seed: below(choose, 1000), base: BASES[below(choose, BASES.length)] };
    for (let act = 0; act < 10; act += 1) {
        assert.deepEqual(stateOf(addressOf(state)), state);
        world.go(state);
        const frames = world.frames(state);
        state.step = Math.min(state.step, frames.length - 1);
        world.stores.forEach(checkTree);
        for (const frame of frames) {
            assert(frame.said.length < LONGEST);
            checkStates(frame);
            checkLayout(frame, 40 + below(choose, 1200), choose() < 0.5);
        }
        if (state.scene === "edit" && frames.length > 1) checkEdit(frames, state.acts.at(-1));
        const steps = syncOf(library, world.stores, state.first, state.way).frames.length - 1;
        state = acted(state, { stores: world.stores, frames, steps }, choose);
    }
    world.go(state);
    checkSync(library, world.stores, below(choose, 2));
    const roots = world.stores.map((store) => store.hash());
    const other = new World(library);
    other.go(stateOf(addressOf(state)));
    assert.deepEqual(other.stores.map((store) => store.hash()), roots);
}

const [, , module, seed, count] = process.argv;
const library = await Library.load(readFileSync(module));
const world = new World(library);
for (let at = 0; at < Number(count); at += 1) run(library, world, chooserOf(Number(seed) + at));
