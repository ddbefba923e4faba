// messages.mjs MODULE: reads addresses, a line each, and writes a line for each: the rows of both stores, and what the page shows of their sync by
// messages: each message with its side, the bytes that are counted up to there, and at the end; all rows' bytes, and the rows of both then.

import { readFileSync } from "node:fs";
import { Library } from "./page/library.mjs";
import { hexOf } from "./page/lists.mjs";
import { stateOf } from "./page/state.mjs";
import { syncOf } from "./page/sync.mjs";
import { World } from "./page/world.mjs";

const [, , module] = process.argv;
const library = await Library.load(readFileSync(module));
const world = new World(library);
const pairs = (rows) => rows.map(({ key, value }) => [key, value]);

for (const address of readFileSync(0, "utf8").trim().split("\n")) {
    const state = stateOf(address);
    world.go(state);
    const { stores } = world;
    const { frames, rows } = syncOf(library, stores, state.first, "messages");
    const sent = frames.filter(({ packet }) => packet).map(({ packet, sent: far }) => [packet.from, hexOf(packet.bytes), far]);
    console.log(JSON.stringify({
        base: state.base, first: state.first, rows: stores.map((store) => pairs(store.rows())), roots: stores.map((store) => store.hash()),
        sent, all: world.all(state.first), total: frames.at(-1).sent, after: rows.map(pairs),
    }));
}
