// The syncs of two stores as frames: by messages, as docs/WIRE.md has them and the library does it, and by page ranges, beside it.

import { Descent } from "./descent.mjs";
import { rowsOf } from "./lists.mjs";
import { Pull } from "./pull.mjs";
import { Recording, restFrame } from "./recording.mjs";
import { Replica } from "./replica.mjs";
import { count } from "./sentences.mjs";
import { over } from "./store.mjs";

// What asks for all rows: the question of kind 5 over the gap of all keys.
const ALL_ROWS = Uint8Array.of(1, 5, 1, 0, 0);
const PULLS = 4;
export const WAYS = ["messages", "ranges"];


const overReplicas = (library, stores, run) => over(stores.map((store) => new Replica(library, store.base, store.rows())), run);

// How many bytes the library takes for all rows of a store.
export function bytesOfAll(library, store) {
    return overReplicas(library, [store], ([replica]) => replica.answer(ALL_ROWS).length);
}

// One side catches up with the other.
function catchUp(recording, replicas, asking) {
    const descent = new Descent(recording, asking);
    for (const { question, reply } of replicas[asking].catchUp(replicas[1 - asking])) {
        descent.question(question);
        descent.reply(reply);
    }
    const [own, peer] = [recording.stores[asking], recording.stores[1 - asking]];
    if (descent.lacked.size === 0) return;
    const taken = rowsOf(replicas[asking].rows()).filter(({ key, value }) => own.value(key) !== value);
    for (const { key, value } of taken) own.put(key, value);
    const kept = descent.lacked.size === taken.length ? "" : " Where both have a value, the later one stays.";
    recording.joined(asking, taken.map(({ key }) => key), `${own.name} joins what came: ${count(taken.length, "row")} of ${peer.name} ${
        taken.length === 1 ? "is" : "are"} new to it.${kept}`);
}

// Both sides catch up with each other, the one that is told first.
function byMessages(library, recording, first) {
    overReplicas(library, recording.stores, (replicas) => {
        catchUp(recording, replicas, first);
        catchUp(recording, replicas, 1 - first);
    });
}

// Both sides pull by turns, until their root hashes are equal.
function byRanges(recording, first) {
    for (let turn = 0; turn < PULLS; turn += 1) {
        if (new Pull(recording, turn % 2 === 0 ? first : 1 - first).run()) return;
    }
}

// A sync of two stores, which stay as they are: its frames, the first of both at rest, and the rows that both hold then.
export function syncOf(library, stores, first, way) {
    return over(stores.map((store) => store.copy()), (copies) => {
        const recording = new Recording(copies);
        recording.frames.push(restFrame(copies, beginning(copies, first)));
        if (way === "messages") byMessages(library, recording, first);
        else byRanges(recording, first);
        recording.folds = false;
        recording.joined(first, [], ending(copies, recording.sent));
        return { frames: recording.frames, rows: copies.map((copy) => copy.rows()) };
    });
}

const areEqual = (stores) => stores[0].hash() === stores[1].hash();

function beginning(stores, first) {
    if (areEqual(stores)) return "So both stores hold the same rows. A sync sees that by one question and one reply each way.";
    return `So the stores hold different rows. Play the sync: ${stores[first].name} asks first.`;
}

function ending(stores, sent) {
    const what = areEqual(stores) ? "Both stores hold the same rows" : "The stores still differ";
    return `${what}, after ${count(sent, "byte")} both ways.`;
}
