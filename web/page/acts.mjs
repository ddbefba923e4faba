// What a user does, each as the state that follows on one.

import { below, chooserOf, randomText } from "./rows.mjs";
import { keyFault, nextSeed, textFault } from "./state.mjs";

// A state with other rows.
export function withRows(state, { rows = state.rows, differ = state.differ, base = state.base, seed = state.seed }) {
    return { ...state, rows, differ: Math.min(rows, differ), base, seed, acts: [], scene: "sync", step: 0 };
}

export const withOtherRows = (state) => withRows(state, { seed: nextSeed(state) });

export const withScene = (state, scene, more = {}) => ({ ...state, ...more, scene, step: 0 });

// The acts of a state. A sync that was played to its end is one of them, so that what follows goes on from there.
function actsOf(state, frames) {
    const isDone = state.scene === "sync" && state.step > 0 && state.step === frames.length - 1;
    return isDone ? [...state.acts, { kind: "sync", first: state.first, way: state.way }] : state.acts;
}

// Puts a row into a store, or removes it where the text is null. What is wrong with it is in `fault`, and the state stays then.
export function edited(state, { stores, frames }, at, key, text) {
    const fault = keyFault(key) ?? (text === null ? null : textFault(text));
    if (fault) return { state, fault };
    const acts = actsOf(state, frames);
    const isThere = acts.length > state.acts.length ? frames.at(-1).values[at].has(key) : stores[at].value(key) !== undefined;
    if (text === null && !isThere) return { state, fault: `${stores[at].name} has no row ${key} to remove.` };
    const act = text === null ? { kind: "remove", at, key } : { kind: "put", at, key, text };
    return { state: { ...state, acts: [...acts, act], scene: "edit", step: 0 }, fault: null };
}

// Edits the value of one row, chosen by the seed and by what was done.
export function editedAnyRow(state, world) {
    const choose = chooserOf(state.seed + 7919 * (state.acts.length + 1));
    const rows = world.stores[0].rows();
    if (rows.length === 0) return { state, fault: "Store A has no row to edit." };
    return edited(state, world, 0, rows[below(choose, rows.length)].key, randomText(choose));
}

export function undone(state) {
    return { ...state, acts: state.acts.slice(0, -1), scene: "sync", step: 0 };
}
