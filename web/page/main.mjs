// The page: a state, what is shown of it, and what changes it.

import { edited, editedAnyRow, undone, withOtherRows, withRows, withScene } from "./acts.mjs";
import { Editor, Sliders } from "./controls.mjs";
import { Library } from "./library.mjs";
import { showCost, showCosts, showDigest, showPacket, showPackets } from "./panels.mjs";
import { Picture } from "./picture.mjs";
import { Player } from "./player.mjs";
import { addressOf, keyFault, stateOf } from "./state.mjs";
import { verdictOf } from "./told.mjs";
import { World } from "./world.mjs";

const byId = (id) => document.getElementById(id);
const stays = matchMedia("(prefers-reduced-motion: reduce)");
// Milliseconds before the costs are worked out, which takes both syncs.
const PATIENCE = 150;

class Page {
    #costs = { of: null, timer: null };
    #all = { of: null, bytes: 0 };

    constructor(library) {
        this.world = new World(library);
        this.player = new Player({ back: byId("back"), next: byId("next"), play: byId("play"), scrubber: byId("scrubber"), place: byId("place") },
            (step) => this.show({ ...this.state, step }, "replaceState", true));
        this.picture = new Picture(byId("trees"), (at, key) => this.take(this.state.scene === "order" ? 0 : at, key));
        this.editor = new Editor(byId("editor"), {
            valueAt: (at, key) => this.valueAt(at, key),
            edit: (at, key, text) => this.edit(edited(this.state, this.played, at, key, text), at, key),
        });
        this.sliders = new Sliders(byId("rows"), {
            change: (more) => this.show(withRows(this.state, more), "replaceState"),
            fold: (folds) => this.show({ ...this.state, folds }, "replaceState"),
            again: () => this.show(withOtherRows(this.state), "pushState"),
        });
        this.#connect();
    }

    // The world with the frames that are shown.
    get played() {
        return { stores: this.world.stores, frames: this.frames };
    }

    get frame() {
        return this.frames[this.state.step];
    }

    // The value at a key of a store, as it is shown.
    valueAt(at, key) {
        return this.state.scene === "order" ? this.world.stores[at].value(key) : this.frame.values[at].get(key);
    }

    // Takes a row of a store up, to be edited.
    take(at, key) {
        this.editor.take(at, key, this.valueAt(at, key));
    }

    #connect() {
        for (const button of document.querySelectorAll("[data-scene]")) button.onclick = () => this.scene(button.dataset.scene);
        byId("undo").onclick = () => this.show(undone(this.state), "pushState");
        byId("way").onchange = ({ target }) => {
            const more = target.name === "first" ? { first: Number(target.value) } : { way: target.value };
            this.show(withScene(this.state, "sync", more), "pushState");
        };
        byId("typed").oninput = ({ target }) => this.type(target.value);
        byId("typing").onsubmit = (event) => {
            event.preventDefault();
            const key = byId("typed").value;
            this.edit(edited(this.state, this.played, 0, key, "typed on the page"), 0, key);
        };
        window.onpopstate = () => this.show(stateOf(location.hash), null);
        window.onresize = () => this.draw(false);
    }

    // One click: a scene, which plays where motion is welcome, and else is at its end.
    scene(name) {
        const { state, fault } = name === "edit" ? editedAnyRow(this.state, this.played) : { state: withScene(this.state, name), fault: null };
        if (fault) {
            this.editor.say(fault);
            return;
        }
        this.show(state, "pushState");
        if (name === "key") byId("typed").select();
        else if (!stays.matches) this.player.play();
        else if (name !== "sync") this.player.to(this.frames.length - 1);
    }

    // What an edit makes of the state, at its last frame, or why it isn't done.
    edit({ state, fault }, at, key) {
        if (fault) {
            this.editor.say(fault);
            return;
        }
        this.show({ ...state, step: Infinity }, "pushState");
        this.picture.focus(at, key);
    }

    // A key that is typed: it is shown where it would stand, unless it is none.
    type(key) {
        const fault = keyFault(key);
        if (fault) this.editor.say(fault);
        else this.show(withScene(this.state, "key", { key }), "replaceState");
    }

    // Shows a state, and puts it into the address by this call of the history, if any. Where it isn't the next of those that are played, none
    // is played any longer.
    show(state, keep, isPlayed = false) {
        if (!isPlayed) this.player.stop();
        this.editor.say(null);
        this.world.go(state);
        this.frames = this.world.frames(state);
        this.state = { ...state, step: Math.min(state.step, this.frames.length - 1) };
        if (keep) history[keep](null, "", addressOf(this.state));
        this.draw(isPlayed);
    }

    draw(isStep) {
        const { state, frame } = this;
        const isRest = state.scene === "sync" && state.step === 0;
        this.player.show(state.step, this.frames.length, state.scene, frame.said);
        this.picture.draw(isRest ? { ...frame, folds: state.folds } : frame, isStep);
        this.#say(frame);
        this.sliders.show(state, this.world.stores);
        byId("lane").hidden = state.scene !== "sync";
        showPacket(byId("lane"), frame);
        showPackets(byId("packets"), state.scene === "sync" ? this.frames : [], state.step, (step) => this.player.to(step));
        for (const button of document.querySelectorAll("[data-scene]")) button.ariaPressed = String(button.dataset.scene === state.scene);
        byId("undo").disabled = state.acts.length === 0;
        byId("way").elements.first.value = state.first;
        byId("way").elements.way.value = state.way;
        this.#showScene();
        this.#later();
    }

    #say(frame) {
        const verdict = verdictOf(frame);
        byId("verdict").className = verdict.sign;
        byId("verdict").textContent = verdict.text;
        byId("said").textContent = frame.said;
    }

    // What one scene has beside the trees: the bytes, or the key that is typed and its digest.
    #showScene() {
        const { scene, first, key } = this.state;
        byId("cost").hidden = scene !== "sync";
        byId("typing").hidden = scene !== "key";
        if (scene === "sync") showCost({ fill: byId("sent"), text: byId("bytes") }, this.frame, this.#allRows(), this.world.stores[1 - first].name);
        if (scene !== "key") return;
        if (byId("typed").value !== key && document.activeElement !== byId("typed")) byId("typed").value = key;
        showDigest(byId("digest"), this.frame.digest);
    }

    // What names the stores of a state, and who asks.
    get #of() {
        const { rows, differ, seed, base, acts, first } = this.state;
        return JSON.stringify([rows, differ, seed, base, acts, first]);
    }

    // How many bytes all rows are that the side which is asked first has.
    #allRows() {
        if (this.#all.of !== this.#of) this.#all = { of: this.#of, bytes: this.world.all(this.state.first) };
        return this.#all.bytes;
    }

    // Works the costs out once nothing was changed for a while.
    #later() {
        clearTimeout(this.#costs.timer);
        this.#costs.timer = setTimeout(() => {
            const of = `${this.#of} ${this.state.way}`;
            if (this.#costs.of !== of) showCosts(byId("costs"), this.world.costs(this.state), this.state);
            this.#costs.of = of;
        }, PATIENCE);
    }
}

async function start(module) {
    const page = new Page(await Library.load(module));
    page.show(stateOf(location.hash), null);
    document.documentElement.dataset.ready = "yes";
}

start(Uint8Array.from(atob(MODULE), (character) => character.charCodeAt(0))).catch((fault) => {
    byId("said").textContent = `This page can't run here: ${fault.message}`;
});
