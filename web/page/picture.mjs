// Draws the trees of a frame: boxes of pages, and chips of keys that are buttons.

import { compareKeys } from "./keys.mjs";
import { layoutOf, levelsOf } from "./layout.mjs";
import { pagesOf } from "./pages.mjs";
import { chipSign, chipTold, pageSigns, pageTold, treeTold } from "./told.mjs";
import { number, shortDigest } from "./sentences.mjs";

// With more elements than these nothing moves.
const MOST_MOVING = 500;
const NARROW = 700;
// The room along the axis that a page needs for its sign, and for its digest too.
const SIGN = { across: 15, down: 14 };
const DIGEST = { across: 52, down: 56 };
// The same for the number of keys of a folded page, which is written across in both directions.
const NUMBER = { across: 44, down: 0 };
const NEXT = { ArrowRight: 1, ArrowDown: 1, ArrowLeft: -1, ArrowUp: -1 };

// Elements of one plane by their names, which stay from frame to frame, so that they move.
class Plane {
    #elements = new Map();
    #kept = new Set();

    constructor(root) {
        this.root = root;
    }

    // The element of this name, made where there is none, and put in front of the one that a function finds.
    at(id, tag, prepare = () => {}, next = () => null) {
        this.#kept.add(id);
        let element = this.#elements.get(id);
        if (!element) {
            element = document.createElement(tag);
            prepare(element);
            this.#elements.set(id, element);
            this.root.insertBefore(element, next());
        }
        return element;
    }

    // The first chip with a key behind this one: chips are in the order of their keys, so that they are read in it.
    chipBehind(key) {
        return [...this.root.querySelectorAll(".chip")].find((chip) => compareKeys(chip.dataset.key, key) > 0) ?? null;
    }

    // Takes away what wasn't asked for since the last time.
    sweep() {
        for (const [id, element] of this.#elements) {
            if (this.#kept.has(id)) continue;
            element.remove();
            this.#elements.delete(id);
        }
        this.#kept.clear();
    }
}

// Sets properties of an element, but for those that are so already: what is written has to be laid out anew.
function set(element, properties) {
    for (const [name, value] of Object.entries(properties)) if (element[name] !== value) element[name] = value;
}

function place(element, isDown, along, length, across, depth) {
    const [left, width, top, height] = isDown ? [across, depth, along, length] : [along, length, across, depth];
    const pixels = (number) => `${number.toFixed(1)}px`;
    const style = `left: ${pixels(left)}; top: ${pixels(top)}; width: ${pixels(Math.max(width, 1))}; height: ${pixels(Math.max(height, 1))};`;
    if (element.dataset.place === style) return;
    element.dataset.place = style;
    element.style.cssText = style;
}

// Whether a key that has no room to be read is marked by a line.
const isMarked = ({ mark, difference, from, to }) => difference !== "" || (mark === "same" ? to - from > 4 : mark !== "");

export class Picture {
    #planes;
    #chosen = ["", ""];

    // `choose` is called with the side and the key of a chip that is chosen.
    constructor(root, choose) {
        this.root = root;
        this.choose = choose;
        this.trees = [...root.querySelectorAll(".tree")];
        this.#planes = this.trees.map((tree) => new Plane(tree.querySelector(".plane")));
        this.trees.forEach((tree, side) => {
            tree.onkeydown = (event) => this.#walk(event, side);
        });
    }

    // Draws a frame. Where it is the next step of a scene, what stays moves to its place.
    draw(frame, isStep) {
        const isDown = this.root.clientWidth < NARROW;
        if (!this.root.classList.contains(isDown ? "down" : "across")) this.root.className = isDown ? "down" : "across";
        const breadth = this.trees[0].querySelector(".plane").clientWidth;
        const room = isDown ? Math.max(400, Math.min(640, window.innerHeight - 420)) : breadth;
        const layout = layoutOf(frame, room, isDown);
        const levels = levelsOf(layout.rows.length, isDown, isDown ? breadth : window.innerHeight);
        const size = layout.sides.reduce((sum, { boxes, chips }) => sum + boxes.length + chips.filter((chip) => chip.isRead).length, 0);
        this.root.classList.toggle("moves", isStep && size < MOST_MOVING);
        layout.sides.forEach((side, at) => this.#side(frame, at, side, { levels, isDown, room }));
    }

    #side(frame, at, { boxes, chips }, { levels, isDown, room }) {
        const plane = this.#planes[at];
        plane.root.style.height = `${isDown ? room : levels.whole}px`;
        for (const box of boxes) this.#box(plane, box, at, chips, { levels, isDown });
        const shown = chips.filter((chip) => chip.isRead);
        if (!shown.some((chip) => chip.key === this.#chosen[at])) this.#chosen[at] = shown[0]?.key;
        for (const chip of chips) {
            if (chip.isRead) this.#chip(plane, chip, at, frame.values[at].get(chip.key), { levels, isDown });
            else if (isMarked(chip)) this.#tick(plane, chip, { levels, isDown });
        }
        plane.sweep();
        const name = treeTold(frame.names[at], frame.values[at].size, pagesOf(frame.trees[at]).length, frame.trees[at].digest);
        this.trees[at].querySelector("h2").textContent = name;
    }

    #box(plane, box, at, chips, { levels, isDown }) {
        const [direction, length] = [isDown ? "down" : "across", box.to - box.from];
        const inset = length > 6 ? 1.5 : length > 2 ? 0.5 : 0;
        const row = levels.rows[box.row];
        const depth = box.isFolded ? levels.whole - row.at : row.size;
        if (box.above) this.#stem(plane, box, { levels, isDown });
        const element = plane.at(box.id, "div", (made) => made.append(document.createElement("span")));
        set(element, { className: `page ${box.state}${box.isFresh ? " fresh" : ""}${box.isFolded ? " folded" : ""}`, title: pageTold(box) });
        const sign = length < SIGN[direction] ? "" : pageSigns(box);
        const digest = length < DIGEST[direction] ? "" : ` ${shortDigest(box.page.digest)}`;
        const folded = length < NUMBER[direction] ? sign : `${sign} ${number(box.count)}`;
        set(element.firstChild, { textContent: box.isFolded && sign ? folded : `${sign}${digest}` });
        element.onclick = (event) => this.#nearest(event, box, at, chips, isDown);
        place(element, isDown, box.from + inset, length - 2 * inset, row.at, depth);
    }

    // The line between a page and the one above it.
    #stem(plane, box, { levels, isDown }) {
        const middle = (box.from + box.to) / 2;
        const above = levels.rows[box.above.row];
        const element = plane.at(`stem ${box.id}`, "div");
        set(element, { className: "stem" });
        place(element, isDown, middle, 1, above.at + above.size, levels.rows[box.row].at - above.at - above.size);
    }

    #chip(plane, chip, at, value, { levels, isDown }) {
        const element = plane.at(`chip ${chip.key}`, "button", (made) => {
            Object.assign(made, { type: "button", className: "chip", onclick: () => this.choose(at, chip.key) });
            made.dataset.key = chip.key;
        }, () => plane.chipBehind(chip.key));
        const told = chipTold(chip, value);
        set(element, { className: `chip ${chip.mark} ${chip.difference}`, textContent: `${chipSign(chip)}${chip.key}` });
        set(element, { ariaLabel: told, title: told, tabIndex: chip.key === this.#chosen[at] ? 0 : -1 });
        const row = levels.rows[chip.row];
        const edge = isDown ? 1 : 3;
        place(element, isDown, chip.from + edge, chip.to - chip.from - 2 * edge, row.at + levels.strip, row.size - levels.strip - 3);
    }

    #tick(plane, chip, { levels, isDown }) {
        const element = plane.at(`tick ${chip.key}`, "div");
        set(element, { className: `tick ${chip.mark} ${chip.difference}` });
        const row = levels.rows[chip.row];
        place(element, isDown, chip.middle - 1, 2, row.at + levels.strip, row.size - levels.strip - 2);
    }

    // Chooses the key of a page that is nearest to a click.
    #nearest(event, { page }, at, chips, isDown) {
        const box = this.#planes[at].root.getBoundingClientRect();
        const along = isDown ? event.clientY - box.top : event.clientX - box.left;
        const own = chips.filter(({ key }) => page.keys.includes(key));
        const nearest = own.sort((one, other) => Math.abs(one.middle - along) - Math.abs(other.middle - along))[0];
        if (nearest) this.choose(at, nearest.key);
    }

    // Goes from chip to chip of a tree by the arrow keys: one of them is a stop of the tabulator.
    #walk(event, side) {
        const chips = [...this.trees[side].querySelectorAll(".chip")];
        const at = chips.indexOf(document.activeElement);
        const to = event.key === "Home" ? 0 : event.key === "End" ? chips.length - 1 : at + NEXT[event.key];
        if (at < 0 || !chips[to]) return;
        event.preventDefault();
        chips[at].tabIndex = -1;
        chips[to].tabIndex = 0;
        this.#chosen[side] = chips[to].dataset.key;
        chips[to].focus();
    }

    // Puts the focus on the chip of a key, where it has one.
    focus(side, key) {
        [...this.trees[side].querySelectorAll(".chip")].find((it) => it.dataset.key === key)?.focus();
    }
}
