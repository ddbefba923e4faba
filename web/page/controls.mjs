// The forms of the page: what both stores are made of, how they sync, and the row that is edited.

import { made } from "./panels.mjs";
import { MOST_ROWS, textOf } from "./rows.mjs";
import { number } from "./sentences.mjs";
import { BASES } from "./state.mjs";

// Sliders go up by squares, so that few rows are as easily chosen as many.
const ENDS = 100;
const placeOf = (value, most) => Math.round(ENDS * Math.sqrt(most === 0 ? 0 : value / most));
const valueAt = (place, most) => Math.round(most * (place / ENDS) ** 2);

// The sliders of keys, of which so many differ.
export class Sliders {
    constructor(form, { change, fold, again }) {
        this.form = form;
        const { count: rows, differing, base, folds } = form.elements;
        base.append(...BASES.map((it) => made("option", { value: it, textContent: it })));
        rows.oninput = () => change({ rows: valueAt(Number(rows.value), MOST_ROWS) });
        differing.oninput = () => change({ differ: valueAt(Number(differing.value), this.rows) });
        base.onchange = () => change({ base: Number(base.value) });
        folds.onchange = () => fold(folds.checked);
        form.onsubmit = (event) => {
            event.preventDefault();
            again();
        };
    }

    show({ rows, differ, base, folds }, stores) {
        const { elements } = this.form;
        this.rows = rows;
        this.#slide(elements.count, rows, MOST_ROWS);
        this.#slide(elements.differing, differ, rows);
        elements.base.value = base;
        elements.folds.checked = folds;
        const [first, second] = stores.map((store) => number(store.size));
        this.form.querySelector("#count_shown").textContent = `${number(rows)} (rows in A ${first}, in B ${second})`;
        this.form.querySelector("#differing_shown").textContent = number(differ);
    }

    // A slider stays where it is while its place stands for the value.
    #slide(slider, value, most) {
        if (valueAt(Number(slider.value), most) !== value) slider.value = placeOf(value, most);
        slider.ariaValueText = number(value);
    }
}

// The form of a row: it puts and removes rows of one store.
export class Editor {
    constructor(form, { valueAt: find, edit }) {
        this.form = form;
        const { key } = form.elements;
        const send = (isKept) => edit(this.at, key.value, isKept ? form.elements.text.value : null);
        form.onsubmit = (event) => {
            event.preventDefault();
            send(true);
        };
        form.querySelector("#remove").onclick = () => send(false);
        key.onchange = () => {
            const value = find(this.at, key.value);
            if (value !== undefined) form.elements.text.value = textOf(value);
        };
    }

    get at() {
        return Number(this.form.elements.at.value);
    }

    // Takes a row up, to be edited.
    take(at, key, value) {
        const { elements } = this.form;
        elements.at.value = at;
        elements.key.value = key;
        elements.text.value = value === undefined ? "" : textOf(value);
        this.say("");
        elements.text.focus();
        elements.text.select();
    }

    // Says what is wrong with a row.
    say(fault) {
        this.form.querySelector("#fault").textContent = fault ?? "";
    }
}

