// Plays the frames of a scene, and goes through them by buttons and a slider.

// Milliseconds that a frame of each scene is shown.
const PACE = { sync: 1700, order: 350, key: 1000, edit: 900 };

export class Player {
    #timer = null;

    // `go` is called with the step to show.
    constructor(parts, go) {
        this.parts = parts;
        this.go = go;
        [this.step, this.steps, this.scene] = [0, 1, "sync"];
        parts.back.onclick = () => this.to(this.step - 1);
        parts.next.onclick = () => this.to(this.step + 1);
        parts.scrubber.oninput = () => this.to(Number(parts.scrubber.value));
        parts.play.onclick = () => (this.#timer ? this.stop() : this.play());
    }

    // Shows that this step of so many is shown.
    show(step, steps, scene, said) {
        [this.step, this.steps, this.scene] = [step, steps, scene];
        const { back, next, play, scrubber, place } = this.parts;
        scrubber.max = steps - 1;
        scrubber.value = step;
        scrubber.disabled = steps === 1;
        scrubber.ariaValueText = `${step} of ${steps - 1}: ${said}`;
        place.textContent = `${step}/${steps - 1}`;
        back.ariaDisabled = step === 0;
        next.ariaDisabled = step === steps - 1;
        play.disabled = steps === 1;
        play.textContent = this.#timer ? "⏸ Pause" : "▶ Play";
    }

    to(step) {
        this.stop();
        this.#goTo(step);
    }

    #goTo(step) {
        if (step >= 0 && step < this.steps) this.go(step);
    }

    // Plays from here, or from the beginning where this is the end.
    play() {
        if (this.steps === 1) return;
        this.stop();
        this.#timer = setInterval(() => this.#tick(), PACE[this.scene]);
        this.#goTo(this.step === this.steps - 1 ? 0 : this.step + 1);
    }

    #tick() {
        if (this.step + 1 >= this.steps - 1) this.stop();
        this.#goTo(this.step + 1);
    }

    stop() {
        clearInterval(this.#timer);
        this.#timer = null;
        this.parts.play.textContent = "▶ Play";
    }
}
