// What a catch-up's messages tell of the pages of both trees, message by message.

import { isInGap, WHOLE } from "./keys.mjs";
import { pageOver, pagesOf } from "./pages.mjs";
import { count, listed, number } from "./sentences.mjs";
import { gapsBelow, questionOf, replyOf } from "./wire.mjs";

export class Descent {
    #recording;
    #question = null;

    // The catch-up of one of a recording's two stores with the other.
    constructor(recording, asking) {
        this.#recording = recording;
        this.asking = asking;
        this.answering = 1 - asking;
        [this.own, this.peer] = [recording.stores[asking], recording.stores[1 - asking]];
        // The keys of rows that were told and that the asking side lacks, or has with another value.
        this.lacked = new Set();
        recording.forget();
        recording.folds = true;
    }

    question(bytes) {
        this.#question = questionOf(bytes);
        const [name, said] = this.#asks(this.#question);
        this.#recording.send(this.asking, name, bytes, said);
    }

    reply(bytes) {
        const reply = replyOf(bytes, this.#question);
        const said = this.#told(this.#question, reply);
        this.#recording.send(this.answering, REPLY_NAMES[this.#question.kind], bytes, said);
    }

    // Shows what is asked for: what it is called, and what is said.
    #asks({ kind, settings, gaps = [WHOLE], keys }) {
        const [own, peer] = [this.own.name, this.peer.name];
        for (const gap of gaps) if (!keys) this.#set(this.answering, gap, "asked");
        for (const key of keys ?? []) this.#mark(key, "asked");
        if (kind === 1) {
            const sample = settings.sample ? `, and the digest of ${settings.sample.key}, by which ${peer} sees that both hash alike` : "";
            return ["asks for the root", `${own} asks ${peer} for its root hash. It tells its settings${sample}.`];
        }
        const pages = count(gaps.length, "page");
        const where = gaps.length === 1 ? ` over ${gapSpelt(gaps[0])}` : "";
        const [outlines, values, all] = [count(gaps.length, "outline"), count(keys?.length ?? 0, "value"), count(gaps.length, "gap")];
        if (kind === 2) return [`asks for ${outlines}`, `${own} asks for ${pages}${where}: which keys, and which digests below?`];
        if (kind === 3) return [`asks for the rows of ${pages}`, `${own} asks for the rows that stand on ${pages} above the lowest level.`];
        if (kind === 4) return [`asks for ${values}`, `${own} asks for the values of the rows that it lacks: ${listed(keys)}.`];
        return [`asks for all rows in ${all}`, `So much is lacking that ${own} asks for all rows${where}.`];
    }

    #told(question, reply) {
        if (question.kind === 1) return this.#root(reply);
        if (question.kind === 4) return this.#values(question.keys, reply.values);
        if (question.kind === 5) return this.#rows(reply.parts.flatMap((part) => part.rows), question.gaps);
        return this.#outlines(question.gaps, reply.outlines);
    }

    #root({ size, root }) {
        const isSame = root === this.#recording.trees[this.asking].digest;
        this.#set(this.answering, WHOLE, isSame ? "same" : "other");
        this.#set(this.asking, WHOLE, isSame ? "same" : "other");
        if (isSame) return `${this.peer.name} has the same root hash, so both hold the same rows: nothing else has to be sent.`;
        if (root === null) return `${this.peer.name} has no rows.`;
        return `${this.peer.name} has ${count(size, "row")} and another root hash, so something below it differs.`;
    }

    // Outlines, each of the page over a gap.
    #outlines(gaps, outlines) {
        const seen = { pages: 0, equal: 0, rows: 0, lacked: [] };
        for (const [at, outline] of outlines.entries()) {
            this.#set(this.answering, gaps[at], "other");
            this.#set(this.asking, gaps[at], "other");
            if (outline.below) this.#below(outline, gaps[at], seen);
            else this.#nodes(outline, seen);
        }
        return this.#seen(seen);
    }

    // The pages below a page, each by its digest.
    #below(outline, gap, seen) {
        for (const { digest, gap: lower } of gapsBelow(outline, gap)) {
            const own = pageOver(this.#recording.trees[this.asking], lower);
            if (digest === null && own === null) continue;
            const isSame = own?.digest === digest;
            this.#set(this.answering, lower, isSame ? "same" : "other");
            this.#set(this.asking, lower, isSame ? "same" : "other");
            if (digest !== null) seen.pages += 1;
            if (isSame) seen.equal += 1;
        }
    }

    // The rows on a page, as they are or by the digests of their values.
    #nodes({ rows, nodes }, seen) {
        for (const { key, value, digest } of rows ?? nodes) {
            const isSame = this.own.value(key) !== undefined && (rows ? this.own.value(key) === value : this.own.digestAt(key) === digest);
            seen.rows += 1;
            if (!isSame) {
                seen.lacked.push(key);
                this.lacked.add(key);
            }
            this.#mark(key, isSame ? "same" : rows ? "came" : "lacked");
        }
    }

    #seen({ pages, equal, rows, lacked }) {
        const { own } = this;
        const folded = equal === 0 ? "" : ` All below ${equal === 1 ? "it" : "them"} is equal and never sent: folded.`;
        const below = `Of ${count(pages, "page")} below, ${own.name} has ${equal === 0 ? "none" : number(equal)} with the same digest.${folded}`;
        const told = lacked.length === 0 ? `${count(rows, "row")} came by key and digest, and ${own.name} has each of them.`
            : `Of ${count(rows, "row")} told, ${own.name} lacks ${listed(lacked)}.`;
        return [pages > 0 && below, rows > 0 && told].filter(Boolean).join(" ") || `${this.peer.name} has no row there.`;
    }

    #values(keys, values) {
        const came = keys.filter((_, at) => values[at] !== undefined && values[at] !== null);
        for (const key of came) this.#mark(key, "came");
        return `${count(came.length, "value")} ${came.length === 1 ? "comes" : "come"}: ${listed(came)}.`;
    }

    #rows(rows, gaps) {
        const seen = { pages: 0, equal: 0, rows: 0, lacked: [] };
        this.#nodes({ rows }, seen);
        for (const gap of gaps) {
            for (const page of pagesOf(this.#recording.trees[this.answering])) {
                if (page.keys.some((key) => isInGap(key, gap))) this.#recording.states[this.answering].set(page, "other");
            }
        }
        const come = rows.length === 1 ? "comes" : "come";
        return `${count(rows.length, "row")} ${come}, of which ${this.own.name} lacked ${number(seen.lacked.length)}.`;
    }

    // Says of a side's page over a gap what is known of it.
    #set(side, gap, state) {
        const page = pageOver(this.#recording.trees[side], gap);
        if (page) this.#recording.states[side].set(page, state);
    }

    #mark(key, mark) {
        for (const marks of this.#recording.marks) marks.set(key, mark);
    }
}

const REPLY_NAMES = { 1: "tells its root", 2: "tells outlines", 3: "tells rows of pages", 4: "sends values", 5: "sends rows" };

function gapSpelt({ above, below }) {
    if (above === null && below === null) return "all keys";
    if (above === null) return `the keys in front of ${below}`;
    return below === null ? `the keys behind ${above}` : `the keys between ${above} and ${below}`;
}
