// What stands around the trees: the message that is under way, what was sent, and what it costs.

import { count, number } from "./sentences.mjs";
import { costTold, hexTold } from "./told.mjs";

const LANE_BYTES = 22;

export function made(name, properties, ...children) {
    const element = Object.assign(document.createElement(name), properties);
    element.append(...children);
    return element;
}

// The message of a frame, between the trees, with its direction.
export function showPacket(lane, { packet, names }) {
    lane.className = packet ? `from${packet.from}` : "";
    if (!packet) return lane.replaceChildren();
    const { from, name, bytes } = packet;
    const arrow = made("span", { className: "arrow", ariaHidden: "true" });
    const who = made("strong", { textContent: names[from] });
    const size = made("span", { className: "size", textContent: count(bytes.length, "byte") });
    return lane.replaceChildren(made("div", { className: "packet" }, arrow, who, ` ${name} `, size,
        made("code", { textContent: hexTold(bytes, LANE_BYTES), ariaHidden: "true" })));
}

// The bar of bytes: what was sent so far, in the breadth of all rows.
export function showCost({ fill, text }, frame, all, name) {
    fill.style.width = `${all === 0 ? 0 : Math.min(100, (100 * frame.sent) / all)}%`;
    fill.className = all > 0 && frame.sent > all ? "over" : "";
    text.textContent = costTold(frame, all, name);
}

// The messages up to a frame; each leads to its frame.
export function showPackets(list, frames, step, go) {
    const items = frames.slice(0, step + 1).flatMap(({ packet, names }, at) => {
        if (!packet) return [];
        const { from, name, bytes } = packet;
        const button = made("button", { type: "button", textContent: `${names[from]} ${name}` });
        button.onclick = () => go(at);
        return [made("li", {}, button, ` ${count(bytes.length, "byte")} `, made("code", { textContent: hexTold(bytes) }))];
    });
    list.replaceChildren(...(items.length ? items : [made("li", { className: "none", textContent: "Nothing yet: play the sync." })]));
    if (items.length) list.scrollTop = list.scrollHeight;
}

// What each way costs, as a table.
export function showCosts(table, { messages, ranges, all }, { way }) {
    const row = (what, bytes, isShown) => made("tr", { className: isShown ? "shown" : "" },
        made("th", { scope: "row", textContent: what }),
        made("td", { textContent: number(bytes) }),
        made("td", { textContent: all === 0 ? "" : `${number(Math.round((100 * bytes) / all))} %` }));
    table.replaceChildren(
        row("by messages, page by page", messages, way === "messages"),
        row("by page ranges, all at once", ranges, way === "ranges"),
        row("all rows, one way", all, false));
}

// The bytes of a key's digest, of which the first tell its level.
export function showDigest(element, { digest, zeros, level }) {
    const bytes = digest.match(/../g);
    const className = (at) => (at < zeros ? "zero" : at === zeros ? "next" : "");
    element.replaceChildren("digest ", ...bytes.slice(0, 8).map((byte, at) => made("code", { className: className(at), textContent: byte })),
        " … ", made("strong", { textContent: `level ${level}` }));
}
