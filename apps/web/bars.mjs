// What an end is after an event, from its state line and its numbers (MODULE.md): the words of the report's last lines, bars, the
// sequence spaces of RFC 9293, 3.3.1, and the timers that run.
import { runs_of } from "./run.mjs";
import { escaped } from "./draw.mjs";

const LEAST_SPAN = 16;

function span_of(places) {
    let span = LEAST_SPAN;
    while (span < places) {
        span *= 2;
    }
    return span;
}

// One piece of a bar that has `span` places; a piece of few places can be seen too.
function piece(kind, from, to, span) {
    const left = 100 * from / span, width = 100 * (Math.min(to, span) - from) / span;
    return from >= span || to <= from ? ""
        : `<span class="${kind}" style="left:${left.toFixed(3)}%;width:max(3px,${width.toFixed(3)}%)"></span>`;
}

function bar(name, told, pieces, span, is_cut) {
    const [classes, end] = is_cut ? ["bar is-cut", `${span} …`] : ["bar", span];
    return `<figcaption>${name}: <b>${told}</b></figcaption>` +
        `<div class="${classes}" aria-hidden="true">${pieces.join("")}</div>` +
        `<div class="scale" aria-hidden="true"><span>0</span><span>${end}</span></div>`;
}

// A sequence space as the RFC draws it, not to scale: what lies between the edges, and each edge's name and number.
function space(name, zones, edges) {
    const told = edges.map(([edge, number]) => `${edge} ${number}`).join(", ");
    return `<div class="space" role="img" aria-label="${name}: ${told}">` +
        zones.map((words, at) => `<span class="zone" style="--at:${at + 1}">${words}</span>`).join("") +
        edges.map(([edge, number], at) => `<span class="edge" data-edge="${edge}" style="--at:${at + 1}">` +
            `<b>${number}</b>${edge.replace(" + ", "<br>+ ")}</span>`).join("") + "</div>";
}

// What lies between the runs, up to an end.
function between(runs, end) {
    const gaps = [];
    let at = 0;
    for (const [from, to] of [...runs].sort((one, two) => one[0] - two[0])) {
        gaps.push([at, from]);
        at = to;
    }
    gaps.push([at, end]);
    return gaps.filter(([from, to]) => to > from);
}

function runs_told(runs) {
    return runs.map(([from, to]) => `${from}–${to}`).join(", ");
}

function send_bar(state) {
    const queued = Number(state.queued), flight = Number(state.flight), peer = Number(state.peer);
    const marked = between(runs_of(state.unmarked), queued), span = span_of(queued);
    const told = queued === 0 ? "empty"
        : `${queued} queued, ${flight} in flight` + (marked.length ? `, marked ${runs_told(marked)}` : "");
    const pieces = [piece("flight", 0, flight, span), piece("waiting", flight, queued, span),
        ...marked.map(([from, to]) => piece("marked", from, to, span)), piece("limit", peer, peer + span / 200, span)];
    return bar("Send queue", told, pieces, span, false);
}

function send_space({ una, nxt, edge }) {
    return space("Send space", ["acknowledged", "in flight", "may be sent", "not yet"],
        [["SND.UNA", una], ["SND.NXT", nxt], ["SND.UNA + SND.WND", edge]]);
}

function receive_bar(state) {
    const unread = Number(state.unread), room = Number(state.window), held = runs_of(state.held);
    const last = Math.max(0, ...held.map(run => run[1])), whole = unread + room;
    const span = Math.min(whole, span_of(2 * (unread + last))) || 1;
    const told = `${unread} unread, window ${room}` + (held.length ? `, held ${runs_told(held)}` : "");
    const pieces = [piece("unread", 0, unread, span), piece("window", unread, whole, span),
        ...held.map(([from, to]) => piece("held", unread + from, unread + to, span))];
    return bar("Receive buffer", told, pieces, span, span < whole);
}

function receive_space({ next, limit }) {
    return space("Receive space", ["received", "window", "not yet"], [["RCV.NXT", next], ["RCV.NXT + RCV.WND", limit]]);
}

// The timers by the module's words, and their names.
const TIMERS = [["retransmit", "retransmission"], ["reorder", "reordering"], ["timewait", "TIME-WAIT"]];
const UNKNOWN = "…";

function timers(side, numbers) {
    const parts = TIMERS.map(([name, words]) => {
        const runs = numbers[name] === "yes", now = numbers[name] === "no" ? "off" : runs ? "runs" : UNKNOWN;
        return `<li class="timer${runs ? " runs" : ""}" data-timer="${name}">${words} <b>${now}</b></li>`;
    });
    return `<ul class="timers" aria-label="Timers of ${side}">${parts.join("")}</ul>`;
}

// The counts of a side, and what they mean.
const COUNTS = [
    ["accepted", "bytes that the user sent and the end took"],
    ["released", "of these, acknowledged by the peer, and gone from the send queue"],
    ["ordered", "bytes that came in order from the peer"],
    ["delivered", "of these, delivered to the user"],
    ["sent", "segments that the side emitted"],
    ["ended", "whether the user received the end of the peer's stream"],
];

const NO_NUMBERS = { una: UNKNOWN, nxt: UNKNOWN, edge: UNKNOWN, next: UNKNOWN, limit: UNKNOWN };

// An end; `numbers` is null until the module has been asked for them.
export function end_drawn(state, numbers) {
    const known = numbers ?? NO_NUMBERS;
    const counts = COUNTS.map(
        ([name, meaning]) => `<div title="${meaning}"><dt>${name}</dt><dd>${escaped(state[name])}</dd></div>`);
    return `<h3>${state.side} <span class="phase">${escaped(state.phase)}</span> ` +
        `<small>${escaped(state.ending)}</small></h3>${timers(state.side, known)}` +
        `<figure>${send_bar(state)}${send_space(known)}</figure><figure>${receive_bar(state)}${receive_space(known)}</figure>` +
        `<p class="peer">The peer's window: <b>${escaped(state.peer)}</b></p><dl>${counts.join("")}</dl>`;
}

// What the counts of an end mean, as a list.
export function counts_told() {
    return COUNTS.map(([name, meaning]) => `<dt>${name}</dt><dd>${meaning}</dd>`).join("");
}
