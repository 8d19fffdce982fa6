// Draws a run (run.mjs) as a ladder: two lifelines, and from the top down a row for each event.
import { SIDES, event_at, event_line, fields_of, is_resent, other, phase_of, state_of } from "./run.mjs";
import { MALFORMED, printable, segments_told } from "./told.mjs";

const LIGHT = { ground: "#ffffff", ink: "#1c2024", line: "#7d8792", accent: "#0a5bb5", band: "#e4effb" };
const DARK = { ground: "#14171a", ink: "#e8eaed", line: "#6f7a85", accent: "#7db8f7", band: "#1b3047" };

function rules(colours) {
    const { ground, ink, line, accent, band } = colours;
    return `.ground{fill:${ground}}.ladder text{fill:${ink};stroke:${ground}}` +
        `.life{stroke:${line}}.shaft,.head,.cross,.mark,.resend{stroke:${ink}}.full{fill:${ink}}.open{fill:${ground}}` +
        `.shaft,.cross,.jag,.resend{fill:none}.band{fill:${band}}.ladder .phase{fill:${accent}}.edge{fill:${accent}}` +
        `.chosen .shaft,.chosen .head,.chosen .cross{stroke:${accent}}.chosen .full{fill:${accent}}` +
        `.ladder .label.chosen text{fill:${accent}}.ladder .now text{stroke:${band}}`;
}

export const STYLE = ".ladder text{font-family:ui-monospace,'DejaVu Sans Mono',Menlo,Consolas,monospace;" +
    "stroke-width:4;paint-order:stroke;stroke-linejoin:round}.ladder .strong{font-weight:bold}" +
    ".life{stroke-width:1.5}.shaft{stroke-width:1.5}.head,.cross,.mark,.resend{stroke-width:1.5}.cross{stroke-width:2.5}" +
    ".again .shaft{stroke-dasharray:12 4}.dropped .shaft{stroke-dasharray:2 4}.damaged .shaft{stroke-dasharray:7 5}" +
    ".hit{fill:none;stroke:transparent;stroke-width:14}.chosen .shaft{stroke-width:2.5}" +
    rules(LIGHT) + `@media(prefers-color-scheme:dark){${rules(DARK)}}`;

const NARROW = 620;
// An arrow over so many rows has its segment's number at its head, too.
const FAR = 2;

// Where things are in a ladder of a width, in pixels. Where it is narrow, what a user or a timer does is written
// between the lifelines; else in the margins.
export function form_of(run, width) {
    const is_narrow = width < NARROW, size = is_narrow ? 11 : 12;
    const edge = is_narrow ? 12 : Math.min(170, Math.round(width * 0.19));
    const form = { width, is_narrow, size, letter: size * 0.603, left: edge, right: width - edge };
    form.letters = Math.floor((form.right - form.left - 20) / form.letter);
    const is_tall = is_narrow || longest_line(run) > form.letters;
    form.row = is_tall ? 46 : 34;
    form.point = is_tall ? 29 : 20;
    return form;
}

export function height_of(run, form) {
    return form.row * (run.count + 1);
}

function y_of(form, row) {
    return form.row * (row - 1) + form.point;
}

function x_of(form, side) {
    return side === "A" ? form.left : form.right;
}

export function escaped(text) {
    return String(text).replace(/[&<>"]/g, sign => `&#${sign.charCodeAt(0)};`);
}

function cut(text, letters) {
    return text.length > letters ? text.slice(0, Math.max(1, letters - 1)) + "…" : text;
}

// Words in two lines where one is too short.
function folded(text, letters) {
    const space = text.lastIndexOf(" ", letters);
    return text.length <= letters || space < 0 ? [cut(text, letters), ""]
        : [text.slice(0, space), cut(text.slice(space + 1), letters)];
}

function marked_up(x, y, side, parts) {
    return `<text x="${x}" y="${y}" text-anchor="${side === "A" ? "start" : "end"}">${parts}</text>`;
}

function text_at(x, y, side, words) {
    return marked_up(x, y, side, escaped(words));
}

// A segment's flags and numbers, as its line in the report has them.
function lines_of(event) {
    const fields = fields_of(event);
    if (fields === null) {
        return [segments_told(event.segment), "", ""];
    }
    const { flags, seq, ack, window, text, sack } = fields;
    const blocks = sack === "-" ? "" : `sack ${sack}`;
    return [`${event.segment.number} ${flags}`, `seq ${seq} ack ${ack} win ${window} len ${text}`, blocks];
}

// The letters of a label in one line: those of the report's line from the number on, without `flags ` and ` sack -`,
// and with `win` and `len` for `window` and `text`. Groups, whose labels are short, count as nothing.
function letters_of(run, segment) {
    const line = event_line(run, segment.row), start = line.indexOf(" emit ") + " emit A ".length;
    const left_out = "flags ".length + "dow".length + "t".length + (line.endsWith(" sack -") ? " sack -".length : 0);
    return segment.count > 1 ? 0 : line.length - start - left_out;
}

function longest_line(run) {
    run.longest ??= SIDES.reduce((most, side) => run.segments[side].reduce(
        (longest, segment) => Math.max(longest, letters_of(run, segment)), most), 0);
    return run.longest;
}

// The label over the place where a segment is emitted: one line where that is wide enough, else two. It leaves room for the mark of
// a resend.
function label(form, event, chosen, is_now, is_again) {
    const { segment, side } = event, away = is_again ? 15 : 10;
    const y = y_of(form, segment.row) - 6, x = x_of(form, side) + (side === "A" ? away : -away);
    const lines = lines_of(event), [name, numbers, blocks] = lines;
    const whole = lines.filter(line => line !== "").join(" ");
    const two = form.is_narrow && numbers ? [blocks, numbers] : [numbers, blocks];
    const [rest, below] = whole.length <= form.letters ? [whole.slice(name.length).trim(), ""] : two;
    const up = below === "" ? y : y - 13;
    const texts = [marked_up(
        x, up, side, `<tspan class="strong">${name}</tspan> ${escaped(cut(rest, form.letters - name.length - 1))}`)];
    if (below !== "") {
        texts.push(text_at(x, y, side, cut(below, form.letters)));
    }
    const classes = `label${segment === chosen ? " chosen" : ""}${is_now ? " now" : ""}`;
    const count = blocks ? blocks.split("+").length : 0;
    return `<g class="${classes}" data-side="${side}" data-number="${segment.number}" data-blocks="${count}">` +
        `${texts.join("")}</g>`;
}

// Where text, SYN or FIN goes out again: most of a circle around the place at the lifeline.
function resend_drawn(x, y) {
    return `<path class="resend" d="M${x + 4} ${y - 4}a5.6 5.6 0 1 0 1.6 4M${x + 5} ${y - 8}v4.5h-4.5"/>`;
}

function ends_of(form, arrow) {
    const { side } = arrow.segment, from = x_of(form, side), to = x_of(form, other(side));
    const y = y_of(form, arrow.from);
    if (arrow.kind === "lost") {
        // Half the way, and so little down that its word is above the next row's label.
        return [from, y, from + (to - from) * 0.6, y + form.row * 0.32];
    }
    return [from, y, to, y_of(form, arrow.to)];
}

export function head_at(x, y, dx, dy, is_full) {
    const length = Math.hypot(dx, dy), ux = dx / length, uy = dy / length;
    const back = [x - 10 * ux, y - 10 * uy];
    const point = sign => `${(back[0] + sign * 4.5 * uy).toFixed(1)} ${(back[1] - sign * 4.5 * ux).toFixed(1)}`;
    const line = `M${point(1)}L${x} ${y}L${point(-1)}`;
    return is_full ? `<path class="head full" d="${line}Z"/>` : `<path class="head open" d="${line}"/>`;
}

function arrow_drawn(form, arrow, chosen) {
    const { segment, kind } = arrow, [x1, y1, x2, y2] = ends_of(form, arrow);
    const dx = x2 - x1, dy = y2 - y1, to_head = 1 - 12 / Math.hypot(dx, dy);
    const line = `M${x1} ${y1}L${x2.toFixed(1)} ${y2.toFixed(1)}`;
    const parts = [`<path class="hit" d="${line}"/>`, `<path class="shaft" d="${line}"/>`];
    if (kind === "turns" || arrow.count > 1) {
        const [x, y] = [x1 + dx * to_head, y1 + dy * to_head + 4];
        parts.push(`<path class="shaft" d="M${x1} ${y1 + 4}L${x.toFixed(1)} ${y.toFixed(1)}"/>`);
    }
    if (kind === "damaged") {
        const [mx, my] = [x1 + dx * 0.5, y1 + dy * 0.5];
        parts.push(`<path class="jag cross" d="M${mx - 9} ${(my - 5).toFixed(1)}l6 9l5 -11l6 10"/>`,
            text_at(mx + 14, (my + 4).toFixed(1), "A", "damaged"));
    }
    if (kind === "lost") {
        const at = `${x2.toFixed(1)} ${y2.toFixed(1)}`;
        parts.push(`<path class="cross" d="M${at}m-6 -6l12 12m0 -12l-12 12"/>`);
        const words = arrow.count === segment.count ? "lost" : `${arrow.count} lost`;
        parts.push(text_at(x2 + (segment.side === "A" ? 12 : -12), y2 + 4, segment.side, words));
    } else {
        parts.push(head_at(x2, y2, dx, dy, kind !== "dropped" && kind !== "damaged"));
        if (arrow.to - arrow.from >= FAR) {
            parts.push(text_at(x2 + (segment.side === "A" ? -16 : 16), y2 - 3, other(segment.side), arrow.first));
        }
    }
    const classes = `arrow ${kind}${arrow.is_again ? " repeated" : ""}${segment === chosen ? " chosen" : ""}`;
    return `<g class="${classes}" data-side="${segment.side}" data-number="${arrow.first}" data-to="${arrow.to}">` +
        `<title>${segment.side}'s ${segments_told(arrow, arrow.first)}, ${kind}</title>${parts.join("")}</g>`;
}

// Arrows that go through the drawn rows and have neither end there: one path for each kind.
function passing_drawn(form, arrows) {
    const paths = new Map();
    for (const arrow of arrows) {
        const [x1, y1, x2, y2] = ends_of(form, arrow);
        paths.set(arrow.kind, (paths.get(arrow.kind) ?? "") + `M${x1} ${y1}L${x2} ${y2}`);
    }
    return [...paths].map(([kind, path]) => `<g class="passing ${kind}"><path class="shaft" d="${path}"/></g>`)
        .join("");
}

// What is written where an event happens, beside its segment: whose lifeline, which words, which mark.
function note_of(event) {
    const { kind, side, outcome, words } = event, peer = other(side);
    const turns = event.is_repeat ? `${event.turns}× ` : "";
    const came = event.is_repeat && event.refused ? `, ${event.refused} refused` : "";
    if (event.refused && !event.is_repeat) {
        return { side: kind === "deliver" || kind === "damage" ? peer : side,
            words: `${kind}: refused ${event.refused}`, mark: "refused" };
    }
    switch (kind) {
    case "emit":
        return event.segment ? null : { side, words: `${turns}nothing due`, mark: "none" };
    case "deliver":
    case "damage":
        return { side: peer, words: arrival_told(event), mark: null };
    case "timer":
        return { side, words: `${turns}timer ${words[0]}${outcome[0] === "no" ? ": no" : ""}${came}`, mark: "timer" };
    case "send":
        return { side, words: `${turns}send: ${outcome[1]} byte${outcome[1] === "1" ? "" : "s"}${came}`, mark: "call" };
    case "receive":
        return { side, words: turns + received(outcome) + came, mark: "call" };
    default:
        return { side, words: turns + kind + came, mark: "call" };
    }
}

function received(outcome) {
    if (outcome[0] !== "bytes") {
        return outcome[0] === "done" ? "receive" : `receive: ${outcome[0]}`;
    }
    const count = outcome[1].length / 2, letters = count <= 8 ? printable(outcome[1]) : null;
    return letters !== null ? `receive: “${letters}”` : count <= 4 ? `receive: ${outcome[1]}` : `receive: ${count} bytes`;
}

function arrival_told(event) {
    if (event.is_repeat) {
        return `${event.outcome[1]} of ${event.turns} arrive`;
    }
    const [word, number] = event.outcome;
    const came = word === "processed" ? ""
        : word === "malformed" ? `malformed ${number} ${MALFORMED[number] ?? ""}` : word.replace("-", " ");
    return [event.arrow?.is_again ? "again" : "", came].filter(part => part !== "").join(", ");
}

const MARKS = {
    call: (x, y) => `<path class="mark full" d="M${x - 4} ${y - 4}h8v8h-8z"/>`,
    timer: (x, y) => `<path class="mark open" d="M${x} ${y - 6}a6 6 0 1 1 -.01 0zM${x} ${y - 4}v4h3"/>`,
    none: (x, y) => `<path class="mark open" d="M${x - 5} ${y}h10"/>`,
    refused: (x, y) => `<path class="mark open" d="M${x} ${y - 6}l6 6l-6 6l-6 -6z"/>`,
};

function notes_drawn(run, form, event, is_now) {
    const y = y_of(form, event.row), parts = [], note = note_of(event);
    for (const side of SIDES) {
        const x = x_of(form, side), phase = phase_of(run, event.row, side);
        const is_new = phase !== phase_of(run, event.row - 1, side);
        const words = note?.side === side ? note.words : "";
        // In the margin words end, or begin, at the lifeline; where it is narrow they stand inside it.
        const to = form.is_narrow ? side : other(side);
        const at = x + (to === "A" ? 10 : -10);
        const letters = form.is_narrow ? form.letters : Math.floor((form.left - 12) / form.letter);
        const name = is_new ? `<tspan class="phase strong">${phase}</tspan>` : "", low = note?.mark ? 4 : 14;
        if (form.is_narrow) {
            // One line: the words, and then the phase.
            const line = [escaped(cut(words, letters)), name].filter(part => part !== "").join(" ");
            parts.push(line && marked_up(at, y + low, to, line));
        } else {
            const [first, second] = is_new ? [cut(words, letters), ""] : folded(words, letters);
            parts.push(first && text_at(at, is_new || second ? y - 3 : y + 4, to, first));
            parts.push(second && text_at(at, y + 11, to, second));
            parts.push(name && marked_up(at, words ? y + 11 : y + 4, to, name));
        }
        if (note?.side === side && note.mark) {
            parts.push(MARKS[note.mark](x, y));
        }
    }
    return `<g class="event${is_now ? " now" : ""}" data-row="${event.row}">${parts.join("")}</g>`;
}

// The rows from one to another, both drawn: `now` is the current event, `chosen` the segment that is shown.
export function rows_drawn(run, form, first, last, { now = 0, chosen = null } = {}) {
    const parts = [], passing = [], top = form.row * (first - 1), bottom = form.row * (last + 1);
    if (now >= first && now <= last) {
        parts.push(`<rect class="band" x="0" y="${form.row * (now - 1)}" width="${form.width}" height="${form.row}"/>`,
            `<rect class="edge" x="0" y="${form.row * (now - 1)}" width="3" height="${form.row}"/>`);
    }
    for (const side of SIDES) {
        const x = x_of(form, side);
        parts.push(`<path class="life" d="M${x} ${top}V${bottom}"/>`);
    }
    const shown = [];
    for (const arrow of run.arrows) {
        if (arrow.from > last || arrow.to < first) {
            continue;
        }
        const has_end = arrow.from >= first || arrow.to <= last;
        if (has_end) {
            shown.push(arrow_drawn(form, arrow, chosen));
        } else {
            passing.push(arrow);
        }
    }
    parts.push(passing_drawn(form, passing), ...shown);
    for (let row = first; row <= last; row += 1) {
        const event = event_at(run, row);
        if (event.segment) {
            const is_again = is_resent(run, event.segment);
            parts.push(label(form, event, chosen, row === now, is_again));
            if (is_again) {
                parts.push(resend_drawn(x_of(form, event.side), y_of(form, row)));
            }
        }
        parts.push(notes_drawn(run, form, event, row === now));
    }
    return parts.join("");
}

// The two names over the lifelines, with a phase each.
export function heads_drawn(form, phases) {
    const name = (side, x, anchor) => `<text class="strong" x="${x}" y="16" text-anchor="${anchor}">${side}</text>` +
        `<text class="phase strong" x="${x}" y="32" text-anchor="${anchor}">${phases[side]}</text>`;
    const [left, right] = form.is_narrow ? ["start", "end"] : ["middle", "middle"];
    return name("A", form.left, left) + name("B", form.right, right);
}

export const HEAD = 42;

// The whole ladder as a file of its own.
export function whole_drawn(run, width, title) {
    const form = form_of(run, width), height = HEAD + height_of(run, form) - form.row + form.point;
    const phases = Object.fromEntries(SIDES.map(side => [side, state_of(run, 0, side).phase]));
    return `<svg xmlns="http://www.w3.org/2000/svg" class="ladder" width="${width}" height="${height}" ` +
        `viewBox="0 0 ${width} ${height}" font-size="${form.size}" role="img"><title>${escaped(title)}</title>` +
        `<style>${STYLE}</style><rect class="ground" width="${width}" height="${height}"/>` +
        `${heads_drawn(form, phases)}<g transform="translate(0 ${HEAD})">` +
        `${rows_drawn(run, form, 1, run.count)}</g></svg>\n`;
}

// What the arrows' forms mean, as items of a list.
export function key_drawn() {
    const kinds = [["arrived", "arrives"], ["again", "arrives again"], ["dropped", "dropped"], ["damaged", "damaged"],
        ["lost", "lost"], ["turns", "turns of a repeat"]];
    const form = { left: 2, right: 52, row: 16, point: 9 };
    const resend = `<li><svg class="ladder" width="20" height="24" aria-hidden="true">${resend_drawn(9, 13)}</svg> ` +
        "sent again</li>";
    return kinds.map(([kind, words]) => {
        const arrow = { kind, segment: { side: "A", count: 1, row: 1 }, from: 1, to: 1, first: 0, count: 1 };
        return `<li><svg class="ladder" width="56" height="24" aria-hidden="true">${arrow_drawn(form, arrow, null)
            .replace(/<text.*?<\/text>/g, "").replace(/<title>.*?<\/title>/g, "")}</svg> ${words}</li>`;
    }).join("") + resend;
}
