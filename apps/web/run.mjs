// Reads what the module writes of a script (MODULE.md, The texts) into what is drawn. There is no TCP here: what is
// drawn of an event is in its line of the report, or in the state lines around it.

export const SIDES = ["A", "B"];

export function other(side) {
    return side === "A" ? "B" : "A";
}

// The run of the lines of `tcp_web_steps`: two state lines, and for each event its line and two state lines. Lines are
// many, and few of them are looked at: of most it is kept where they stand.
export function read_run(text) {
    const reading = reading_run(text);
    let part = reading.next();
    while (!part.done) {
        part = reading.next();
    }
    return part.value;
}

const PART = 256;

// The same in parts, between which others can have their turn; what it returns is the run.
export function* reading_run(text) {
    const starts = starts_of(text), count = (starts.length - 3) / 3;
    const run = { text, starts, count, events: new Array(count + 1), emitted: new Map(), refused: [],
        segments: { A: [], B: [] }, arrows: [], firsts: { A: new Map(), B: new Map() }, looked: { A: 0, B: 0 } };
    for (let row = 1; row <= count; row += 1) {
        add_row(run, row);
        if (row % PART === 0) {
            yield;
        }
    }
    add_lost(run);
    return run;
}

const COUNTED = "ended no queued 0 flight 0 unmarked - unread 0 window 0 held - peer 0";

// The run of a report alone. Its lines say phases, and how many segments a side has emitted; of the states that is all.
export function read_report(report) {
    const lines = report.trimEnd().split("\n"), events = lines.slice(0, -2);
    const known = { A: ["CLOSED", 0], B: ["CLOSED", 0] };
    const states = () => SIDES.map(side => `state ${side} ${known[side][0]} not-ended accepted 0 delivered 0 released 0 ` +
        `ordered 0 sent ${known[side][1]} ${COUNTED}\n`).join("");
    let text = states();
    events.forEach((line, at) => {
        const [, , kind, side, number] = /^(\d+) (?:repeat \d+ )?(\w+) ([AB]) ?(\S*)/.exec(line);
        const phase = / (?:ok|processed|dropped|not-mine|malformed \d) (\S+)$/.exec(line);
        if (phase !== null) {
            known[kind === "deliver" || kind === "damage" ? other(side) : side][0] = phase[1];
        }
        if (kind === "emit" && number !== "none") {
            known[side][1] = line.includes(" repeat ") ? sent_before(lines, at + 1, side) : Number(number) + 1;
        }
        text += `${line}\n${states()}`;
    });
    return read_run(text);
}

// What a side has emitted before its next line of a report with a number; the last line of the side has all.
function sent_before(lines, from, side) {
    const form = new RegExp(`^\\d+ emit ${side} (\\d+) |^end ${side} .* sent (\\d+) `);
    const [, number, all] = lines.slice(from).map(line => form.exec(line)).find(found => found !== null);
    return Number(number ?? all);
}

// Whether a text is a report, and no script: its lines are counted.
export function is_report(text) {
    return /^(?:1 [^\n]*\n[^]*)?end A [^\n]*\nend B [^\n]*\n$/.test(text);
}

// An event, which is read once it is looked at; null before the first.
export function event_at(run, row) {
    run.events[row] ??= row === 0 ? null : read_event(run, row);
    return run.events[row];
}

// What a row adds to the picture: a segment, arrows, a refusal. Lines of one emission are the longest: of them no more
// is read than the side and the number.
function add_row(run, row) {
    const { text } = run, at = text.indexOf(" ", run.starts[3 * row - 1]) + 1;
    if (text.startsWith("emit ", at)) {
        const word = text.slice(at + 7, text.indexOf(" ", at + 7));
        add_segment(run, row, text[at + 5], Number(word), text.startsWith("none", at + 7) ? 0 : 1);
        return;
    }
    if (text.startsWith("repeat ", at)) {
        add_repeated(run, row);
    }
    if (text.startsWith("deliver ", at) || text.startsWith("damage ", at)) {
        add_arrivals(run, event_at(run, row));
    }
    if (event_line(run, row).includes(" refused ") && event_at(run, row).refused > 0) {
        run.refused.push(row);
    }
}

// The segments of a `repeat`, or their arrivals.
function add_repeated(run, row) {
    const [, , , kind, side] = event_line(run, row).split(" ", 5);
    if (kind === "emit") {
        const number = sent_at(run, row - 1, side);
        add_segment(run, row, side, number, sent_at(run, row, side) - number);
    } else if (kind === "deliver" || kind === "damage") {
        add_arrivals(run, event_at(run, row));
    }
}

// Where each line begins, and where the text ends.
function starts_of(text) {
    const starts = [0];
    for (let at = text.indexOf("\n"); at >= 0; at = text.indexOf("\n", at + 1)) {
        starts.push(at + 1);
    }
    return starts;
}

function line_at({ text, starts }, number) {
    return text.slice(starts[number], starts[number + 1] - 1);
}

// An event's line of the report.
export function event_line(run, row) {
    return line_at(run, 3 * row - 1);
}

// What a state line says of a side after an event; before the first event it is event 0.
export function state_of(run, row, side) {
    const words = line_at(run, 3 * row + SIDES.indexOf(side)).split(" ");
    const state = { side, phase: words[2], ending: words[3] };
    for (let at = 4; at < words.length; at += 2) {
        state[words[at]] = words[at + 1];
    }
    return state;
}

// What the module says of both ends' numbers and timers, by side.
export function spaces_of(text) {
    return Object.fromEntries(text.trimEnd().split("\n").map(line => {
        const [, side, ...words] = line.split(" "), found = {};
        for (let at = 0; at < words.length; at += 2) {
            found[words[at]] = words[at + 1];
        }
        return [side, found];
    }));
}

export function phase_of(run, row, side) {
    return line_at(run, 3 * row + SIDES.indexOf(side)).split(" ", 3)[2];
}

// The runs `L-R` that are joined by `+`, or none for `-`.
export function runs_of(word) {
    return word === "-" ? [] : word.split("+").map(run => run.split("-").map(Number));
}

// How many words of an event's line in the script are repeated in the report, beside its name and side.
const WORDS = { deliver: 1, damage: 3, timer: 1, receive: 1 };

function read_event(run, row) {
    const words = event_line(run, row).split(" "), is_repeat = words[1] === "repeat", at = is_repeat ? 3 : 1;
    const kind = words[at], outcome_at = at + 2 + (WORDS[kind] ?? 0);
    // A number of the table of refusals, or of a `repeat` how many turns were refused.
    const refused = words.at(-2) === "refused" ? Number(words.at(-1)) : 0;
    return {
        row, kind, is_repeat, refused, side: words[at + 1], turns: is_repeat ? Number(words[2]) : 1,
        words: words.slice(at + 2, outcome_at), outcome: words.slice(outcome_at),
        number: kind === "deliver" || kind === "damage" ? Number(words[at + 2]) : null, arrow: null,
        segment: run.emitted.get(row) ?? null,
    };
}

// One emitted segment, or so many of a `repeat`, the first with this number.
function add_segment(run, row, side, number, count) {
    if (count > 0) {
        const segment = { side, row, number, count, arrows: [] };
        run.segments[side].push(segment);
        run.emitted.set(row, segment);
    }
}

function sent_at(run, row, side) {
    return Number(state_of(run, row, side).sent);
}

// What the report says of an emitted segment; null of those of a `repeat`, whose fields it leaves out.
export function fields_of(event) {
    if (event.is_repeat) {
        return null;
    }
    const [, , flags, , seq, , ack, , window, , text, , sack] = event.outcome;
    return { flags, seq, ack, window, text, sack };
}

// Whether a segment begins with a number from which text, SYN or FIN of its side went out before. Of each number the
// first segment is kept, as far as has been asked.
export function is_resent(run, segment) {
    const { side } = segment, list = run.segments[side], firsts = run.firsts[side];
    while (run.looked[side] < list.length && list[run.looked[side]].row <= segment.row) {
        const one = list[run.looked[side]], seq = taken_number(event_at(run, one.row));
        run.looked[side] += 1;
        if (seq !== null && !firsts.has(seq)) {
            firsts.set(seq, one);
        }
    }
    const seq = taken_number(event_at(run, segment.row));
    return seq !== null && firsts.get(seq) !== segment;
}

// The sequence number of a segment that takes any; of those of a `repeat` it isn't told.
function taken_number(event) {
    const fields = fields_of(event);
    return fields !== null && (fields.text !== "0" || /SYN|FIN/.test(fields.flags)) ? fields.seq : null;
}

// The place in a side's list of the segment, or group of them, that has a number; or where the list ends.
function place_of(list, number) {
    let low = 0, high = list.length;
    while (low < high) {
        const middle = (low + high) >> 1;
        if (list[middle].number + list[middle].count <= number) {
            low = middle + 1;
        } else {
            high = middle;
        }
    }
    return low;
}

export function segment_at(run, side, number) {
    const segment = run.segments[side][place_of(run.segments[side], number)];
    return segment && segment.number <= number ? segment : null;
}

// An arrow for each segment, or group, that an event delivers. Where it was refused none arrived.
function add_arrivals(run, event) {
    const done = event.is_repeat ? Number(event.outcome[1]) : event.refused ? 0 : 1;
    if (done === 0) {
        return;
    }
    const list = run.segments[event.side], end = event.number + event.turns;
    for (let at = place_of(list, event.number); at < list.length && list[at].number < end; at += 1) {
        const segment = list[at];
        const from = Math.max(event.number, segment.number), to = Math.min(end, segment.number + segment.count);
        const arrow = { segment, from: segment.row, to: event.row, first: from, count: to - from };
        arrow.is_again = segment.arrows.some(known => known.first < to && from < known.first + known.count);
        arrow.kind = kind_of(event, arrow);
        segment.arrows.push(arrow);
        run.arrows.push(arrow);
        event.arrow ??= arrow;
    }
}

function kind_of(event, arrow) {
    if (event.kind === "damage") {
        return "damaged";
    }
    if (event.is_repeat) {
        return "turns";
    }
    if (event.outcome[0] !== "processed") {
        return "dropped";
    }
    return arrow.is_again ? "again" : "arrived";
}

// Segments that no event delivers are lost.
function add_lost(run) {
    for (const side of SIDES) {
        for (const segment of run.segments[side]) {
            const count = segment.count - arrived_of(segment);
            if (count > 0) {
                const arrow = { segment, from: segment.row, to: segment.row + 1, first: segment.number, count,
                    kind: "lost" };
                segment.arrows.push(arrow);
                run.arrows.push(arrow);
            }
        }
    }
}

// How many of a group arrived at least once.
function arrived_of(segment) {
    let count = 0, end = segment.number;
    for (const arrow of [...segment.arrows].sort((one, two) => one.first - two.first)) {
        const from = Math.max(arrow.first, end);
        end = Math.max(end, arrow.first + arrow.count);
        count += end - Math.min(from, end);
    }
    return count;
}

// The lines of a script, and in which of them, from 0, each event is. A script that was taken has no line of
// another form.
export function places_of(script) {
    const lines = script.split("\n"), at = [null];
    lines.forEach((line, number) => {
        if (line !== "" && !line.startsWith("#") && !line.startsWith("config ") && !/^tcpkit [23]$/.test(line)) {
            at.push(number);
        }
    });
    return { lines, at };
}

// The comment above an event that comes last.
export function comment_at({ lines, at }, row) {
    let end = at[row] ?? 0;
    while (end > 0 && !lines[end - 1].startsWith("#")) {
        end -= 1;
    }
    let start = end;
    while (start > 0 && lines[start - 1].startsWith("#")) {
        start -= 1;
    }
    return lines.slice(start, end).map(line => line.slice(1).trim()).join(" ");
}
