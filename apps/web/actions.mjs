// Lines that are added to a script by buttons. There is no TCP here: what an end does with a line the module says, and a
// line that did nothing isn't kept.
import { SIDES, event_at, other, read_run, state_of } from "./run.mjs";

const EMISSIONS = 8, MOST_TURNS = 60, MOST_READ = 1048576, STEPS = 40;

export function with_lines(script, lines) {
    const text = script === "" || script.endsWith("\n") ? script : `${script}\n`;
    return text + lines.map(line => `${line}\n`).join("");
}

// Text as the bytes of a `send` line.
export function send_line(side, text) {
    const bytes = [...new TextEncoder().encode(text)];
    return `send ${side} ${bytes.map(byte => byte.toString(16).padStart(2, "0")).join("")}`;
}

const LOST = /^# lost: ([AB]) (\d+)$/gm;

export function lost_line({ side, number }) {
    return `# lost: ${side} ${number}`;
}

// The segments that were emitted, didn't arrive, and aren't said to be lost.
export function on_the_way(run, script) {
    const lost = new Set([...script.matchAll(LOST)].map(([, side, number]) => `${side} ${number}`));
    const all = SIDES.flatMap(side => run.segments[side]);
    return all.filter(segment => segment.arrows.every(arrow => arrow.kind === "lost") &&
        !lost.has(`${segment.side} ${segment.number}`)).sort((one, two) => one.row - two.row);
}

export function arrival_line({ side, number, count }) {
    return count > 1 ? `repeat ${count} deliver ${side} ${number}` : `deliver ${side} ${number}`;
}

// One bit of a byte that every segment has, of its sequence number.
export function damage_line({ side, number }) {
    return `damage ${side} ${number} 7 1`;
}

// Whether an event did anything: a segment went out or arrived, bytes were read, a timer's rule applied.
function did(event) {
    const [word] = event.outcome;
    return !event.refused && !["none", "nothing", "end", "no"].includes(word);
}

// The script with these lines behind it, without those that did nothing, and its run.
function tried(core, script, lines) {
    const before = read_run(core.steps(script).text).count;
    const run = read_run(core.steps(with_lines(script, lines)).text);
    const kept = lines.filter((line, number) => did(event_at(run, before + 1 + number)));
    return { script: with_lines(script, kept), kept: kept.length };
}

// All that is due of a side goes out, and arrives, but for what `loses` says of it.
function carried(core, script, side, loses = () => false) {
    let text = script, emitted = 0;
    for (let turn = 0; turn < EMISSIONS; turn += 1) {
        const { script: next, kept } = tried(core, text, new Array(EMISSIONS).fill(`emit ${side}`));
        text = next;
        emitted += kept;
        if (kept < EMISSIONS) {
            break;
        }
    }
    const run = read_run(core.steps(text).text), all = run.segments[side];
    const fresh = emitted === 0 ? [] : all.slice(-emitted);
    const lines = fresh.map(segment => loses(segment) ? lost_line(segment) : arrival_line(segment));
    return { script: with_lines(text, lines), emitted };
}

// A turn of two plain callers: both users read; at each end the retransmission timer expires and all that is due goes
// out; what went out arrives, and so do the answers.
function turn(core, script) {
    const run = read_run(core.steps(script).text), is_open = side => state_of(run, run.count, side).phase !== "CLOSED";
    const reads = tried(core, script, SIDES.map(side => `receive ${side} ${MOST_READ}`));
    let text = reads.script, did_any = reads.kept > 0;
    for (const side of SIDES.filter(is_open)) {
        text = tried(core, text, [`timer ${side} retransmit`]).script;
        for (const one of [side, other(side)]) {
            const { script: next, emitted } = carried(core, text, one);
            text = next;
            did_any ||= emitted > 0;
        }
    }
    return { script: text, did_any };
}

// The script with turns behind it until one does nothing more; a side in TIME-WAIT then waits it out.
export function run_to_end(core, script) {
    let text = with_lines(script, []);
    for (let count = 0; count < MOST_TURNS; count += 1) {
        const { script: next, did_any } = turn(core, text);
        if (!did_any) {
            break;
        }
        text = next;
    }
    return tried(core, text, SIDES.map(side => `timer ${side} timewait`)).script;
}

// Numbers from 0 on and below 1, the same for the same seed (mulberry32).
function numbers_of(seed) {
    let state = seed >>> 0;
    return () => {
        state = (state + 0x6d2b79f5) >>> 0;
        let mixed = Math.imul(state ^ (state >>> 15), state | 1);
        mixed = (mixed + Math.imul(mixed ^ (mixed >>> 7), mixed | 61)) ^ mixed;
        return ((mixed ^ (mixed >>> 14)) >>> 0) / 4294967296;
    };
}

const PHRASES = ["every byte", "in order", "once", "whatever", "the network", "loses"];

// A handshake, then both users sending over a way that loses a fifth of the segments; then no more is lost, and both close.
export function lossy_script(core, seed) {
    const next = numbers_of(seed), pick = list => list[Math.floor(next() * list.length)];
    let text = with_lines(`# A lossy way, with the seed ${seed}\n`, ["listen B", "connect A"]);
    for (const side of ["A", "B", "A"]) {
        text = carried(core, text, side).script;
    }
    for (let step = 0; step < STEPS; step += 1) {
        const side = pick(SIDES), draw = next();
        if (draw < 0.3) {
            text = with_lines(text, [send_line(side, pick(PHRASES))]);
        } else if (draw < 0.75) {
            text = carried(core, text, side, () => next() < 0.2).script;
        } else {
            text = tried(core, text, [draw < 0.9 ? `receive ${side} 20` : `timer ${side} retransmit`]).script;
        }
    }
    return run_to_end(core, with_lines(text, ["close A", "close B"]));
}
