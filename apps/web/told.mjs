// What the page says in words: of an event, of a refusal, of a fault (docs/FORMATS.md).
import { event_at, fields_of, other, runs_of, state_of } from "./run.mjs";
import { word_fault } from "./words.mjs";

// Of a refused call or step: its cause, and its cure.
const REFUSALS = {
    11: ["nothing was opened", "connect or listen first"],
    12: ["the side is open already", "one connect or listen a side"],
    13: ["a close came before", "send before the close"],
    14: ["the connection has ended", "one connection a side"],
    15: ["the direction has carried its limit, in version 1 2,147,483,632 bytes", "config SIDE limit in version 2 or 3"],
    16: ["the side listens, and no peer is known", "deliver the peer's SYN first"],
    31: ["SIDE hasn't emitted segment K", "emit first; K counts from 0"],
    32: ["XOR is 0", "1 to 255"],
    33: ["PLACE lies after the segment's end", "count from 0 to its length less 1"],
    35: [
        "the segment's lifetime is over: its position or its acknowledgement's lies life or more behind the receiver's",
        "deliver it earlier, or a longer config life",
    ],
};

export const MALFORMED = [null, "TooShort", "TooLong", "BadChecksum", "BadOffset", "BadOption", "BadPadding"];

// Of a setting that no end takes: which keys, what they have to be, and the numbers that are taken.
const SETTINGS = {
    21: [["send", "recv"], "a capacity isn't from 1 to 1048576", 1n, 1048576n],
    23: [["mss"], "the mss isn't from 64 to 1460", 64n, 1460n],
    24: [["shift"], "the shift isn't from 0 to 14", 0n, 14n],
    25: [["limit"], "the limit isn't from 1 to 4611686018427387904", 1n, 4611686018427387904n],
};

// The forms of a script's lines, by their first word. SIDE is A or B.
export const FORMS = [
    ["config", "config SIDE isn N", "the initial sequence number, 0 to 4294967295"],
    ["config", "config SIDE mss N", "the maximum segment size, 64 to 1460"],
    ["config", "config SIDE send N", "the capacity of the send buffer, 1 to 1048576"],
    ["config", "config SIDE recv N", "the capacity of the receive buffer, 1 to 1048576"],
    ["config", "config SIDE shift N", "the window shift that the side offers, 0 to 14, or none"],
    ["config", "config SIDE sack on", "whether the side permits selective acknowledgement, on or off"],
    ["connect", "connect SIDE", "the user opens to the other side's address and port"],
    ["listen", "listen SIDE", "the user waits for a connection"],
    ["close", "close SIDE", "the user sends no more"],
    ["abort", "abort SIDE", "the user aborts the connection"],
    ["send", "send SIDE HEX", "the user sends these bytes, as in send A 616263"],
    ["receive", "receive SIDE N", "the user asks for at most N bytes, 0 to 1048576"],
    ["emit", "emit SIDE", "the side emits the segment that is due, if one is"],
    ["timer", "timer SIDE retransmit", "this timer expires; also reorder and timewait"],
    ["deliver", "deliver SIDE K", "segment K, from 0, that SIDE emitted arrives at the other side"],
    ["damage", "damage SIDE K PLACE XOR",
        "the same, with the byte at PLACE changed by exclusive or, XOR from 0 to 255"],
    ["tcpkit", "tcpkit 2", "the first line of a script of version 2, which has the lines below"],
    ["config", "config life N", "how many positions a segment lives, 2 to 2147483648"],
    ["config", "config SIDE limit N", "the most bytes of the side's stream"],
    ["repeat", "repeat N EVENT", "N turns of an event, 1 to 1048576; K grows by 1 each turn"],
    ["tcpkit", "tcpkit 3", "the first line of a script of version 3, which has these and the line below"],
    ["config", "config SIDE runs N", "the most runs that the side keeps out of order, 1 to 4096"],
];

export function refusal_of(event) {
    const [cause, cure] = REFUSALS[event.refused] ?? [`the number ${event.refused}`, "docs/FORMATS.md has the table"];
    return { cause, cure };
}

function plural(count, word) {
    return `${count} ${word}${Number(count) === 1 ? "" : "s"}`;
}

// The bytes of a word of hexadecimal digits as text, where all of them are printable.
export function printable(hex) {
    const bytes = (hex.match(/../g) ?? []).map(pair => parseInt(pair, 16));
    return bytes.length > 0 && bytes.every(byte => byte >= 32 && byte < 127) ? String.fromCharCode(...bytes) : null;
}

function bytes_told(hex) {
    const text = hex.length <= 200 ? printable(hex) : null;
    return plural(hex.length / 2, "byte") + (text === null ? "" : ` (“${text}”)`);
}

export function segments_told(arrow_or_segment, first = arrow_or_segment.number) {
    const { count } = arrow_or_segment;
    return count === 1 ? `segment ${first}` : `segments ${first} to ${first + count - 1}`;
}

// What each rule of an arrival says (docs/RULES.md), by the name that the module has for it.
const RULES = {
    foreign: "it is for another end, or from another peer",
    "reset-ignored": "a reset that nothing follows from",
    stray: "it comes to no connection: a reset answers it",
    "ack-of-listen": "LISTEN has sent nothing that could be acknowledged: a reset answers it",
    "opens-nothing": "it doesn't open this connection",
    "peer-opens": "a SYN in LISTEN opens the connection",
    "ack-of-no-syn": "it acknowledges something else than the SYN: a reset answers it",
    "peer-refuses": "a reset answers the SYN",
    "peer-accepts": "a SYN with its acknowledgement answers the SYN",
    unacceptable: "it lies outside the window: an acknowledgement shows where that lies",
    "peer-resets": "a reset at exactly RCV.NXT",
    "reset-elsewhere": "a reset elsewhere in the window: an acknowledgement asks for the exact one",
    "syn-in-window": "a SYN in the window: an acknowledgement answers it",
    "no-ack": "it acknowledges nothing, so nothing of it counts",
    "acks-unsent": "it acknowledges what wasn't sent: an acknowledgement answers it",
    "handshake-refused": "it doesn't acknowledge the SYN: a reset answers it",
    "handshake-refused-shut": "it doesn't acknowledge the SYN, and the window is 0: a reset answers it",
    taken: "all of it is taken",
    "taken-shut": "the window is 0: its acknowledgement and window are taken, its text and FIN are not",
};

// The rules by which something of a segment is taken.
const TAKING = ["peer-opens", "peer-accepts", "taken", "taken-shut"];

// How many bytes of the send queue are marked.
function marked_in(state) {
    return runs_of(state.unmarked).reduce((left, [from, to]) => left - (to - from), Number(state.queued));
}

// What a segment brought to an end, by the end's states before and after it; `text` is the count of its bytes, null where
// that isn't known.
function brought(before, after, text) {
    const grown = name => BigInt(after[name]) - BigInt(before[name]), ordered = grown("ordered"), parts = [];
    if (ordered > 0n) {
        const held = text === null ? 0n : ordered - BigInt(text);
        parts.push(held > 0n ? `Its text comes in order, and ${plural(held, "byte")} that were held follow it.`
            : "Its text comes in order.");
    } else if (after.held !== before.held) {
        parts.push("Its text comes early and is held.");
    } else if (text !== null && text !== "0") {
        parts.push("None of its text is kept.");
    }
    if (grown("released") > 0n) {
        parts.push(`It acknowledges ${plural(grown("released"), "byte")}.`);
    }
    const marked = marked_in(after) - marked_in(before);
    if (marked > 0) {
        parts.push(`Its blocks report ${plural(marked, "byte")} as held.`);
    }
    if (after.peer !== before.peer) {
        parts.push(`The peer's window is ${after.peer} now.`);
    }
    return parts;
}

// The rule as the module has it, `NAME SECTION`, and what came of it.
function rule_told(text, before, after, fields) {
    const name = text.slice(0, text.indexOf(" ")), section = text.slice(name.length + 1);
    const parts = TAKING.includes(name) ? brought(before, after, fields?.text ?? null) : [];
    return [`Rule “${name}”: ${RULES[name] ?? ""} (RFC 9293, ${section}).`, ...parts].join(" ");
}

// The same of an event that delivers a segment.
export function judged_told(run, event, text) {
    const { row, side } = event, at = other(side);
    return rule_told(text, state_of(run, row - 1, at), state_of(run, row, at), fields_of(event_at(run, event.arrow.segment.row)));
}

const CALLS = {
    listen: side => `${side}'s user waits for a connection.`,
    connect: side => `${side}'s user opens a connection to ${other(side)}.`,
    close: side => `${side}'s user closes: it sends no more.`,
    abort: side => `${side}'s user aborts the connection.`,
};

const OUTCOMES = {
    processed: side => `${side} processes it.`,
    dropped: side => `${side} drops it.`,
    "not-mine": side => `${side} says that it isn't its own.`,
};

// One sentence on what an event is and what came of it.
export function sentence(event) {
    const { side, kind, outcome } = event, peer = other(side);
    if (event.is_repeat) {
        return repeat_told(event);
    }
    if (event.refused) {
        const { cause, cure } = refusal_of(event);
        return `${[kind, side, ...event.words].join(" ")} is refused (${event.refused}): ${cause}. Cure: ${cure}.`;
    }
    switch (kind) {
    case "send":
        return `${side}'s user sends: the end takes ${plural(Number(outcome[1]), "byte")}.`;
    case "receive":
        return outcome[0] === "bytes" ? `${side}'s user receives ${bytes_told(outcome[1])}.`
            : outcome[0] === "end" ? `${side}'s user receives the end of the stream.`
                : `There is nothing for ${side}'s user.`;
    case "timer":
        return `${side}'s ${event.words[0]} timer expires` +
            (outcome[0] === "yes" ? "." : ": nothing follows from it.");
    case "emit":
        return event.segment ? emission_told(event) : `${side} has nothing to emit.`;
    case "deliver":
        return `${side}'s segment ${event.number} arrives at ${peer}${event.arrow?.is_again ? " again" : ""}. ` +
            came_of(outcome, peer);
    case "damage":
        return `${side}'s segment ${event.number} arrives at ${peer} with its byte ${event.words[1]} changed. ` +
            came_of(outcome, peer);
    default:
        return CALLS[kind]?.(side) ?? `${kind} ${side}: ${outcome.join(" ")}.`;
    }
}

function came_of(outcome, side) {
    return OUTCOMES[outcome[0]]?.(side) ?? `${side} finds it malformed (${MALFORMED[outcome[1]] ?? outcome[1]}).`;
}

function emission_told(event) {
    const { segment } = event, { flags, text, sack } = fields_of(event);
    const blocks = sack === "-" ? "" : `, and reports what came early: ${sack.replaceAll("+", ", ")}`;
    const lost = segment.arrows[0].kind === "lost" ? " It is lost." : "";
    const bytes = text === "0" ? "no text" : `${plural(Number(text), "byte")} of text`;
    return `${segment.side} emits segment ${segment.number}: ${flags.replaceAll(",", " ")}, ${bytes}${blocks}.${lost}`;
}

function repeat_told(event) {
    const what = `${event.turns} times ${[event.kind, event.side, ...event.words].join(" ")}`;
    const came = event.outcome[0] === "took" ? `${event.outcome[1]} bytes taken` : `${event.outcome[1]} done`;
    return `${what}: ${came}, ${event.refused} refused.`;
}

// The fault that the module answers with, `tcpkit: 41 line N` or `tcpkit: config SIDE N`: the line of the script, from
// 0, where one can be named, its cause and its cure.
export function fault_of(text, script) {
    const lines = script.split("\n"), words = text.trim().split(" ");
    if (words[1] === "41") {
        const line = Number(words[3]) - 1;
        return { line, ...cause_of(lines, line), text: text.trim() };
    }
    const [keys, cause, least, most] = SETTINGS[words[3]] ?? [[], `the number ${words[3]}`, 0n, 0n];
    let line = null;
    for (const key of keys) {
        // The last line of a key counts.
        const at = lines.findLastIndex(one => one.startsWith(`config ${words[2]} ${key} `));
        const word = lines[at]?.split(" ")[3] ?? "none";
        const number = word === "none" ? least : BigInt(word);
        line ??= number < least || number > most ? at : null;
    }
    return { line, cause, cure: `${keys.join(" or ")} of side ${words[2]}, from ${least} to ${most}`,
        text: text.trim() };
}

const ELSEWHERE = "a shorter script here; tcpkit replay writes the report of a longer one";

export const NO_MEMORY_FAULT = { line: null, text: "tcpkit: 42",
    cause: "the browser gives this page less memory than the states after all events need", cure: ELSEWHERE };

// So high a picture is drawn by every browser: the highest row has 46 pixels, and Firefox places nothing below 17,895,697.
export const MOST_EVENTS = 300000;

export function too_long_fault(count) {
    const [events, most] = [count, MOST_EVENTS].map(number => number.toLocaleString("en"));
    return { line: null, text: "", cause: `the script has ${events} events, and the ladder has room for ${most}`, cure: ELSEWHERE };
}

// Why a line has no form. What can be seen without reading it as a line is said first; else its forms are shown.
function cause_of(lines, at) {
    const line = lines[at] ?? "", word = line.split(" ", 1)[0];
    const is_late = lines.slice(0, at).some(one => one !== "" && !/^(#|config |tcpkit [23]$)/.test(one));
    const forms = FORMS.filter(form => form[0] === word).map(form => form[1]);
    if (/[^\x00-\x7f]/.test(line)) {
        return { cause: "a byte above 7f is in it", cure: "ASCII letters, also in comments" };
    }
    if (/^ |  | $|\r|\t/.test(line)) {
        return { cause: "a stray or doubled space, a tab, or a CR",
            cure: "one space between words, none before or after" };
    }
    if (!/^tcpkit [23]$/.test(lines[0]) && /^(repeat|config life|config [AB] limit) /.test(line)) {
        return { cause: "a line of version 2", cure: "tcpkit 2 as the first line of the script" };
    }
    if (lines[0] !== "tcpkit 3" && /^config [AB] runs /.test(line)) {
        return { cause: "a line of version 3", cure: "tcpkit 3 as the first line of the script" };
    }
    if (word === "config" && is_late) {
        return { cause: "a config line after the first event", cure: "move it before the first event" };
    }
    if (forms.length > 0) {
        return { cause: word_fault(line) ?? "it has no form", cure: forms.join(", ") };
    }
    return { cause: word_fault(line), cure: "see “Lines of a script” below" };
}
