// The packets of a run as a capture has them: whose bytes they are the module's list of emitted segments says (MODULE.md, The
// texts), when and where they went and came the run.
import { SIDES, event_at, other, state_of } from "./run.mjs";
import { bytes_of } from "./captures.mjs";

// The lines of the list by side and number.
function listed(run, list) {
    const lines = list.split("\n"), sent = Number(state_of(run, run.count, "A").sent);
    return (side, number) => lines[(side === "A" ? 0 : sent) + number].split(" ");
}

// The bytes that arrive: those that went out, but for the byte that a `damage` changes.
function arriving(event, hex) {
    const bytes = bytes_of(hex);
    if (event.kind === "damage") {
        bytes[Number(event.words[1])] ^= Number(event.words[2]);
    }
    return bytes;
}

// The packets that are seen at a side, A or B; or with another word all that both sides emit, as they leave. A packet's seconds
// are the number of its event's line in the script, its microseconds its turn of a repeat.
export function packets_of(run, places, list, where) {
    const line_of = listed(run, list), packets = [];
    const add = (row, turn, side, number, bytes) => {
        const [source, target, hex] = line_of(side, number);
        packets.push({ row, seconds: places.at[row] + 1, turn, source, target, bytes: bytes(hex) });
    };
    for (const segment of SIDES.flatMap(side => run.segments[side])) {
        if (where === other(segment.side)) {
            continue;
        }
        for (let turn = 0; turn < segment.count; turn += 1) {
            add(segment.row, turn, segment.side, segment.number + turn, bytes_of);
        }
    }
    for (const arrow of run.arrows) {
        if (arrow.kind === "lost" || where !== other(arrow.segment.side)) {
            continue;
        }
        const event = event_at(run, arrow.to);
        for (let at = 0; at < arrow.count; at += 1) {
            const number = arrow.first + at;
            add(arrow.to, number - event.number, arrow.segment.side, number, hex => arriving(event, hex));
        }
    }
    return packets.sort((one, two) => one.row - two.row || one.turn - two.turn);
}
