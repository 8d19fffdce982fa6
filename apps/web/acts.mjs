// The buttons that add a line to the script: of a side, of a segment that is on the way, of the segment that is shown.
import { arrival_line, damage_line, lost_line, on_the_way, send_line } from "./actions.mjs";
import { SIDES, fields_of, event_at } from "./run.mjs";
import { segments_told } from "./told.mjs";

const MOST_SHOWN = 12;

const OF_SIDE = [
    ["emit", side => `emit ${side}`], ["receive", side => `receive ${side} 1048576`], ["close", side => `close ${side}`],
    ["retransmit timer", side => `timer ${side} retransmit`], ["reorder timer", side => `timer ${side} reorder`],
    ["time-wait timer", side => `timer ${side} timewait`], ["listen", side => `listen ${side}`],
    ["connect", side => `connect ${side}`], ["abort", side => `abort ${side}`],
];

function button(words, label, on_click) {
    const made = document.createElement("button");
    made.type = "button";
    made.textContent = words;
    made.setAttribute("aria-label", label);
    made.addEventListener("click", on_click);
    return made;
}

export function acts({ sides, wire, text, arrive, damage, lose }, add) {
    for (const side of SIDES) {
        const name = document.createElement("b");
        name.textContent = side;
        sides[side].replaceChildren(name,
            button("send", `send ${side} the text beside`, () => text.value !== "" && add([send_line(side, text.value)])),
            ...OF_SIDE.map(([words, line]) => button(words, `${words} at ${side}`, () => add([line(side)]))));
    }

    function chip(run, segment) {
        const part = document.createElement("li"), name = document.createElement("span");
        const fields = segment.count === 1 ? fields_of(event_at(run, segment.row)) : null;
        const told = `${segment.side}'s ${segments_told(segment)}`;
        name.textContent = `${segment.side} ${segment.number}${fields ? ` ${fields.flags}` : ` to ${
            segment.number + segment.count - 1}`}`;
        part.append(name, button("deliver", `deliver ${told}`, () => add([arrival_line(segment)])));
        if (segment.count === 1) {
            part.append(button("damage", `damage ${told}`, () => add([damage_line(segment)])),
                button("lose", `lose ${told}`, () => add([lost_line(segment)])));
        }
        return part;
    }

    let shown = null;
    const one = segment => ({ side: segment.side, number: segment.number, count: 1 });
    arrive.addEventListener("click", () => add([arrival_line(one(shown))]));
    damage.addEventListener("click", () => add([damage_line(one(shown))]));
    lose.addEventListener("click", () => add([lost_line(one(shown))]));

    return {
        // What is on the way after the whole script, oldest first.
        show_run(run, script) {
            const all = on_the_way(run, script), chips = all.slice(0, MOST_SHOWN).map(segment => chip(run, segment));
            wire.replaceChildren(...chips);
            if (all.length > MOST_SHOWN || all.length === 0) {
                const rest = document.createElement("li");
                rest.textContent = all.length === 0 ? "Nothing is on the way." : `and ${all.length - MOST_SHOWN} more`;
                wire.append(rest);
            }
        },
        show_segment(segment, arrived) {
            shown = segment;
            arrive.disabled = damage.disabled = segment === null;
            lose.disabled = segment === null || arrived;
            arrive.textContent = arrived ? "Deliver again" : "Deliver";
        },
    };
}
