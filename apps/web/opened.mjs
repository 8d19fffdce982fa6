// A capture that is open: the verdict on it, the connection of which there is a ladder, and where the capture was taken.
import { NO_MEMORY } from "./module.mjs";
import { addresses_in, report_read, report_told, show_report_of } from "./verdict.mjs";

// Of more connections only those with findings are listed, and at most as many again; and so many addresses.
const MOST_OPTIONS = 200;

function option_told({ number, ends, count }) {
    return `${number}: ${ends[0]} > ${ends[1]}${count === 0 ? "" : `, ${count} finding${count === 1 ? "" : "s"}`}`;
}

// What is said where there is no report.
function unjudged_told(answer) {
    return answer === NO_MEMORY ? "It needs more memory than this page has: the program tcpjudge judges it." : "It isn't a capture that can be read.";
}

function select(choice, options) {
    choice.replaceChildren(...options);
    choice.disabled = options.length < 2;
}

// What a ladder has of its connection.
function ladder_told({ connection, columns, count, kept, whole }) {
    const drawn = columns.number.length, of_all = kept < whole ? ` Ladders have the first ${kept} of the capture's ${whole} segments.` : "";
    if (drawn === 0 && connection.ends[0].startsWith("[")) {
        return "A ladder is drawn of a connection over IPv4 alone. The verdict is on all.";
    }
    return `Connection ${connection.number}: ${drawn === count ? `${count} segments` : `the first ${drawn} of ${count} segments`}, each with the packet's ` +
        `number.${of_all}`;
}

export function opened({ part, place, choice, report, told, verdict, verdict_told }, ladder, ask, say) {
    let name = "", found = null, listed = null, wanted = null, is_reading = false;

    // The ladder of a connection, and in it the packet that a line of the report names.
    function show_drawn(connection, { columns, count }) {
        part.setAttribute("aria-busy", "false");
        told.textContent = ladder_told({ connection, columns, count, kept: listed.kept, whole: listed.count });
        ladder.show({ ...connection, columns, is_fine: listed.is_fine });
        if (wanted !== null) {
            say(ladder.lead(wanted) ? `Packet ${wanted} is marked in the ladder.` : `Packet ${wanted} isn't in the ladder.`);
        }
        wanted = null;
    }

    // Asks for the segments of the connection that is chosen, and draws them once they are there.
    function choose() {
        const connection = found?.connections[Number(choice.value)];
        if (listed === null || connection === undefined) {
            return;
        }
        part.setAttribute("aria-busy", "true");
        ask.draw(connection, drawing => show_drawn(connection, drawing));
    }

    function on_packet(number, packet) {
        wanted = packet;
        if (![...choice.options].some(({ value }) => Number(value) === number)) {
            choice.append(new Option(option_told(found.connections[number]), number));
        }
        choice.value = number;
        listed === null ? say("The ladder isn't there.") : choose();
    }

    // The connections to choose from; the first with a finding is chosen.
    function list_connections() {
        const { connections } = found, broken = connections.flatMap((one, at) => one.count > 0 ? [at] : []);
        const now = choice.options.length > 0 ? Number(choice.value) : broken[0] ?? 0, first = [...connections.keys()].slice(0, MOST_OPTIONS);
        const more = [...broken.filter(at => at >= MOST_OPTIONS).slice(0, MOST_OPTIONS), now].filter(at => at < connections.length);
        select(choice, [...new Set([...first, ...more])].map(at => new Option(option_told(connections[at]), at)));
        choice.value = now;
    }

    // The segments aren't being read any more.
    function rest() {
        is_reading = false;
        part.setAttribute("aria-busy", "false");
    }

    function hide() {
        found = listed = wanted = null;
        ladder.hide();
        part.hidden = verdict.hidden = true;
        rest();
    }

    choice.addEventListener("change", choose);
    place.addEventListener("change", () => {
        part.setAttribute("aria-busy", "true");
        ask.report(place.value);
    });
    return {
        // A capture is read.
        expect(file) {
            name = file;
            verdict.hidden = false;
            choice.replaceChildren();
            part.setAttribute("aria-busy", "true");
            verdict_told.textContent = `${file} is being read. The verdict on it will be here.`;
            say(verdict_told.textContent);
        },
        // What tcpjudge writes of it, taken at the place that is chosen. What is seen at the top of the window is what is said.
        show({ answer, text }, is_first) {
            found = report_read(text);
            part.hidden = text === "";
            verdict_told.textContent = `${name} is open. ${text === "" ? unjudged_told(answer) : report_told(found)}`;
            if (is_first) {
                select(place, [new Option("not known", ""), ...addresses_in(found).slice(0, MOST_OPTIONS).map(host => new Option(host, host))]);
                told.textContent = "";
            }
            list_connections();
            show_report_of(report, found, on_packet);
            is_first && report.scrollIntoView({ block: "nearest" });
            is_reading = is_first ? text !== "" : is_reading;
            part.setAttribute("aria-busy", String(is_reading));
            choose();
            say(verdict_told.textContent);
        },
        // The segments are there, of which ladders are drawn.
        list(all) {
            listed = all;
            rest();
            choose();
        },
        rest,
        hide,
    };
}
