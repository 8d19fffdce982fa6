// A connection of a capture as a ladder, with each finding at the arrow of its packet.
import { escaped, head_at } from "./draw.mjs";
import { flags_told } from "./connections.mjs";

const ENDS = ["A", "B"], SIZE = 11, LETTER = SIZE * 0.603, EDGE = 12, LABEL = 42, SLANT = 8, LINE = 13, AROUND_SEEN = 400, MOST_ROW = 150;

// Words in lines of so many letters at most.
function in_lines(words, letters) {
    const lines = [""];
    for (const word of words.split(" ")) {
        const longer = lines.at(-1) === "" ? word : `${lines.at(-1)} ${word}`;
        longer.length <= letters || lines.at(-1) === "" ? lines.splice(-1, 1, longer) : lines.push(word);
    }
    return lines;
}

// A time in nanoseconds since the first packet, as seconds; empty where it isn't known.
function time_told(time, is_fine) {
    if (Number.isNaN(time)) {
        return "";
    }
    const whole = Math.floor(Math.abs(time) / 1e9), digits = String(Math.abs(time) % 1e9).padStart(9, "0");
    return `${time < 0 ? "-" : ""}${whole}.${is_fine ? digits : digits.slice(0, 6)} s`;
}

function parts_told(parts) {
    return parts.filter(part => part !== "").join(" ");
}

// Where each segment is drawn in a ladder of this width: by the findings before it, each of which takes lines.
function rows_of(count, findings, width) {
    const letters = Math.floor((width - 2 * EDGE - 20) / LETTER), starts = [0];
    const marked = findings.filter(({ at }) => at < count).map(({ at, rule }) => ({ at, lines: in_lines(rule, letters) }));
    marked.forEach(({ lines }) => starts.push(starts.at(-1) + LINE * lines.length));
    // How many findings lie before a segment.
    const before = at => {
        let [low, high] = [0, marked.length];
        while (low < high) {
            const middle = (low + high) >> 1;
            marked[middle].at < at ? low = middle + 1 : high = middle;
        }
        return low;
    };
    const top = at => (LABEL + SLANT) * at + starts[before(at)];
    return {
        top, height: top(count) + SLANT,
        lines: at => marked[before(at)]?.at === at ? marked[before(at)].lines : [],
        // The first segment that lies at this height or below it.
        from(height) {
            let [low, high] = [0, count];
            while (low < high) {
                const middle = (low + high) >> 1;
                top(middle) < height ? low = middle + 1 : high = middle;
            }
            return low;
        },
    };
}

function segment_drawn({ columns, is_fine, rows, width, led }, at) {
    const lines = rows.lines(at), is_of_a = columns.is_of_b[at] === 0, number = columns.number[at];
    const [from, to] = is_of_a ? [EDGE, width - EDGE] : [width - EDGE, EDGE], y = rows.top(at) + LABEL - 6;
    const words = (height, line, name) => `<text class="${name}" x="${from + (is_of_a ? 10 : -10)}" y="${height}" ` +
        `text-anchor="${is_of_a ? "start" : "end"}">${line}</text>`;
    const found = lines.map((line, place) => words(y + SLANT + LINE * (place + 1), escaped(line), "finding")).join("");
    const told = parts_told([String(number), flags_told(columns.bits[at])]), time = time_told(columns.time[at], is_fine);
    const band = at === led ? `<rect class="led" x="0" y="${rows.top(at) + 2}" width="${width}" height="${rows.top(at + 1) - rows.top(at)}"/>` : "";
    const numbers = `seq ${columns.seq[at]} ack ${columns.ack[at]} win ${columns.window[at]} len ${columns.text[at]}`;
    return `<g class="arrow${lines.length > 0 ? " accused" : ""}" data-side="${is_of_a ? "A" : "B"}" data-number="${number}">${band}` +
        `<path class="shaft" d="M${from} ${y}L${to} ${y + SLANT}"/>${head_at(to, y + SLANT, to - from, SLANT, true)}` +
        words(y - 18, time === "" ? told : `${told}<tspan class="time" dx="8">${time}</tspan>`, "strong") +
        `${words(y - 5, numbers, "")}${found}</g>`;
}

export function capture_ladder({ box, canvas, picture, heads }) {
    let shown = null, drawn = [0, -1], frame = 0;

    function draw(is_forced) {
        if (shown === null) {
            return;
        }
        const { rows, width } = shown, { height } = rows, from = box.scrollTop, to = from + box.clientHeight;
        if (!is_forced && from >= drawn[0] && Math.min(to, height) <= drawn[1]) {
            return;
        }
        // Only what can be seen, and some around it, is drawn.
        drawn = [Math.max(0, from - AROUND_SEEN), Math.min(height, to + AROUND_SEEN)];
        const [top, bottom] = drawn, seen = [];
        for (let at = rows.from(top - MOST_ROW); at < shown.columns.number.length && rows.top(at) <= bottom; at += 1) {
            seen.push(segment_drawn(shown, at));
        }
        picture.style.top = `${top}px`;
        for (const [name, value] of Object.entries({ width, height: bottom - top, viewBox: `0 ${top} ${width} ${bottom - top}`, "font-size": SIZE })) {
            picture.setAttribute(name, value);
        }
        picture.innerHTML = `<path class="life" d="M${EDGE} ${top}V${bottom}M${width - EDGE} ${top}V${bottom}"/>${seen.join("")}`;
    }

    function fit() {
        if (shown === null || box.clientWidth === 0) {
            return;
        }
        const width = box.clientWidth, rows = rows_of(shown.columns.number.length, shown.findings, width);
        shown = { ...shown, rows, width };
        canvas.style.height = `${rows.height}px`;
        draw(true);
    }

    new ResizeObserver(() => {
        if (shown !== null && box.clientWidth !== shown.width) {
            fit();
        } else {
            draw(false);
        }
    }).observe(box);
    box.addEventListener("scroll", () => {
        cancelAnimationFrame(frame);
        frame = requestAnimationFrame(() => draw(false));
    }, { passive: true });
    return {
        // The segments of a connection between two ends, and what the report finds in them, by the packets' numbers.
        show({ columns, ends, findings, is_fine }) {
            const places = new Map(Array.from(columns.number, (number, at) => [number, at]));
            const marked = findings.filter(({ packet }) => places.has(packet)).map(({ packet, rule }) => ({ at: places.get(packet), rule }));
            shown = { columns, findings: marked.sort((one, two) => one.at - two.at), is_fine, rows: rows_of(0, [], 0), width: 0, led: -1 };
            heads.replaceChildren(...ENDS.map((end, at) => {
                const words = document.createElement("b");
                words.textContent = `${end} ${ends[at]}`;
                return words;
            }));
            box.hidden = columns.number.length === 0;
            fit();
        },
        // To the arrow of a packet, which is marked; false where it isn't there.
        lead(packet) {
            const at = shown.columns.number.indexOf(packet);
            if (at < 0) {
                return false;
            }
            shown.led = at;
            box.scrollTop = shown.rows.top(at) - box.clientHeight / 3;
            box.scrollIntoView({ block: "nearest" });
            box.focus({ preventScroll: true });
            draw(true);
            return true;
        },
        hide() {
            shown = null;
            box.hidden = true;
        },
    };
}
