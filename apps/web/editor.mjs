// The script as text that is edited in place: line numbers, marks at lines, and a fault at its line.

const PAUSE = 500;

export function editor(field, gutter, marks, callout) {
    const height = parseFloat(getComputedStyle(field).lineHeight), pad = parseFloat(getComputedStyle(field).paddingTop);
    let lines = 1, now = null, refused = new Set(), fault = null, timer = 0;

    function top_of(line) {
        return line * height + pad - field.scrollTop;
    }

    // Only what is visible is drawn.
    function draw() {
        const first = Math.max(0, Math.floor((field.scrollTop - pad) / height));
        const last = Math.min(lines - 1, first + Math.ceil(field.clientHeight / height) + 1);
        const numbers = [], bands = [];
        for (let line = first; line <= last; line += 1) {
            const kind = line === fault?.line ? "bad" : refused.has(line) ? "refused" : line === now ? "now" : "";
            numbers.push(`<span class="${kind}" data-line="${line}" style="top:${top_of(line)}px">` +
                `${kind === "bad" || kind === "refused" ? "! " : ""}${line + 1}</span>`);
            if (line === now || line === fault?.line) {
                const kind_of_band = line === fault?.line ? "bad" : "now";
                bands.push(`<span class="${kind_of_band}" style="top:${top_of(line)}px"></span>`);
            }
        }
        gutter.innerHTML = numbers.join("");
        marks.innerHTML = bands.join("");
        place_callout();
    }

    function place_callout() {
        // Below its line, or above where there is no room.
        const line = fault && fault.line !== null ? top_of(fault.line) : 0;
        const most = field.clientHeight - callout.offsetHeight;
        const top = line + height > most ? line - callout.offsetHeight : line + height;
        callout.style.top = `${Math.max(0, Math.min(top, most))}px`;
    }

    // The fault of the script; or none, and then its lines are shown next. Who is typing sees the mark at once, and
    // cause and cure after a pause.
    function show_fault(found, is_typing) {
        fault = found;
        clearTimeout(timer);
        callout.hidden = true;
        field.setAttribute("aria-invalid", String(found !== null));
        if (found === null) {
            return;
        }
        const where = found.line === null ? "" : `Line ${found.line + 1}: `;
        callout.replaceChildren(document.createElement("strong"), document.createElement("span"));
        callout.firstChild.textContent = `${where}${found.cause}.`;
        callout.lastChild.textContent = ` Cure: ${found.cure}.`;
        timer = setTimeout(() => { callout.hidden = false; place_callout(); }, is_typing ? PAUSE : 0);
        if (!is_typing && found.line !== null) {
            reveal(found.line);
        }
        draw();
    }

    function reveal(line) {
        const top = line * height;
        if (top < field.scrollTop || top > field.scrollTop + field.clientHeight - 3 * height) {
            field.scrollTop = top - field.clientHeight / 3;
        }
    }

    field.addEventListener("scroll", draw);
    field.addEventListener("keydown", event => {
        if (event.key === "Escape") {
            callout.hidden = true;
        }
    });
    new ResizeObserver(draw).observe(field);
    return {
        show_fault,
        count(number) { lines = number; },
        show_lines(current, refused_lines) {
            refused = refused_lines;
            if (current !== now && current !== null && document.activeElement !== field) {
                reveal(current);
            }
            now = current;
            draw();
        },
    };
}
