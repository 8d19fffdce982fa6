// The ladder in its scrolled box: only the rows that can be seen, and some around them, are drawn.
import { form_of, HEAD, heads_drawn, height_of, rows_drawn, STYLE } from "./draw.mjs";
import { phase_of } from "./run.mjs";

const AROUND = 10;

export function ladder(box, heads, canvas, picture, { on_row, on_segment }) {
    let run = null, form = null, drawn = [0, -1], now = 0, chosen = null;
    const style = document.createElement("style");
    style.textContent = STYLE;
    document.head.append(style);

    function seen() {
        const first = Math.floor((box.scrollTop - HEAD) / form.row);
        const last = Math.ceil((box.scrollTop + box.clientHeight) / form.row);
        return [Math.max(1, first), Math.min(run.count, last)];
    }

    function draw(is_forced) {
        if (run === null) {
            return;
        }
        const [first, last] = seen();
        if (!is_forced && first >= drawn[0] && last <= drawn[1]) {
            return;
        }
        drawn = [Math.max(1, first - AROUND), Math.min(run.count, last + AROUND)];
        const top = form.row * (drawn[0] - 1), height = form.row * (drawn[1] - drawn[0] + 2);
        picture.style.top = `${top}px`;
        picture.setAttribute("width", form.width);
        picture.setAttribute("height", Math.max(0, height));
        picture.setAttribute("viewBox", `0 ${top} ${form.width} ${Math.max(0, height)}`);
        picture.setAttribute("font-size", form.size);
        picture.innerHTML = rows_drawn(run, form, drawn[0], drawn[1], { now, chosen });
    }

    function draw_heads() {
        heads.setAttribute("font-size", form.size);
        heads.innerHTML = heads_drawn(form, { A: phase_of(run, now, "A"), B: phase_of(run, now, "B") });
    }

    function fit() {
        form = form_of(run, box.clientWidth);
        canvas.style.height = `${height_of(run, form)}px`;
    }

    function reveal() {
        const top = form.row * (now - 1), seen_height = box.clientHeight - HEAD;
        if (top < box.scrollTop || top + form.row > box.scrollTop + seen_height) {
            box.scrollTop = Math.max(0, top - seen_height / 2);
        }
    }

    let width = 0, frame = 0;
    new ResizeObserver(() => {
        if (run !== null && box.clientWidth !== width) {
            width = box.clientWidth;
            fit();
            draw_heads();
            reveal();
            draw(true);
        } else {
            draw(false);
        }
    }).observe(box);
    box.addEventListener("scroll", () => {
        cancelAnimationFrame(frame);
        frame = requestAnimationFrame(() => draw(false));
    }, { passive: true });
    picture.addEventListener("click", event => {
        const found = event.target.closest("[data-number]");
        if (found) {
            on_segment(found.dataset.side, Number(found.dataset.number));
            return;
        }
        const place = event.clientY - canvas.getBoundingClientRect().top;
        on_row(Math.min(run.count, 1 + Math.floor(place / form.row)));
    });

    return {
        // The run that the next step is of.
        show_run(new_run) {
            run = new_run;
            fit();
        },
        show_step(row, segment) {
            now = row;
            chosen = segment;
            draw_heads();
            reveal();
            draw(true);
        },
        choose(segment) {
            chosen = segment;
            draw(true);
        },
    };
}
