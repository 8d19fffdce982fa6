// The page: the script is replayed by the module as it is edited, and what comes of it is shown.
import { calls, compiled_of, WELL, REFUSED, FAULT } from "./module.mjs";
import { SIDES, comment_at, event_at, other, places_of, read_run, segment_at, spaces_of, state_of } from "./run.mjs";
import { fault_of, FORMS, judged_told, MOST_EVENTS, NO_MEMORY_FAULT, printable, segments_told, sentence, too_long_fault } from "./told.mjs";
import { key_drawn, whole_drawn } from "./draw.mjs";
import { counts_told, end_drawn } from "./bars.mjs";
import { editor } from "./editor.mjs";
import { ladder } from "./ladder.mjs";
import { fragment_of, script_of } from "./link.mjs";
import { lossy_script, run_to_end, with_lines } from "./actions.mjs";
import { acts } from "./acts.mjs";
import { history } from "./history.mjs";
import { on_file, save_file } from "./files.mjs";
import { capture_ladder } from "./captured.mjs";
import { opened } from "./opened.mjs";
import { listing } from "./listing.mjs";
import { capture_of, is_capture } from "./captures.mjs";
import { reader } from "./reader.mjs";
import { replayer } from "./replayer.mjs";
import { player } from "./player.mjs";
import { packets_of } from "./packets.mjs";

const at = id => document.getElementById(id);
const field = at("script"), slider = at("step"), report = at("report");
const examples = JSON.parse(at("examples").textContent);
const ONE_COLUMN = matchMedia("(max-width: 899.98px)");
const PICTURE_WIDTH = 760, SLOW = 1000, JUMP = 10;
// A script of more letters is replayed apart from the page, and of a longer report only the beginning is shown.
const LONG = 250000, MOST_REPORT = 200000;

const text_view = editor(field, at("gutter"), at("marks"), at("callout"));
const texts = history(field, () => edited(false));
const buttons = acts({
    sides: { A: at("acts-A"), B: at("acts-B") }, wire: at("wire"), text: at("text"), arrive: at("arrive"),
    damage: at("damage"), lose: at("lose"),
}, lines => change(with_lines(field.value, lines), true));
const judged = opened({ part: at("judged"), place: at("taken-at"), choice: at("connection"), report: at("capture-report"), told: at("judged-told"),
    verdict: at("verdict"), verdict_told: at("verdict-told") },
capture_ladder({ box: at("captured"), canvas: at("captured-canvas"), picture: at("captured-picture"), heads: at("captured-heads") }),
{ report: place => captures.report(place), draw: (...words) => captures.draw(...words) }, say);
const segments = listing({ list: at("segments"), told: at("segments-told"), shown: at("segments-listing") }, () => core, close_capture);
const captures = reader({ part: at("reading"), bar: at("reading-bar"), told: at("reading-told"), cancel: at("reading-cancel") }, {
    program_of: () => at("reader").textContent, module_of: () => compiled,
    on_reported: (found, is_first) => judged.show(found, is_first),
    on_listed(found) {
        segments.show_capture(found);
        judged.list(found);
    },
    on_end(words, is_over) {
        is_over ? judged.hide() : judged.rest();
        say(words);
    },
});
const long = replayer({ program_of: () => at("replayer").textContent, module_of: () => compiled, call_here: (call, words) => core[call](...words) });
const { play, stop } = player(at("play"), { is_over: () => step === run.count, begin: () => go(0), step: () => go(step + 1) });
const view = ladder(at("ladder"), at("heads"), at("canvas"), at("picture"), { on_row: go, on_segment: choose });

// What is shown: the last script that was taken, its run, and the current event.
let compiled = null, core = null, taken = "", run = null, places = null, refused_lines = new Set(), step = 0, chosen = null;
// Whether the next run is shown at its last event.
let to_last = false;
// The script that was saved or linked last, and the timers of what the module is asked for.
let kept = "";
const asked = new Map();

// Calls back with what the module says of the script that is shown, once for each name. Of a long one it waits until the stepping
// rests, and the page's thread stays free.
function ask(name, call, words, then) {
    clearTimeout(asked.get(name));
    long.forget(name);
    if (call !== null && run.count < SLOW) {
        then(core[call](taken, ...words));
    } else if (call !== null) {
        asked.set(name, setTimeout(() => long.ask(name, call, [taken, ...words], then), 100));
    }
}

function replay(is_typing) {
    const script = field.value, { at: rows, lines } = places_of(script), count = rows.length - 1;
    text_view.count(lines.length);
    long.stop();
    wait(count <= MOST_EVENTS && script.length > LONG);
    if (count > MOST_EVENTS) {
        show_replayed(script, is_typing, too_long_fault(count), null);
    } else if (script.length <= LONG) {
        const { answer, text } = core.steps(script), is_taken = answer === WELL || answer === REFUSED;
        show_replayed(script, is_typing, is_taken ? null : fault_told(answer, text, script), is_taken ? read_run(text) : null);
    } else {
        announce(at("waiting").textContent);
        long.replay(script, is_typing, (answer, text, new_run) => {
            wait(false);
            show_replayed(script, is_typing, new_run === null ? fault_told(answer, text, script) : null, new_run);
        });
    }
}

function fault_told(answer, text, script) {
    return answer === FAULT ? fault_of(text, script) : NO_MEMORY_FAULT;
}

// While a long script is replayed, what is shown is the run of the one before it.
function wait(is_waiting) {
    at("waiting").hidden = !is_waiting;
    document.body.classList.toggle("is-waiting", is_waiting);
    if (is_waiting) {
        text_view.show_fault(null, true);
        text_view.show_lines(null, new Set());
        at("stale").hidden = true;
        allow(false);
    }
}

// Whether there is a run of the script in the field, to save and to add to.
function allow(is_taken) {
    at("save").disabled = at("save-capture").disabled = !is_taken;
    at("acts").querySelectorAll("button").forEach(part => { part.disabled = !is_taken && part.id !== "lossy"; });
}

// The run of the script, or its fault.
function show_replayed(script, is_typing, fault, new_run) {
    document.body.classList.toggle("is-stale", fault !== null && run !== null);
    at("stale").hidden = fault === null || run === null;
    allow(fault === null);
    if (fault !== null) {
        text_view.show_fault(fault, is_typing);
        announce(`${fault.line === null ? "" : `Line ${fault.line + 1}: `}${fault.cause}. Cure: ${fault.cure}.`);
        to_last = false;
        show_report();
        return;
    }
    const was_last = run !== null && step === run.count && step > 0;
    taken = script;
    run = new_run;
    places = places_of(script);
    refused_lines = new Set(run.refused.map(row => places.at[row]));
    slider.max = run.count;
    text_view.show_fault(null, is_typing);
    view.show_run(run);
    buttons.show_run(run, script);
    at("finish").disabled = run.count > SLOW;
    go(is_typing && was_last || to_last ? run.count : Math.min(step, run.count));
    to_last = false;
    show_report();
}

function show_report() {
    const part = report.lastElementChild, script = field.value;
    long.forget("report");
    part.textContent = "";
    if (report.open && script.length <= LONG) {
        part.textContent = core.replay(script).text;
    } else if (report.open && at("waiting").hidden) {
        long.ask("report", "replay", [script], ({ text }) => {
            const most = text.lastIndexOf("\n", MOST_REPORT) + 1;
            part.textContent = text.length <= MOST_REPORT ? text : `${text.slice(0, most)}These are the first lines. tcpkit replay writes all.\n`;
        });
    }
}

// Makes an event the current one; 0 is before the first.
function go(row) {
    step = Math.max(0, Math.min(run.count, row));
    const event = event_at(run, step);
    slider.value = step;
    const told = event === null
        ? "Before the first event. The arrow keys, the slider and the buttons step through the events."
        : sentence(event);
    slider.setAttribute("aria-valuetext", `${step} of ${run.count}: ${told}`);
    at("place").textContent = `${step} of ${run.count}`;
    at("back").disabled = step === 0;
    at("next").disabled = step === run.count;
    at("play").disabled = run.count === 0;
    at("sentence").textContent = told;
    if (document.activeElement !== slider) {
        announce(told);
    }
    at("comment").textContent = comment_at(places, step);
    show_rule(event);
    at("ends-place").textContent = step === 0 ? "before the first event" : `after event ${step}`;
    show_ends(step);
    chosen = null;
    const segment = event?.segment ?? event?.arrow?.segment ?? null;
    view.show_step(step, segment);
    text_view.show_lines(places.at[step], refused_lines);
    if (segment !== null) {
        show_segment(segment, event.arrow?.first ?? segment.number);
    } else {
        show_segment(null);
    }
}

// The states of both ends, and their numbers and timers.
function show_ends(row) {
    const draw = numbers => {
        for (const side of SIDES) {
            at(`end-${side}`).innerHTML = end_drawn(state_of(run, row, side), numbers[side] ?? null);
        }
    };
    if (run.count >= SLOW) {
        draw({});
    }
    ask("numbers", "numbers", [row], ({ answer, text }) => draw(answer === WELL ? spaces_of(text) : {}));
}

// By which rule a segment was judged that arrived, and what came of it.
function show_rule(event) {
    at("rule").textContent = "";
    const is_judged = event !== null && event.kind === "deliver" && !event.refused && !event.is_repeat;
    ask("rule", is_judged ? "rule" : null, [step - 1], ({ answer, text }) => {
        at("rule").textContent = answer === WELL ? judged_told(run, event, text) : "";
    });
}

function choose(side, number) {
    const segment = segment_at(run, side, number);
    view.choose(segment);
    show_segment(segment, number);
}

// The segment as the listing has it, and what became of it.
function show_segment(segment, number) {
    chosen = segment && { side: segment.side, number };
    at("segment-back").disabled = segment === null || segment_at(run, segment.side, number - 1) === null;
    at("segment-next").disabled = segment === null || segment_at(run, segment.side, number + 1) === null;
    at("listing").textContent = "";
    at("segment-text").textContent = "";
    if (segment === null) {
        at("segment-told").textContent = "A click on an arrow shows its segment here.";
        buttons.show_segment(null, false);
        ask("segment", null, [], () => {});
        return;
    }
    const group = segment.count > 1 ? ` (one of ${segments_told(segment)})` : "";
    const arrows = segment.arrows.filter(arrow => number >= arrow.first && number < arrow.first + arrow.count);
    at("segment-told").textContent = `${segment.side}'s segment ${number}${group}, emitted at event ${segment.row}: ` +
        `${arrows.map(fate).join("; ")}.`;
    buttons.show_segment(chosen, arrows.some(arrow => arrow.kind !== "lost"));
    ask("segment", "show", [segment.side, number], ({ text }) => {
        at("listing").textContent = text;
        const letters = printable(text.slice(text.lastIndexOf(" ") + 1));
        at("segment-text").textContent = letters === null ? "" : `Its text in letters: “${letters}”`;
    });
}

function fate(arrow) {
    const where = `at ${other(arrow.segment.side)} at event ${arrow.to}`;
    const again = arrow.is_again ? ", again" : "";
    return { lost: "lost", damaged: `damaged, ${where}`, dropped: `dropped ${where}${again}` }[arrow.kind]
        ?? `arrived ${where}${again}`;
}

// Another script in place of the one that is there; undoing brings that back.
function change(script, to_end) {
    stop();
    field.value = script;
    to_last = to_end;
    edited(false);
}

// The text of the field has changed.
function edited(is_typing) {
    texts.note(is_typing);
    const { undo, redo } = texts.can();
    at("undo").disabled = !undo;
    at("redo").disabled = !redo;
    const script = field.value, example = examples.findIndex(one => one.script === script);
    at("example").value = example < 0 ? "" : String(example);
    replay(is_typing);
}

function load(script, event = 0) {
    field.scrollTop = 0;
    step = event;
    change(script, false);
}

function is_own() {
    return field.value !== "" && field.value !== kept && examples.every(example => example.script !== field.value);
}

function announce(words) {
    at("live").textContent = words;
}

function say(words) {
    at("said").textContent = words;
    announce(words);
}

async function give_link() {
    const fragment = await fragment_of(field.value, step);
    history_entry(fragment);
    kept = field.value;
    try {
        await navigator.clipboard.writeText(location.href);
        say("The link is copied. It holds the script and the event.");
    } catch {
        say("The link is in the address bar. It holds the script and the event.");
    }
}

function history_entry(fragment) {
    globalThis.history.replaceState(null, "", fragment);
}

function save() {
    const title = examples.find(example => example.script === taken)?.title ?? "A TCP connection";
    save_file("ladder.svg", "image/svg+xml", whole_drawn(run, PICTURE_WIDTH, title));
    say("The ladder is saved as ladder.svg.");
}

function save_script() {
    save_file("tcp.script", "text/plain", field.value);
    kept = field.value;
    say("The script is saved as tcp.script.");
}

// What both ends emit, or what is seen at one of them, as packets.
function save_capture() {
    const where = at("capture-at").value;
    ask("sent", "sent", [], ({ answer, text }) => {
        const packets = answer === WELL ? packets_of(run, places, text, where) : [];
        save_file("tcp.pcap", "application/vnd.tcpdump.pcap", capture_of(packets));
        say(`The capture is saved as tcp.pcap. It has ${packets.length} packet${packets.length === 1 ? "" : "s"}.`);
    });
}

function close_capture() {
    captures.stop();
    judged.hide();
}

// A capture is read apart from the page, and any other file is a script.
async function open_file(file) {
    if (is_capture(new Uint8Array(await file.slice(0, 4).arrayBuffer()))) {
        close_capture();
        judged.expect(file.name);
        captures.read(file);
        return;
    }
    const text = await file.text();
    load(text);
    kept = text;
    say(`${file.name} is open.`);
}

async function open_link() {
    try {
        const found = await script_of(location.hash);
        if (found !== null && found.script !== field.value) {
            load(found.script, found.event);
            kept = found.script;
        }
        return found !== null;
    } catch {
        say("The link holds no script that can be read.");
        return false;
    }
}

function choose_example() {
    if (at("example").value === "") {
        return;
    }
    const was_own = is_own();
    load(examples[at("example").value].script);
    say(was_own ? "Undo brings your script back." : "");
}

function finish() {
    const script = run_to_end(core, field.value);
    change(script, true);
    say("The users, timers and the network are run to the end.");
}

function lossy() {
    change(lossy_script(core, Math.floor(Math.random() * 1e6)), true);
}

const MOVES = {
    ArrowLeft: () => step - 1, ArrowRight: () => step + 1, ArrowUp: () => step - 1, ArrowDown: () => step + 1,
    PageUp: () => step - JUMP, PageDown: () => step + JUMP, Home: () => 0, End: () => run.count,
};

function on_key(event) {
    const is_ladder = at("ladder").contains(event.target);
    const is_free = is_ladder || !event.target.closest("textarea, select, input, pre");
    const is_taken = event.key in MOVES && (is_ladder || event.key === "ArrowLeft" || event.key === "ArrowRight");
    if (run === null || !is_free || !is_taken || event.ctrlKey || event.altKey || event.metaKey) {
        return;
    }
    event.preventDefault();
    stop();
    go(MOVES[event.key]());
}

// To the event of the line that the cursor is in, or of the next line with one.
function on_line() {
    const line = field.value.slice(0, field.selectionStart).split("\n").length - 1;
    const row = places === null ? -1 : places.at.findIndex(place => place !== null && place >= line);
    if (row > 0 && field.value === taken) {
        stop();
        go(row);
    }
}

function listen() {
    field.addEventListener("input", () => edited(true));
    field.addEventListener("keydown", event => {
        if (event.key === "Enter" && (event.ctrlKey || event.metaKey)) {
            event.preventDefault();
            on_line();
        }
    });
    slider.addEventListener("input", () => { stop(); go(Number(slider.value)); });
    for (const [id, act] of Object.entries({
        play, finish, lossy, undo: texts.undo, redo: texts.redo, link: give_link, save, "save-script": save_script,
        "save-capture": save_capture, back: () => { stop(); go(step - 1); }, next: () => { stop(); go(step + 1); },
        "segment-back": () => choose(chosen.side, chosen.number - 1), "segment-next": () => choose(chosen.side, chosen.number + 1),
        open: () => at("file").click(), "open-capture": () => at("capture").click(),
    })) {
        at(id).addEventListener("click", act);
    }
    // To the verdict, and not to another script: the address stays.
    at("verdict-link").addEventListener("click", event => {
        event.preventDefault();
        at("judged").scrollIntoView();
        at("capture-report").focus({ preventScroll: true });
    });
    at("example").addEventListener("change", choose_example);
    at("gutter").addEventListener("click", event => {
        const row = places.at.indexOf(Number(event.target.dataset.line));
        if (row > 0) {
            go(row);
        }
    });
    on_file([at("file"), at("capture")], open_file);
    addEventListener("beforeunload", event => {
        if (is_own()) {
            event.preventDefault();
        }
    });
    report.addEventListener("toggle", show_report);
    document.addEventListener("keydown", on_key);
    addEventListener("hashchange", open_link);
}

function fill() {
    examples.forEach(({ title }, number) => at("example").append(new Option(title, number)));
    for (const [, form, meaning] of FORMS) {
        const name = document.createElement("dt"), told = document.createElement("dd");
        name.textContent = form;
        told.textContent = meaning;
        at("forms").append(name, told);
    }
    at("key").innerHTML = key_drawn();
    at("counts").innerHTML = counts_told();
}

// Where all is in one column the ladder comes first, for the eye and for the keys.
function order_parts() {
    at("main").insertBefore(at("ladder-part"), at(ONE_COLUMN.matches ? "script-part" : "ends-part"));
    if (run !== null) {
        view.show_step(step, chosen && segment_at(run, chosen.side, chosen.number));
    }
}

async function start() {
    fill();
    order_parts();
    ONE_COLUMN.addEventListener("change", order_parts);
    try {
        const bytes = Uint8Array.from(atob(at("module").textContent.trim()), letter => letter.charCodeAt(0));
        compiled = await compiled_of(bytes);
        core = await calls(compiled);
    } catch {
        at("unsupported").hidden = false;
        at("finished").hidden = false;
        at("finished").innerHTML = JSON.parse(at("pictures").textContent).join("");
        at("main").hidden = at("opening").hidden = true;
        return;
    }
    listen();
    if (!await open_link()) {
        load(examples[0].script);
    }
    document.body.dataset.ready = "yes";
}

// For the page's test, which passes bytes that no text has, and seeds.
globalThis.replay_bytes = bytes => core.replay(bytes);
globalThis.lossy_text = seed => lossy_script(core, seed);
start();
