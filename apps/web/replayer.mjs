// The page's end of the worker that replays long scripts (replaying.mjs). What it answers is read in parts, between which the page does
// what its user asks for.
import { REFUSED, WELL } from "./module.mjs";
import { reading_run } from "./run.mjs";

// While letters are typed the replay waits for a pause; and the page has its turn after so many milliseconds of reading.
const PAUSE_MS = 400, READING_MS = 12;

// Where there can be no worker, `call_here` answers.
export function replayer({ program_of, module_of, call_here }) {
    let worker = null, address = "", timer = 0, ticket = 0, turn = 0, is_replaying = false;
    // By name the last call that waits for its answer.
    const waiting = new Map();

    function end() {
        worker?.terminate();
        URL.revokeObjectURL(address);
        worker = null;
        is_replaying = false;
    }

    function take({ ticket: answered, answer, text }) {
        for (const [name, one] of waiting) {
            if (one.ticket === answered) {
                waiting.delete(name);
                one.then({ answer, text });
            }
        }
    }

    function begin() {
        address = URL.createObjectURL(new Blob([program_of()], { type: "text/javascript" }));
        worker = new Worker(address);
        const own = worker;
        own.onmessage = ({ data }) => own === worker && take(data);
        own.onerror = event => {
            event.preventDefault();
            if (own === worker) {
                const calls = [...waiting.values()];
                end();
                waiting.clear();
                calls.forEach(({ call, words, then }) => then(call_here(call, words)));
            }
        };
    }

    // Calls back with what the module answers, but for a call of the same name that comes after it.
    function ask(name, call, words, then) {
        if (worker === null) {
            begin();
        }
        ticket += 1;
        waiting.set(name, { ticket, call, words, then });
        worker.postMessage({ ticket, module: module_of(), call, words });
    }

    // Reads what the module writes of a script, unless another comes meanwhile.
    function read(text, then) {
        const reading = reading_run(text), own = turn;
        const go_on = () => {
            const until = performance.now() + READING_MS;
            let part = { done: false };
            while (own === turn && !part.done && performance.now() < until) {
                part = reading.next();
            }
            if (own === turn) {
                part.done ? then(part.value) : setTimeout(go_on, 0);
            }
        };
        go_on();
    }

    // The replay that goes on isn't wanted any more: its worker ends.
    function stop() {
        clearTimeout(timer);
        turn += 1;
        if (is_replaying) {
            waiting.clear();
            end();
        }
    }

    return {
        ask,
        forget: name => { waiting.delete(name); },
        stop,
        // Replays a script, and calls back with the answer, the text and the run.
        replay(script, is_typing, then) {
            stop();
            timer = setTimeout(() => {
                is_replaying = true;
                ask("steps", "steps", [script], ({ answer, text }) => {
                    is_replaying = false;
                    if (answer === WELL || answer === REFUSED) {
                        read(text, run => then(answer, text, run));
                    } else {
                        then(answer, text, null);
                    }
                });
            }, is_typing ? PAUSE_MS : 0);
        },
    };
}
