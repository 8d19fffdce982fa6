// The page's end of the worker that reads a capture and has it judged (reading.mjs): one worker for each capture, ended by the next one
// or by the user. `on_end` is told in words why it ended, and whether nothing of the capture is to be shown any more.

export function reader({ part, bar, told, cancel }, { program_of, module_of, on_reported, on_listed, on_end }) {
    let worker = null, address = "", is_reported = false, is_resting = false, ticket = 0, on_drawn = null;

    function progress(words, done, total) {
        part.hidden = false;
        bar.max = Math.max(1, total);
        bar.value = done;
        told.textContent = `${words}: ${done.toLocaleString("en")} of ${total.toLocaleString("en")}`;
    }

    function stop() {
        worker?.terminate();
        URL.revokeObjectURL(address);
        worker = null;
        part.hidden = true;
    }

    // The verdict stays, once it is there, and the worker may be asked for it again.
    function failed(cause) {
        if (is_reported) {
            part.hidden = true;
            on_end(`The capture's ladder can't be drawn: ${cause}.`, false);
        } else {
            stop();
            on_end(`The capture can't be read: ${cause}.`, true);
        }
    }

    // What is read is being judged, or drawn: how far that is isn't known.
    function working(words) {
        part.hidden = false;
        bar.removeAttribute("value");
        told.textContent = words;
    }

    const takes = {
        read: ({ done, total }) => progress("Bytes read", done, total),
        judging: ({ total }) => working(`${total.toLocaleString("en")} bytes are being judged`),
        reported(found) {
            const is_first = !is_reported;
            is_reported = true;
            part.hidden = true;
            if (is_first && found.text !== "") {
                working("The segments are being read for the ladder");
            }
            on_reported(found, is_first);
        },
        listed(found) {
            if (!is_resting) {
                part.hidden = true;
                on_listed(found);
            }
        },
        drawn(found) {
            if (found.ticket === ticket) {
                on_drawn(found);
            }
        },
        failed: ({ cause }) => failed(cause),
    };

    // So it does where the user cancels.
    cancel.addEventListener("click", () => {
        if (is_reported) {
            worker?.postMessage({ kind: "rest" });
            is_resting = part.hidden = true;
        } else {
            stop();
        }
        on_end(is_reported ? "The ladder is cancelled." : "The reading is cancelled.", !is_reported);
    });
    return {
        stop,
        read(file) {
            stop();
            is_reported = is_resting = false;
            address = URL.createObjectURL(new Blob([program_of()], { type: "text/javascript" }));
            worker = new Worker(address);
            const own = worker;
            own.onmessage = ({ data }) => own === worker && takes[data.kind](data);
            own.onerror = event => {
                event.preventDefault();
                if (own === worker) {
                    failed(event.message || "its worker can't be started");
                }
            };
            progress("Bytes read", 0, file.size);
            own.postMessage({ kind: "read", module: module_of(), file });
        },
        // Asks for the report of the capture, taken at this address.
        report(place) {
            working("The capture is being judged");
            worker?.postMessage({ kind: "report", place });
        },
        // Asks for the segments of a connection. Only the last answer asked for is called back.
        draw(connection, call) {
            ticket += 1;
            on_drawn = call;
            worker?.postMessage({ kind: "draw", connection, ticket });
        },
    };
}
