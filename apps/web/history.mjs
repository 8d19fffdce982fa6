// The texts that a field has had. Each change can be undone, whoever makes it: keys, buttons, an example, a file.

const MOST_TEXTS = 200, TOGETHER = 700;

export function history(field, on_change) {
    let texts = [field.value], at = 0, last = 0;

    // What is typed without a pause is one change.
    function note(is_typing) {
        const now = performance.now(), joins = is_typing && now - last < TOGETHER && at > 0 && at === texts.length - 1;
        last = is_typing ? now : 0;
        if (field.value === texts[at]) {
            return;
        }
        if (joins) {
            texts[at] = field.value;
            return;
        }
        texts = [...texts.slice(0, at + 1), field.value].slice(-MOST_TEXTS);
        at = texts.length - 1;
    }

    function move(to) {
        if (to < 0 || to >= texts.length) {
            return false;
        }
        at = to;
        last = 0;
        field.value = texts[at];
        on_change();
        return true;
    }

    field.addEventListener("keydown", event => {
        const key = event.key.toLowerCase(), is_undo = (event.ctrlKey || event.metaKey) && key === "z" && !event.altKey;
        if (is_undo || (event.ctrlKey && key === "y")) {
            event.preventDefault();
            move(is_undo && !event.shiftKey ? at - 1 : at + 1);
        }
    });
    return {
        note,
        undo: () => move(at - 1),
        redo: () => move(at + 1),
        can: () => ({ undo: at > 0, redo: at < texts.length - 1 }),
    };
}
