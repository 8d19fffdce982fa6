// A step each time that the timer expires, until the last event or another step.

const STEP_MS = 900;

export function player(button, { is_over, begin, step }) {
    let timer = 0;

    function stop() {
        clearInterval(timer);
        timer = 0;
        button.textContent = "▸▸ Play";
    }

    function play() {
        if (timer !== 0) {
            stop();
            return;
        }
        if (is_over()) {
            begin();
        }
        button.textContent = "▮▮ Pause";
        timer = setInterval(() => {
            step();
            if (is_over()) {
                stop();
            }
        }, STEP_MS);
    }

    return { play, stop };
}
