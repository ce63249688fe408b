// The time of a clock that never goes back, and waits that never end early.

/** The longest time that a timer takes, in milliseconds. */
const LONGEST = 2 ** 31 - 1;
/** How coarse the clock of a browser may be, in milliseconds. A wait is longer by that. */
const STEP = 1;

/** The time in whole microseconds. */
export const clock = () => Math.floor(performance.now() * 1000);

/** A wait of at least so many microseconds: a promise, and a function that ends it. */
export function waiting(microseconds) {
    const wait = microseconds > 0 ? microseconds / 1000 + STEP : 0;
    const end = performance.now() + wait;
    let timer, resolve;
    const sleep = (left) => (timer = setTimeout(again, Math.min(Math.ceil(left), LONGEST)));
    const again = () => {
        const left = end - performance.now();
        if (left > 0) sleep(left);
        else resolve();
    };
    const over = new Promise((done) => {
        resolve = done;
        // even a wait of 0 lets octets through that are there already
        sleep(wait);
    });
    return { over, cancel: () => clearTimeout(timer) };
}
