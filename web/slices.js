/* Long work in slices, between which the page answers to its user. */

const LONGEST_SLICE = 30;         // milliseconds
/** So many elements are a piece of work: the clock is looked at behind each. */
export const PIECE = 16384;

/**
 * Work that can be left behind each of its pieces, and what comes out of it.
 * @template T
 * @typedef {Generator<void, T, void>} Pieces
 */

/**
 * Does all of a work at once.
 * @template T
 * @param {Pieces<T>} work
 * @returns {T}
 */
export function atOnce(work) {
    let step = work.next();
    while (!step.done) {
        step = work.next();
    }
    return step.value;
}

/**
 * Does a work in slices. Where the signal comes it is left, and the promise is broken with the signal's reason.
 * @template T
 * @param {Pieces<T>} work
 * @param {AbortSignal | null} signal
 * @returns {Promise<T>}
 */
export async function inSlices(work, signal = null) {
    const turns = new Turns();
    try {
        let step = sliceOf(work, signal);
        while (!step.done) {
            await turns.next();
            step = sliceOf(work, signal);
        }
        return step.value;
    } finally {
        turns.end();
    }
}

/**
 * Does a work while the page has nothing else to do, until a signal comes.
 * @param {Pieces<void>} work
 * @param {AbortSignal} signal
 */
export function whenIdle(work, signal) {
    const go = (/** @type {IdleDeadline} */ deadline) => {
        while (!signal.aborted && deadline.timeRemaining() > 2) {
            if (work.next().done) {
                return;
            }
        }
        if (!signal.aborted) {
            requestIdleCallback(go);
        }
    };
    requestIdleCallback(go);
}

/**
 * Works for the time of a slice, unless the signal has come.
 * @template T
 * @param {Pieces<T>} work
 * @param {AbortSignal | null} signal
 */
function sliceOf(work, signal) {
    if (signal !== null && signal.aborted) {
        throw signal.reason;
    }
    const end = performance.now() + LONGEST_SLICE;
    let step = work.next();
    while (!step.done && performance.now() < end) {
        step = work.next();
    }
    return step;
}

/** Turns of the event loop: a message comes behind what waits already, and without the pause that timers have. */
class Turns {
    constructor() {
        this.channel = new MessageChannel();
        /** @type {() => void} */
        this.go = () => {};
        this.channel.port1.onmessage = () => this.go();
    }

    /** @returns {Promise<void>} */
    next() {
        return new Promise((resolve) => {
            this.go = resolve;
            this.channel.port2.postMessage(null);
        });
    }

    end() {
        this.channel.port1.close();
    }
}
