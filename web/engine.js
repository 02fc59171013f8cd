/* The program in this browser: each run has a worker of its own, with whose memory that of the run goes. */

import { Stopped } from './queue.js';

/** The least module with a memory of 64-bit places: a browser that takes it can run the program. */
const WITH_MEMORY64 = Uint8Array.of(0, 0x61, 0x73, 0x6D, 1, 0, 0, 0, 5, 3, 1, 4, 0);

/** @typedef {import('./making.js').Files} Files */
/** @typedef {import('./making.js').Said} Said */
/** @typedef {import('./making.js').Ran} Ran */
/** @typedef {import('./making.js').Edited} Edited */

/**
 * What a worker answers to each thing that it is asked.
 * @typedef {{ check: Said, edit: Edited, ask: Said, pack: Ran, apply: Ran }} Answers
 */

/** Whether this browser can run the program. */
export function canRun() {
    return typeof WebAssembly === 'object' && WebAssembly.validate(WITH_MEMORY64);
}

/** @typedef {import('./making.js').Program} Program */

/** @implements {Program} */
export class Engine {
    /**
     * @param {string} source the worker's script
     * @param {WebAssembly.Module} program
     * @param {(running: number) => void} tell is told how many runs there are when one begins or ends
     */
    constructor(source, program, tell) {
        this.place = URL.createObjectURL(new Blob([source], { type: 'text/javascript' }));
        this.program = program;
        this.tell = tell;
        this.running = 0;
        /**
         * A worker that waits for the next run.
         * @type {Worker | null}
         */
        this.ready = this.begun();
    }

    /** A worker that has the program: what the browser has made of its code so far goes along. */
    begun() {
        const worker = new Worker(this.place);
        worker.postMessage({ does: 'begin', program: this.program });
        return worker;
    }

    /**
     * Has a worker do one thing, and lets it go. It is given the drawing as a copy of its own, which is moved and not
     * copied once more. A signal ends it at once.
     * @template {keyof Answers} Does
     * @param {Does} does
     * @param {Record<string, unknown> & { bytes: Uint8Array }} words
     * @param {AbortSignal} signal
     * @returns {Promise<Answers[Does]>} what the worker answers
     */
    async once(does, words, signal) {
        if (signal.aborted) {
            throw new Stopped('stopped');
        }
        const worker = this.ready || this.begun();
        this.ready = null;
        this.tell(++this.running);
        try {
            return await answerOf(worker, { ...words, bytes: words.bytes.slice(), does }, signal);
        } finally {
            worker.terminate();
            this.ready = this.ready || this.begun();
            this.tell(--this.running);
        }
    }

    /**
     * Tells whether a file is a drawing, as `check` does.
     * @param {Uint8Array} bytes
     * @param {AbortSignal} signal
     * @returns {Promise<Said>}
     */
    check(bytes, signal) {
        return this.once('check', { bytes }, signal);
    }

    /**
     * Runs a script on a drawing; what it makes comes with what of it has changed.
     * @param {{ bytes: Uint8Array, bodyLength: number }} drawing
     * @param {Uint8Array} script
     * @param {Files} files
     * @param {AbortSignal} signal
     * @returns {Promise<Edited>}
     */
    edit({ bytes, bodyLength }, script, files, signal) {
        return this.once('edit', { bytes, bodyLength, script, files }, signal);
    }

    /**
     * Runs a script on a drawing for its answers alone.
     * @param {Uint8Array} bytes
     * @param {Uint8Array} script
     * @param {Files} files
     * @param {AbortSignal} signal
     * @returns {Promise<Said>}
     */
    ask(bytes, script, files, signal) {
        return this.once('ask', { bytes, script, files }, signal);
    }

    /**
     * Makes a patch file of a script.
     * @param {Uint8Array} bytes
     * @param {Uint8Array} script
     * @param {Files} files
     * @param {AbortSignal} signal
     * @returns {Promise<Ran>}
     */
    pack(bytes, script, files, signal) {
        return this.once('pack', { bytes, script, files }, signal);
    }

    /**
     * Puts a patch file on a drawing.
     * @param {Uint8Array} bytes
     * @param {Uint8Array} patch
     * @param {AbortSignal} signal
     * @returns {Promise<Ran>}
     */
    apply(bytes, patch, signal) {
        return this.once('apply', { bytes, patch }, signal);
    }
}

/**
 * What a worker answers to what it is asked.
 * @template {keyof Answers} Does
 * @param {Worker} worker
 * @param {Record<string, unknown> & { bytes: Uint8Array, does: Does }} asked its bytes are moved
 * @param {AbortSignal} signal
 * @returns {Promise<Answers[Does]>}
 */
function answerOf(worker, asked, signal) {
    return new Promise((resolve, reject) => {
        signal.addEventListener('abort', () => reject(new Stopped('stopped')), { once: true });
        worker.onmessage = (/** @type {MessageEvent<{ fault?: string, answer: Answers[Does] | {} }>} */ { data }) => {
            if (data.fault !== undefined) {
                reject(new Error(data.fault));
            } else if ('status' in data.answer) {
                resolve(data.answer);
            }
        };
        worker.onerror = (event) => reject(new Error(event.message || 'the worker couldn’t be started'));
        worker.postMessage(asked, [asked.bytes.buffer]);
    });
}
