/* The proved program, beside the page: a worker does one thing for it, and is then let go with all its memory. */

import { changesBetween } from './changes.js';
import { run } from './module.js';

/**
 * The drawing, and the second files of imports.
 * @typedef {{ bytes: Uint8Array, files?: Map<string, Uint8Array> }} Given
 */

/**
 * What the page asks, with as much of what stands here as that wants: the program at first, and then one thing of a
 * drawing.
 * @typedef {Given & { does: keyof typeof DOES, program: WebAssembly.Module, bodyLength: number, script: Uint8Array,
 *     patch: Uint8Array }} Asked
 */

/** @typedef {Partial<import('./making.js').Edited>} Answer what the program says and makes, none to the first */

/** @type {WebAssembly.Module} */
let program;

/** What the files of a run are called. A name that a script can use for a second file has no blank in it. */
const DRAWING = 'the drawing', SCRIPT = 'the script', PATCH = 'the patch', MADE = 'what is made';

/**
 * Runs the program on a drawing.
 * @param {string[]} words
 * @param {Given} given
 * @param {[string, Uint8Array][]} more files beside the drawing and the second files
 */
function ran(words, { bytes, files }, ...more) {
    return run(program, words, new Map([...(files || []), [DRAWING, bytes], ...more]));
}

const DOES = {
    /** @param {{ program: WebAssembly.Module }} asked */
    begin(asked) {
        ({ program } = asked);
        return {};
    },

    /** Tells whether a file is a drawing.
        @param {Given} asked */
    check(asked) {
        const { status, text } = ran(['check', DRAWING], asked);
        return { status, text };
    },

    /** Runs a script on a drawing, and tells what it makes and what of it has changed.
        @param {Given & { bodyLength: number, script: Uint8Array }} asked */
    edit(asked) {
        const made = ran(['edit', DRAWING, SCRIPT, MADE], asked, [SCRIPT, asked.script]);
        return { ...made, changes: made.file && changesBetween(asked.bytes, asked.bodyLength, made.file) };
    },

    /** Runs a script on a drawing for its answers alone.
        @param {Given & { script: Uint8Array }} asked */
    ask(asked) {
        const { status, text } = ran(['edit', DRAWING, SCRIPT, MADE], asked, [SCRIPT, asked.script]);
        return { status, text };
    },

    /** @param {Given & { script: Uint8Array }} asked */
    pack(asked) {
        return ran(['pack', DRAWING, SCRIPT, PATCH], asked, [SCRIPT, asked.script]);
    },

    /** @param {Given & { patch: Uint8Array }} asked */
    apply(asked) {
        return ran(['apply', DRAWING, PATCH, MADE], asked, [PATCH, asked.patch]);
    },
};

self.onmessage = (/** @type {MessageEvent<Asked>} */ { data }) => {
    try {
        /** @type {Answer} */
        const answer = DOES[data.does](data);
        postMessage({ answer }, answer.file ? { transfer: [answer.file.buffer] } : undefined);
    } catch (why) {
        postMessage({ fault: String(why) });
    }
};
