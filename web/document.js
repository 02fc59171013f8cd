/* What is open: a value that never changes. A step takes one, and leaves another one in its place. */

import { stagesOf } from './acts.js';

/** @typedef {import('./acts.js').Act} Act */
/** @typedef {import('./acts.js').Stage} Stage */
/** @typedef {import('./answers.js').Answer} Answer */
/** @typedef {import('./drawing.js').Drawing} Drawing */
/** @typedef {import('./drawing.js').Changes} Changes */

/**
 * The drawing as it was opened. `digest` is its SHA-256, or nothing where the browser has no such sum.
 * @typedef {Readonly<{ name: string, bytes: Uint8Array, digest: string }>} Original
 */

/**
 * What acts make of a drawing: `base` is the drawing that the last script runs on, which is the original or what the
 * last patch file made; then that script, its answers, the bytes that it makes, and which of them differ from those of
 * `base`.
 * @typedef {Readonly<{ base: Drawing, lines: readonly string[], answers: readonly (Answer | null)[], bytes: Uint8Array,
 *     changes: Changes | null }>} Made
 */

/**
 * @typedef {object} Fields
 * @property {Original} original
 * @property {readonly Act[]} acts
 * @property {readonly Act[]} undone
 * @property {ReadonlyMap<string, Uint8Array>} files
 * @property {Made} made
 * @property {Act | null} saved
 * @property {string} savedDigest
 */

/** An open drawing, and all that was done to it. */
export class Document {
    /** @param {Fields} fields */
    constructor({ original, acts, undone, files, made, saved, savedDigest }) {
        this.original = original;
        this.acts = acts;
        /** What was taken back, the last act last. */
        this.undone = undone;
        /** The second drawings of imports, by the names that the script uses. */
        this.files = files;
        this.made = made;
        /** The last act that stands in a file which is known to be whole; none is the drawing as it was opened. */
        this.saved = saved;
        /** The SHA-256 of the drawing that was saved last. */
        this.savedDigest = savedDigest;
        Object.freeze(this);
    }

    /**
     * A drawing to which nothing was done.
     * @param {Original} original
     * @param {Drawing} base
     */
    static of(original, base) {
        const made = Object.freeze({ base, lines: [], answers: [], bytes: original.bytes, changes: null });
        return new Document({ original, acts: [], undone: [], files: new Map(), made, saved: null, savedDigest: '' });
    }

    /**
     * The same with other fields.
     * @param {Partial<Fields>} fields
     */
    with(fields) {
        return new Document({ ...this, ...fields });
    }

    /** The last act, or null. A state of the work is known by it, since what was done before it never changes. */
    get last() {
        return this.acts.length > 0 ? this.acts[this.acts.length - 1] : null;
    }

    /** The lines of the script as it stands. */
    get lines() {
        return this.made.lines;
    }

    get answers() {
        return this.made.answers;
    }

    /** What was done before the script: scripts and patch files. */
    get before() {
        return stagesOf(this.acts).slice(0, -1);
    }

    /** Whether there is a line or a patch file. */
    get hasWork() {
        return this.lines.length > 0 || this.acts.some((act) => act.why === 'patch');
    }

    /** Whether a line or a patch file is in no file. */
    get isUnsaved() {
        return this.hasWork && this.last !== this.saved;
    }

    /**
     * The lines that were accepted before one, with their numbers from 1.
     * @param {number} index
     */
    doneBefore(index) {
        return this.lines.slice(0, index).map((line, at) => ({ line, at: at + 1 })).filter((_, at) => {
            const answer = this.answers[at];
            return answer !== null && answer.cause === null;
        });
    }
}
