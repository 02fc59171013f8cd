/* What acts make of a drawing: the program runs each script, and puts each patch file on what came of it. */

import { beginAlike, patchedCount, stagesOf } from './acts.js';
import { answersOf } from './answers.js';
import { byteString, bytesOf } from './byte_strings.js';
import { LISTED_MOST } from './limits.js';
import { Fault } from './opening.js';

/** @typedef {import('./acts.js').Act} Act */
/** @typedef {import('./acts.js').PatchAct} PatchAct */
/** @typedef {import('./document.js').Document} Document */
/** @typedef {import('./document.js').Made} Made */
/** @typedef {import('./drawing.js').Drawing} Drawing */
/** @typedef {ReadonlyMap<string, Uint8Array>} Files */

/** @typedef {{ status: number, text: Uint8Array }} Said the exit number, and what was printed */
/** @typedef {Said & { file: Uint8Array | null }} Ran */
/** @typedef {Ran & { changes: import('./drawing.js').Changes | null }} Edited */

/**
 * The program, as it is run here: each call is one run. A run ends by Stopped where its signal says so.
 * @typedef {object} Program
 * @property {(bytes: Uint8Array, signal: AbortSignal) => Promise<Said>} check
 * @property {(drawing: { bytes: Uint8Array, bodyLength: number }, script: Uint8Array, files: Files,
 *     signal: AbortSignal) => Promise<Edited>} edit
 * @property {(bytes: Uint8Array, script: Uint8Array, files: Files, signal: AbortSignal) => Promise<Said>} ask
 * @property {(bytes: Uint8Array, script: Uint8Array, files: Files, signal: AbortSignal) => Promise<Ran>} pack
 * @property {(bytes: Uint8Array, patch: Uint8Array, signal: AbortSignal) => Promise<Ran>} apply
 */

/**
 * What reads a drawing so that it can be drawn.
 * @typedef {(name: string, bytes: Uint8Array, signal: AbortSignal) => Promise<Drawing | Fault>} Reader
 */

/** Why the program doesn't run something: the exit number, and what it said. */
export class NotRun extends Error {
    /**
     * @param {Said} said
     * @param {string} [name] the patch file or the drawing that it is about
     */
    constructor({ status, text }, name = '') {
        const said = byteString(text).trimEnd();
        super(said);
        this.status = status;
        this.said = said;
        this.name = name;
    }
}

/**
 * The bytes of a script of these lines.
 * @param {readonly string[]} lines
 */
export function scriptOf(lines) {
    return bytesOf(lines.map((line) => line + '\n').join(''));
}

/**
 * The lines of a script that is opened.
 * @param {Uint8Array} bytes
 */
export function linesOf(bytes) {
    const lines = byteString(bytes).split('\n');
    if (lines[lines.length - 1] === '') {
        lines.pop();
    }
    return lines;
}

export class Maker {
    /**
     * @param {Program} program
     * @param {Reader} read
     */
    constructor(program, read) {
        this.program = program;
        this.read = read;
    }

    /**
     * What acts make of the drawing that a document is of. It throws NotRun where the program doesn't run one of them,
     * and Stopped.
     * @param {Document} document
     * @param {readonly Act[]} acts
     * @param {Files} files
     * @param {AbortSignal} signal
     * @returns {Promise<Made>}
     */
    async make(document, acts, files, signal) {
        const base = await this.baseOf(document, acts, files, signal), stages = stagesOf(acts);
        return this.run(base, stages[stages.length - 1].lines, files, signal);
    }

    /**
     * Runs a script on a drawing.
     * @param {Drawing} base
     * @param {readonly string[]} lines
     * @param {Files} files
     * @param {AbortSignal} signal
     * @returns {Promise<Made>}
     */
    async run(base, lines, files, signal) {
        if (lines.length === 0) {
            return Object.freeze({ base, lines, answers: [], bytes: base.bytes, changes: null });
        }
        const ran = await this.program.edit(base, scriptOf(lines), files, signal);
        if (ran.status > 1 || ran.file === null) {
            throw new NotRun(ran);
        }
        const answers = answersOf(lines, byteString(ran.text)).map((it) => (
            it === null || it.listed.length <= LISTED_MOST ? it : { ...it, listed: it.listed.slice(0, LISTED_MOST) }));
        return Object.freeze({ base, lines, answers, bytes: ran.file, changes: ran.changes });
    }

    /**
     * The drawing that the last script of acts runs on: that of the document where the acts before it are the same.
     * @param {Document} document
     * @param {readonly Act[]} acts
     * @param {Files} files
     * @param {AbortSignal} signal
     */
    async baseOf(document, acts, files, signal) {
        const count = patchedCount(acts);
        if (count === patchedCount(document.acts) && beginAlike(acts, document.acts, count)) {
            return document.made.base;
        }
        let base = await this.drawingOf(document.original.name, document.original.bytes, signal);
        for (const { lines, patch } of stagesOf(acts).slice(0, -1)) {
            const { bytes } = await this.run(base, lines, files, signal);
            base = await this.patched(document, bytes, /** @type {PatchAct} */ (patch), signal);
        }
        return base;
    }

    /**
     * The drawing that a patch file makes of bytes, which the program checks.
     * @param {Document} document
     * @param {Uint8Array} bytes
     * @param {PatchAct} patch
     * @param {AbortSignal} signal
     */
    async patched({ original }, bytes, patch, signal) {
        const applied = await this.program.apply(bytes, patch.bytes, signal);
        if (applied.file === null) {
            throw new NotRun(applied, patch.name);
        }
        const checked = await this.program.check(applied.file, signal);
        if (checked.status !== 0) {
            throw new NotRun(checked, 'what ' + patch.name + ' makes of it');
        }
        return this.drawingOf(original.name, applied.file, signal);
    }

    /**
     * @param {string} name
     * @param {Uint8Array} bytes
     * @param {AbortSignal} signal
     */
    async drawingOf(name, bytes, signal) {
        const read = await this.read(name, bytes, signal);
        if (read instanceof Fault) {
            throw new Error('the drawing can’t be read: ' + read.word + ' at ' + read.at);
        }
        return read;
    }

    /**
     * What lines would be answered behind what a document holds, where nothing is kept of them.
     * @param {Document} document
     * @param {readonly string[]} lines
     * @param {AbortSignal} signal
     */
    async ask(document, lines, signal) {
        const said = await this.program.ask(document.made.bytes, scriptOf(lines), document.files, signal);
        if (said.status > 1) {
            throw new NotRun(said);
        }
        return answersOf(lines, byteString(said.text));
    }
}
