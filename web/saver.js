/* Saves the drawing, the script, and patch files. */

import { stagesOf } from './acts.js';
import { NotRun, scriptOf } from './making.js';
import { namesOf } from './saving.js';

/** @typedef {import('./acts.js').Act} Act */
/** @typedef {import('./document.js').Document} Document */
/** @typedef {import('./work.js').Ended} Ended */
/** @typedef {import('./work.js').Left} Left */

/**
 * A file that is to be written. `put` ends with true when the file is known to be whole, and with false where the
 * browser has only taken the bytes over.
 * @typedef {{ name: string, put: (bytes: Uint8Array) => Promise<boolean> }} Target
 */

/**
 * How a file is saved: `target` asks where, and gives none where that is cancelled; `confirm` asks, beside the drawing,
 * whether a file that the browser has taken over is there.
 * @typedef {object} Saving
 * @property {(name: string) => Promise<Target | null>} target
 * @property {(name: string, act: () => void) => void} confirm
 */

/**
 * The files that hold what acts do: scripts and patch files, in their order.
 * @param {string} name of the drawing
 * @param {readonly Act[]} acts
 * @returns {{ name: string, bytes: Uint8Array }[]}
 */
export function filesOf(name, acts) {
    const stages = stagesOf(acts), names = namesOf(name);
    return stages.flatMap(({ lines, patch }, at) => [
        ...(lines.length === 0 ? [] : [{ name: at === stages.length - 1 ? names.script : names.scriptBefore(at + 1),
            bytes: scriptOf(lines) }]),
        ...(patch === null ? [] : [{ name: patch.name, bytes: patch.bytes }])]);
}

export class Saver {
    /**
     * @param {import('./work.js').Work} work
     * @param {Saving} saving
     */
    constructor(work, saving) {
        this.work = work;
        this.saving = saving;
    }

    /** The names of files beside the drawing that is open. */
    get names() {
        return namesOf(/** @type {Document} */ (this.work.document).original.name);
    }

    /** Saves the drawing as it is when the place was chosen. @returns {Ended} */
    saveDrawing() {
        return this.save(this.names.out, async (document) => document.made.bytes, () => true, true);
    }

    /**
     * Saves the script as it stands, and before it the scripts and patch files that it stands on.
     * @returns {Ended}
     */
    async saveScript() {
        const { original, acts } = /** @type {Document} */ (this.work.document), files = filesOf(original.name, acts);
        /** @type {string[]} */
        const kinds = [];
        const last = files.pop();
        for (const file of files) {
            kinds.push(await this.putFile(file));
        }
        return last === undefined || kinds.includes('none') ? false : this.save(last.name, async () => last.bytes,
            (document) => kinds.every((kind) => kind === 'whole') && document.acts === acts);
    }

    /**
     * Saves a file that others go with: it is whole, or the browser was given it, or it wasn't saved.
     * @param {{ name: string, bytes: Uint8Array }} file
     * @returns {Promise<'whole' | 'given' | 'none'>}
     */
    async putFile({ name, bytes }) {
        try {
            const target = await this.saving.target(name);
            return target === null ? 'none' : await target.put(bytes) ? 'whole' : 'given';
        } catch (why) {
            this.work.around.tellFault(why, this.work.document);
            return 'none';
        }
    }

    /** Saves what the script does as a patch file, which the program makes. @returns {Ended} */
    savePatch() {
        return this.save(this.names.patch, async (document, signal) => {
            const { program } = this.work.around, { base, lines } = document.made;
            if (program === null) {
                throw new Error('this browser can’t run the program');
            }
            const packed = await program.pack(base.bytes, scriptOf(lines), document.files, signal);
            if (packed.file === null) {
                throw new NotRun(packed);
            }
            return packed.file;
        });
    }

    /**
     * Saves bytes of the document as it is when the place has been chosen.
     * @param {string} name
     * @param {(document: Document, signal: AbortSignal) => Promise<Uint8Array>} bytesOf
     * @param {(document: Document) => boolean} holds whether all that was done is in files then
     * @param {boolean} isDrawing
     * @returns {Ended}
     */
    async save(name, bytesOf, holds = () => false, isDrawing = false) {
        const { work } = this, asked = work.document, target = await this.saving.target(name);
        if (target === null || asked !== null && work.document?.original !== asked.original) {
            return false;
        }
        return work.stepOn('Saving ' + target.name, 'save', async (document, step) => {
            const bytes = await bytesOf(document, step.signal);
            step.settle();
            const isWhole = await target.put(bytes), sum = isDrawing ? await work.around.digest(bytes) : '';
            const holdsAll = holds(document);
            if (isWhole) {
                return this.saved(document, document.last, holdsAll, target.name, sum);
            }
            if (holdsAll) {
                this.saving.confirm(target.name, () => this.confirm(document, target.name, sum));
            }
            return { document: document.with({ savedDigest: sum || document.savedDigest }), keeping: 'nothing',
                said: 'The browser was given ' + target.name + ' to save' + (sum === '' ? '.' : ', SHA-256 ' + sum) };
        });
    }

    /**
     * What a file that is whole leaves: all that was done up to an act is in it.
     * @param {Document} document
     * @param {Act | null} last
     * @param {boolean} holdsAll
     * @param {string} name
     * @param {string} sum
     * @returns {Left}
     */
    saved(document, last, holdsAll, name, sum) {
        const said = 'Saved as ' + name + (sum === '' ? '.' : ', SHA-256 ' + sum);
        return holdsAll ? { document: document.with({ saved: last, savedDigest: sum || document.savedDigest }), said,
            keeping: document.last === last ? 'drop' : 'nothing' } : { document, said, keeping: 'nothing' };
    }

    /**
     * A person says that a file is there that was saved of a document.
     * @param {Document} of
     * @param {string} name
     * @param {string} sum
     * @returns {Ended}
     */
    confirm(of, name, sum) {
        return this.work.stepOn('Noting that ' + name + ' is saved', 'save', async (document) => (
            document.original === of.original ? this.saved(document, of.last, true, name, sum) : null));
    }
}
