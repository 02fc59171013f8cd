/* Opens drawings, and offers the work that is kept for one. */

import { Document } from './document.js';
import { NotRun } from './making.js';
import { Fault } from './opening.js';
import { countsOf } from './kept.js';
import { counted } from './describing.js';

/** @typedef {import('./kept.js').Kept} Kept */
/** @typedef {import('./queue.js').Step} Step */
/** @typedef {import('./work.js').Ended} Ended */
/** @typedef {import('./work.js').Left} Left */

const OPEN_OTHER = 'Open the other drawing';
const DISCARD = 'Discard it';

/**
 * What is kept, in a few words.
 * @param {Kept} record
 */
export function keptSaid(record) {
    const { lines, patches, undone } = countsOf(record);
    const parts = [counted(lines, 'line'), ...(patches > 0 ? [counted(patches, 'patch file')] : []),
        ...(undone > 0 ? [counted(undone, 'act') + ' taken back'] : [])];
    return parts.join(', ') + ', of ' + new Date(record.time).toLocaleString();
}

export class Opener {
    /** @param {import('./work.js').Work} work */
    constructor(work) {
        this.work = work;
    }

    /**
     * Opens a drawing, once work that isn't saved has been asked about, and then offers what is kept for it. A later
     * call takes the place of one that waits, reads or asks.
     * @param {string} name
     * @param {() => Promise<Uint8Array>} bytesOf reads the file
     * @param {readonly string[]} script lines that the page was made with, which are in a file already
     * @returns {Ended} whether the drawing was opened
     */
    async open(name, bytesOf, script = []) {
        const { work } = this;
        work.queue.stop(({ kind }) => kind === 'open');
        const isOpened = await work.step('Opening ' + name, 'open', (step) => this.opened(name, bytesOf, step));
        const { document } = work;
        if (isOpened && document !== null && !await this.offer() && script.length > 0) {
            await this.runOwn(document, script);
        }
        return isOpened;
    }

    /**
     * @param {string} name
     * @param {() => Promise<Uint8Array>} bytesOf
     * @param {Step} step
     * @returns {Promise<Left | null>}
     */
    async opened(name, bytesOf, step) {
        if (!await this.mayLeave(step, name, OPEN_OTHER)) {
            return null;
        }
        const { around } = this.work, { program } = around, bytes = await bytesOf();
        // the program checks and the sum is made beside the page, while it reads
        const checking = program === null ? Promise.resolve(null) : program.check(bytes, step.signal);
        const beside = Promise.all([checking, around.digest(bytes)]);
        beside.catch(() => {});
        const base = await around.read(name, bytes, step.signal), [checked, digest] = await beside;
        if (checked !== null && checked.status !== 0) {
            around.tellNotOpened(name, new NotRun(checked, name), bytes);
            return null;
        }
        if (base instanceof Fault) {
            around.tellNotOpened(name, base, bytes);
            return null;
        }
        return { document: Document.of(Object.freeze({ name, bytes, digest }), base), said: '' };
    }

    /**
     * Asks about work that isn't saved; without any it may be left.
     * @param {Step} step
     * @param {string} other what would take its place
     * @param {string} button
     */
    async mayLeave({ signal }, other, button) {
        const { document, keeper, around } = this.work;
        if (document === null || !document.isUnsaved) {
            return true;
        }
        const isKept = keeper.isThere && keeper.fault === '';
        const kept = isKept ? 'It is kept in this browser, and offered when you open that drawing again.'
            : 'It isn’t kept in this browser: it is lost then.';
        const said = other + ' would take the place of what you did to ' + document.original.name + '. ' + kept;
        const answer = await around.ask({ title: 'Your work isn’t saved', said: [said], buttons: [button, 'Stay'] },
            signal);
        return answer !== null && answer.button === button;
    }

    /**
     * Runs the script that the page was made with, on the drawing that was opened with it, where nothing else was done
     * to it yet. It is in a file, the page, so nothing of it is kept.
     * @param {Document} opened
     * @param {readonly string[]} lines
     * @returns {Ended}
     */
    runOwn(opened, lines) {
        const { work } = this;
        return work.stepOn('Running the script of the page', 'open', async (document, step) => {
            const files = document !== opened ? null : await work.filesFor(document, lines, step.signal);
            if (files === null) {
                return null;
            }
            const left = await work.added(document, { why: 'opened', lines }, files, step.signal);
            return { document: left.with({ saved: left.last }), said: 'The script of the page was run.',
                keeping: 'nothing' };
        });
    }

    /* Kept work. */

    /**
     * Offers the newest work that is kept for the drawing that is open; says whether it was continued.
     * @returns {Ended}
     */
    async offer() {
        const { work } = this;
        if (work.maker === null) {
            return false;
        }
        return work.stepOn('Looking for kept work', 'open', async (document, step) => {
            const [record, ...others] = await work.keeper.keptOf(document.original.digest);
            if (record === undefined) {
                return null;
            }
            const said = ['Work on this drawing is kept that was not saved: ' + keptSaid(record) + '.'];
            if (others.length > 0) {
                said.push('There is older work, too: ‘Kept work’, under ‘More’, lists it.');
            }
            const answer = await work.around.ask({ title: 'Continue where you left off?', said,
                buttons: ['Continue', 'Not now', DISCARD] }, step.signal);
            if (answer !== null && answer.button === DISCARD) {
                await work.keeper.discard(record.id);
            }
            return answer !== null && answer.button === 'Continue' ? this.continued(document, record, step) : null;
        });
    }

    /**
     * Goes on from a record that is kept for the drawing that is open.
     * @param {Kept} record
     * @returns {Ended}
     */
    goOn(record) {
        return this.work.stepOn('Continuing', 'open', async (document, step) => (
            await this.mayLeave(step, 'The kept work', 'Continue with the kept work')
                ? this.continued(document, record, step) : null));
    }

    /**
     * Does again what a record has; each act can be taken back by itself then.
     * @param {import('./document.js').Document} document
     * @param {Kept} record
     * @param {Step} step
     * @returns {Promise<Left | null>}
     */
    async continued(document, record, step) {
        const { work } = this, { acts, undone, imports } = record;
        const lines = [...acts, ...undone].flatMap((act) => ('lines' in act ? act.lines : []));
        const fresh = Document.of(document.original, document.made.base);
        const files = await work.filesFor(fresh, lines, step.signal, imports);
        if (files === null) {
            return null;
        }
        const made = await work.made(document, acts, files, step.signal);
        return { document: fresh.with({ acts, undone, files, made }), said: 'Continued: ' + keptSaid(record) + '.',
            from: record };
    }

    /** Throws away what was done to the drawing that is open, once that was asked about. @returns {Ended} */
    throwAway() {
        const { work } = this;
        return work.stepOn('Throwing the work away', 'edit', async (document, step) => {
            const answer = await work.around.ask({ title: 'Throw the work away?', buttons: ['Throw it away', 'Keep it'],
                said: ['The drawing is then as it was opened. What you have saved stays.'] }, step.signal);
            if (answer === null || answer.button !== 'Throw it away') {
                return null;
            }
            const made = await work.made(document, [], document.files, step.signal);
            return { document: document.with({ acts: [], undone: [], made, saved: null, savedDigest: '' }),
                said: 'The drawing is as it was opened.', keeping: 'drop' };
        });
    }
}
