/* What is done with files: save, import, apply, mend, compare, print. */

import { counted, described } from './describing.js';
import { byId } from './dom.js';
import { Drawing } from './drawing.js';
import { chosenBytes } from './files.js';
import { linesOf } from './making.js';
import { changeSaid, mendingOf } from './mending.js';
import { Fault } from './opening.js';
import { patchOf } from './patch.js';
import { namesOf } from './saving.js';
import { endedBy, readOf } from './stopping.js';
import { busy, whyNotOpened } from './surroundings.js';

/** @typedef {import('./document.js').Document} Document */

export class Menu {
    /** @param {import('./app.js').App} app */
    constructor(app) {
        this.app = app;
        const { saver, opener, work } = app;
        /** @type {Record<string, () => unknown>} */
        const does = {
            'mend': () => this.mend(), 'import': () => this.import(), 'apply': () => this.applyFile(),
            'compare': () => this.compare(), 'open-script': () => this.openScript(),
            'save-script': () => saver.saveScript(), 'save-patch': () => saver.savePatch(),
            'export': () => app.exports.export(), 'print': () => app.exports.print(),
            'throw-away': () => opener.throwAway(),
        };
        for (const [id, act] of Object.entries(does)) {
            byId(id).addEventListener('click', () => {
                byId('more').open = false;
                act();
            });
        }
        byId('save').addEventListener('click', () => saver.saveDrawing());
        byId('stop').addEventListener('click', () => work.stop());
        byId('undo').addEventListener('click', () => work.undo());
        byId('redo').addEventListener('click', () => work.redo());
        document.addEventListener('click', (event) => {
            if (!byId('more').contains(/** @type {Node} */ (event.target))) {
                byId('more').open = false;
            }
        });
        document.addEventListener('keydown', (event) => {
            if (event.key === 'Escape') {
                byId('more').open = false;
            }
        });
    }

    show() {
        const { work, canEdit } = this.app, { document } = work;
        if (document === null || work.maker === null) {
            return;
        }
        const hasLines = document.lines.length > 0;
        byId('undo').disabled = !canEdit || document.acts.length === 0;
        byId('redo').disabled = !canEdit || document.undone.length === 0;
        byId('save').disabled = !document.hasWork;
        byId('save').classList.toggle('wanted', document.isUnsaved);
        byId('save-script').disabled = !document.hasWork;
        byId('save-patch').disabled = !hasLines;
        byId('throw-away').disabled = !document.hasWork;
        for (const id of /** @type {const} */ (['mend', 'import', 'apply', 'open-script', 'typed', 'typed-add'])) {
            byId(id).disabled = !canEdit;
        }
    }

    /* Second files. */

    async openScript() {
        const file = await chosenBytes();
        if (file !== null) {
            await this.app.work.apply({ why: 'opened', lines: linesOf(file.bytes) });
        }
    }

    /** Imports a second drawing, by as much as is asked for then. */
    async import() {
        const { app } = this, file = await chosenBytes('.dgn');
        if (file === null || app.work.document === null) {
            return;
        }
        const axes = ['x', 'y', 'z'].slice(0, app.work.document.made.base.axes);
        const answer = await app.questions.ask({ title: 'Import ' + file.name,
            said: ['Its trees are appended, moved by so many units of resolution.'], buttons: ['Import', 'Cancel'],
            fields: axes.map((name) => ({ name, label: 'by ' + name, value: '0' })) }, new AbortController().signal);
        if (answer !== null && answer.button === 'Import') {
            await app.work.importDrawing(file, axes.map((name) => answer.values[name].trim().replace('−', '-') || '0'));
        }
    }

    async applyFile() {
        const file = await chosenBytes('.patch');
        if (file !== null) {
            await this.app.work.applyPatch(file.name, file.bytes);
        }
    }

    /** Says what can be mended of the drawing as it is, and puts it on. */
    async mend() {
        const { app } = this, { work } = app, asked = work.document;
        const drawing = asked === null ? null : drawingNow(asked);
        if (asked === null || drawing === null) {
            return;
        }
        const { changes, left } = mendingOf(drawing), name = namesOf(asked.original.name).mend;
        const list = changes.map((it) => changeSaid(drawing, it));
        const answer = await app.questions.ask({ title: 'Broken trees',
            said: [changes.length === 0 ? 'Nothing can be mended.' : 'This can be mended; the rest is left as it is:'],
            list: [...list, ...left.map(({ number, why }) => 'left: ' + described(drawing, number) + ': ' + why)],
            buttons: changes.length > 0 ? ['Mend', 'Save as a patch file', 'Leave it'] : ['Close'] },
        new AbortController().signal);
        const pressed = answer === null ? '' : answer.button;
        if (pressed === 'Save as a patch file') {
            await app.saver.save(name, async () => patchOf(drawing, changes));
        } else if (pressed === 'Mend' && await work.applyPatch(name, patchOf(drawing, changes))) {
            app.stage.fit();
            app.say(counted(changes.length, 'header is', 'headers are') + ' mended with ' + name + '.');
        }
    }

    /* Comparing. */

    /** Shows what differs in another drawing. */
    async compare() {
        const file = await chosenBytes('.dgn');
        if (file !== null) {
            await this.compareWith(file.name, file.bytes);
        }
    }

    /**
     * Shows what differs between the drawing as it is and another one. Nothing is edited by that.
     * @param {string} name
     * @param {Uint8Array} bytes
     */
    compareWith(name, bytes) {
        const { app } = this, title = 'Comparing with ' + name;
        return app.work.stepOn(title, 'read', async (document, { signal }) => {
            const drawing = await readNow(document, signal), other = await readOf(name, bytes, signal);
            if (other instanceof Fault) {
                app.notice(name + ' doesn’t open: ' + whyNotOpened(other, bytes));
            } else if (drawing !== null && other.axes !== drawing.axes) {
                app.notice(name + ' has ' + other.axes + ' dimensions, and this drawing has ' + drawing.axes + '.');
            } else if (drawing !== null) {
                const tell = (/** @type {number} */ share) => busy.tell(title + ', ' + Math.round(100 * share) + ' %');
                const rows = await endedBy(signal, app.changesPanel.find(drawing, other, tell, signal));
                app.takeInView(drawing, false);
                app.compareWith(other, rows, drawing.beside(other, toldNumbers(rows)), stateSaid(document));
            }
            return null;
        });
    }
}

/**
 * The drawing as it is now.
 * @param {Document} document
 */
function drawingNow({ original, made }) {
    const drawing = made.bytes === made.base.bytes ? made.base : Drawing.open(original.name, made.bytes);
    return drawing instanceof Fault ? null : drawing;
}

/**
 * The same, read in slices.
 * @param {Document} document
 * @param {AbortSignal} signal
 */
async function readNow({ original, made }, signal) {
    const { bytes, base } = made, drawing = bytes === base.bytes ? base : await readOf(original.name, bytes, signal);
    return drawing instanceof Fault ? null : drawing;
}

/**
 * Which state of a drawing is compared, in words.
 * @param {Document} document
 */
function stateSaid({ original, hasWork }) {
    return original.name + (hasWork ? ' as it is now' : ' as it was opened');
}

/**
 * The numbers of the other drawing of which rows tell.
 * @param {{ after: number | null, more: number }[]} rows
 */
function toldNumbers(rows) {
    const told = new Set();
    for (const { after, more } of rows) {
        for (let at = 0; after !== null && at <= more; at++) {
            told.add(after + at);
        }
    }
    return told;
}
