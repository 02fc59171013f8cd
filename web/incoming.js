/* Files that come to the page: chosen by the buttons, or dropped on it. */

import { byId } from './dom.js';
import { readFile } from './files.js';
import { linesOf } from './making.js';

export class Incoming {
    /** @param {import('./app.js').App} app */
    constructor(app) {
        this.app = app;
        const field = /** @type {HTMLInputElement} */ (byId('open-file'));
        for (const id of ['open', 'start-open']) {
            byId(id).addEventListener('click', () => field.click());
        }
        field.addEventListener('change', () => {
            const file = field.files && field.files[0];
            field.value = '';
            if (file) {
                this.open(file);
            }
        });
        document.addEventListener('dragover', (event) => {
            event.preventDefault();
            document.body.classList.add('dropping');
        });
        document.addEventListener('dragleave', () => document.body.classList.remove('dropping'));
        document.addEventListener('drop', (event) => {
            event.preventDefault();
            document.body.classList.remove('dropping');
            const file = event.dataTransfer && event.dataTransfer.files[0];
            if (file) {
                this.take(file);
            }
        });
        addEventListener('beforeunload', (event) => {
            if (app.work.losesByLeaving) {
                event.preventDefault();
                event.returnValue = '';
            }
        });
    }

    /** @param {File} file */
    open(file) {
        return this.app.opener.open(file.name, async () => (await readFile(file)).bytes);
    }

    /**
     * Takes a file that was dropped by what its name says: a patch file is applied, a script is run, and anything else
     * is opened as a drawing.
     * @param {File} file
     */
    async take(file) {
        const { app } = this, [end] = /\.\w+$/.exec(file.name.toLowerCase()) || [''];
        if (app.canEdit && end === '.patch') {
            const { name, bytes } = await readFile(file);
            await app.work.applyPatch(name, bytes);
        } else if (app.canEdit && end === '.txt') {
            await app.work.apply({ why: 'opened', lines: linesOf((await readFile(file)).bytes) });
        } else {
            await this.open(file);
        }
    }
}
