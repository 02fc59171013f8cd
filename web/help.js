/* Help: the manual, which opens beside the page, and the example, one click away. */

import { byId, setHidden } from './dom.js';
import { partOf } from './files.js';
import { openExample } from './start_page.js';

const NO_MANUAL = 'The manual isn’t in this copy of the app: read dgnedit-manual.html, which comes with the programs.';
const NO_WINDOW = 'The browser opened no window: allow it for this page, or read dgnedit-manual.html, which comes with '
    + 'the programs.';

export class Help {
    /** @param {import('./app.js').App} app */
    constructor(app) {
        this.app = app;
        /** @type {string | null} */
        this.place = null;
        byId('help').addEventListener('click', () => this.show());
        byId('help-manual').addEventListener('click', () => this.read());
        byId('help-example').addEventListener('click', () => this.openExample());
        byId('help-close').addEventListener('click', () => byId('help-dialog').close());
        document.addEventListener('keydown', (event) => {
            if (event.key === 'F1') {
                event.preventDefault();
                this.show();
            }
        });
        setHidden(byId('help-example'), document.getElementById('example-part') === null);
    }

    show() {
        if (!byId('help-dialog').open && document.querySelector('dialog[open]') === null) {
            byId('help-said').textContent = '';
            byId('help-dialog').showModal();
        }
    }

    /** Opens the manual in a window of its own. */
    async read() {
        const manual = await partOf('manual-part');
        if (manual === null) {
            byId('help-said').textContent = NO_MANUAL;
            return;
        }
        this.place = this.place ?? URL.createObjectURL(new Blob([manual], { type: 'text/html' }));
        byId('help-said').textContent = window.open(this.place) === null ? NO_WINDOW : '';
    }

    openExample() {
        byId('help-dialog').close();
        return openExample(this.app);
    }
}
