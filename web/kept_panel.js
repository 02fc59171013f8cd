/* The list of work that the browser keeps: it can be continued, saved as a script, or discarded. */

import { byId, fill, make, setHidden } from './dom.js';
import { keptSaid } from './opener.js';
import { buttonOf } from './questions.js';
import { filesOf } from './saver.js';
import { targetOf } from './saving.js';

/** @typedef {import('./kept.js').Kept} Kept */

export class KeptPanel {
    /** @param {import('./app.js').App} app */
    constructor(app) {
        this.app = app;
        byId('kept-open').addEventListener('click', () => this.open());
        byId('kept-close').addEventListener('click', () => byId('kept-dialog').close());
        this.showAtStart();
    }

    async open() {
        await this.fill(byId('kept-rows'));
        byId('kept-dialog').showModal();
    }

    /** Lists the work on the start page, where there is any. */
    async showAtStart() {
        const count = await this.fill(byId('start-kept-rows'));
        setHidden(byId('start-kept'), count === 0);
    }

    /**
     * Lists what is kept, and gives how much that is.
     * @param {HTMLElement} place
     */
    async fill(place) {
        const { keeper } = this.app.work, { kept, aside } = await keeper.list();
        const rows = kept.filter(({ id }) => id !== keeper.id).map((it) => this.rowOf(it, place));
        const others = aside.map(({ id, why }) => make('li', {}, make('p', {}, 'A record isn’t offered: ' + why + '.'),
            buttonOf('Discard', () => this.discard(id, place))));
        const all = [...rows, ...others];
        fill(place, ...(all.length === 0 ? [make('p', { class: 'note' }, 'Nothing is kept.')]
            : [make('ul', { class: 'kept' }, ...all)]));
        return all.length;
    }

    /**
     * @param {Kept} record
     * @param {HTMLElement} place
     */
    rowOf(record, place) {
        const { app } = this, { document } = app.work;
        const isOfThis = document !== null && document.original.digest === record.digest;
        const acts = [
            ...(isOfThis ? [buttonOf('Continue', () => this.goOn(record))] : []),
            buttonOf('Save its script', () => this.saveScript(record)),
            buttonOf('Discard', () => this.discard(record.id, place)),
        ];
        return make('li', {}, make('p', {}, make('strong', {}, record.name), ' – ' + keptSaid(record)),
            make('div', { class: 'row' }, ...acts));
    }

    /** @param {Kept} record */
    goOn(record) {
        byId('kept-dialog').close();
        return this.app.opener.goOn(record);
    }

    /**
     * Saves the scripts and patch files of a record, each as a file.
     * @param {Kept} record
     */
    async saveScript(record) {
        for (const { name, bytes } of filesOf(record.name, record.acts)) {
            const target = await targetOf(name);
            if (target === null) {
                return;
            }
            await target.put(bytes);
            this.app.say('Saved: ' + target.name);
        }
    }

    /**
     * @param {string} id
     * @param {HTMLElement} place
     */
    async discard(id, place) {
        try {
            await this.app.work.keeper.discard(id);
        } catch {
            this.app.say('The browser doesn’t let the page reach what is kept.');
        }
        await this.fill(place);
    }
}
