/* The list of what differs between two drawings, in words. */

import { compareInWorker } from './comparer.js';
import { counted } from './describing.js';
import { byId, fill, make, setHidden } from './dom.js';
import { joined } from './choice.js';
import { PIECE, inSlices } from './slices.js';

const MOST_LISTED = 500;

/** @typedef {import('./comparing.js').Change} Change */
/** @typedef {import('./drawing.js').Drawing} Drawing */

export class ChangesPanel {
    /** @param {import('./app.js').App} app */
    constructor(app) {
        this.app = app;
        /**
         * The drawing that is compared with, or null.
         * @type {Drawing | null}
         */
        this.other = null;
        /** @type {Change[]} */
        this.rows = [];
        /** Ends the search that goes on. */
        this.looking = new AbortController();
        byId('changes-filter').addEventListener('input', () => this.show());
        byId('compare-end').addEventListener('click', () => app.leaveCompare());
    }

    /**
     * Finds what differs in one drawing from another. It is done beside the page, and ends when the signal comes.
     * @param {{ bytes: Uint8Array }} before
     * @param {{ bytes: Uint8Array }} other
     * @param {(share: number) => void} onProgress
     * @param {AbortSignal | null} signal
     */
    find(before, other, onProgress = () => {}, signal = null) {
        return compareInWorker(before, other, onProgress, signal);
    }

    /**
     * Lists what differs in another drawing, or nothing; `said` tells what it is compared with.
     * @param {Drawing | null} other
     * @param {Change[]} rows
     * @param {string} said
     */
    take(other, rows, said = '') {
        this.other = other;
        this.rows = rows;
        setHidden(byId('tab-changes'), other === null);
        if (other !== null) {
            byId('changes-title').textContent = 'In ' + other.name + ', against ' + said;
            const count = rows.reduce((sum, { more }) => sum + 1 + more, 0);
            byId('changes-count').textContent = counted(count, 'change');
        }
        this.show();
    }

    /** Lists the changes with the words in the field; where they are many these are searched in slices. */
    show() {
        const wanted = byId('changes-filter').value.trim().toLowerCase();
        this.looking.abort();
        if (wanted === '') {
            this.list(this.rows);
        } else {
            this.looking = new AbortController();
            inSlices(rowsWith(this.rows, wanted), this.looking.signal).then((rows) => this.list(rows), () => {});
        }
    }

    /** @param {Change[]} rows */
    list(rows) {
        fill(byId('changes'), ...rows.slice(0, MOST_LISTED).map((row) => this.rowOf(row)));
        setHidden(byId('changes-more'), rows.length <= MOST_LISTED);
        byId('changes-more').textContent = 'and ' + (rows.length - MOST_LISTED)
            + ' more: search for them in the field above';
        if (rows.length === 0) {
            fill(byId('changes'), make('li', { class: 'note' }, this.rows.length === 0 ? 'No differences.'
                : 'No change contains these words.'));
        }
    }

    /** @param {Change} row */
    rowOf(row) {
        const button = make('button', { type: 'button', class: 'entry' },
            make('span', { class: 'kind ' + row.kind }, row.kind), make('span', {}, row.described + ': ' + row.words
                + (row.more > 0 ? ' (and ' + row.more + ' after it)' : '')));
        button.addEventListener('click', () => this.goTo(row));
        return make('li', {}, button);
    }

    /**
     * Chooses what a row is of, and goes to it, before and after.
     * @param {Change} row
     */
    goTo({ before, after }) {
        const { choice, modes, scene, stage } = this.app, number = after === null ? before : after;
        modes.set(after === null ? 'before' : 'both');
        choice.choose(number === null ? [] : [number]);
        stage.goToBox(joined([choice.boxIn(scene.before, before), choice.boxIn(scene.after, after)]));
    }
}

/**
 * The rows with some words, in pieces.
 * @param {Change[]} rows
 * @param {string} wanted
 * @returns {import('./slices.js').Pieces<Change[]>}
 */
function* rowsWith(rows, wanted) {
    /** @type {Change[]} */
    const found = [];
    for (let at = 0; at < rows.length; at++) {
        if (hasWords(rows[at], wanted)) {
            found.push(rows[at]);
        }
        if (at % PIECE === PIECE - 1) {
            yield;
        }
    }
    return found;
}

/**
 * Whether a row has these words, or where they are a number whether it is of an element with it.
 * @param {Change} row
 * @param {string} wanted
 */
function hasWords({ before, after, kind, described: said, words, more }, wanted) {
    if (/^\d+$/.test(wanted)) {
        const number = Number(wanted);
        return [before, after].some((first) => first !== null && first <= number && number <= first + more);
    }
    return (kind + ' ' + said + ' ' + words).toLowerCase().includes(wanted);
}
