/* The search field: a number, a text, a cell's name, or a place. */

import { byId, fill, linkTo, make, setHidden } from './dom.js';
import { inSlices, whenIdle } from './slices.js';
import { TextIndex } from './text_index.js';

const MOST_FOUND = 100;
const MOST_NEAR = 8;

/** @typedef {{ text: string, go: () => void }} Entry what was found, in words, and what goes there */

export class Search {
    /** @param {import('./app.js').App} app */
    constructor(app) {
        this.app = app;
        this.field = byId('search-field');
        this.list = byId('search-list');
        /**
         * What was found: places, and behind them the numbers of elements.
         * @type {Entry[]}
         */
        this.places = [];
        /** @type {number[]} */
        this.numbers = [];
        this.at = -1;
        /** @type {TextIndex | null} */
        this.index = null;
        /** Ends the work for a drawing, and the search that goes on, and when that has ended. */
        this.working = new AbortController();
        this.looking = new AbortController();
        /** @type {Promise<void>} */
        this.looked = Promise.resolve();
        this.field.addEventListener('input', () => this.look());
        this.field.addEventListener('focus', () => setHidden(this.list, this.count === 0));
        this.field.addEventListener('keydown', (/** @type {KeyboardEvent} */ event) => this.key(event));
        byId('search').addEventListener('submit', (/** @type {Event} */ event) => event.preventDefault());
        byId('search').addEventListener('focusout', (/** @type {FocusEvent} */ event) => {
            if (!byId('search').contains(/** @type {Node | null} */ (event.relatedTarget))) {
                setHidden(this.list, true);
            }
        });
    }

    /** How many were found. */
    get count() {
        return this.places.length + this.numbers.length;
    }

    /** Forgets what was found, for another drawing, and takes in its words when nothing else is to do. */
    clear() {
        const { records, base } = this.app.scene;
        this.field.value = '';
        this.places = [];
        this.numbers = [];
        setHidden(this.list, true);
        this.working.abort();
        this.looking.abort();
        this.working = new AbortController();
        this.index = new TextIndex(records, base);
        whenIdle(this.index.building(), this.working.signal);
    }

    /** @param {KeyboardEvent} event */
    key(event) {
        if (event.key === 'Enter') {
            this.looked.then(() => {
                this.take(this.at + (event.shiftKey ? -1 : 1));
                setHidden(this.list, this.count > 0);
            });
        } else if (event.key === 'ArrowDown' && this.count > 0) {
            event.preventDefault();
            this.list.querySelector('button')?.focus();
        } else if (event.key === 'Escape') {
            this.field.value = '';
            this.look();
            byId('marks').focus();
        }
    }

    /** Finds what the field asks for, and lists it. A search that goes on is ended. */
    look() {
        const asked = this.field.value.trim(), { state } = this.app.scene;
        this.looking.abort();
        this.looking = new AbortController();
        if (asked === '' || this.index === null) {
            this.show(asked, []);
            return;
        }
        const work = this.index.numbersWith(state, asked.toLowerCase());
        this.looked = inSlices(work, this.looking.signal).then((numbers) => this.show(asked, numbers), () => {});
    }

    /**
     * Lists what was found: the number itself first, then texts and names that hold what was asked for, whole ones
     * first.
     * @param {string} asked
     * @param {number[]} numbers
     */
    show(asked, numbers) {
        const isNumber = /^\d+$/.test(asked) && Number(asked) < this.app.scene.state.count;
        this.places = asked === '' ? [] : this.placesOf(asked);
        this.numbers = isNumber ? [Number(asked), ...numbers.filter((it) => it !== Number(asked))] : numbers;
        this.at = -1;
        setHidden(this.list, asked === '');
        const more = this.count > MOST_FOUND ? ', the first ' + MOST_FOUND + ' are listed' : '';
        fill(this.list, make('p', { class: 'note' }, this.count + ' found' + more), this.rows());
    }

    rows() {
        const list = make('ul');
        for (let index = 0; index < Math.min(this.count, MOST_FOUND); index++) {
            const row = linkTo(this.entryAt(index).text, () => this.take(index));
            row.addEventListener('keydown', (/** @type {KeyboardEvent} */ event) => this.keyInList(event, row));
            list.append(make('li', {}, row));
        }
        return list;
    }

    /** @param {number} index */
    entryAt(index) {
        const { places, numbers } = this;
        return index < places.length ? places[index] : this.entryOf(numbers[index - places.length]);
    }

    /**
     * @param {number} number
     * @param {string} behind
     * @returns {Entry}
     */
    entryOf(number, behind = '') {
        const { app } = this;
        return {
            text: app.words.nameOf(app.scene.state.record[number]) + behind,
            go: () => {
                app.choice.choose([number]);
                app.choice.goTo(number);
            },
        };
    }

    /**
     * A place, as 1500,560: in master units where they are known, in units of resolution, and what is near it.
     * @param {string} asked
     * @returns {Entry[]}
     */
    placesOf(asked) {
        const found = /^(-?\d+(?:\.\d+)?)\s*[,; ]\s*(-?\d+(?:\.\d+)?)$/.exec(asked);
        if (!found) {
            return [];
        }
        const { app } = this, { words } = app, values = [Number(found[1]), Number(found[2])];
        const master = words.hasMaster ? this.placeEntries(words.fromMaster(values), words.master) : [];
        return asked.includes('.') ? master : master.concat(this.placeEntries(values, 'units'));
    }

    /**
     * @param {number[]} place
     * @param {string} unit
     * @returns {Entry[]}
     */
    placeEntries(place, unit) {
        const { app } = this;
        const near = app.picker.nearest(place, MOST_NEAR).map(({ record, distance }) => {
            const away = app.words.hasMaster ? app.words.lengthOf(distance) : Math.round(distance) + ' units';
            return this.entryOf(app.scene.records.number[record], ' · ' + away + ' away');
        });
        const text = 'Place ' + this.field.value.trim() + ' in ' + unit;
        return [{ text, go: () => app.stage.goToPlace(place) }, ...near];
    }

    /**
     * @param {KeyboardEvent} event
     * @param {HTMLElement} row
     */
    keyInList(event, row) {
        const { nextElementSibling: next, previousElementSibling: last } = /** @type {Element} */ (row.parentElement);
        if (event.key === 'ArrowDown' || event.key === 'ArrowUp') {
            event.preventDefault();
            const other = event.key === 'ArrowDown' ? next : last;
            /** @type {HTMLElement} */ (other ? other.firstElementChild : this.field).focus();
        } else if (event.key === 'Escape') {
            this.field.focus();
        }
    }

    /**
     * Goes to one of what was found; behind the last comes the first.
     * @param {number} index
     */
    take(index) {
        if (this.numbers.some((it) => it >= this.app.scene.state.count)) {
            this.show(this.field.value.trim(), []);
        }
        if (this.count === 0) {
            this.app.say(this.field.value.trim() === '' ? '' : 'Nothing found.');
            return;
        }
        this.at = (index + this.count) % this.count;
        const entry = this.entryAt(this.at);
        entry.go();
        this.app.say(this.at + 1 + ' of ' + this.count + ': ' + entry.text);
    }
}
