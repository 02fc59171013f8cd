/* The list of levels, each of which is switched on and off, and the counts of types. */

import { counted } from './describing.js';
import { byId, fill, make, termed } from './dom.js';
import { isLeaf } from './showing.js';
import { GREATEST, LEAST } from './tables.js';
import { typeName } from './types.js';

const WHOLE_PLANE = Object.freeze([[LEAST, LEAST], [GREATEST, LEAST], [GREATEST, GREATEST], [LEAST, GREATEST]]);

/**
 * The fence that takes all that is on some levels.
 * @param {Iterable<number>} numbers
 * @returns {import('./editing.js').Source}
 */
export function levelsFence(numbers) {
    const levels = new Uint8Array(64);
    for (const level of numbers) {
        levels[level] = 1;
    }
    return { corners: WHOLE_PLANE, mode: 'overlap', levels };
}

/**
 * A level in the list: its row, the box that switches it, and how many items it shows.
 * @typedef {{ row: HTMLElement, box: HTMLInputElement, count: HTMLElement }} LevelRow
 */

export class LevelsPanel {
    /** @param {import('./app.js').App} app */
    constructor(app) {
        this.app = app;
        /**
         * The rows of the levels that are used, by these.
         * @type {Map<number, LevelRow>}
         */
        this.rows = new Map();
        /** Of what types are listed, and how many of each. */
        this.typesSaid = '';
        byId('levels-all').addEventListener('click', () => this.setAll(1));
        byId('levels-none').addEventListener('click', () => this.setAll(0));
        byId('show-deleted').addEventListener('change', () => {
            app.scene.withDeleted = byId('show-deleted').checked;
            app.sceneChanged();
        });
    }

    /** Counts the elements of the state that is seen, and lists the levels of all. */
    show() {
        const { state, before, after } = this.app.scene, { counts } = state;
        const used = counts.levels.slice();
        for (const other of [before, after]) {
            if (other !== null && other !== state) {
                other.counts.levels.forEach((count, level) => { used[level] += count; });
            }
        }
        this.showLevels(used, counts.levels);
        this.showTypes(counts.types);
        byId('deleted-count').textContent = String(counts.deleted);
    }

    /**
     * Lists the levels that are used; where these are as before their rows stay.
     * @param {Uint32Array} used
     * @param {Uint32Array} counts
     */
    showLevels(used, counts) {
        const levels = Array.from(used.keys()).filter((level) => used[level] > 0);
        if (String(levels) !== String(Array.from(this.rows.keys()))) {
            this.rows = new Map(levels.map((level) => [level, this.rowOf(level)]));
            fill(byId('levels'), ...Array.from(this.rows.values()).map(({ row }) => row));
        }
        for (const [level, { box, count }] of this.rows) {
            box.checked = this.app.scene.levels[level] === 1;
            count.textContent = String(counts[level]);
            count.title = counted(counts[level], 'element') + ' shown on it';
        }
    }

    /**
     * @param {number} level
     * @returns {LevelRow}
     */
    rowOf(level) {
        const box = /** @type {HTMLInputElement} */ (make('input', { type: 'checkbox', id: 'level-' + level }));
        box.addEventListener('change', () => {
            this.app.scene.levels[level] = box.checked ? 1 : 0;
            this.app.sceneChanged();
        });
        const name = 'Show level ' + level + ' only';
        const only = make('button', { 'type': 'button', 'class': 'only', 'aria-label': name }, 'only');
        only.addEventListener('click', () => this.setOnly(level));
        const all = 'Select all on level ' + level;
        const choose = make('button', { 'type': 'button', 'class': 'only', 'aria-label': all }, 'select');
        choose.addEventListener('click', () => this.chooseAll(level));
        const count = make('span', { class: 'count' });
        const label = make('label', {}, box, make('span', { class: 'level' }, String(level)), count);
        return { row: make('li', {}, label, only, choose), box, count };
    }

    /**
     * Chooses all trees that show something of a level.
     * @param {number} level
     */
    chooseAll(level) {
        const { scene, choice, tools } = this.app, { state, records, shown } = scene;
        /** @type {number[]} */
        const roots = [];
        for (let number = 0; number < state.count; number++) {
            const record = state.record[number], last = roots.length > 0 ? roots[roots.length - 1] : -1;
            if (shown[record] && records.level[record] === level && isLeaf(records, record)
                && (last < 0 || number >= state.end[last])) {
                roots.push(state.rootOf(number));
            }
        }
        tools.clearFence();
        choice.choose(roots, levelsFence([level]));
    }

    /**
     * Lists how many elements each type has, unless that is listed already.
     * @param {Uint32Array} counts
     */
    showTypes(counts) {
        if (this.typesSaid !== String(counts)) {
            this.typesSaid = String(counts);
            const types = Array.from(counts.keys()).filter((type) => counts[type] > 0);
            fill(byId('types'), ...types.flatMap((type) => termed(typeName(type), String(counts[type]))));
        }
    }

    /** @param {number} value */
    setAll(value) {
        this.app.scene.levels.fill(value);
        this.app.sceneChanged();
    }

    /** @param {number} level */
    setOnly(level) {
        this.app.scene.levels.fill(0);
        this.app.scene.levels[level] = 1;
        this.app.sceneChanged();
    }
}
