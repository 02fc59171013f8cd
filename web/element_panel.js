/* What is known of the chosen element. */

import { whyBroken } from './broken.js';
import { counted } from './describing.js';
import { byId, fill, linkTo, make, swatchOf, termed } from './dom.js';
import { sizesOf } from './element_sizes.js';
import { DRAWN, DRAWN_OF, FLAG, STYLE_NAMES } from './format.js';
import { axesOfSeen } from './orientation.js';
import { CLASS, CLASS_OF } from './tables.js';

const MOST_MEMBERS = 200;

export class ElementPanel {
    /** @param {import('./app.js').App} app */
    constructor(app) {
        this.app = app;
        byId('go').addEventListener('click', () => app.choice.goToAll());
        byId('next').addEventListener('click', () => app.choice.step(1));
        byId('previous').addEventListener('click', () => app.choice.step(-1));
    }

    /** The number of the element that is spoken of. */
    get chosen() {
        return this.app.choice.last;
    }

    show() {
        const { app: { choice, scene }, chosen } = this, count = choice.numbers.length;
        byId('go').disabled = chosen < 0;
        byId('element-title').textContent = count > 1 ? count + ' trees' : chosen < 0 ? 'Element' : 'Element ' + chosen;
        fill(byId('headline'));
        if (chosen < 0) {
            fill(byId('element'), make('p', { class: 'note' },
                'Click an element to select its tree, click it again for the member; with Shift select several. The '
                + 'search field takes a number, a text, a cell’s name, or a position such as 1500,560.'));
        } else if (count > 1) {
            fill(byId('element'), this.severalSaid(choice.numbers));
        } else {
            const record = scene.state.record[chosen];
            fill(byId('headline'), this.headline(record), ...this.badges(record));
            fill(byId('element'), this.facts(record), ...this.members());
        }
    }

    /**
     * Several trees: how many of each type, and a link to each of the first.
     * @param {number[]} numbers
     */
    severalSaid(numbers) {
        const { scene, words, choice } = this.app, { state } = scene;
        /** @type {Map<number, number>} */
        const counts = new Map();
        numbers.forEach((it) => counts.set(state.typeOf(it), (counts.get(state.typeOf(it)) || 0) + 1));
        const types = [...counts].map(([type, count]) => count + ' × ' + words.typeOf(type)).join(', ');
        const rows = numbers.slice(0, MOST_MEMBERS).map((it) => make('li', {},
            linkTo(words.nameOf(state.record[it]), () => choice.choose([it]))));
        return make('div', {}, make('p', {}, types), make('ul', { class: 'members' }, ...rows));
    }

    /** @param {number} record */
    headline(record) {
        const { words, scene } = this.app;
        return make('p', { class: 'headline' }, make('strong', {}, words.typeOf(scene.records.type[record])), ' ',
            make('span', { class: 'label' }, scene.records.wordsOf(record)));
    }

    /**
     * Locked, deleted and broken, and why.
     * @param {number} record
     */
    badges(record) {
        const { records, state } = this.app.scene;
        const { chosen } = this;
        /** @type {HTMLElement[]} */
        const said = [];
        const add = (/** @type {string} */ word, /** @type {string} */ text) => {
            said.push(make('p', { class: 'badge ' + word }, make('strong', {}, word), ' ', text));
        };
        const change = this.app.changes.get(record);
        if (change) {
            add(change.kind, change.words);
        } else if (record >= this.app.scene.base) {
            add(chosen < this.app.scene.base ? 'changed' : 'added', 'by the script');
        }
        if (records.has(record, FLAG.locked)) {
            add('locked', 'it can be copied, but not edited');
        }
        if (records.has(record, FLAG.deleted) && !(change && change.kind === 'deleted')) {
            add('deleted', 'it is marked deleted, and other programs no longer draw it');
        } else if (state.isDead(chosen)) {
            add('deleted', 'a header above it is marked deleted');
        }
        const broken = state.brokenIn(state.rootOf(chosen));
        if (broken >= 0) {
            add('broken', this.whyBroken(broken) + '; ‘Mend’ says whether it can be mended');
        }
        return said;
    }

    /**
     * Edits change neither how elements nest nor what is broken, so it is asked of the drawing as it was opened.
     * @param {number} number
     */
    whyBroken(number) {
        const own = number === this.chosen ? 'it' : 'element ' + number, { drawing } = this.app.open;
        return number < drawing.count ? own + ': ' + whyBroken(drawing, number) : own;
    }

    /** @param {number} record */
    facts(record) {
        const { words, scene } = this.app;
        const { records, state } = scene;
        const list = make('dl', { class: 'facts' });
        const root = state.rootOf(this.chosen);
        if (root !== this.chosen) {
            const parent = state.parent[this.chosen];
            list.append(...termed('member of', this.linkToNumber(parent)));
            if (root !== parent) {
                list.append(...termed('tree', this.linkToNumber(root)));
            }
        }
        list.append(...termed('type', records.type[record] + ', ' + words.typeOf(records.type[record])),
            ...termed('level', String(records.level[record])));
        if (CLASS_OF[records.type[record]] !== CLASS.silent) {
            this.addLook(list, record);
            this.addPlaces(list, record);
        }
        this.addBytes(list, record);
        return list;
    }

    /** @param {number} number */
    linkToNumber(number) {
        const { scene, words } = this.app;
        return linkTo(words.nameOf(scene.state.record[number]), () => this.goOn(number));
    }

    /**
     * Chooses what a link of the panel names; the focus goes to the panel's title, since the link is gone.
     * @param {number} number
     */
    goOn(number) {
        this.app.choice.choose([number]);
        byId('element-title').focus();
    }

    /**
     * @param {HTMLElement} list
     * @param {number} record
     */
    addLook(list, record) {
        const { records } = this.app.scene, { app } = this;
        const colour = records.colour[record];
        list.append(...termed('colour', swatchOf(app.colours[colour]), ' ' + colour + '  ',
            make('span', { class: 'faint' }, app.open.drawing.colours.table[colour])));
        list.append(...termed('weight', String(records.weight[record])),
            ...termed('style', records.style[record] + ', ' + STYLE_NAMES[records.style[record]]));
        if (records.group[record] > 0) {
            list.append(...termed('graphic group', String(records.group[record])));
        }
    }

    /**
     * @param {HTMLElement} list
     * @param {number} record
     */
    addPlaces(list, record) {
        const { words, scene } = this.app;
        const { records } = scene, { axes } = records;
        const range = [...records.rangeOf(record)];
        const text = records.labelOf(record);
        if (text !== null && typeof text === 'object') {
            list.append(...termed('size', this.sizeSaid(text)),
                ...termed('angle', Number(text.degrees.toFixed(4)) + '°'),
                ...termed('font', text.font + ', justification ' + text.justification));
        }
        if (records.points[record] > 0 && DRAWN_OF[records.type[record]] !== DRAWN.box) {
            const first = Array.from({ length: axes }, (_, axis) => records.coordinate(record, 0, axis));
            const count = DRAWN_OF[records.type[record]] === DRAWN.path ? counted(records.points[record], 'point') : '';
            list.append(...termed(count ? 'from' : 'origin', this.placeSaid(first)));
            if (count) {
                list.append(...termed('points', count));
            }
        }
        list.append(...termed('low corner', this.placeSaid(range.slice(0, axes))),
            ...termed('high corner', this.placeSaid(range.slice(axes))));
        if (words.hasMaster) {
            const size = axesOfSeen(scene.orientation).map((axis) => words.lengthOf(range[axes + axis] - range[axis]));
            list.append(...termed('width, height', size.join(', ')));
        }
        for (const [term, said] of sizesOf(words, scene, this.chosen)) {
            list.append(...termed(term, said));
        }
    }

    /** @param {import('./records.js').TextLabel} text */
    sizeSaid(text) {
        const { words } = this.app;
        const units = text.height + ' high, ' + text.wide + ' wide per character';
        return words.hasMaster ? units + '  (' + words.lengthOf(text.height) + ')' : units;
    }

    /** @param {number[]} point */
    placeSaid(point) {
        const { words } = this.app;
        const plain = make('span', { class: 'number' }, point.join(', '));
        if (!words.hasMaster) {
            return plain;
        }
        const master = point.map((value, axis) => words.masterOf(value, axis)).join(', ') + ' ' + words.master;
        return make('span', {}, plain, make('br'), make('span', { class: 'number faint' }, master));
    }

    /**
     * @param {HTMLElement} list
     * @param {number} record
     */
    addBytes(list, record) {
        const { drawing, scene: { records } } = this.app.open;
        list.append(...termed('bytes', records.size[record] + ' from byte ' + drawing.placeOf(record)));
        const links = CLASS_OF[records.type[record]] === CLASS.silent ? [] : drawing.linkagesOf(record);
        if (links.length > 0) {
            const lines = links.map(({ kind, length, at }) => make('span', { class: 'line number' },
                kind + ' of ' + length + ' bytes at ' + at));
            list.append(...termed('linkages', ...lines));
        }
    }

    members() {
        const { chosen, app: { scene, words } } = this;
        const { state } = scene;
        const count = state.end[chosen] - chosen - 1;
        if (count === 0) {
            return [];
        }
        const list = make('ul', { class: 'members' });
        for (let at = chosen + 1; at <= chosen + Math.min(count, MOST_MEMBERS); at++) {
            const row = make('li', {}, linkTo(words.nameOf(state.record[at]), () => this.goOn(at)));
            row.style.paddingInlineStart = (state.above(at).length - state.above(chosen).length - 1) * 14 + 'px';
            list.append(row);
        }
        const more = make('p', { class: 'more' }, 'and ' + (count - MOST_MEMBERS) + ' more');
        return [make('h3', {}, counted(count, 'member')), list, ...(count > MOST_MEMBERS ? [more] : [])];
    }
}
