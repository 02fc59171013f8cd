/* Selects trees by what is asked of their elements. */

import { counted } from './describing.js';
import { byId } from './dom.js';
import { numbersOf, testsOf, treesThatMeet } from './conditions.js';
import { levelsFence } from './levels_panel.js';
import { inSlices } from './slices.js';
import { typeName } from './types.js';

const ANY = 'any';

export class Finder {
    /** @param {import('./app.js').App} app */
    constructor(app) {
        this.app = app;
        /** What was asked for last, which stands in the fields again. */
        this.asked = { level: '', type: ANY, colour: '', weight: '', style: '', words: '' };
        byId('find').addEventListener('click', () => this.ask());
    }

    /** The types of the drawing as it is seen, by number and name. */
    get types() {
        const { types } = this.app.scene.state.counts;
        return [ANY, ...[...types.keys()].filter((type) => types[type] > 0).map((type) => type + ' ' + typeName(type))];
    }

    /** The fence that takes what was asked for, where that is levels alone. */
    get source() {
        const { level, type, ...rest } = this.asked;
        const isLevels = level !== '' && type === ANY && Object.values(rest).every((text) => text.trim() === '');
        return isLevels ? levelsFence(numbersOf(level) || []) : null;
    }

    /** Asks for conditions, and selects the trees that are shown in which an element meets all of them. */
    async ask() {
        const { app } = this;
        const answer = await app.questions.ask({
            title: 'Select by', buttons: ['Select', 'Add to the selection', 'Cancel'],
            said: ['Selects each tree in which one element has all of this; a field that is left empty doesn’t count.'],
            fields: [{ name: 'level', label: 'levels', value: this.asked.level },
                { name: 'type', label: 'type', value: this.asked.type, options: this.types },
                { name: 'colour', label: 'colours', value: this.asked.colour },
                { name: 'weight', label: 'weights', value: this.asked.weight },
                { name: 'style', label: 'styles', value: this.asked.style },
                { name: 'words', label: 'text or cell’s name with', value: this.asked.words }] },
        new AbortController().signal);
        if (answer === null || answer.button === 'Cancel') {
            return;
        }
        this.asked = /** @type {Finder['asked']} */ (answer.values);
        await this.select(answer.button !== 'Select');
    }

    /** @param {boolean} isMore whether what is selected stays so */
    async select(isMore) {
        const { app } = this, { scene, choice } = app, tests = testsOf(scene.records, this.asked);
        if (typeof tests === 'string') {
            app.notice(tests);
            return;
        }
        const { state } = scene, found = await inSlices(treesThatMeet(state, scene.shown, tests));
        if (scene !== app.scene || state !== scene.state) {
            return;
        }
        const before = isMore ? choice.numbers.map((it) => state.rootOf(it)) : [];
        app.tools.clearFence();
        choice.choose([...new Set([...before, ...found])], before.length === 0 ? this.source : null);
        choice.goToAll();
        app.say(counted(found.length, 'tree') + ' found');
    }
}
