/* Edits of what is chosen or of what a fence takes, and new elements. */

import { unitsIn } from './coordinates.js';
import { counted } from './describing.js';
import { byId, fill, make, setHidden } from './dom.js';
import { spellingFault } from './encoding.js';
import { probesOf } from './lines.js';
import { TEXT_UNIT } from './reading.js';

const EDITS = /** @type {const} */ ([['move', 'Move'], ['copy', 'Copy'], ['sym', 'Set look'], ['delete', 'Delete']]);
const FIELDS = /** @type {const} */ (['by-x', 'by-y', 'by-z', 'by-unit', 'new-color', 'new-weight', 'new-style']);
const BY = /** @type {const} */ (['by-x', 'by-y', 'by-z']);
const LOOK = /** @type {const} */ (['new-color', 'new-weight', 'new-style']);
/** What Enter does in a field. */
const ENTERS = Object.freeze({
    'by-x': 'edit-move', 'by-y': 'edit-move', 'by-z': 'edit-move', 'new-color': 'edit-sym', 'new-weight': 'edit-sym',
    'new-style': 'edit-sym',
});
const MOST_PROBED = 200;          // chosen trees of which is asked beforehand what would be refused
const REST = 120;                 // milliseconds before it is asked
/** @type {Readonly<Record<string, string | undefined>>} */
const MAKING_NAMES = Object.freeze({ line: 'line', string: 'line string', shape: 'shape', text: 'text' });

/** @typedef {import('./lines.js').Edit} Edit */

export class EditPanel {
    /** @param {import('./app.js').App} app */
    constructor(app) {
        this.app = app;
        /**
         * The cause against each edit of what is chosen, with its line.
         * @type {Map<string, string>}
         */
        this.causes = new Map();
        this.probed = 0;
        byId('edit-move').addEventListener('click', () => this.edit({ word: 'move', by: this.by() }));
        byId('edit-copy').addEventListener('click', () => this.edit({ word: 'copy', by: this.by() }));
        byId('edit-sym').addEventListener('click', () => this.edit({ word: 'sym', look: this.look() }));
        byId('edit-delete').addEventListener('click', () => this.edit({ word: 'delete' }));
        for (const id of FIELDS) {
            byId(id).addEventListener('input', () => this.show());
        }
        byId('making').addEventListener('keydown', (/** @type {KeyboardEvent} */ event) => this.enterMaking(event));
        for (const [id, button] of Object.entries(ENTERS)) {
            byId(id).addEventListener('keydown', (/** @type {KeyboardEvent} */ event) => (
                event.key === 'Enter' ? byId(button).click() : undefined));
        }
    }

    /**
     * Enter in a field of a new element makes it where all its points are set, as where it was refused.
     * @param {KeyboardEvent} event
     */
    enterMaking(event) {
        const { tools } = this.app;
        if (event.key === 'Enter' && tools.isMaking && tools.isFull) {
            tools.close();
        }
    }

    /** Fits the fields to another drawing. */
    take() {
        const { words, drawing } = this.app.open;
        const options = [make('option', { value: 'resolution', title: 'units of resolution' }, 'units')];
        if (words.hasMaster) {
            options.push(make('option', { value: 'master' }, words.master));
        }
        fill(byId('by-unit'), ...options.reverse());
        byId('make-height-unit').textContent = words.hasMaster ? words.master : 'units';
        for (const element of /** @type {NodeListOf<HTMLElement>} */ (document.querySelectorAll('.axis-z'))) {
            setHidden(element, drawing.axes === 2);
        }
        this.causes.clear();
    }

    /* What the fields hold. */

    /** The displacement, in units of resolution, or null where the fields hold none. */
    by() {
        const fields = BY.slice(0, this.app.open.drawing.axes);
        const factor = byId('by-unit').value === 'master' ? this.app.words.unitsOfMaster : 1;
        const values = fields.map((id) => unitsIn(byId(id).value, factor));
        return values.some((it) => it === null) ? null : /** @type {number[]} */ (values);
    }

    /** Colour, weight and style, a dash for each that stays; null where a field holds no number. */
    look() {
        const values = LOOK.map((id) => byId(id).value.trim() || '-');
        return values.every((it) => /^(-|\d+)$/.test(it)) ? values : null;
    }

    get hasLook() {
        const look = this.look();
        return look !== null && look.some((it) => it !== '-');
    }

    /** Whether something is chosen that can be seen: what is hidden isn't edited by hand. */
    get hasChoice() {
        const { choice } = this.app;
        return choice.numbers.length > 0 && choice.isShown;
    }

    /* Doing. */

    /**
     * Does an edit, unless a field of it holds no number; what can't be is told by the program.
     * @param {{ word: Edit['word'], by?: number[] | null, look?: string[] | null }} edit
     */
    edit({ word, by, look }) {
        const { app } = this, isMissing = by === null || look === null;
        const hasAim = app.canEdit && (app.tools.fence.isSet || this.hasChoice);
        if (hasAim && !isMissing && app.work.isDoing) {
            app.say('The program is still working on the last edit.');
        } else if (hasAim && !isMissing) {
            app.editing.edit({ word, by, look });
        }
    }

    /**
     * Appends an element that was drawn by its points, and says whether it was.
     * @param {string} tool
     * @param {number[][]} points
     */
    async make(tool, points) {
        const word = /** @type {'line' | 'string' | 'shape' | 'text'} */ (tool);
        if (word === 'text' && byId('make-words').value === '') {
            this.app.notice('Type the text first.');
            byId('make-words').focus();
            return false;
        }
        const { app } = this, { drawing } = app.open;
        const fault = word === 'text' ? spellingFault(byId('make-words').value, drawing) : '';
        if (fault !== '') {
            app.notice(fault);
            return false;
        }
        const z = new Array(drawing.axes - 2).fill(0);
        return app.editing.make(word, this.makingOf(), points.map((point) => [...point, ...z].slice(0, drawing.axes)));
    }

    makingOf() {
        /** @param {'level' | 'color' | 'weight' | 'style' | 'height' | 'font'} name */
        const value = (name) => byId(/** @type {const} */ (`make-${name}`)).value.trim();
        const { words } = this.app, unit = words.hasMaster ? words.unitsOfMaster : 1;
        const size = unitsIn(value('height'), unit / TEXT_UNIT);
        return {
            level: value('level'), colour: value('color'), weight: value('weight'), style: value('style'),
            font: value('font'), size: String(size === null ? value('height') : size), words: byId('make-words').value,
        };
    }

    /** Asks the program, once the choice rests, which edits of it would be refused. */
    probe() {
        const { app } = this, { numbers } = app.choice, probed = ++this.probed;
        this.causes.clear();
        if (!app.canEdit || numbers.length === 0 || numbers.length > MOST_PROBED) {
            return;
        }
        setTimeout(async () => {
            if (probed !== this.probed || app.work.isDoing) {
                return;
            }
            const answers = await app.work.ask(probesOf(numbers, app.open.drawing.axes));
            if (answers !== null && probed === this.probed) {
                this.takeProbes(answers, numbers.length);
            }
        }, REST);
    }

    /**
     * @param {(import('./answers.js').Answer | null)[]} answers
     * @param {number} count of the chosen trees
     */
    takeProbes(answers, count) {
        EDITS.forEach(([edit], index) => {
            const own = answers.slice(index * count, (index + 1) * count);
            const causes = own.map((it) => (it === null ? null : it.cause));
            if (causes[0] && causes.every((it) => it !== null)) {
                this.causes.set(edit, causes[0]);
            }
        });
        this.show();
    }

    /* Showing. */

    show() {
        const { app } = this, { fence } = app.tools;
        if (!app.hasProgram) {
            return;
        }
        const isAimed = fence.isSet ? fence.chosen.length > 0 : this.hasChoice;
        byId('edits').disabled = !app.canEdit;
        byId('edits-legend').textContent = this.legend();
        fence.show();
        this.showButtons(isAimed, fence.isSet ? fence.causes : this.causes);
        this.showMistakes();
        this.showMaking();
        const colour = Number(byId('new-color').value);
        byId('new-color-swatch').style.backgroundColor = byId('new-color').value !== '' && app.colours[colour]
            ? app.colours[colour] : 'transparent';
    }

    /**
     * What can be done, and why not what can't. A fence whose edits are refused may still leave out what is.
     * @param {boolean} isAimed
     * @param {Map<string, string>} causes
     */
    showButtons(isAimed, causes) {
        const isFence = this.app.tools.fence.isSet, by = this.by();
        for (const [edit] of EDITS) {
            const isMissing = edit === 'sym' ? !this.hasLook : edit !== 'delete' && by === null;
            const isRefused = !isFence && causes.has(edit);
            byId(/** @type {const} */ (`edit-${edit}`)).disabled = !isAimed || isMissing || isRefused;
        }
        for (const edit of /** @type {const} */ (['move', 'copy'])) {
            byId(/** @type {const} */ (`drag-${edit}`)).disabled = !isAimed || isFence || causes.has(edit);
        }
        /** @type {Map<string, string[]>} */
        const said = new Map();
        for (const [edit, name] of EDITS) {
            const cause = causes.get(edit);
            if (isAimed && cause !== undefined) {
                const why = this.app.refusals.sentence(edit, cause);
                said.set(why, [...(said.get(why) || []), name]);
            }
        }
        fill(byId('refusals'), ...[...said].map(([why, names]) => (
            make('li', {}, names.join(', ') + ' would be refused: ' + why))));
    }

    legend() {
        const { choice, scene, tools: { fence } } = this.app;
        if (fence.isSet) {
            return fence.isKnown ? 'Edit what the fence takes: ' + counted(fence.chosen.length, 'tree')
                : 'Asking the program what the fence takes';
        }
        if (!choice.isShown) {
            return 'It isn’t shown, so it can’t be edited here';
        }
        if (choice.numbers.length !== 1) {
            return choice.numbers.length === 0 ? 'Edit: select something first'
                : 'Edit ' + choice.numbers.length + ' trees';
        }
        const { state } = scene, count = state.end[choice.last] - choice.last;
        const what = state.parent[choice.last] >= 0 ? 'member ' : count > 1 ? 'tree ' : 'element ';
        return 'Edit ' + what + choice.last + (count > 1 ? ', ' + counted(count, 'element') : '');
    }

    showMistakes() {
        const said = [];
        if (this.by() === null) {
            said.push(byId('by-unit').value === 'master' ? 'A displacement is a number, such as -2.5.'
                : 'A displacement is a whole number of units of resolution, such as -250.');
        }
        if (this.look() === null) {
            said.push('Colour, weight and style are whole numbers; an empty field stays as it is.');
        }
        fill(byId('mistakes'), ...said.map((text) => make('li', {}, text)));
    }

    /** The fields of a new element, while one is drawn. */
    showMaking() {
        const { tools } = this.app;
        setHidden(byId('making'), !tools.isMaking);
        if (tools.isMaking) {
            byId('making-legend').textContent = 'New ' + MAKING_NAMES[tools.tool];
            setHidden(byId('make-text-row'), tools.tool !== 'text');
        }
    }
}
