/* The app as a whole: the drawing that is open, what is seen of it, and what is done to it. */

import { ChangesPanel } from './changes_panel.js';
import { Choice } from './choice.js';
import { byId, setHidden, make, fill } from './dom.js';
import { EditPanel } from './edit_panel.js';
import { Editing } from './editing.js';
import { Exports } from './exports.js';
import { Finder } from './finder.js';
import { ElementPanel } from './element_panel.js';
import { KeptPanel } from './kept_panel.js';
import { LevelsPanel } from './levels_panel.js';
import { Menu } from './menu.js';
import { Modes } from './modes.js';
import { Opener } from './opener.js';
import { Picker } from './picker.js';
import { Pointer } from './pointer.js';
import { Questions, buttonOf } from './questions.js';
import { Refusals } from './refusals.js';
import { Saver } from './saver.js';
import { targetOf } from './saving.js';
import { Scene } from './scene.js';
import { ScriptPanel } from './script_panel.js';
import { Search } from './search.js';
import { Stage } from './stage.js';
import { busy, lineSaid, surroundingsOf } from './surroundings.js';
import { GREATEST, LEAST } from './tables.js';
import { Tabs } from './tabs.js';
import { Tools } from './tools.js';
import { View } from './view.js';
import { Views } from './views.js';
import { Words } from './words.js';
import { Work } from './work.js';

/** @typedef {import('./comparing.js').Change} Change */
/** @typedef {Pick<Change, 'kind' | 'words'>} Told how an element has changed */
/** @typedef {import('./document.js').Document} Document */
/** @typedef {import('./drawing.js').Drawing} Drawing */
/** @typedef {import('./state.js').State} State */

/**
 * A drawing that is open, and what is seen, said and picked of it.
 * @typedef {{ drawing: Drawing, scene: Scene, words: Words, picker: Picker, refusals: Refusals }} Open
 */

export class App {
    /** @param {import('./engine.js').Engine | null} engine the program, where the browser can run it */
    constructor(engine) {
        /** @type {Open | null} */
        this.opened = null;
        /**
         * The colours of the table as they are drawn on the ground.
         * @type {string[]}
         */
        this.colours = [];
        this.pens = /** @type {Record<string, string>} */ ({});
        /**
         * A place of the drawing that is marked.
         * @type {number[] | null}
         */
        this.place = null;
        /** What is told of changes, by their records, while two drawings are compared. */
        this.changes = /** @type {Map<number, Told>} */ (new Map());
        /** What the numbers before became, by their records, where they aren't kept; null where they are gone. */
        this.became = /** @type {Map<number, number | null>} */ (new Map());
        this.view = new View(0, 0);
        this.choice = new Choice(this);
        this.views = new Views(this);
        this.tools = new Tools(this);
        this.stage = new Stage(this);
        this.modes = new Modes(this);
        this.tabs = new Tabs(this);
        this.questions = new Questions((isOpen) => {
            busy.isAsking = isOpen;
            busy.show();
        });
        this.work = new Work(surroundingsOf(this, engine));
        this.opener = new Opener(this.work);
        this.saver = new Saver(this.work, { target: targetOf, confirm: (name, act) => this.confirm(name, act) });
        this.editing = new Editing(this);
        this.levelsPanel = new LevelsPanel(this);
        this.elementPanel = new ElementPanel(this);
        this.editPanel = new EditPanel(this);
        this.scriptPanel = new ScriptPanel(this);
        this.changesPanel = new ChangesPanel(this);
        this.search = new Search(this);
        this.exports = new Exports(this);
        this.finder = new Finder(this);
        this.menu = new Menu(this);
        this.keptPanel = new KeptPanel(this);
        new Pointer(byId('marks'), this);
    }

    /** What is open, for all that is done with an open drawing alone. */
    get open() {
        if (this.opened === null) {
            throw new Error('no drawing is open');
        }
        return this.opened;
    }

    /** The drawing that is open, or null. */
    get drawing() {
        return this.opened === null ? null : this.opened.drawing;
    }

    get scene() {
        return this.open.scene;
    }

    get words() {
        return this.open.words;
    }

    get picker() {
        return this.open.picker;
    }

    get refusals() {
        return this.open.refusals;
    }

    get isAsking() {
        return this.questions.isOpen;
    }

    get hasProgram() {
        return this.work.maker !== null;
    }

    /** Whether edits can be made: not while two drawings are compared. */
    get canEdit() {
        return this.hasProgram && this.work.document !== null && this.changesPanel.other === null;
    }

    /**
     * Shows a document after a step: all that is seen of the drawing follows from it.
     * @param {Document} document
     * @param {Document | null} former
     */
    showDocument(document, former) {
        const { made, original } = document, isOther = former === null || former.original !== original;
        if (isOther) {
            setHidden(byId('start-fault'), true);
            fill(byId('confirms'));
            this.views.clear();
        }
        if (isOther || this.drawing !== made.base) {
            this.takeInView(made.base, isOther);
        }
        if (isOther || former.made !== made) {
            setHidden(byId('notice'), true);
            this.showMade(made);
        }
        this.showKeeping();
        this.show();
    }

    /**
     * Shows what a script makes of the drawing that it runs on.
     * @param {import('./document.js').Made} made
     */
    showMade({ base, changes }) {
        const isChanged = changes !== null && (changes.starts.length > 0 || changes.appended.length > 0);
        this.tools.fence.clear();
        this.showAfter(isChanged ? base.after(changes) : null);
    }

    /**
     * Shows another drawing, in the same view where it is of the same file.
     * @param {Drawing} drawing
     * @param {boolean} isOther
     */
    takeInView(drawing, isOther) {
        const seen = this.view.copy();
        this.take(drawing);
        if (!isOther) {
            Object.assign(this.view, { x: seen.x, y: seen.y, scale: seen.scale });
            this.stage.moved();
        }
    }

    /** Says that the work can't be kept, as long as it is so. */
    showKeeping() {
        const { document, keeper } = this.work;
        const said = document !== null && document.isUnsaved ? keeper.fault : '';
        byId('keeping').textContent = said;
        setHidden(byId('keeping'), said === '');
    }

    /**
     * Shows a drawing from now on.
     * @param {Drawing} drawing
     */
    take(drawing) {
        const scene = new Scene(drawing.records, drawing.before, this.views.orientation);
        const words = new Words(drawing, scene);
        this.opened = { drawing, scene, words, picker: new Picker(scene), refusals: new Refusals(drawing) };
        this.place = null;
        this.choice.clear();
        this.endCompare();
        document.body.dataset.state = 'open';
        document.title = drawing.name + ' – ' + drawing.count + (drawing.count === 1 ? ' element' : ' elements');
        byId('title').textContent = byId('title').title = drawing.name;
        byId('summary').textContent = byId('summary').title = words.summary();
        setHidden(byId('notice'), true);
        this.editPanel.take();
        this.search.clear();
        this.tools.clear();
        this.views.show();
        this.stage.changed();
        this.sceneChanged();
        byId('marks').focus({ preventScroll: true });
    }

    /**
     * Shows the state that a script leaves behind the drawing, or the drawing alone.
     * @param {State | null} after
     */
    showAfter(after) {
        const { scene } = this;
        if (!after || scene.mode === 'before') {
            scene.mode = after ? 'after' : 'before';
        }
        scene.setAfter(after);
        this.sceneChanged();
    }

    /** What is shown has changed: levels, marks or the state. */
    sceneChanged() {
        this.scene.update();
        this.stage.showNothing();
        this.choice.keepShown();
        this.modes.show();
        this.levelsPanel.show();
        this.tools.pointAgain();
        if (this.tools.fence.isSet) {
            this.tools.fence.ask();
        }
        this.show();
        this.stage.request();
    }

    /** Brings all panels up to date. */
    show() {
        if (this.drawing === null) {
            return;
        }
        this.editPanel.show();
        this.elementPanel.show();
        this.scriptPanel.show();
        this.menu.show();
    }

    /** Another choice. */
    showChoice() {
        this.show();
        this.editPanel.probe();
    }

    /* Comparing. */

    /**
     * Shows another drawing behind this one, with what differs.
     * @param {Drawing} other
     * @param {Change[]} changes
     * @param {State} after the other drawing's, beside this one
     * @param {string} said which state of this one it is
     */
    compareWith(other, changes, after, said) {
        this.changesPanel.take(other, changes, said);
        this.readChanges(changes, after);
        this.scene.mode = 'both';
        this.scene.setAfter(after, changes);
        this.tabs.show('changes');
        this.sceneChanged();
    }

    /** Forgets what differs. */
    endCompare() {
        if (this.changesPanel.other !== null) {
            this.changesPanel.take(null, []);
            this.changes.clear();
            this.became.clear();
            this.tabs.show('edit');
        }
    }

    /** Ends comparing, and shows the document again. */
    leaveCompare() {
        const { document } = this.work;
        this.endCompare();
        if (document !== null) {
            this.takeInView(document.made.base, false);
            this.showMade(document.made);
            this.show();
        }
    }

    /**
     * Changes by the record that they are of, and what the numbers before became where they aren't kept.
     * @param {Change[]} changes
     * @param {State} after
     */
    readChanges(changes, after) {
        for (const { before, after: now, kind, words, more } of changes) {
            for (let place = 0; place <= more; place++) {
                this.readChange({ kind, words }, before === null ? null : before + place,
                    now === null ? null : after.record[now + place], now === null ? null : now + place);
            }
        }
    }

    /**
     * @param {Told} change
     * @param {number | null} old the number before, which is the record's, too
     * @param {number | null} record of the number after
     * @param {number | null} made the number after
     */
    readChange(change, old, record, made) {
        if (record !== null) {
            this.changes.set(record, change);
        }
        if (old !== null) {
            this.changes.set(old, change);
        }
        if (old !== null && old !== made) {
            this.became.set(old, made);
        }
    }

    /* Places. */

    /** @param {number[]} place */
    drawingPlace([left, top]) {
        return [this.view.toDrawingX(left), this.view.toDrawingY(top)];
    }

    /**
     * The place as whole units, as a script takes it.
     * @param {number[]} place
     */
    wholePlace(place) {
        return this.drawingPlace(place).map((value) => Math.min(Math.max(Math.round(value), LEAST), GREATEST) || 0);
    }

    /* Saying. */

    /** @param {string} text */
    say(text) {
        byId('said').textContent = text;
    }

    /**
     * Says something that stays until it is closed or something else is done, with buttons for what can be done.
     * @param {string} text
     * @param {...[string, () => void]} acts
     */
    notice(text, ...acts) {
        const notice = byId('notice');
        const close = () => setHidden(notice, true);
        const buttons = acts.map(([name, act]) => buttonOf(name, () => {
            close();
            act();
        }));
        fill(notice, make('p', {}, text), make('div', { class: 'row' }, ...buttons, buttonOf('Close', close)));
        setHidden(notice, false);
        this.say(text);
    }

    /**
     * Says that a line was refused, and why; `leaveOut` adds what goes.
     * @param {import('./work.js').Refusal} refusal
     * @param {(() => void) | null} leaveOut
     */
    tellRefusal({ document, lines, answers, index }, leaveOut = null) {
        const line = lines[index], done = document.doneBefore(document.lines.length);
        const sentence = this.refusals.sentence(line, answers[index]?.cause || '', done);
        /** @type {[string, () => void][]} */
        const acts = leaveOut ? [['Leave out what can’t be edited', leaveOut]] : [];
        this.notice(lineSaid(line) + ' is refused: ' + sentence, ...acts);
    }

    /**
     * Asks, beside the drawing, whether a file is there that the browser was given to save.
     * @param {string} name
     * @param {() => void} act
     */
    confirm(name, act) {
        const said = name + ' was given to the browser to save. Is it there?';
        /** @type {HTMLElement} */
        const row = make('div', { class: 'confirm' }, make('p', {}, said),
            buttonOf('It is saved', () => {
                row.remove();
                act();
            }), buttonOf('Not yet', () => row.remove()));
        fill(byId('confirms'), row);
    }
}
