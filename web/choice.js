/* What is under the pointer, and what is chosen. */

import { byId, setHidden } from './dom.js';
import { REACH } from './pointer.js';

/**
 * The chosen elements by their numbers. One may be a member; of several each is a tree. The last is the one that the
 * panel speaks of.
 */
export class Choice {
    /** @param {import('./app.js').App} app */
    constructor(app) {
        this.app = app;
        /** The record under the pointer, or -1. */
        this.hovered = -1;
        /** @type {number[]} */
        this.numbers = [];
        /**
         * The fence that took them, where one did.
         * @type {import('./editing.js').Source | null}
         */
        this.source = null;
        /** @type {number[] | null} */
        this.pointer = null;
    }

    /** The number of the element that was chosen last, or -1. */
    get last() {
        return this.numbers.length > 0 ? this.numbers[this.numbers.length - 1] : -1;
    }

    /** Whether something of each that is chosen is shown. */
    get isShown() {
        const { state, shown } = this.app.scene;
        return this.numbers.every((it) => it < state.count && state.isTreeShown(it, shown));
    }

    /** Forgets all, for another drawing. */
    clear() {
        this.hovered = -1;
        this.numbers = [];
        this.source = null;
    }

    /** @param {number[] | null} place of the screen, or none */
    point(place) {
        this.pointer = place;
        this.app.tools.point(place);
        this.app.stage.request();
    }

    /**
     * @param {number[]} place
     * @param {number} reach in pixels
     */
    pickAt(place, reach) {
        const [x, y] = this.app.drawingPlace(place);
        return this.app.picker.pick(x, y, reach / this.app.view.scale);
    }

    hover() {
        const { app, pointer } = this;
        this.hovered = pointer === null || app.tools.isBusy ? -1 : this.pickAt(pointer, REACH.mouse);
        byId('place').textContent = pointer === null ? '' : app.words.placeOf(app.tools.seenAt(pointer));
        const said = this.hovered < 0 ? '' : app.words.hoverOf(this.hovered);
        byId('under').textContent = said;
        const label = byId('hover');
        setHidden(label, said === '');
        if (said !== '' && pointer !== null) {
            label.textContent = said;
            const isRight = pointer[0] > app.view.width / 2;
            label.style.left = isRight ? 'auto' : pointer[0] + 14 + 'px';
            label.style.right = isRight ? app.view.width - pointer[0] + 14 + 'px' : 'auto';
            label.style.top = Math.min(pointer[1] + 14, app.view.height - 40) + 'px';
        }
    }

    /**
     * A click: the tree that is there, at a second click its member; with Shift the tree besides what is chosen.
     * @param {number[]} place
     * @param {number} reach
     * @param {boolean} isMore
     */
    click(place, reach, isMore) {
        const record = this.pickAt(place, reach);
        if (record < 0) {
            this.choose(isMore ? this.numbers : []);
            return;
        }
        const number = this.numberOf(record), { state } = this.app.scene, root = state.rootOf(number);
        if (isMore) {
            const roots = [...new Set(this.numbers.map((it) => state.rootOf(it)))];
            this.choose(roots.includes(root) ? roots.filter((it) => it !== root) : [...roots, root]);
            return;
        }
        const isInTree = this.numbers.length === 1 && state.rootOf(this.last) === root;
        this.choose([isInTree && this.last !== number ? number : root]);
    }

    /**
     * The number of a record in the state that numbers are looked up in. What is gone there is looked up before.
     * @param {number} record
     */
    numberOf(record) {
        const { app } = this, { scene } = app, number = scene.records.number[record];
        const became = app.became.get(record);
        if (scene.mode === 'before' || became === undefined) {
            return number;
        }
        if (became === null) {
            app.modes.set('before');
            return number;
        }
        return became;
    }

    /**
     * Chooses elements, and nothing else; `source` is the fence that took them.
     * @param {number[]} numbers
     * @param {import('./editing.js').Source | null} source
     */
    choose(numbers, source = null) {
        const { app } = this, { scene } = app;
        if (numbers.some((it) => it >= scene.state.count)) {
            app.modes.set(numbers.every((it) => it < scene.before.count) ? 'before' : 'both');
        }
        this.numbers = numbers;
        this.source = source;
        if (numbers.length === 0) {
            app.tools.endDrag();
        }
        app.showChoice();
        app.say(numbers.length === 0 ? '' : numbers.length > 1 ? 'Chosen: ' + numbers.length + ' trees'
            : 'Chosen: ' + app.words.nameOf(scene.state.record[this.last]));
        app.stage.request();
    }

    /** Lets go of what is no longer there or no longer shown. */
    keepShown() {
        const { state, shown } = this.app.scene;
        this.hovered = -1;
        const kept = this.numbers.filter((it) => it < state.count && state.isTreeShown(it, shown));
        if (kept.length < this.numbers.length) {
            this.choose(kept);
        }
    }

    /**
     * Chooses the next or the previous tree that is shown.
     * @param {number} by
     */
    step(by) {
        const { state, shown } = this.app.scene;
        const from = this.last < 0 ? (by > 0 ? 0 : state.count) : state.rootOf(this.last);
        const number = state.neighbour(from, by, shown);
        if (number < state.count && number !== from) {
            this.choose([number]);
            this.goTo(number);
        }
    }

    /**
     * Goes to an element: its part, and its old place where it is changed.
     * @param {number} number
     */
    goTo(number) {
        const { scene, stage } = this.app;
        if (number >= 0) {
            const old = scene.mode === 'both' ? this.boxIn(scene.before, number) : null;
            stage.goToBox(joined([old, this.boxIn(scene.state, number)]));
        }
    }

    /** Goes to all that is chosen. */
    goToAll() {
        const { scene, stage } = this.app;
        stage.goToBox(joined(this.numbers.map((it) => this.boxIn(scene.state, it))));
    }

    /**
     * The box of a part in a state, or null where there is none.
     * @param {import('./state.js').State | null} state
     * @param {number | null} number
     */
    boxIn(state, number) {
        return state && number !== null && number < state.count ? this.app.scene.boxOfPart(state, number) : null;
    }
}

/**
 * The least box that holds all of these, or null where none is there.
 * @param {(number[] | null)[]} boxes
 * @returns {number[] | null}
 */
export function joined(boxes) {
    const all = [Infinity, Infinity, -Infinity, -Infinity];
    for (const box of boxes) {
        if (box !== null) {
            all[0] = Math.min(all[0], box[0]);
            all[1] = Math.min(all[1], box[1]);
            all[2] = Math.max(all[2], box[2]);
            all[3] = Math.max(all[3], box[3]);
        }
    }
    return all[0] <= all[2] ? all : null;
}
