/* Snapping while points are set: whether it is on, what the pointer has snapped to, and its mark. */

import { byId } from './dom.js';
import { DASHES } from './format.js';
import { Snapper } from './snapping.js';

/** @typedef {import('./snapping.js').Snap} Snap */

/** Pixels within which the pointer snaps. */
export const SNAP_REACH = 12;
/** What an element is named behind. */
const BEFORE_NAME = Object.freeze({
    end: 'end of', vertex: 'vertex of', crossing: 'crossing of', middle: 'middle of', centre: 'centre of',
    origin: 'origin of', on: 'on',
});
const ROUND = Array.from({ length: 17 }, (_, at) => [7 * Math.cos(at * Math.PI / 8), 7 * Math.sin(at * Math.PI / 8)]);
const SQUARE = [[-6, -6], [6, -6], [6, 6], [-6, 6], [-6, -6]];
/** The mark of each kind: lines by their points, in pixels from the place to the right and down.
 * @type {Readonly<Record<string, number[][][]>>}
 */
const MARK_LINES = Object.freeze({
    end: [SQUARE],
    vertex: [SQUARE, [[-2, 0], [2, 0]], [[0, -2], [0, 2]]],
    crossing: [[[-7, -7], [7, 7]], [[-7, 7], [7, -7]]],
    middle: [[[-7, 6], [7, 6], [0, -7], [-7, 6]]],
    centre: [ROUND],
    origin: [[[-7, 0], [0, -7], [7, 0], [0, 7], [-7, 0]]],
    on: [[[-6, -7], [6, -7], [-6, 7], [6, 7], [-6, -7]]],
});

export class SnapTool {
    /** @param {import('./app.js').App} app */
    constructor(app) {
        this.app = app;
        this.isOn = true;
        /** Whether Alt is held, which switches it off meanwhile. */
        this.isHeldOff = false;
        /**
         * What the pointer has snapped to.
         * @type {Snap | null}
         */
        this.found = null;
        /** @type {Snapper | null} */
        this.snapper = null;
        /** The version of the scene that it is of. */
        this.version = -1;
        byId('snap').addEventListener('click', () => this.toggle());
    }

    toggle() {
        this.isOn = !this.isOn;
        byId('snap').setAttribute('aria-pressed', String(this.isOn));
        this.app.say(this.isOn ? 'Snapping is on.' : 'Snapping is off.');
        this.app.tools.pointAgain();
    }

    /**
     * Switches it off while Alt is held.
     * @param {boolean} isHeldOff
     */
    hold(isHeldOff) {
        if (this.isHeldOff !== isHeldOff) {
            this.isHeldOff = isHeldOff;
            this.app.tools.pointAgain();
        }
    }

    /** The finder for what is shown now: what it knows of other records isn't so any more. */
    finder() {
        const { scene } = this.app;
        if (this.snapper === null || this.snapper.scene !== scene || this.version !== scene.version) {
            this.snapper = new Snapper(scene);
            this.version = scene.version;
        }
        return this.snapper;
    }

    /**
     * Where a place of the screen is taken to be, in whole units: what it snaps to, or else just there; with its z
     * where that is known from what it snaps to.
     * @param {number[]} place
     * @param {number} reach
     * @returns {number[]}
     */
    take(place, reach) {
        const { app } = this, [x, y] = app.drawingPlace(place);
        this.found = this.isOn && !this.isHeldOff
            ? this.finder().find(x, y, reach / app.view.scale, app.tools.drag?.own) : null;
        if (this.found === null) {
            return app.wholePlace(place);
        }
        const { x: atX, y: atY, z } = this.found;
        return [atX, atY, ...(z === null ? [] : [z])].map((value) => Math.round(value) || 0);
    }

    /**
     * Marks the first point of an outline, at which the pointer closes it.
     * @param {number[]} point
     */
    markFirst([x, y]) {
        this.found = { kind: 'end', x, y, z: null, record: -1, other: -1 };
    }

    /** What it has snapped to, in words. */
    said() {
        const { found, app } = this, words = /** @type {import('./words.js').Words} */ (app.words);
        if (found === null || found.record < 0) {
            return found === null ? '' : 'closes it';
        }
        const { records } = app.scene;
        const names = [found.record, found.other].filter((it) => it >= 0)
            .map((it) => words.typeOf(records.type[it]) + ' ' + records.number[it]);
        return BEFORE_NAME[found.kind] + ' ' + [...new Set(names)].join(' and ');
    }

    /** Says that a point was set at what it has snapped to. */
    tell() {
        const { found } = this;
        if (found !== null && found.record >= 0) {
            this.app.say((found.kind === 'on' ? 'Set ' : 'Set at the ') + this.said() + '.');
        }
    }

    /**
     * Draws the mark of what it has snapped to.
     * @param {import('./painter.js').Painter} painter
     * @param {number} ratio
     */
    draw(painter, ratio) {
        const { found, app: { view, pens } } = this;
        if (found === null) {
            return;
        }
        const left = view.toScreenX(found.x), top = view.toScreenY(found.y);
        painter.start(view, ratio);
        painter.setPen(pens.chosen, 2, DASHES[0]);
        MARK_LINES[found.kind].flatMap((line) => line.slice(1).map((to, at) => [...line[at], ...to]))
            .forEach(([fromX, fromY, toX, toY]) => (
                painter.traceSegment(left + fromX, top + fromY, left + toX, top + toY)));
        painter.finish();
    }
}
