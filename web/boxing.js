/* What a box that is drawn to choose by takes in a view of which the program knows no fence: of what is seen. */

import { cutSegment } from './cutting.js';
import { DRAWN, DRAWN_OF } from './format.js';
import { Path } from './path.js';

/** @typedef {import('./scene.js').Scene} Scene */

const SIZE = 1000;                // pixels that what is curved is taken to have

/**
 * What a record is seen by: the corners of its path, of its characters or of its range, x and y one behind the other;
 * and whether the last is joined to the first. Of a header's cross there are none.
 * @typedef {{ corners: number[], isClosed: boolean }} Seen
 */

/** @type {Seen} */
const NOTHING = Object.freeze({ corners: [], isClosed: false });

/** Takes trees of what a scene shows. */
export class BoxTaker {
    /**
     * @param {Scene} scene
     * @param {number[]} box low x, low y, high x, high y, as they are seen
     */
    constructor(scene, box) {
        this.scene = scene;
        this.box = box;
        this.path = new Path(scene.records);
    }

    /**
     * The trees that lie inside the box, or also those that it touches, in rising order.
     * @param {boolean} isInside
     * @returns {number[]}
     */
    trees(isInside) {
        const { scene: { state, records } } = this, roots = new Set();
        this.scene.query(this.box, (record) => {
            const number = records.number[record];
            if (number < state.count && state.record[number] === record && this.touches(record)) {
                roots.add(state.rootOf(number));
            }
        });
        return [...roots].filter((root) => !isInside || this.holds(root)).sort((one, other) => one - other);
    }

    /**
     * Whether all that is seen of a tree lies inside the box.
     * @param {number} root
     */
    holds(root) {
        const { scene, scene: { state }, box: [lowX, lowY, highX, highY] } = this;
        let isHeld = true;
        for (let at = root; at < state.end[root] && isHeld; at++) {
            const { corners } = scene.isDrawn(state.record[at]) ? this.seenOf(state.record[at]) : NOTHING;
            isHeld = corners.every((value, place) => (place % 2 === 0 ? value > lowX && value < highX
                : value > lowY && value < highY));
        }
        return isHeld;
    }

    /**
     * Whether something of a record lies in the box or on its edge.
     * @param {number} record
     */
    touches(record) {
        const { corners, isClosed } = this.seenOf(record), { length } = corners;
        let before = isClosed || length === 2 ? length - 2 : 0, isMet = false;
        for (let at = 0; at < length && !isMet; before = at, at += 2) {
            isMet = cutSegment(corners[before], corners[before + 1], corners[at], corners[at + 1], this.box) !== null;
        }
        return isMet;
    }

    /**
     * @param {number} record
     * @returns {Seen}
     */
    seenOf(record) {
        const { path, scene: { records } } = this, drawn = DRAWN_OF[records.type[record]];
        if (drawn === DRAWN.text) {
            return { corners: this.cornersOfText(record), isClosed: true };
        }
        if (drawn !== DRAWN.path && drawn !== DRAWN.box) {
            return NOTHING;
        }
        if (path.take(record, SIZE)) {
            return { corners: path.places(), isClosed: path.isClosed };
        }
        const [lowX, lowY, highX, highY] = records.box.subarray(record * 4, record * 4 + 4);
        return drawn === DRAWN.path ? NOTHING
            : { corners: [lowX, lowY, highX, lowY, highX, highY, lowX, highY], isClosed: true };
    }

    /**
     * The corners of a text's characters.
     * @param {number} record
     */
    cornersOfText(record) {
        const { records } = this.scene, { across, up } = records.orientation;
        const { width, height, turn: [alongX, alongY, upX, upY] } = (
            /** @type {import('./records.js').TextLabel} */ (records.labelOf(record)));
        const x = records.coordinate(record, 0, across), y = records.coordinate(record, 0, up);
        return [[0, 0], [width, 0], [width, height], [0, height]].flatMap(([along, high]) => (
            [x + along * alongX + high * upX, y + along * alongY + high * upY]));
    }
}
