/* Boxes around what is drawn. */

import { DRAWN, DRAWN_OF } from './format.js';

/**
 * Whether elements of a type have a place of their own. The origin of a cell or of a text node counts only where it is
 * asked for: programs leave it far away from what the cell holds.
 * @param {number} type
 * @param {boolean} withOrigins
 */
export function hasPlace(type, withOrigins) {
    const drawn = DRAWN_OF[type];
    return drawn === DRAWN.path || drawn === DRAWN.text || drawn === DRAWN.box
        || (withOrigins && (drawn === DRAWN.cell || drawn === DRAWN.node));
}

/**
 * Widens a box so that it holds that of a record.
 * @param {number[]} box low x, low y, high x, high y
 * @param {Int32Array} boxes
 * @param {number} record
 */
export function widenBox(box, boxes, record) {
    const at = record * 4;
    box[0] = Math.min(box[0], boxes[at]);
    box[1] = Math.min(box[1], boxes[at + 1]);
    box[2] = Math.max(box[2], boxes[at + 2]);
    box[3] = Math.max(box[3], boxes[at + 3]);
}

/**
 * The least box of the records that are shown: of none a box of one unit.
 * @param {import('./records.js').Records} records
 * @param {Uint8Array} shown
 */
export function extentOf(records, shown) {
    for (const withOrigins of [false, true]) {
        const box = boxOf(records, 0, records.length, (record) => shown[record] === 1
            && hasPlace(records.type[record], withOrigins) && !isEmptyPath(records, record));
        if (box !== null) {
            return box;
        }
    }
    return [0, 0, 1, 1];
}

/**
 * The least box of all records from one to before another, with all origins.
 * @param {import('./records.js').Records} records
 * @param {number} from
 * @param {number} to
 */
export function extentOfAll(records, from, to) {
    return boxOf(records, from, to, (record) => hasPlace(records.type[record], true)) || [0, 0, 1, 1];
}

/**
 * How many records that are drawn don't lie in a box: of that of all that is shown the origins of cells outside of it.
 * @param {Pick<import('./scene.js').Scene, 'records' | 'isDrawn'>} scene
 * @param {number[]} box low x, low y, high x, high y
 */
export function countOutside(scene, [lowX, lowY, highX, highY]) {
    const { records: { box, length } } = scene;
    let count = 0;
    for (let record = 0; record < length; record++) {
        const at = 4 * record;
        if ((box[at] < lowX || box[at + 1] < lowY || box[at + 2] > highX || box[at + 3] > highY)
            && scene.isDrawn(record)) {
            count++;
        }
    }
    return count;
}

/**
 * @param {import('./records.js').Records} records
 * @param {number} from
 * @param {number} to
 * @param {(record: number) => boolean} isTaken
 */
function boxOf(records, from, to, isTaken) {
    const box = [Infinity, Infinity, -Infinity, -Infinity];
    for (let record = from; record < to; record++) {
        if (isTaken(record)) {
            widenBox(box, records.box, record);
        }
    }
    return box[0] <= box[2] ? box : null;
}

/**
 * Whether a record is a path without points, which is drawn nowhere.
 * @param {import('./records.js').Records} records
 * @param {number} record
 */
function isEmptyPath(records, record) {
    return DRAWN_OF[records.type[record]] === DRAWN.path && records.points[record] === 0;
}
