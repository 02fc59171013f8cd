/* Fills: a user linkage of a shape or an ellipse says that it is filled, and with which colour. */

import { FLAG, TYPE } from './format.js';
import { wordAt } from './numbers.js';
import { DMRS_LENGTH, LINKED, USER_BIT } from './tables.js';

const FILL = 0x0041;              // the word of a linkage behind its head that says that it is one of a fill
const COLOUR_AT = 8;              // where its colour stands in it

/**
 * The colour that an element is filled with, and one more; 0 where it is hollow.
 * @param {Uint8Array} bytes
 * @param {number} at where the element begins
 * @param {number} size
 */
export function fillAt(bytes, at, size) {
    const type = bytes[at + 1] & 0x7F;
    if ((type !== TYPE.shape && type !== TYPE.ellipse) || !(wordAt(bytes, at + 32) & LINKED)) {
        return 0;
    }
    const end = at + size;
    for (let place = at + 32 + 2 * wordAt(bytes, at + 30); place + COLOUR_AT < end;) {
        const first = bytes[place], second = bytes[place + 1];
        const isDmrs = first === 0 && (second === 0 || second === 0x80);
        const length = isDmrs ? DMRS_LENGTH : second & USER_BIT ? 2 + 2 * first : end - place;
        if (!isDmrs && second & USER_BIT && length > COLOUR_AT && place + length <= end
            && wordAt(bytes, place + 2) === FILL) {
            return bytes[place + COLOUR_AT] + 1;
        }
        place += length;
    }
    return 0;
}

/**
 * The records of the holes in a filled shape: of a group that it is in the shapes behind it that are marked as holes. A
 * hole itself isn't filled.
 * @param {import('./records.js').Records} records
 * @param {number} record
 * @returns {number[]}
 */
export function holesIn(records, record) {
    const holes = [];
    for (let at = record + 1; records.has(record, FLAG.bitC) && at < records.length
        && records.has(at, FLAG.hole | FLAG.bitC) && records.number[at] === records.number[at - 1] + 1; at++) {
        holes.push(at);
    }
    return holes;
}

/**
 * Whether a record is filled.
 * @param {import('./records.js').Records} records
 * @param {number} record
 */
export function isFilled(records, record) {
    return records.fill[record] > 0 && !records.has(record, FLAG.hole);
}
