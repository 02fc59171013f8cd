/* Reads elements out of their bytes into records. */

import { projected, projectionAt, turnOf } from './arcs.js';
import { pointsCount, pointsPlace, textPlace } from './bodies.js';
import { fillAt } from './fills.js';
import { FLAG, HOLE, TYPE } from './format.js';
import { longAt, rangeNumberAt, wordAt } from './numbers.js';
import { TOP } from './orientation.js';
import { cellName } from './radix50.js';
import { CLASS, CLASS_OF, LOCKED } from './tables.js';
import { countOfSigns, readable } from './texts.js';

/** What one of a text's multipliers stands for, in units of resolution. */
export const TEXT_UNIT = 6 / 1000;

/** @typedef {import('./orientation.js').Orientation} Orientation */
/** @typedef {import('./records.js').Records} Records */
/** @typedef {import('./records.js').TextLabel} TextLabel */

/**
 * Appends a record of the element that begins at a place.
 * @param {Records} records
 * @param {Uint8Array} bytes
 * @param {number} at
 * @param {number} number
 * @param {number} flags of its place in its tree
 * @returns {number} the record
 */
export function readElement(records, bytes, at, number, flags) {
    const record = records.length++, type = bytes[at + 1] & 0x7F;
    const isSilent = CLASS_OF[type] === CLASS.silent;
    const isLocked = !isSilent && wordAt(bytes, at + 32) & LOCKED;
    const isHole = type === TYPE.shape && wordAt(bytes, at + 32) & HOLE;
    records.type[record] = type;
    records.level[record] = bytes[at] & 0x3F;
    records.size[record] = 4 + 2 * wordAt(bytes, at + 2);
    records.number[record] = number;
    records.flags[record] = flags | (bytes[at] & 0x80 ? FLAG.bitC : 0) | (bytes[at + 1] & 0x80 ? FLAG.deleted : 0)
        | (isLocked ? FLAG.locked : 0) | (isHole ? FLAG.hole : 0);
    records.first[record] = records.pointCount;
    records.points[record] = 0;
    if (isSilent) {
        records.colour[record] = records.weight[record] = records.style[record] = records.group[record] = 0;
        records.fill[record] = 0;
        records.box.fill(0, record * 4, record * 4 + 4);
        return record;
    }
    records.colour[record] = bytes[at + 35];
    records.weight[record] = bytes[at + 34] >> 3;
    records.style[record] = bytes[at + 34] & 7;
    records.group[record] = wordAt(bytes, at + 28);
    records.fill[record] = fillAt(bytes, at, records.size[record]);
    readRange(records, bytes, at, record);
    readPoints(records, bytes, at, record, type);
    records.setBox(record, type === TYPE.text ? textSizeAt(bytes, at, records.axes, records.orientation) : null);
    return record;
}

/**
 * @param {Records} records
 * @param {Uint8Array} bytes
 * @param {number} at
 * @param {number} record
 */
function readRange(records, bytes, at, record) {
    const { axes, range } = records, to = record * 2 * axes;
    for (let axis = 0; axis < axes; axis++) {
        range[to + axis] = rangeNumberAt(bytes, at + 4 + 4 * axis);
        range[to + axes + axis] = rangeNumberAt(bytes, at + 16 + 4 * axis);
    }
}

/**
 * @param {Records} records
 * @param {Uint8Array} bytes
 * @param {number} at
 * @param {number} record
 * @param {number} type
 */
function readPoints(records, bytes, at, record, type) {
    const { axes } = records, count = pointsCount(bytes, at, type);
    records.reservePoints(count);
    records.points[record] = count;
    const { coordinates } = records;
    let to = records.pointCount * axes, from = at + pointsPlace(type, axes);
    for (const end = to + count * axes; to < end; to++, from += 4) {
        coordinates[to] = longAt(bytes, from);
    }
    records.pointCount += count;
}

/**
 * The characters of a text with how they are drawn, or the name of a cell.
 * @param {Uint8Array} bytes
 * @param {number} at
 * @param {number} type
 * @param {number} axes
 * @param {Orientation} seen
 */
export function labelAt(bytes, at, type, axes, seen = TOP) {
    return type === TYPE.text ? textAt(bytes, at, axes, seen)
        : cellName(wordAt(bytes, at + 38), wordAt(bytes, at + 40));
}

/**
 * @param {Uint8Array} bytes
 * @param {number} at
 * @param {number} axes
 */
export function charactersAt(bytes, at, axes) {
    const start = at + textPlace(axes);
    return bytes.subarray(start, start + bytes[start - 2]);
}

/**
 * @param {Uint8Array} bytes
 * @param {number} at
 * @param {number} axes
 * @param {Orientation} seen
 * @returns {TextLabel}
 */
function textAt(bytes, at, axes, seen) {
    return {
        ...textSizeAt(bytes, at, axes, seen),
        characters: readable(charactersAt(bytes, at, axes)),
        wide: longAt(bytes, at + 38) * TEXT_UNIT,
        degrees: degreesAt(bytes, at, axes),
        font: bytes[at + 36],
        justification: bytes[at + 37],
        natural: 0,
    };
}

/**
 * How large a text is and how its axes are seen: all that its box is found by.
 * @param {Uint8Array} bytes
 * @param {number} at
 * @param {number} axes
 * @param {Orientation} seen
 * @returns {import('./records.js').TextSize}
 */
export function textSizeAt(bytes, at, axes, seen) {
    return {
        width: countOfSigns(charactersAt(bytes, at, axes)) * (longAt(bytes, at + 38) * TEXT_UNIT),
        height: longAt(bytes, at + 42) * TEXT_UNIT,
        turn: axes === 2 ? turnOf(longAt(bytes, at + 46))
            : projectionAt(bytes, at + 46, seen) || projected([1, 0, 0], [0, 1, 0], seen),
    };
}

/**
 * A text's angle in degrees, against the clock; in three axes its turn around z.
 * @param {Uint8Array} bytes
 * @param {number} at
 * @param {number} axes
 */
function degreesAt(bytes, at, axes) {
    if (axes === 2) {
        return longAt(bytes, at + 46) / 360000;
    }
    return -2 * Math.atan2(longAt(bytes, at + 58), longAt(bytes, at + 46)) * 180 / Math.PI;
}
