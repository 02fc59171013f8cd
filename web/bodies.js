/* Where the points and the characters of an element stand in it (docs/FORMAT.md, Bodies). */

import { wordAt } from './numbers.js';
import { BY_WORD, COUNTS, COUNT_AT, POINTS_IN_PLANE, POINTS_IN_SPACE, TEXT_IN_PLANE, TEXT_IN_SPACE } from './tables.js';

/**
 * Where an element's points or its origin begin in it, or where its body ends if none are read of its type.
 * @param {number} type
 * @param {number} axes
 */
export function bodyPlace(type, axes) {
    return axes === 2 ? POINTS_IN_PLANE[type] : POINTS_IN_SPACE[type];
}

/**
 * Where an element's points or its origin begin in it; 0 where none are read of its type.
 * @param {number} type
 * @param {number} axes
 */
export function pointsPlace(type, axes) {
    return COUNTS[type] === 0 ? 0 : bodyPlace(type, axes);
}

/**
 * How many points an element has, or 1 for an origin.
 * @param {Uint8Array} bytes
 * @param {number} at
 * @param {number} type
 */
export function pointsCount(bytes, at, type) {
    return COUNTS[type] === BY_WORD ? wordAt(bytes, at + COUNT_AT) : COUNTS[type];
}

/**
 * Where a text's characters begin in it; the byte two before counts them.
 * @param {number} axes
 */
export function textPlace(axes) {
    return axes === 2 ? TEXT_IN_PLANE : TEXT_IN_SPACE;
}
