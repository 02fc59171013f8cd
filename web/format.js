/* What stands for what: flags of elements, names of types, and what a type is drawn as. */

import { CLASS, CLASS_OF, SHARED_CELL } from './tables.js';

/** Bits of the column `flags`. */
export const FLAG = Object.freeze({
    deleted: 1, locked: 2, bitC: 4, orphan: 8, loose: 16, group: 32, run: 64, hole: 128,
});

/** What an element is drawn as. */
export const DRAWN = Object.freeze({ nothing: 0, path: 1, text: 2, cell: 3, node: 4, group: 5, box: 6 });

export const TYPE = Object.freeze({
    cell: 2, line: 3, string: 4, data: 5, shape: 6, node: 7, curve: 11, chain: 12, complexShape: 14, ellipse: 15,
    arc: 16, text: 17, surface: 24, spline: 27, definition: SHARED_CELL,
});

/** The bit of a shape's properties that says that it is a hole in another one; the program doesn't read it. */
export const HOLE = 0x8000;

/** What the types of a class are drawn as, where that isn't said of a type alone. */
const DRAWN_OF_CLASS = new Map([
    [CLASS.vertices, DRAWN.path], [CLASS.words, DRAWN.text], [CLASS.counted, DRAWN.group], [CLASS.run, DRAWN.box],
    [CLASS.floating, DRAWN.box], [CLASS.boxed, DRAWN.box], [CLASS.silent, DRAWN.nothing],
]);
const DRAWN_OF_TYPE = new Map([
    [TYPE.cell, DRAWN.cell], [TYPE.node, DRAWN.node], [TYPE.definition, DRAWN.nothing],
]);

/** What each type is drawn as. */
export const DRAWN_OF = Uint8Array.from(CLASS_OF, (kind, type) => DRAWN_OF_TYPE.get(type)
    ?? /** @type {number} */ (DRAWN_OF_CLASS.get(kind)));

export const STYLE_NAMES = Object.freeze([
    'solid', 'dotted', 'medium dashed', 'long dashed', 'dot-dashed', 'short dashed', 'dash double-dot',
    'long dash - short dash',
]);

/** Dashes of each style, in pixels of a line of weight 0. */
export const DASHES = Object.freeze([
    [], [1, 4], [8, 4], [14, 5], [10, 4, 1, 4], [4, 4], [10, 3, 1, 3, 1, 3], [14, 3, 4, 3],
]);

/**
 * How wide a weight is drawn, in pixels.
 * @param {number} weight
 */
export function widthOf(weight) {
    return 1 + 0.6 * weight;
}
