/* What the front of a file says: what kind of file it is, and of a drawing its axes, units and origin. */

import { longAt, vaxDoubleAt } from './numbers.js';
import { AXES_AT, AXES_BIT, TCB_FRONTS } from './tables.js';

/** What a file that is no drawing of version 7 is, in a sentence. */
export const KIND_SAID = Object.freeze({
    v8: 'a compound file, such as MicroStation V8 writes (DGN version 8): save it as V7 DGN',
    library: 'a MicroStation cell library: attach it in MicroStation, and place its cells in a drawing',
    empty: 'an empty file',
    other: 'not a design file of version 7: it doesn’t begin like one',
});

/** @typedef {'design' | 'v8' | 'library' | 'empty' | 'other'} Kind */

/**
 * Kinds of files, and the bytes that they begin with.
 * @type {readonly (readonly [Kind, readonly number[]])[]}
 */
const FRONTS = Object.freeze([
    ...TCB_FRONTS.map((front) => /** @type {const} */ (['design', front])),
    ['v8', [0xD0, 0xCF, 0x11, 0xE0]], ['library', [0x08, 0x05, 0x17, 0x00]],
]);

/**
 * What a file's first bytes say that it is.
 * @param {Uint8Array} bytes
 * @returns {Kind}
 */
export function kindOf(bytes) {
    const found = FRONTS.find(([, front]) => front.every((it, at) => bytes[at] === it));
    return found ? found[0] : bytes.length > 0 ? 'other' : 'empty';
}

/**
 * How many axes a drawing has.
 * @param {Uint8Array} bytes
 * @returns {number}
 */
export function axesOf(bytes) {
    return bytes[AXES_AT] & AXES_BIT ? 3 : 2;
}

/**
 * A name of two characters, which a zero byte ends.
 * @param {Uint8Array} bytes
 * @param {number} at
 */
function nameAt(bytes, at) {
    const name = String.fromCharCode(bytes[at], bytes[at + 1]);
    return name.split('\0')[0].trim();
}

/**
 * The units of a drawing: so many subunits in a master unit, so many units of resolution in a subunit, both 0 where the
 * drawing doesn't say; the names of the first two; and the global origin in units of resolution.
 * @typedef {{ subunits: number, resolution: number, master: string, sub: string, origin: number[] }} Units
 */

/**
 * @param {Uint8Array} bytes
 * @returns {Units}
 */
export function unitsOf(bytes) {
    const subunits = longAt(bytes, 1112), resolution = longAt(bytes, 1116);
    const isKnown = subunits > 0 && resolution > 0;
    return {
        subunits: isKnown ? subunits : 0,
        resolution: isKnown ? resolution : 0,
        master: nameAt(bytes, 1120),
        sub: nameAt(bytes, 1122),
        origin: [1240, 1248, 1256].slice(0, axesOf(bytes)).map((at) => vaxDoubleAt(bytes, at)),
    };
}
