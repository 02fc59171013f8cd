/* Where the elements of a file stand, or what keeps it from being a drawing (docs/FORMAT.md, How a file opens). */

import { bodyPlace, pointsCount, textPlace } from './bodies.js';
import { wordAt } from './numbers.js';
import { PIECE } from './slices.js';
import { BY_WORD, CLASS, CLASS_OF, COUNTS, COUNT_AT, LINKED } from './tables.js';
import { axesOf, kindOf } from './tcb.js';

/** What keeps a file from opening, and the byte at which the element begins that it is found at. */
export class Fault {
    /**
     * @param {string} word as the program says it: 'not-design', 'cut', 'short' or 'attributes'
     * @param {number} at
     */
    constructor(word, at) {
        this.word = word;
        this.at = at;
    }
}

/**
 * Where each element begins, and behind the last where they end; or the first fault. It is found in pieces.
 * @param {Uint8Array} bytes
 * @returns {import('./slices.js').Pieces<Uint32Array | Fault>}
 */
export function* offsetsIn(bytes) {
    if (kindOf(bytes) !== 'design') {
        return new Fault('not-design', 0);
    }
    const axes = axesOf(bytes);
    let offsets = new Uint32Array(bytes.length / 48 + 16), count = 0, at = 0;
    while (at < bytes.length && !(bytes[at] === 0xFF && bytes[at + 1] === 0xFF)) {
        const size = 4 + 2 * wordAt(bytes, at + 2);
        if (at + 4 > bytes.length || at + size > bytes.length) {
            return new Fault('cut', at);
        }
        const fault = faultOf(bytes, at, size, axes);
        if (fault !== '') {
            return new Fault(fault, at);
        }
        if (count + 1 >= offsets.length) {
            const larger = new Uint32Array(2 * offsets.length);
            larger.set(offsets);
            offsets = larger;
        }
        offsets[count++] = at;
        at += size;
        if (count % PIECE === 0) {
            yield;
        }
    }
    offsets[count] = at;
    return offsets.slice(0, count + 1);
}

/**
 * The fault of an element that is whole, or none.
 * @param {Uint8Array} bytes
 * @param {number} at
 * @param {number} size
 * @param {number} axes
 */
function faultOf(bytes, at, size, axes) {
    const type = bytes[at + 1] & 0x7F;
    if (CLASS_OF[type] === CLASS.silent) {
        return '';
    }
    const end = bodyEnd(bytes, at, size, axes, type);
    if (end > size) {
        return 'short';
    }
    if (wordAt(bytes, at + 32) & LINKED) {
        const linkages = 32 + 2 * wordAt(bytes, at + 30);
        return linkages < end || linkages > size ? 'attributes' : '';
    }
    return '';
}

/**
 * The first byte behind the body of an element; one that is too short to hold its own count doesn't reach it.
 * @param {Uint8Array} bytes
 * @param {number} at
 * @param {number} size
 * @param {number} axes
 * @param {number} type
 */
function bodyEnd(bytes, at, size, axes, type) {
    if (CLASS_OF[type] === CLASS.words) {
        const front = textPlace(axes);
        return size < front ? Infinity : front + bytes[at + front - 2];
    }
    if (COUNTS[type] === BY_WORD && size < COUNT_AT + 2) {
        return Infinity;
    }
    return bodyPlace(type, axes) + 4 * axes * pointsCount(bytes, at, type);
}
