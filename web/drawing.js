/* A drawing as it is read from its bytes, and as edits have left it. */

import { isEqual } from './bytes.js';
import { coloursOf } from './colour_table.js';
import { EditedElements } from './edited.js';
import { linkagesOf } from './linkages.js';
import { nestingIn } from './nesting.js';
import { wordAt } from './numbers.js';
import { Fault, offsetsIn } from './opening.js';
import { Records } from './records.js';
import { readElement } from './reading.js';
import { PIECE, atOnce, inSlices } from './slices.js';
import { State } from './state.js';
import { LINKED } from './tables.js';
import { axesOf, unitsOf } from './tcb.js';

/** Records for what edits make, before the columns have to grow. */
const ROOM = 4096;

/**
 * What a run of the program changed in the body of a drawing: its new bytes in pieces, each from a place on, and what
 * stands behind the elements that were there.
 * @typedef {{ starts: number[], lengths: number[], bytes: Uint8Array, appended: Uint8Array }} Changes
 */

/** A drawing: its bytes, where its elements stand, and all that is read of them. */
export class Drawing {
    /**
     * Reads a drawing, or gives the fault that keeps it from opening.
     * @param {string} name
     * @param {Uint8Array} bytes
     * @returns {Drawing | Fault}
     */
    static open(name, bytes) {
        return atOnce(Drawing.opening(name, bytes));
    }

    /**
     * The same in slices, between which the page answers, and with all made ready that is asked of a drawing which is
     * shown. Where the signal comes it is left, and the promise is broken with the signal's reason.
     * @param {string} name
     * @param {Uint8Array} bytes
     * @param {AbortSignal | null} signal
     * @returns {Promise<Drawing | Fault>}
     */
    static read(name, bytes, signal = null) {
        return inSlices(Drawing.preparing(name, bytes), signal);
    }

    /**
     * @param {string} name
     * @param {Uint8Array} bytes
     * @returns {import('./slices.js').Pieces<Drawing | Fault>}
     */
    static *opening(name, bytes) {
        const offsets = yield* offsetsIn(bytes);
        if (offsets instanceof Fault) {
            return offsets;
        }
        const nesting = yield* nestingIn(bytes, offsets, true);
        return new Drawing(name, bytes, offsets, nesting, yield* recordsIn(bytes, offsets, nesting.flags));
    }

    /**
     * @param {string} name
     * @param {Uint8Array} bytes
     * @returns {import('./slices.js').Pieces<Drawing | Fault>}
     */
    static *preparing(name, bytes) {
        const drawing = yield* Drawing.opening(name, bytes);
        if (drawing instanceof Drawing) {
            yield* drawing.before.preparing();
        }
        return drawing;
    }

    /**
     * @param {string} name
     * @param {Uint8Array} bytes
     * @param {Uint32Array} offsets
     * @param {import('./nesting.js').Nesting} nesting
     * @param {Records} records of its elements
     */
    constructor(name, bytes, offsets, nesting, records) {
        this.name = name;
        this.bytes = bytes;
        this.offsets = offsets;
        this.count = offsets.length - 1;
        this.bodyLength = offsets[this.count];
        this.axes = axesOf(bytes);
        this.units = unitsOf(bytes);
        this.records = records;
        this.records.bytesOf = (record) => this.bytesOf(record);
        this.records.outlines.runOf = (record) => this.runOf(record);
        this.nesting = nesting;
        const own = new Uint32Array(this.count);
        own.forEach((_, number) => { own[number] = number; });
        this.before = new State(this.records, own, nesting.parent, nesting.end);
        this.colours = coloursOf(bytes, offsets, records);
        /** What edits made. */
        this.edited = new EditedElements(this);
    }

    /**
     * Reads what a run of the program changed, but for what is as it was the last time, and gives the state that it
     * left. States that it gave before aren't valid any more.
     * @param {Changes} changes
     * @returns {State}
     */
    after(changes) {
        return this.edited.after(changes);
    }

    /**
     * The number of the element that has a byte of the body.
     * @param {number} place
     */
    numberAt(place) {
        let low = 0, high = this.count - 1;
        while (low < high) {
            const middle = low + high + 1 >> 1;
            if (this.offsets[middle] <= place) {
                low = middle;
            } else {
                high = middle - 1;
            }
        }
        return low;
    }

    /**
     * The bytes of a record.
     * @param {number} record
     */
    bytesOf(record) {
        const at = this.offsets[record];
        return record < this.count ? this.bytes.subarray(at, at + this.records.size[record])
            : this.edited.bytesOf(record);
    }

    /**
     * The bytes of a record and of all behind it, which a header's parts are among.
     * @param {number} record
     */
    runOf(record) {
        return record < this.count ? this.bytes.subarray(this.offsets[record], this.bodyLength)
            : this.edited.runOf(record);
    }

    /**
     * The byte of the file at which the element of a record begins.
     * @param {number} record
     */
    placeOf(record) {
        return record < this.count ? this.offsets[record] : this.edited.placeOf(record);
    }

    /**
     * The state of another drawing, with records of its own for what isn't as the element of that number here.
     * @param {Drawing} other
     * @param {Set<number>} told numbers of `other` that have records of their own in any case
     * @returns {State}
     */
    beside(other, told) {
        return this.edited.beside(other, told);
    }

    /**
     * Whether an element of another drawing has the same bytes and the same place in its tree.
     * @param {Drawing} other
     * @param {number} number
     */
    isSame(other, number) {
        return this.nesting.depth[number] === other.nesting.depth[number]
            && this.nesting.flags[number] === other.nesting.flags[number]
            && isEqual(this.bytesOf(number), other.bytesOf(number));
    }

    /**
     * The linkages of a record; of class silent, and of what says that it has none, there are none.
     * @param {number} record
     */
    linkagesOf(record) {
        const bytes = this.bytesOf(record);
        return linkagePlace(bytes) < bytes.length ? linkagesOf(bytes, linkagePlace(bytes)) : [];
    }
}

/**
 * Reads all elements into records, in pieces.
 * @param {Uint8Array} bytes
 * @param {Uint32Array} offsets
 * @param {Uint8Array} flags of their places in their trees
 * @returns {import('./slices.js').Pieces<Records>}
 */
function* recordsIn(bytes, offsets, flags) {
    const records = new Records(axesOf(bytes), flags.length + ROOM, () => bytes, () => bytes);
    for (let number = 0; number < flags.length; number++) {
        readElement(records, bytes, offsets[number], number, flags[number]);
        if (number % PIECE === 0) {
            yield;
        }
    }
    return records;
}

/**
 * Where in an element that isn't silent its attribute data begin: its size where it has none.
 * @param {Uint8Array} element
 */
export function linkagePlace(element) {
    return wordAt(element, 32) & LINKED ? 32 + 2 * wordAt(element, 30) : element.length;
}
