/* A drawing as far as comparing reads it: where its elements stand, and their heads. */

import { coloursOf } from './colour_table.js';
import { FLAG, TYPE } from './format.js';
import { wordAt } from './numbers.js';
import { offsetsIn, Fault } from './opening.js';
import { labelAt } from './reading.js';
import { atOnce } from './slices.js';
import { CLASS, CLASS_OF, LOCKED } from './tables.js';
import { axesOf, unitsOf } from './tcb.js';

/** Heads of elements in columns. */
class Heads {
    /**
     * @param {Uint8Array} bytes
     * @param {Uint32Array} offsets
     */
    constructor(bytes, offsets) {
        this.bytes = bytes;
        this.offsets = offsets;
        this.length = offsets.length - 1;
        this.type = new Uint8Array(this.length);
        this.level = new Uint8Array(this.length);
        this.flags = new Uint8Array(this.length);
        this.size = new Uint32Array(this.length);
        for (let number = 0; number < this.length; number++) {
            this.read(number, offsets[number]);
        }
    }

    /**
     * @param {number} number
     * @param {number} at
     */
    read(number, at) {
        const { bytes } = this, type = bytes[at + 1] & 0x7F;
        const isLocked = CLASS_OF[type] !== CLASS.silent && wordAt(bytes, at + 32) & LOCKED;
        this.type[number] = type;
        this.level[number] = bytes[at] & 0x3F;
        this.flags[number] = (bytes[at + 1] & 0x80 ? FLAG.deleted : 0) | (isLocked ? FLAG.locked : 0);
        this.size[number] = this.offsets[number + 1] - at;
    }

    /**
     * The characters of a text or the name of a cell, or nothing.
     * @param {number} number
     */
    wordsOf(number) {
        const type = this.type[number];
        if (type !== TYPE.text && type !== TYPE.cell) {
            return '';
        }
        const label = labelAt(this.bytes, this.offsets[number], type, axesOf(this.bytes));
        return typeof label === 'string' ? label : label.characters;
    }
}

/** A drawing that is only compared. */
export class BareDrawing {
    /** @param {Uint8Array} bytes of a file that opens */
    constructor(bytes) {
        const offsets = atOnce(offsetsIn(bytes));
        if (offsets instanceof Fault) {
            throw new Error(offsets.word + ' at ' + offsets.at);
        }
        this.bytes = bytes;
        this.offsets = offsets;
        this.count = offsets.length - 1;
        this.axes = axesOf(bytes);
        this.units = unitsOf(bytes);
        this.records = new Heads(bytes, offsets);
        this.colours = coloursOf(bytes, offsets, this.records);
    }

    /** @param {number} number */
    bytesOf(number) {
        return this.bytes.subarray(this.offsets[number], this.offsets[number + 1]);
    }
}
