/* The elements as columns, a row each; a row is called a record. */

import { LEAST_OF_CURVE, boxOfCurve } from './curves.js';
import { FLAG, TYPE } from './format.js';
import { Outlines } from './outlines.js';
import { TOP } from './orientation.js';
import { labelAt, textSizeAt } from './reading.js';
import { CLASS, CLASS_OF, GREATEST, LEAST } from './tables.js';

/**
 * A typed array with the same values and at least so much room.
 * @template {Uint8Array | Uint16Array | Uint32Array | Int32Array} T
 * @param {T} array
 * @param {number} length
 * @returns {T}
 */
export function grown(array, length) {
    if (array.length >= length) {
        return array;
    }
    const Kind = /** @type {new (length: number) => T} */ (array.constructor);
    const larger = new Kind(Math.max(length, Math.ceil(1.25 * array.length)));
    larger.set(array);
    return larger;
}

/** @typedef {import('./orientation.js').Orientation} Orientation */
/** @typedef {Uint8Array | Uint16Array | Uint32Array} Column a number for each record */

const COLUMNS = Object.freeze({
    type: Uint8Array, level: Uint8Array, colour: Uint8Array, weight: Uint8Array, style: Uint8Array,
    flags: Uint8Array, size: Uint32Array, number: Uint32Array, first: Uint32Array, points: Uint32Array,
    group: Uint16Array, fill: Uint16Array,
});
const COLUMN_NAMES = Object.freeze(Object.keys(COLUMNS));

/**
 * How large a text is: how wide all of it and how high a sign, in units of resolution, and what its turn makes of its
 * two axes as they are seen, x and y of each.
 * @typedef {{ width: number, height: number, turn: number[] }} TextSize
 */

/**
 * A text as it is drawn: its size and its characters, how wide a sign is in units of resolution, its angle in degrees,
 * font and justification, and how wide it came out when it was measured.
 * @typedef {TextSize & { characters: string, wide: number, degrees: number, font: number, justification: number,
 *     natural: number }} TextLabel
 */

/**
 * Records of elements in columns. A record has its element's head and look, its place in `coordinates` (`first`,
 * counted in points, and how many `points`), its range, low corner and high corner, the box that it is drawn in, and
 * the colour that it is filled with and one more, 0 where it is hollow. Texts, names of cells and the outlines of what
 * is curved are read from the bytes when they are first asked for. Boxes, texts and outlines are as they are seen in
 * one view, `orientation`; all the rest is of the drawing alone.
 */
export class Records {
    /**
     * @param {number} axes
     * @param {number} room how many records there will be, as far as that is known
     * @param {(record: number) => Uint8Array} bytesOf gives the bytes of a record
     * @param {(record: number) => Uint8Array} runOf gives those of a header of a B-spline and of its parts
     */
    constructor(axes, room, bytesOf, runOf) {
        this.axes = axes;
        /** @type {Orientation} */
        this.orientation = TOP;
        this.length = 0;
        this.bytesOf = bytesOf;
        this.outlines = new Outlines(this, runOf);
        /**
         * The texts and names that were asked for, by their records.
         * @type {Map<number, string | TextLabel>}
         */
        this.labels = new Map();
        this.coordinates = new Int32Array(room * 2 * axes);
        this.pointCount = 0;
        this.range = new Int32Array(room * 2 * axes);
        this.box = new Int32Array(room * 4);
        this.type = new Uint8Array(room);
        this.level = new Uint8Array(room);
        this.colour = new Uint8Array(room);
        this.weight = new Uint8Array(room);
        this.style = new Uint8Array(room);
        this.flags = new Uint8Array(room);
        this.size = new Uint32Array(room);
        this.number = new Uint32Array(room);
        this.first = new Uint32Array(room);
        this.points = new Uint32Array(room);
        this.group = new Uint16Array(room);
        this.fill = new Uint16Array(room);
    }

    /**
     * Makes room for so many more records.
     * @param {number} records
     */
    reserve(records) {
        const length = this.length + records;
        if (length > this.type.length) {
            const columns = /** @type {Record<string, Column>} */ (/** @type {unknown} */ (this));
            for (const name of COLUMN_NAMES) {
                columns[name] = grown(columns[name], length);
            }
            this.range = grown(this.range, length * 2 * this.axes);
            this.box = grown(this.box, length * 4);
        }
    }

    /**
     * Makes room for so many more points.
     * @param {number} points
     */
    reservePoints(points) {
        this.coordinates = grown(this.coordinates, (this.pointCount + points) * this.axes);
    }

    /** Where all ends, so that what is appended can be forgotten again. */
    ends() {
        return { length: this.length, pointCount: this.pointCount };
    }

    /**
     * Forgets all that was appended since.
     * @param {{ length: number, pointCount: number }} ends
     */
    cut(ends) {
        this.length = ends.length;
        this.pointCount = ends.pointCount;
        this.outlines.forget();
        for (const record of this.labels.keys()) {
            if (record >= ends.length) {
                this.labels.delete(record);
            }
        }
    }

    /**
     * The text or the name of a record, or none.
     * @param {number} record
     */
    labelOf(record) {
        const type = this.type[record];
        if (type !== TYPE.text && type !== TYPE.cell) {
            return null;
        }
        let label = this.labels.get(record);
        if (label === undefined) {
            label = this.readLabel(record);
            this.labels.set(record, label);
        }
        return label;
    }

    /**
     * The label of a text or a cell, as its bytes have it.
     * @param {number} record
     */
    readLabel(record) {
        return labelAt(this.bytesOf(record), 0, this.type[record], this.axes, this.orientation);
    }

    /**
     * The characters of a text or the name of a cell, or nothing.
     * @param {number} record
     */
    wordsOf(record) {
        const label = this.labelOf(record);
        return label === null ? '' : typeof label === 'string' ? label : label.characters;
    }

    /**
     * The same, read from the bytes and not kept.
     * @param {number} record
     */
    readWords(record) {
        const type = this.type[record];
        if (type !== TYPE.text && type !== TYPE.cell) {
            return '';
        }
        const label = this.readLabel(record);
        return typeof label === 'string' ? label : label.characters;
    }

    /**
     * Whether a record has all of these flags.
     * @param {number} record
     * @param {number} flags
     */
    has(record, flags) {
        return (this.flags[record] & flags) === flags;
    }

    /**
     * The range of a record, low corner and high corner.
     * @param {number} record
     */
    rangeOf(record) {
        return this.range.subarray(record * 2 * this.axes, (record + 1) * 2 * this.axes);
    }

    /**
     * A coordinate of a point of a record.
     * @param {number} record
     * @param {number} point
     * @param {number} axis
     */
    coordinate(record, point, axis) {
        return this.coordinates[(this.first[record] + point) * this.axes + axis];
    }

    /**
     * Looks at all records in a view: their boxes are set anew where they are, and texts and outlines are read anew
     * when they are asked for.
     * @param {Orientation} orientation
     */
    turn(orientation) {
        this.orientation = orientation;
        this.outlines.forget();
        this.labels.clear();
        for (let record = 0; record < this.length; record++) {
            const type = this.type[record];
            if (type === TYPE.text) {
                this.setBox(record, textSizeAt(this.bytesOf(record), 0, this.axes, orientation));
            } else if (CLASS_OF[type] !== CLASS.silent) {
                this.setBox(record, null);
            }
        }
    }

    /**
     * Sets the box that a record is drawn in, as it is seen: low x, low y, high x, high y.
     * @param {number} record
     * @param {TextSize | null} text what it has to hold, too
     */
    setBox(record, text) {
        const { box } = this;
        const at = record * 4;
        if (this.type[record] === TYPE.curve && this.points[record] >= LEAST_OF_CURVE) {
            this.setBoxOfCurve(record, at);
        } else if (this.points[record] > 0) {
            this.setBoxOfPoints(record, at);
        } else {
            const range = this.rangeOf(record), { axes, orientation: { across, up } } = this;
            box[at] = Math.min(range[across], range[axes + across]);
            box[at + 1] = Math.min(range[up], range[axes + up]);
            box[at + 2] = Math.max(range[across], range[axes + across]);
            box[at + 3] = Math.max(range[up], range[axes + up]);
        }
        if (text !== null) {
            widenByText(box, at, text);
        }
    }

    /**
     * @param {number} record
     * @param {number} at
     */
    setBoxOfPoints(record, at) {
        const { box, coordinates, axes, orientation: { across, rise } } = this;
        let lowX = Infinity, lowY = Infinity, highX = -Infinity, highY = -Infinity;
        const start = this.first[record] * axes + across, end = start + this.points[record] * axes;
        for (let place = start; place < end; place += axes) {
            const x = coordinates[place], y = coordinates[place + rise];
            lowX = x < lowX ? x : lowX;
            highX = x > highX ? x : highX;
            lowY = y < lowY ? y : lowY;
            highY = y > highY ? y : highY;
        }
        box[at] = lowX;
        box[at + 1] = lowY;
        box[at + 2] = highX;
        box[at + 3] = highY;
    }

    /**
     * @param {number} record
     * @param {number} at
     */
    setBoxOfCurve(record, at) {
        const { coordinates, axes } = this;
        const box = boxOfCurve(coordinates, this.first[record] * axes, this.points[record], axes, this.orientation);
        for (const side of [0, 1]) {
            this.box[at + side] = Math.max(Math.floor(box[side]), LEAST);
            this.box[at + side + 2] = Math.min(Math.ceil(box[side + 2]), GREATEST);
        }
    }

    /** @param {number} record */
    isDeleted(record) {
        return (this.flags[record] & FLAG.deleted) !== 0;
    }
}

// How far the characters of a text reach below its origin and above the height of its capitals, as a share of this.
const TEXT_BELOW = 0.3;
const TEXT_ABOVE = 1.3;

/**
 * Widens a text's box, which is its origin, by the corners of its characters, to whole units within the plane.
 * @param {Int32Array} box
 * @param {number} at
 * @param {TextSize} text
 */
function widenByText(box, at, text) {
    const x = box[at], y = box[at + 1];
    const [alongX, alongY, upX, upY] = text.turn;
    const low = -TEXT_BELOW * text.height, high = TEXT_ABOVE * text.height;
    for (const [along, up] of [[0, low], [text.width, low], [0, high], [text.width, high]]) {
        const cornerX = x + along * alongX + up * upX, cornerY = y + along * alongY + up * upY;
        box[at] = Math.max(Math.min(box[at], Math.floor(cornerX)), LEAST);
        box[at + 1] = Math.max(Math.min(box[at + 1], Math.floor(cornerY)), LEAST);
        box[at + 2] = Math.min(Math.max(box[at + 2], Math.ceil(cornerX)), GREATEST);
        box[at + 3] = Math.min(Math.max(box[at + 3], Math.ceil(cornerY)), GREATEST);
    }
}
