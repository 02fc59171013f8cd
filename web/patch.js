/* Patch files of changes (docs/FORMAT.md, The patch file). */

import { FIELD_LONGEST, PATCH_MARK } from './tables.js';

/** Puts numbers and bytes one behind the other. */
class Pieces {
    constructor() {
        /** @type {number[]} */
        this.bytes = [];
    }

    /** @param {number[]} values */
    octets(...values) {
        this.bytes.push(...values);
    }

    /** @param {number[]} values of four bytes each, the low one first */
    numbers(...values) {
        values.forEach((value) => this.octets(value & 0xFF, value >>> 8 & 0xFF, value >>> 16 & 0xFF, value >>> 24));
    }
}

/**
 * The patch file of changes of a drawing, an entry for each that changes a byte.
 * @param {import('./drawing.js').Drawing} drawing
 * @param {{ edits: Map<number, number> }[]} changes
 * @returns {Uint8Array}
 */
export function patchOf(drawing, changes) {
    const entries = changes.map(({ edits }) => [...edits].filter(([place, value]) => drawing.bytes[place] !== value))
        .filter((edits) => edits.length > 0);
    const made = new Pieces();
    made.octets(...[...PATCH_MARK].map((sign) => sign.charCodeAt(0)));
    made.numbers(entries.length);
    for (const edits of entries) {
        const fields = fieldsOf(edits.sort(([one], [other]) => one - other));
        made.numbers(drawing.bodyLength, fields.length, 0);
        for (const { place, values } of fields) {
            made.numbers(place);
            made.octets(values.length, ...drawing.bytes.subarray(place, place + values.length), ...values);
        }
    }
    return Uint8Array.from(made.bytes);
}

/**
 * Fields, none of them longer than one can be, for bytes at rising places.
 * @param {[number, number][]} edits
 */
function fieldsOf(edits) {
    /** @type {{ place: number, values: number[] }[]} */
    const fields = [];
    for (const [place, value] of edits) {
        const last = fields[fields.length - 1];
        if (last && last.place + last.values.length === place && last.values.length < FIELD_LONGEST) {
            last.values.push(value);
        } else {
            fields.push({ place, values: [value] });
        }
    }
    return fields;
}
