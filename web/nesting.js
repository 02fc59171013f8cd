/* How elements nest (docs/FORMAT.md, How elements nest). */

import { FLAG, TYPE } from './format.js';
import { wordAt } from './numbers.js';
import { PIECE, atOnce } from './slices.js';
import { BEFORE_TOTAL, CLASS, CLASS_OF, SPLINES, SPLINE_PARTS } from './tables.js';

/**
 * Of each element the flags of its place (group, run, loose, orphan), its depth, the number of the header right above
 * it, -1 where it is a root, the number behind the last that stands below it, and the number of the first element from
 * there on that has no bit C.
 * @typedef {{ flags: Uint8Array, depth: Uint16Array, parent: Int32Array, end: Uint32Array,
 *     runEnds: Uint32Array }} Nesting
 */

/**
 * Whether a type is that of the header of a B-spline; its class is asked first, since few types have that.
 * @param {number} type
 */
export function isSpline(type) {
    return CLASS_OF[type] === CLASS.run && SPLINES.includes(type);
}

/** Goes once through the elements from the first to the last, and keeps the lists that are open. */
class NestingWalk {
    /**
     * @param {Uint8Array} bytes
     * @param {Uint32Array} offsets
     * @param {boolean} hasTcb whether the first of them is the TCB
     */
    constructor(bytes, offsets, hasTcb) {
        this.bytes = bytes;
        this.offsets = offsets;
        this.count = offsets.length - 1;
        this.first = hasTcb ? 1 : 0;
        this.flags = new Uint8Array(this.count);
        this.depth = new Uint16Array(this.count);
        this.parent = new Int32Array(this.count).fill(-1);
        this.end = new Uint32Array(this.count);
        this.runEnds = this.runEndsOf();
    }

    /** For each place the number of the first element from there on that has no bit C. */
    runEndsOf() {
        const ends = new Uint32Array(this.count + 1).fill(this.count);
        for (let number = this.count - 1; number >= 0; number--) {
            ends[number] = this.hasC(number) ? ends[number + 1] : number;
        }
        return ends;
    }

    /** @param {number} number */
    hasC(number) {
        return (this.bytes[this.offsets[number]] & 0x80) !== 0;
    }

    /** @param {number} number */
    typeOf(number) {
        return this.bytes[this.offsets[number] + 1] & 0x7F;
    }

    /**
     * Finds it in pieces.
     * @returns {import('./slices.js').Pieces<Nesting>}
     */
    *nesting() {
        /** @type {{ header: number, end: number, isParts: boolean }[]} */
        const open = [];
        if (this.first === 1) {
            this.end[0] = 1;
        }
        for (let at = this.first; at < this.count; at++) {
            while (open.length > 0 && open[open.length - 1].end === at) {
                open.pop();
            }
            const list = open.length > 0 ? open[open.length - 1] : null;
            this.parent[at] = list ? list.header : -1;
            this.depth[at] = open.length;
            const end = this.place(at, list);
            this.end[at] = end;
            if (end > at + 1) {
                open.push({ header: at, end, isParts: isSpline(this.typeOf(at)) });
            }
            if (at % PIECE === 0) {
                yield;
            }
        }
        const { flags, depth, parent, end, runEnds } = this;
        return { flags, depth, parent, end, runEnds };
    }

    /**
     * Sets the flags of an element, and gives the number behind the last that stands below it.
     * @param {number} at
     * @param {{ header: number, end: number, isParts: boolean } | null} list the list that it stands in
     */
    place(at, list) {
        const type = this.typeOf(at), listEnd = list ? list.end : this.count;
        if (list === null && this.hasC(at)) {
            this.flags[at] |= FLAG.orphan;
        }
        if (list !== null && list.isParts) {
            return at + 1;
        }
        if (CLASS_OF[type] === CLASS.counted) {
            const end = this.endOfCounted(at, listEnd);
            this.flags[at] |= end === 0 ? FLAG.loose : FLAG.group;
            return end || at + 1;
        }
        if (isSpline(type)) {
            this.flags[at] |= FLAG.run;
            return this.endOfSpline(at, listEnd);
        }
        if (type === TYPE.definition && list === null) {
            this.flags[at] |= FLAG.run;
            return this.runEnds[at + 1];
        }
        return at + 1;
    }

    /**
     * The number behind the last member of a counted header, or 0 where no number of members fits its total.
     * @param {number} at
     * @param {number} listEnd
     */
    endOfCounted(at, listEnd) {
        const { offsets } = this;
        const wanted = offsets[at] + BEFORE_TOTAL + 2 * wordAt(this.bytes, offsets[at] + BEFORE_TOTAL - 2);
        let low = at + 1, high = Math.min(listEnd, this.runEnds[at + 1]);
        while (low < high) {
            const middle = low + high >> 1;
            if (offsets[middle] < wanted) {
                low = middle + 1;
            } else {
                high = middle;
            }
        }
        return offsets[low] === wanted ? low : 0;
    }

    /**
     * The number behind the last part of a B-spline.
     * @param {number} at
     * @param {number} listEnd
     */
    endOfSpline(at, listEnd) {
        let end = at + 1;
        while (end < listEnd && this.hasC(end) && SPLINE_PARTS.includes(this.typeOf(end))) {
            end++;
        }
        return end;
    }
}

/**
 * @param {Uint8Array} bytes
 * @param {Uint32Array} offsets where each element begins, and behind the last where they end
 * @param {boolean} hasTcb whether the first of them is the TCB
 * @returns {import('./slices.js').Pieces<Nesting>}
 */
export function nestingIn(bytes, offsets, hasTcb) {
    return new NestingWalk(bytes, offsets, hasTcb).nesting();
}

/**
 * The same at once.
 * @param {Uint8Array} bytes
 * @param {Uint32Array} offsets
 * @param {boolean} hasTcb
 * @returns {Nesting}
 */
export function nestingOf(bytes, offsets, hasTcb) {
    return atOnce(nestingIn(bytes, offsets, hasTcb));
}
