/* What of broken trees can be mended by a few bytes: bit C of a header at the root, whose members fit; and a total that
   leaves out the header's own attribute data. Only where the header then holds exactly some number of the elements
   behind it: anything else is told and left. */

import { counted, described } from './describing.js';
import { FLAG, TYPE } from './format.js';
import { Reach } from './reach.js';
import { isSpline } from './nesting.js';
import { CLASS, CLASS_OF, SPLINE_PARTS } from './tables.js';

const COMPLEX = new Set([12, 14, 18, 19]);
const LOOSE_MOST = 1000;          // of more loose headers before an orphan it isn't asked which ranges hold it

/** @typedef {import('./drawing.js').Drawing} Drawing */

/**
 * What is mended of a header: the bytes by their places in the body, in words, and how many members it has then.
 * @typedef {{ number: number, edits: Map<number, number>, words: string[], members: number }} Change
 */
/** @typedef {{ number: number, why: string }} Left a broken element that is left, and why */

/** A walk through lists of elements, as nesting goes, with each header mended that can be. */
class MendingWalk {
    /** @param {Drawing} drawing */
    constructor(drawing) {
        this.drawing = drawing;
        this.records = drawing.records;
        this.runEnds = drawing.nesting.runEnds;
        /** @type {Change[]} */
        this.changes = [];
        /** @type {Left[]} */
        this.left = [];
        /**
         * The loose headers whose members the next roots with bit C may be.
         * @type {number[]}
         */
        this.loose = [];
        /**
         * Lists that are still to be walked, each from a number to before another; the next one is last.
         * @type {[number, number, boolean][]}
         */
        this.lists = [[1, drawing.count, true]];
    }

    /** @param {number} number */
    hasC(number) {
        return this.records.has(number, FLAG.bitC);
    }

    /** Walks the list of all elements, and those of members, each from a place to before an end. */
    all() {
        for (let list = this.lists.pop(); list !== undefined; list = this.lists.pop()) {
            const [at, end, isRoot] = list;
            if (at < end) {
                this.element(at, end, isRoot);
            }
        }
    }

    /**
     * Lets the walk go on with a list at a place; lists that are given later are walked first.
     * @param {number} at
     * @param {number} end
     * @param {boolean} isRoot whether it is the list of all elements
     */
    goOn(at, end, isRoot) {
        this.lists.push([at, end, isRoot]);
    }

    /**
     * Walks an element of a list that ends at `end`.
     * @param {number} at
     * @param {number} end
     * @param {boolean} isRoot
     */
    element(at, end, isRoot) {
        const type = this.records.type[at];
        if (isRoot && !this.hasC(at)) {
            this.loose = [];
        }
        if (CLASS_OF[type] === CLASS.counted) {
            this.header(at, end, isRoot);
        } else if (isSpline(type)) {
            this.orphan(at, isRoot);
            this.goOn(this.behindSpline(at, end), end, isRoot);
        } else if (type === TYPE.definition && isRoot) {
            this.orphan(at, isRoot);
            this.definition(at, end);
        } else {
            this.orphan(at, isRoot);
            this.goOn(at + 1, end, isRoot);
        }
    }

    /**
     * Where the parts of a B-spline end.
     * @param {number} at
     * @param {number} end
     */
    behindSpline(at, end) {
        let behind = at + 1;
        while (behind < end && this.hasC(behind) && SPLINE_PARTS.includes(this.records.type[behind])) {
            behind++;
        }
        return behind;
    }

    /**
     * Walks what a shared cell definition holds, and then what stands behind it.
     * @param {number} at
     * @param {number} end
     */
    definition(at, end) {
        const behind = Math.min(this.runEnds[at + 1], end);
        this.goOn(behind, end, true);
        this.goOn(at + 1, behind, false);
    }

    /**
     * Tells of an orphan that is no header over counted members.
     * @param {number} number
     * @param {boolean} isRoot
     */
    orphan(number, isRoot) {
        if (isRoot && this.hasC(number)) {
            this.left.push({ number,
                why: 'orphan: marked as part of a group (bit C), but no group claims it, and it is not a header' });
        }
    }

    /**
     * Mends a counted header where it can, walks its members, and then what stands behind them.
     * @param {number} number
     * @param {number} end
     * @param {boolean} isRoot
     */
    header(number, end, isRoot) {
        const reach = new Reach(this.drawing, number, end);
        const fitting = reach.countOf(reach.total) !== null ? reach.total : reach.fittingTotal();
        const members = fitting === null ? null : reach.countOf(fitting);
        if (fitting === null || members === null) {
            this.goOn(this.stayLoose(number, reach, isRoot), end, isRoot);
            return;
        }
        const behind = number + members + 1;
        this.mend(number, reach, fitting, behind, isRoot && this.hasC(number));
        this.goOn(behind, end, isRoot);
        this.goOn(number + 1, behind, false);
    }

    /**
     * Makes the change of a header that wants one so that it holds the elements up to `behind`. What is locked stays,
     * and so does bit C of what may be a member of a loose header before it.
     * @param {number} number
     * @param {Reach} reach
     * @param {number} total that the header is to have, in words
     * @param {number} behind
     * @param {boolean} isOrphan
     */
    mend(number, reach, total, behind, isOrphan) {
        const offset = this.drawing.offsets[number];
        /** @type {Change} */
        const change = { number, edits: new Map(), words: [], members: behind - number - 1 };
        if (total !== reach.total) {
            change.edits.set(offset + 36, total & 0xFF).set(offset + 37, total >> 8);
            change.words.push('total ' + reach.total + ' becomes ' + total + ', counting its own ' + 2 * reach.ownWords
                + ' bytes of attribute data');
        }
        if (isOrphan && !this.mayBelong(number)) {
            this.loose = [];
            change.edits.set(offset, this.drawing.bytes[offset] & 0x7F);
            change.words.push('member mark (bit C) cleared');
        }
        if (change.edits.size > 0 && this.records.has(number, FLAG.locked)) {
            this.left.push({ number, why: 'locked, so it is left as it is, with '
                + counted(change.members, 'member') + ': unlock it first' });
        } else if (change.edits.size > 0) {
            change.words.push('now with ' + counted(change.members, 'member'));
            this.changes.push(change);
        }
    }

    /**
     * Whether an orphan may be a member of a loose header before it, and then is left. A complex chain, shape, surface
     * or solid that doesn't lie in that header's range is none; GDAL sets bit C of each such at the root.
     * @param {number} number
     */
    mayBelong(number) {
        if (this.loose.length === 0 || (COMPLEX.has(this.records.type[number])
            && this.loose.length <= LOOSE_MOST && !this.loose.some((it) => this.holds(it, number)))) {
            return false;
        }
        this.left.push({ number, why: 'orphan whose own members match, but it may belong to the loose header '
            + this.loose[this.loose.length - 1] + ' before it' });
        return true;
    }

    /**
     * Whether an element's stored range lies in that of a header.
     * @param {number} header
     * @param {number} number
     */
    holds(header, number) {
        const { axes } = this.records, outer = this.records.rangeOf(header), inner = this.records.rangeOf(number);
        return outer.every((value, at) => (at < axes ? value <= inner[at] : value >= inner[at]));
    }

    /**
     * Tells of a header that stays loose, and gives where to go on.
     * @param {number} number
     * @param {Reach} reach
     * @param {boolean} isRoot
     */
    stayLoose(number, reach, isRoot) {
        this.left.push({ number, why: reach.whyLoose() });
        const members = reach.wrapped();
        if (members !== null) {
            return number + members + 1;
        }
        if (isRoot) {
            this.loose.push(number);
        }
        return number + 1;
    }
}

/**
 * What is mended of a drawing, and what is left.
 * @param {Drawing} drawing
 * @returns {{ changes: Change[], left: Left[] }}
 */
export function mendingOf(drawing) {
    const walk = new MendingWalk(drawing);
    walk.all();
    return { changes: walk.changes, left: walk.left };
}

/**
 * A change in words.
 * @param {Drawing} drawing
 * @param {Change} change
 */
export function changeSaid(drawing, { number, words }) {
    return described(drawing, number) + ': ' + words.join(', ');
}
