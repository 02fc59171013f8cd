/* How far a header can reach: the elements with bit C behind it, of which some number are its members. */

import { counted } from './describing.js';
import { wordAt } from './numbers.js';
import { linkagePlace } from './drawing.js';
import { BEFORE_TOTAL } from './tables.js';

/** What a total can count, one word. */
const TOTAL_MOST = 65535;

/** @typedef {import('./drawing.js').Drawing} Drawing */

/**
 * How many bytes a header and its members have together, by its total.
 * @param {number} total
 */
function bytesOfTotal(total) {
    return BEFORE_TOTAL + 2 * total;
}

export class Reach {
    /**
     * @param {Drawing} drawing
     * @param {number} header
     * @param {number} end the number behind the last element of the list that the header stands in
     */
    constructor(drawing, header, end) {
        this.offsets = drawing.offsets;
        this.header = header;
        this.start = drawing.offsets[header];
        this.total = wordAt(drawing.bytes, this.start + BEFORE_TOTAL - 2);
        this.end = Math.min(end, drawing.nesting.runEnds[header + 1]);
        const content = drawing.bytesOf(header);
        /** Half the bytes of the header's own attribute data. */
        this.ownWords = (content.length - linkagePlace(content)) / 2;
    }

    /** How many elements with bit C stand behind the header. */
    get most() {
        return this.end - this.header - 1;
    }

    /**
     * The bytes of the header with so many members.
     * @param {number} count
     */
    size(count) {
        return this.offsets[this.header + count + 1] - this.start;
    }

    /**
     * The number of the first element from the header's next on that begins at a byte or behind it.
     * @param {number} place
     */
    firstFrom(place) {
        let low = this.header + 1, high = this.end + 1;
        while (low < high) {
            const middle = low + high >> 1;
            if (this.offsets[middle] < place) {
                low = middle + 1;
            } else {
                high = middle;
            }
        }
        return low;
    }

    /**
     * With how many members the header has exactly as many bytes as a total asks for; null where with none.
     * @param {number} total in words
     */
    countOf(total) {
        const place = this.start + bytesOfTotal(total), at = this.firstFrom(place);
        return at <= this.end && this.offsets[at] === place ? at - this.header - 1 : null;
    }

    /** The total that counts the header's own attribute data too, where it fits members exactly; else null. */
    fittingTotal() {
        const total = this.total + this.ownWords;
        return this.ownWords > 0 && total <= TOTAL_MOST && this.countOf(total) !== null ? total : null;
    }

    /** How many members there are where a total of more than one word would fit whose lower word stands there, with or
        without the header's own attribute data; else null. */
    wrapped() {
        const most = Math.floor((this.size(this.most) - BEFORE_TOTAL) / 2);
        for (let high = TOTAL_MOST + 1; high <= most; high += TOTAL_MOST + 1) {
            for (const total of [high + this.total, high + this.total + this.ownWords]) {
                const count = this.countOf(total);
                if (count !== null) {
                    return count;
                }
            }
        }
        return null;
    }

    /** The nearest totals that would fit, below and above the one that stands there, each with its members. */
    nearTotals() {
        const at = this.firstFrom(this.start + bytesOfTotal(this.total));
        return [at - 1, at].filter((it) => it > this.header && it <= this.end)
            .map((it) => [(this.offsets[it] - this.start - BEFORE_TOTAL) / 2, it - this.header - 1])
            .filter(([total]) => total <= TOTAL_MOST)
            .map(([total, members]) => total + ' (' + counted(members, 'member') + ')');
    }

    /** Why the header is loose, in words. */
    whyLoose() {
        let said = 'loose: its total of ' + this.total + ' means ' + bytesOfTotal(this.total) + ' bytes, but ';
        said += this.most === 0 ? 'it has ' + this.size(0) + ', and no element after it is marked as a member'
            : 'with the ' + counted(this.most, 'element') + ' marked as members after it, it has '
                + this.size(this.most);
        const fitting = this.fittingTotal();
        if (fitting !== null) {
            return said + '; ' + fitting + ' would match, counting its own ' + 2 * this.ownWords
                + ' bytes of attribute data';
        }
        if (this.wrapped() !== null) {
            return said + '; its members have more than ' + TOTAL_MOST + ' words, the most that a total can count';
        }
        const near = this.nearTotals();
        return said + (near.length > 0 ? '; ' + near.join(' or ') + ' would match' : '');
    }
}
