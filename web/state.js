/* One state of a drawing: its elements by number, and how they nest. */

import { spansBetween } from './differing.js';
import { FLAG } from './format.js';
import { Grid } from './grid.js';
import { Counting, Counts, Showing } from './showing.js';
import { atOnce } from './slices.js';

/** @typedef {import('./records.js').Records} Records */

/**
 * What edits made a state of: the drawing as it was opened, and the numbers of those of its elements that have records
 * of their own now, in rising order; and a number from 1 on for the records that edits made, which are forgotten at
 * times.
 * @typedef {{ origin: State, numbers: Uint32Array, epoch: number }} Edited
 */

/**
 * A state of the drawing, before or after edits. `record` gives the record of each number, `parent` the number of the
 * header above it or -1, `end` the first number behind all that stands below it.
 */
export class State {
    /**
     * @param {Records} records
     * @param {Uint32Array} record
     * @param {Int32Array} parent
     * @param {Uint32Array} end
     * @param {Edited | null} edited where it is the work of edits
     */
    constructor(records, record, parent, end, edited = null) {
        this.records = records;
        this.count = record.length;
        this.record = record;
        this.parent = parent;
        this.end = end;
        this.edited = edited;
        /** @type {Counts | null} */
        this.ownCounts = null;
        /** @type {Grid | null} */
        this.ownGrid = null;
    }

    /** How much there is of all: of a state that edits left it is told from the trees that they changed. */
    get counts() {
        if (this.ownCounts === null) {
            this.ownCounts = new Counts();
            if (this.edited === null) {
                atOnce(new Counting(this, this.ownCounts).all());
            } else {
                this.countBeside(this.edited.origin, this.ownCounts);
            }
        }
        return this.ownCounts;
    }

    /**
     * @param {State} origin
     * @param {Counts} counts
     */
    countBeside(origin, counts) {
        counts.take(origin.counts);
        const olds = new Counting(origin, counts), news = new Counting(this, counts);
        for (const [from, to] of spansBetween(origin, null, this)) {
            olds.add(from, Math.min(to, origin.count), -1);
            news.add(from, Math.min(to, this.count), 1);
        }
    }

    /** The grid of the records that have the numbers of the elements, as those of a drawing that was opened do, in the
        view that they are seen in. */
    get grid() {
        if (this.ownGrid === null || this.ownGrid.orientation !== this.records.orientation) {
            this.ownGrid = null; // so that there is no room for both
            this.ownGrid = new Grid(this.records, 0, this.count);
        }
        return this.ownGrid;
    }

    /**
     * Makes ready in pieces what is asked of a drawing that is shown.
     * @returns {import('./slices.js').Pieces<void>}
     */
    *preparing() {
        const counts = new Counts(), grid = new Grid(this.records, 0, this.count, false);
        yield* new Counting(this, counts).all();
        this.ownCounts = counts;
        yield* grid.filling();
        this.ownGrid = grid;
    }

    /** @param {number} number */
    rootOf(number) {
        let root = number;
        while (this.parent[root] >= 0) {
            root = this.parent[root];
        }
        return root;
    }

    /**
     * The records of elements and of all that stands below these.
     * @param {readonly number[]} numbers
     * @returns {Set<number>}
     */
    partsOf(numbers) {
        return new Set(numbers.flatMap((number) => Array.from(this.record.subarray(number, this.end[number]))));
    }

    /**
     * The headers above an element, from the outermost to the nearest.
     * @param {number} number
     */
    above(number) {
        const headers = [];
        for (let at = this.parent[number]; at >= 0; at = this.parent[at]) {
            headers.unshift(at);
        }
        return headers;
    }

    /** @param {number} number */
    flagsOf(number) {
        return this.records.flags[this.record[number]];
    }

    /** @param {number} number */
    typeOf(number) {
        return this.records.type[this.record[number]];
    }

    /**
     * Whether an element or a header above it is marked deleted.
     * @param {number} number
     */
    isDead(number) {
        return [...this.above(number), number].some((it) => this.flagsOf(it) & FLAG.deleted);
    }

    /**
     * The first broken element of a tree, or -1.
     * @param {number} root
     */
    brokenIn(root) {
        for (let at = root; at < this.end[root]; at++) {
            if (this.flagsOf(at) & (FLAG.orphan | FLAG.loose)) {
                return at;
            }
        }
        return -1;
    }

    /**
     * The number of the next or the previous tree that is drawn, or the same.
     * @param {number} number
     * @param {number} step
     * @param {Uint8Array} isShown
     */
    neighbour(number, step, isShown) {
        for (let at = number + step; at >= 0 && at < this.count; at += step) {
            if (this.parent[at] < 0 && this.isTreeShown(at, isShown)) {
                return at;
            }
        }
        return number;
    }

    /**
     * @param {number} number
     * @param {Uint8Array} isShown
     */
    isTreeShown(number, isShown) {
        for (let at = number; at < this.end[number]; at++) {
            if (isShown[this.record[at]]) {
                return true;
            }
        }
        return false;
    }

    /**
     * Marks in `shown`, which has a place a record, what a display shows under a mask of levels.
     * @param {Uint8Array} shown
     * @param {Uint8Array} levels
     * @param {boolean} withDeleted
     */
    show(shown, levels, withDeleted) {
        new Showing(this, levels, withDeleted).mark(shown, 0, this.count);
    }
}
