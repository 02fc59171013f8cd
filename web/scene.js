/* What is to be seen: the records of one or two states, under levels, with their marks. */

import { recordIn, recordsOf, spansBetween } from './differing.js';
import { countOutside, extentOf, hasPlace, widenBox } from './extent.js';
import { DRAWN, DRAWN_OF } from './format.js';
import { GrowingGrid } from './grid.js';
import { MARK, markChange, markPair } from './marking.js';
import { TOP } from './orientation.js';
import { grown } from './records.js';
import { ChangedBoxes, addBox } from './redrawn.js';
import { Showing } from './showing.js';

const MADE = 2 ** 32;             // what is added to a place in the order for what edits made
const MOST_SORTED = 4096;                 // records that are sorted, and not found again by going through all
const MARKED = 2 ** 33;           // and for what is marked, which stands above the rest

/** @typedef {import('./orientation.js').Orientation} Orientation */
/** @typedef {import('./records.js').Records} Records */
/** @typedef {import('./state.js').State} State */
/** @typedef {'before' | 'both' | 'after'} Mode */

/**
 * The records that are drawn. `before` is the drawing as it is; `after`, where there is one, is what edits made of it,
 * and has records of its own for what they changed. `mode` says which of them is seen. What is shown and marked is
 * kept, and told anew of the trees alone that have changed.
 */
export class Scene {
    /**
     * @param {Records} records
     * @param {State} before
     * @param {Orientation} orientation the view that it is seen in at first
     */
    constructor(records, before, orientation = TOP) {
        this.records = records;
        this.before = before;
        if (records.orientation !== orientation) {
            records.turn(orientation);
        }
        /** @type {State | null} */
        this.after = null;
        /** @type {Mode} */
        this.mode = 'before';
        this.levels = new Uint8Array(64).fill(1);
        this.withDeleted = false;
        this.base = before.count;
        this.grid = before.grid;
        this.madeGrid = new GrowingGrid(records, this.base);
        /** Of which records edits made it has the places: others come when these are forgotten. */
        this.epoch = 0;
        /** Whether each record is shown: something of it or of its members is seen. */
        this.shown = new Uint8Array(records.type.length);
        this.marks = new Uint8Array(records.type.length);
        /** How many records are drawn. */
        this.drawn = 0;
        this.version = 0;
        this.changed = new ChangedBoxes();
        /**
         * The order of a version and a mode.
         * @type {{ version: number, mode: Mode, order: Uint32Array }}
         */
        this.kept = { version: -1, mode: 'before', order: new Uint32Array(0) };
        /**
         * Under what all was told last.
         * @type {{ mode: Mode, levels: Uint8Array, withDeleted: boolean }}
         */
        this.seen = { mode: this.mode, levels: this.levels.slice(), withDeleted: this.withDeleted };
        this.showAll();
    }

    /** The state that a number is looked up in. */
    get state() {
        return this.after && this.mode !== 'before' ? this.after : this.before;
    }

    /** The view that it is seen in. */
    get orientation() {
        return this.records.orientation;
    }

    /**
     * Takes another view: where everything lies is found anew.
     * @param {Orientation} orientation
     */
    turn(orientation) {
        const { end } = this.madeGrid;
        this.madeGrid = new GrowingGrid(this.records, this.base);
        this.records.turn(orientation);
        this.grid = this.before.grid;
        this.madeGrid.extend(end);
        this.version++;
        this.changed.add(this.version, null);
    }

    /* What is shown. */

    /**
     * Takes another state to compare with, or none; its own records stand behind those of the drawing. Without changes
     * that are told elements of one number are compared.
     * @param {State | null} after
     * @param {import('./marking.js').ToldChange[] | null} changes
     */
    setAfter(after, changes = null) {
        const isEdit = epochOf(this.after) >= 0 && epochOf(after) >= 0
            && (this.after === null || after === null || epochOf(this.after) === epochOf(after));
        this.takeRecords(after);
        if (!isEdit) {
            this.after = after;
            this.markAll(changes);
            this.showAll();
        } else {
            this.update();
            this.retell(this.after, after, false, () => { this.after = after; });
        }
    }

    /**
     * Makes room for the records of a state, and takes their places.
     * @param {State | null} after
     */
    takeRecords(after) {
        const { length, type } = this.records;
        this.shown = grown(this.shown, type.length);
        this.marks = grown(this.marks, type.length);
        if (after !== null && (epochOf(after) < 0 || epochOf(after) !== this.epoch)) {
            this.epoch = epochOf(after);
            this.madeGrid = new GrowingGrid(this.records, this.base);
        }
        if (after !== null) {
            this.madeGrid.extend(length);
        }
    }

    /** Takes over other levels, another mode, and whether what is deleted is shown: what that changes is told anew. */
    update() {
        const { seen, levels, withDeleted, after } = this;
        if (seen.withDeleted !== withDeleted || levels.some((it, level) => it !== seen.levels[level])
            || (epochOf(after) < 0 && seen.mode !== this.mode)) {
            this.showAll();
        } else if (seen.mode !== this.mode) {
            const isFaint = seen.mode === 'both' || this.mode === 'both';
            this.retell(after, after, isFaint, () => { seen.mode = this.mode; });
        }
    }

    /**
     * Tells anew the trees in which two states differ; where they are one, those in which it isn't the drawing as it
     * was.
     * @param {State | null} last
     * @param {State | null} next
     * @param {boolean} isAll whether all is drawn anew
     * @param {() => void} change changes the state or the mode
     */
    retell(last, next, isAll, change) {
        const spans = spansBetween(this.before, last === next ? null : last, next);
        const total = spans.reduce((sum, [from, to]) => sum + to - from, 0);
        if (2 * total > this.before.count + 1000) {
            change();
            this.markAll(null);
            this.showAll();
            return;
        }
        const touched = recordsOf(this.before, last, next, spans), were = touched.map((record) => this.lookOf(record));
        change();
        touched.forEach((record) => { this.shown[record] = this.marks[record] = 0; });
        this.markIn(spans);
        this.showIn(spans);
        /** @type {number[]} */
        const boxes = [];
        touched.forEach((record, index) => {
            const look = this.lookOf(record);
            this.drawn += (look > 0 ? 1 : 0) - (were[index] > 0 ? 1 : 0);
            if (look !== were[index]) {
                addBox(boxes, this.records, record);
            }
        });
        this.version++;
        this.changed.add(this.version, isAll ? null : boxes);
    }

    /**
     * How a record is seen: 0 where it isn't.
     * @param {number} record
     */
    lookOf(record) {
        return this.isDrawn(record) ? 1 + (this.seen.mode === 'both' ? this.marks[record] : 0) : 0;
    }

    /** Finds anew all that is shown. */
    showAll() {
        const { shown, records: { length } } = this;
        this.seen = { mode: this.mode, levels: this.levels.slice(), withDeleted: this.withDeleted };
        shown.fill(0);
        this.showIn([[0, Infinity]]);
        this.drawn = 0;
        for (let record = 0; record < length; record++) {
            this.drawn += this.isDrawn(record) ? 1 : 0;
        }
        this.version++;
        this.changed.add(this.version, null);
    }

    /**
     * Marks what the trees of spans show, of the states that are seen.
     * @param {import('./differing.js').Span[]} spans
     */
    showIn(spans) {
        const { before, after, mode, levels, withDeleted } = this;
        const states = after === null || mode === 'before' ? [before] : mode === 'after' ? [after] : [before, after];
        for (const state of states) {
            const showing = new Showing(state, levels, withDeleted);
            spans.forEach(([from, to]) => showing.mark(this.shown, from, Math.min(to, state.count)));
        }
    }

    /* Marks. */

    /**
     * Marks all that differs: what is told, or elements of one number.
     * @param {import('./marking.js').ToldChange[] | null} changes
     */
    markAll(changes) {
        const { before, after, marks } = this;
        marks.fill(0);
        if (after !== null && changes !== null) {
            changes.forEach((change) => markChange(marks, before, after, change));
        } else if (after !== null) {
            this.markIn([[0, Math.max(before.count, after.count)]]);
        }
    }

    /**
     * Marks elements of one number that differ.
     * @param {import('./differing.js').Span[]} spans
     */
    markIn(spans) {
        const { before, after, marks, records: { flags } } = this;
        for (const [from, to] of after === null ? [] : spans) {
            for (let number = from; number < to; number++) {
                markPair(marks, flags, recordIn(before, null, number), recordIn(before, after, number));
            }
        }
    }

    /**
     * What a record is marked as in the mode that is seen: only where both states are, marks are drawn.
     * @param {number} record
     */
    markOf(record) {
        return this.mode === 'both' ? this.marks[record] : MARK.none;
    }

    /**
     * Whether a record is marked, whatever mode is seen.
     * @param {number} record
     */
    isAbove(record) {
        return this.marks[record] !== MARK.none;
    }

    /* What is drawn. */

    /**
     * Whether something of a record itself is seen; of a group it is its members.
     * @param {number} record
     */
    isDrawn(record) {
        return this.shown[record] === 1 && DRAWN_OF[this.records.type[record]] !== DRAWN.group;
    }

    /**
     * The place of a record in the order to draw in: by its number, behind that what edits made, and above all what is
     * marked.
     * @param {number} record
     */
    placeOf(record) {
        return this.records.number[record] + (record < this.base ? 0 : MADE)
            + (this.markOf(record) === MARK.none ? 0 : MARKED);
    }

    /** The records that are drawn, in their order; it is kept until something changes. */
    get order() {
        if (this.kept.version !== this.version || this.kept.mode !== this.mode) {
            this.kept = { version: this.version, mode: this.mode, order: this.ordered(this.shown) };
        }
        return this.kept.order;
    }

    /**
     * Of the records that have a 1 in a row those that are drawn, in the order to draw them in.
     * @param {Uint8Array} taken
     */
    ordered(taken) {
        const found = new Uint32Array(this.drawn);
        /** @type {number[]} */
        const above = [];
        let count = 0;
        for (let record = 0; record < this.records.length; record++) {
            if (taken[record] === 1 && this.isDrawn(record)) {
                if (record < this.base && this.markOf(record) === MARK.none) {
                    found[count++] = record;
                } else {
                    above.push(record);
                }
            }
        }
        found.set(this.sorted(above), count);
        return found.subarray(0, count + above.length);
    }

    /**
     * Records in the order to draw them in.
     * @param {number[]} records
     */
    sorted(records) {
        const places = Float64Array.from(records, (record) => this.placeOf(record)).sort(), { after } = this;
        return Uint32Array.from(places, (place) => {
            const number = place % MADE, isMade = place % MARKED >= MADE;
            return isMade && after !== null ? after.record[number] : number;
        });
    }

    /**
     * The records that are drawn and whose boxes meet one of these rectangles, each once, in the order to draw them in.
     * @param {number[][]} rectangles
     */
    within(rectangles) {
        /** @type {number[]} */
        const found = [];
        rectangles.forEach((it) => this.query(it, (record) => found.push(record)));
        if (found.length < MOST_SORTED) {
            return this.sorted(found).filter((record, at, all) => record !== all[at - 1]);
        }
        const taken = new Uint8Array(this.shown.length);
        found.forEach((record) => { taken[record] = 1; });
        return this.ordered(taken);
    }

    /**
     * Calls `visit` with each record that is drawn and whose box meets a rectangle.
     * @param {number[]} rectangle low x, low y, high x, high y
     * @param {(record: number) => void} visit
     */
    query(rectangle, visit) {
        const see = (/** @type {number} */ record) => {
            if (this.isDrawn(record)) {
                visit(record);
            }
        };
        this.grid.query(rectangle, see);
        this.madeGrid.query(rectangle, see);
    }

    /**
     * At most so many records meet a rectangle, or only little more.
     * @param {number[]} rectangle
     */
    reach(rectangle) {
        return this.grid.reach(rectangle) + this.madeGrid.reach(rectangle);
    }

    /** The least box of what is shown, and how many origins of cells lie outside it. */
    extent() {
        const box = extentOf(this.records, this.shown);
        return { box, outside: countOutside(this, box) };
    }

    /**
     * The box of a part, or null where nothing of it has a place.
     * @param {State} state
     * @param {number} number
     */
    boxOfPart(state, number) {
        const box = [Infinity, Infinity, -Infinity, -Infinity];
        for (const withOrigins of [false, true]) {
            for (let at = number; at < state.end[number]; at++) {
                if (hasPlace(this.records.type[state.record[at]], withOrigins)) {
                    widenBox(box, this.records.box, state.record[at]);
                }
            }
            if (box[0] <= box[2]) {
                return box;
            }
        }
        return null;
    }
}

/**
 * Of which records that edits made a state is: -1 where it is another drawing, whose numbers needn't be those of this
 * one.
 * @param {State | null} state
 */
function epochOf(state) {
    return state === null ? 0 : state.edited === null ? -1 : state.edited.epoch;
}
