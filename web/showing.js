/* What trees show under levels, and how much. */

import { DRAWN, DRAWN_OF, FLAG } from './format.js';
import { PIECE } from './slices.js';

/** @typedef {import('./records.js').Records} Records */
/** @typedef {import('./state.js').State} State */

/**
 * Whether a record is shown by its own level, not by what stands below it.
 * @param {Records} records
 * @param {number} record
 */
export function isLeaf(records, record) {
    return DRAWN_OF[records.type[record]] !== DRAWN.nothing && !(records.flags[record] & (FLAG.group | FLAG.loose));
}

/** Goes through trees of a state, one by one, with what is hidden in them. */
class TreeWalk {
    /**
     * @param {State} state
     * @param {boolean} withDeleted whether what is marked deleted isn't hidden
     */
    constructor(state, withDeleted) {
        this.state = state;
        this.hides = withDeleted ? 0 : FLAG.deleted;
        /** Whether each element of the tree is hidden, by its place in it. */
        this.hidden = new Uint8Array(64);
        /** Whether each header of the tree has members that show something. */
        this.filled = new Uint8Array(64);
    }

    /**
     * Finds what is deleted itself, or stands below a deleted header or in a run, of which no part is shown.
     * @param {number} root
     */
    hide(root) {
        const { state: { record, parent, end, records: { flags } }, hides } = this, size = end[root] - root;
        if (this.hidden.length < size) {
            this.hidden = new Uint8Array(2 * size);
            this.filled = new Uint8Array(2 * size);
        }
        const { hidden } = this;
        hidden[0] = flags[record[root]] & hides ? 1 : 0;
        for (let place = 1; place < size; place++) {
            const above = parent[root + place] - root;
            hidden[place] = hidden[above] || flags[record[root + above]] & FLAG.run
                || flags[record[root + place]] & hides ? 1 : 0;
        }
    }
}

/**
 * Marks what a display shows under a mask of levels: a leaf on a level that is on; a header with members that show
 * something; nothing that is deleted or below it, unless it is asked for.
 */
export class Showing extends TreeWalk {
    /**
     * @param {State} state
     * @param {Uint8Array} levels
     * @param {boolean} withDeleted
     */
    constructor(state, levels, withDeleted) {
        super(state, withDeleted);
        this.levels = levels;
    }

    /**
     * Marks, in a row with a place a record, what trees show that begin from one number to before another.
     * @param {Uint8Array} shown
     * @param {number} from
     * @param {number} to
     */
    mark(shown, from, to) {
        const { levels, hides, state: { record: recordOf, end, records: { type, flags, level } } } = this;
        for (let root = from; root < to; root = end[root]) {
            const record = recordOf[root], flag = flags[record];
            if (end[root] > root + 1) {
                this.markTree(shown, root);
            } else if (!(flag & (hides | FLAG.loose | FLAG.group)) && levels[level[record]] === 1
                && DRAWN_OF[type[record]] !== DRAWN.nothing) {
                shown[record] = 1;
            }
        }
    }

    /**
     * @param {Uint8Array} shown
     * @param {number} root
     */
    markTree(shown, root) {
        this.hide(root);
        const { state: { record: recordOf, parent, end, records }, hidden, filled, levels } = this;
        const { type, flags, level } = records;
        filled.fill(0, 0, end[root] - root);
        for (let number = end[root] - 1; number >= root; number--) {
            const record = recordOf[number], flag = flags[record];
            if (!hidden[number - root] && DRAWN_OF[type[record]] !== DRAWN.nothing && !(flag & FLAG.loose)
                && (flag & FLAG.group ? filled[number - root] : levels[level[record]]) === 1) {
                shown[record] = 1;
                if (number > root) {
                    filled[parent[number] - root] = 1;
                }
            }
        }
    }
}

/** How much each level shows alone, how many elements each type has, and how many are marked deleted. */
export class Counts {
    constructor() {
        this.levels = new Uint32Array(64);
        this.types = new Uint32Array(128);
        this.deleted = 0;
    }

    /** @param {Counts} other */
    take(other) {
        this.levels.set(other.levels);
        this.types.set(other.types);
        this.deleted = other.deleted;
    }
}

/** Counts what trees have. */
export class Counting extends TreeWalk {
    /**
     * @param {State} state
     * @param {Counts} counts
     */
    constructor(state, counts) {
        super(state, false);
        this.counts = counts;
    }

    /**
     * Counts the trees that begin from one number to before another: `by` is 1, or -1 to take them away.
     * @param {number} from
     * @param {number} to
     * @param {number} by
     */
    add(from, to, by) {
        for (let root = from; root < to; root = this.state.end[root]) {
            this.addTree(root, by);
        }
    }

    /**
     * Counts all trees, in pieces.
     * @returns {import('./slices.js').Pieces<void>}
     */
    *all() {
        const { state: { count, end } } = this;
        let pause = PIECE;
        for (let root = 0; root < count; root = end[root]) {
            this.addTree(root, 1);
            if (root > pause) {
                pause = root + PIECE;
                yield;
            }
        }
    }

    /**
     * @param {number} root
     * @param {number} by
     */
    addTree(root, by) {
        const { counts, state: { record: recordOf, end, records } } = this, { type, level, flags } = records;
        this.hide(root);
        for (let number = root; number < end[root]; number++) {
            const record = recordOf[number];
            counts.types[type[record]] += by;
            counts.deleted += flags[record] & FLAG.deleted ? by : 0;
            if (!this.hidden[number - root] && isLeaf(records, record)) {
                counts.levels[level[record]] += by;
            }
        }
    }
}
