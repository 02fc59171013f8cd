/* What became of records between two states. */

import { FLAG } from './format.js';

/** @typedef {import('./records.js').Records} Records */
/** @typedef {import('./state.js').State} State */

/** What a record is in a comparison. */
export const MARK = Object.freeze({ none: 0, changed: 1, added: 2, deleted: 3, old: 4 });

/**
 * A change of elements, as comparing two drawings tells it.
 * @typedef {{ before: number | null, after: number | null, kind: string, more: number }} ToldChange
 */

/**
 * Marks the records of a number before and after, -1 where it has none.
 * @param {Uint8Array} marks
 * @param {Uint8Array} flags
 * @param {number} old
 * @param {number} made
 */
export function markPair(marks, flags, old, made) {
    if (old === made) {
        return;
    }
    if (old < 0) {
        marks[made] = MARK.added;
    } else if (made < 0 || (flags[made] & FLAG.deleted && !(flags[old] & FLAG.deleted))) {
        marks[old] = MARK.deleted;
        if (made >= 0) {
            marks[made] = MARK.deleted;
        }
    } else {
        marks[made] = MARK.changed;
        marks[old] = MARK.old;
    }
}

/**
 * Marks what a comparison told.
 * @param {Uint8Array} marks
 * @param {State} before
 * @param {State} after
 * @param {ToldChange} change
 */
export function markChange(marks, before, after, change) {
    const { kind, more } = change;
    for (let place = 0; place <= more; place++) {
        if (change.before !== null) {
            marks[before.record[change.before + place]] = kind === 'deleted' ? MARK.deleted : MARK.old;
        }
        if (change.after !== null) {
            marks[after.record[change.after + place]] = kind === 'added' ? MARK.added
                : kind === 'deleted' ? MARK.deleted : MARK.changed;
        }
    }
}
