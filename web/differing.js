/* Where two states of a drawing differ. */

/** @typedef {import('./state.js').State} State */
/** @typedef {[number, number]} Span numbers, from one to before another */

/**
 * The record of a number in a state, -1 where it has none. Where no state is given it is the drawing as it was opened.
 * @param {State} origin
 * @param {State | null} state
 * @param {number} number
 */
export function recordIn(origin, state, number) {
    const given = state || origin;
    return number < given.count ? given.record[number] : -1;
}

/**
 * The spans of whole trees, in rising order, with all that differs between two states, null for the drawing as it was
 * opened. Both have edits of one drawing, which keep its numbers and its trees and append others behind them; the last
 * span reaches to the end of the longer state where what is appended nests otherwise.
 * @param {State} origin
 * @param {State | null} one
 * @param {State | null} other
 * @returns {Span[]}
 */
export function spansBetween(origin, one, other) {
    /** @type {Span[]} */
    const spans = [];
    for (const number of changedNumbers(origin, one, other)) {
        addTree(spans, origin, number);
    }
    addAppended(spans, origin.count, one || origin, other || origin);
    return spans;
}

/**
 * The numbers that the opened drawing has, too, and that have other records, in rising order.
 * @param {State} origin
 * @param {State | null} one
 * @param {State | null} other
 * @returns {Uint32Array}
 */
function changedNumbers(origin, one, other) {
    const ones = ownNumbers(one), others = ownNumbers(other), found = new Uint32Array(ones.length + others.length);
    let count = 0;
    for (let at = 0, otherAt = 0; at < ones.length || otherAt < others.length;) {
        const left = at < ones.length ? ones[at] : Infinity;
        const right = otherAt < others.length ? others[otherAt] : Infinity;
        const number = Math.min(left, right);
        if (recordIn(origin, one, number) !== recordIn(origin, other, number)) {
            found[count++] = number;
        }
        at += left === number ? 1 : 0;
        otherAt += right === number ? 1 : 0;
    }
    return found.subarray(0, count);
}

/**
 * @param {State | null} state
 * @returns {Uint32Array}
 */
function ownNumbers(state) {
    return state !== null && state.edited !== null ? state.edited.numbers : new Uint32Array(0);
}

/**
 * Adds the tree of a number, unless the span that was added last has it.
 * @param {Span[]} spans
 * @param {State} state
 * @param {number} number
 */
function addTree(spans, state, number) {
    const last = spans.length > 0 ? spans[spans.length - 1][1] : 0;
    if (number >= last) {
        const root = state.rootOf(number);
        spans.push([root, state.end[root]]);
    }
}

/**
 * Adds the trees that differ of what is appended.
 * @param {Span[]} spans
 * @param {number} base
 * @param {State} one
 * @param {State} other
 */
function addAppended(spans, base, one, other) {
    const common = Math.min(one.count, other.count), isAlike = one.parent === other.parent && one.end === other.end;
    for (let number = base; number < common; number++) {
        if (!isAlike && (one.parent[number] !== other.parent[number] || one.end[number] !== other.end[number])) {
            addRest(spans, Math.min(one.rootOf(number), other.rootOf(number)), Math.max(one.count, other.count));
            return;
        }
        if (one.record[number] !== other.record[number]) {
            addTree(spans, one, number);
        }
    }
    if (one.count !== other.count) {
        spans.push([common, Math.max(one.count, other.count)]);
    }
}

/**
 * Adds all from a number on, in the place of what was added of it.
 * @param {Span[]} spans
 * @param {number} from
 * @param {number} to
 */
function addRest(spans, from, to) {
    while (spans.length > 0 && spans[spans.length - 1][0] >= from) {
        spans.pop();
    }
    spans.push([from, to]);
}

/**
 * The records that the numbers of spans have in the drawing as it was opened and in two states, each once.
 * @param {State} origin
 * @param {State | null} one
 * @param {State | null} other
 * @param {Span[]} spans
 */
export function recordsOf(origin, one, other, spans) {
    /** @type {number[]} */
    const found = [];
    for (const [from, to] of spans) {
        for (let number = from; number < to; number++) {
            const opened = recordIn(origin, null, number), old = recordIn(origin, one, number);
            addUnless(found, opened, -1, -1);
            addUnless(found, old, opened, -1);
            addUnless(found, recordIn(origin, other, number), opened, old);
        }
    }
    return found;
}

/**
 * Adds a record, if there is one, unless it is one of two others.
 * @param {number[]} records
 * @param {number} record
 * @param {number} one
 * @param {number} other
 */
function addUnless(records, record, one, other) {
    if (record >= 0 && record !== one && record !== other) {
        records.push(record);
    }
}
