/* The longest rows that two lists have in common. */

import { grown } from './records.js';

/** Pairs of places in two lists, one behind the other; -1 stands for a place that isn't there. */
export class Pairs {
    constructor() {
        this.count = 0;
        this.olds = new Int32Array(16);
        this.news = new Int32Array(16);
    }

    /**
     * @param {number} old
     * @param {number} made
     */
    add(old, made) {
        if (this.count === this.olds.length) {
            this.olds = grown(this.olds, 2 * this.count);
            this.news = grown(this.news, 2 * this.count);
        }
        this.olds[this.count] = old;
        this.news[this.count++] = made;
    }

    /**
     * Adds so many pairs of places that follow one another.
     * @param {number} old
     * @param {number} made
     * @param {number} count
     */
    addRow(old, made, count) {
        for (let at = 0; at < count; at++) {
            this.add(old + at, made + at);
        }
    }

    /** The same pairs from the last to the first. */
    turned() {
        this.olds = this.olds.slice(0, this.count).reverse();
        this.news = this.news.slice(0, this.count).reverse();
        return this;
    }
}

/**
 * Pairs of places of two lists whose keys are the same, in rising order: the longest row in common first, then the
 * longest ones before it and behind it.
 * @param {Int32Array} olds
 * @param {Int32Array} news
 * @returns {Pairs}
 */
export function matching(olds, news) {
    const pairs = new Pairs(), least = Math.min(olds.length, news.length);
    if (olds.subarray(0, least).every((key, at) => key === news[at])) {
        pairs.addRow(0, 0, least);
        return pairs;
    }
    const rows = new CommonRows(olds, news), found = rows.all().sort(([one], [other]) => one - other);
    found.forEach(([old, made, size]) => pairs.addRow(old, made, size));
    return pairs;
}

/** Finds the longest rows that two lists have in common. */
class CommonRows {
    /**
     * @param {Int32Array} olds
     * @param {Int32Array} news
     */
    constructor(olds, news) {
        this.olds = olds;
        this.news = news;
        /**
         * The places of each key in the second list, rising.
         * @type {Map<number, number[]>}
         */
        this.places = new Map();
        news.forEach((key, at) => {
            const row = this.places.get(key);
            if (row === undefined) {
                this.places.set(key, [at]);
            } else {
                row.push(at);
            }
        });
        /** By the place behind it in the second list, how long the row is that ends there, and at which turn it was. */
        this.sizes = new Int32Array(news.length + 1);
        this.turns = new Int32Array(news.length + 1);
        this.turn = 0;
    }

    /** All rows: where each begins in both lists, and its size. */
    all() {
        /** @type {[number, number, number][]} */
        const rows = [];
        /** @type {[number, number, number, number][]} */
        const open = [[0, this.olds.length, 0, this.news.length]];
        for (let span = open.pop(); span !== undefined; span = open.pop()) {
            const [oldLow, oldHigh, newLow, newHigh] = span;
            const [old, made, size] = this.longest(oldLow, oldHigh, newLow, newHigh);
            if (size > 0) {
                rows.push([old, made, size]);
                open.push([oldLow, old, newLow, made], [old + size, oldHigh, made + size, newHigh]);
            }
        }
        return rows;
    }

    /**
     * The longest row in common within spans of the two lists. Of equals it is the first of the old list, and of these
     * the first of the new one.
     * @param {number} oldLow
     * @param {number} oldHigh
     * @param {number} newLow
     * @param {number} newHigh
     */
    longest(oldLow, oldHigh, newLow, newHigh) {
        let best = [oldLow, newLow, 0];
        this.turn++;
        for (let old = oldLow; old < oldHigh && newLow < newHigh; old++) {
            this.turn++;
            const [made, size] = this.longestEndingAt(old, newLow, newHigh);
            best = size > best[2] ? [old - size + 1, made - size + 1, size] : best;
        }
        return best;
    }

    /**
     * Of the rows that end at a place of the first list the longest, and of equals the first: where it ends in the
     * second list, and its size. Places are gone through from behind, so that what the last turn said is still there.
     * @param {number} old
     * @param {number} newLow
     * @param {number} newHigh
     */
    longestEndingAt(old, newLow, newHigh) {
        const { sizes, turns, turn } = this, places = this.places.get(this.olds[old]) || [];
        let end = 0, most = 0;
        for (let at = placeBelow(places, newHigh); at >= 0 && places[at] >= newLow; at--) {
            const made = places[at], size = turns[made] === turn - 1 ? sizes[made] + 1 : 1;
            sizes[made + 1] = size;
            turns[made + 1] = turn;
            if (size >= most) {
                most = size;
                end = made;
            }
        }
        return [end, most];
    }
}

/**
 * The index of the last of rising numbers that is less than another, or -1.
 * @param {number[]} numbers
 * @param {number} most
 */
function placeBelow(numbers, most) {
    let low = 0, high = numbers.length;
    while (low < high) {
        const middle = low + high >> 1;
        if (numbers[middle] < most) {
            low = middle + 1;
        } else {
            high = middle;
        }
    }
    return low - 1;
}

const WAY_MOST = 1500;            // so many keys may come and go on a shortest way

/**
 * Pairs of places on a shortest way from one list to another, by what goes and what comes (E. W. Myers, An O(ND)
 * Difference Algorithm): fast where little differs, however long the lists are. Null where very many come and go.
 * @param {Int32Array} olds
 * @param {Int32Array} news
 * @param {number} limit so many may come and go
 * @returns {Pairs | null}
 */
export function matchingOfMany(olds, news, limit = WAY_MOST) {
    const most = Math.min(limit, olds.length + news.length);
    /** By the diagonal, counted from -most - 1 on, how far the furthest way reaches in the first list. */
    const ends = new Int32Array(2 * most + 3);
    /**
     * Of each step what it began with: from the diagonal -step - 1 on.
     * @type {Int32Array[]}
     */
    const kept = [];
    for (let step = 0; step <= most; step++) {
        kept.push(ends.slice(most - step, most + step + 3));
        if (furthest(ends, most + 1, step, olds, news)) {
            return walkedBack(kept, olds.length, news.length);
        }
    }
    return null;
}

/**
 * Goes on by one step on all diagonals, and says whether the end of both lists is reached.
 * @param {Int32Array} ends
 * @param {number} middle where the diagonal 0 stands in them
 * @param {number} step
 * @param {Int32Array} olds
 * @param {Int32Array} news
 */
function furthest(ends, middle, step, olds, news) {
    for (let diagonal = -step; diagonal <= step; diagonal += 2) {
        let at = wayStart(ends, middle + diagonal, diagonal, step);
        while (at < olds.length && at - diagonal < news.length && olds[at] === news[at - diagonal]) {
            at++;
        }
        ends[middle + diagonal] = at;
        if (at >= olds.length && at - diagonal >= news.length) {
            return true;
        }
    }
    return false;
}

/**
 * Whether the way on a diagonal comes from the one above it, by a key that comes, and not by one that goes.
 * @param {Int32Array} ends
 * @param {number} place of the diagonal in them
 * @param {number} diagonal
 * @param {number} step
 */
function comesDown(ends, place, diagonal, step) {
    return diagonal === -step || (diagonal !== step && ends[place - 1] < ends[place + 1]);
}

/**
 * Where a way begins on a diagonal: it comes from the one beside that reaches further.
 * @param {Int32Array} ends
 * @param {number} place
 * @param {number} diagonal
 * @param {number} step
 */
function wayStart(ends, place, diagonal, step) {
    return comesDown(ends, place, diagonal, step) ? ends[place + 1] : ends[place - 1] + 1;
}

/**
 * The matches on the way to an end, from the ways that were kept of each step.
 * @param {Int32Array[]} kept
 * @param {number} oldEnd
 * @param {number} newEnd
 */
function walkedBack(kept, oldEnd, newEnd) {
    const pairs = new Pairs();
    let old = oldEnd, made = newEnd;
    for (let step = kept.length - 1; step >= 0; step--) {
        const ends = kept[step], diagonal = old - made, place = step + 1 + diagonal;
        const start = wayStart(ends, place, diagonal, step);
        while (old > start && made > start - diagonal) {
            old--;
            made--;
            pairs.add(old, made);
        }
        if (step > 0) {
            const isDown = comesDown(ends, place, diagonal, step);
            old = isDown ? ends[place + 1] : ends[place - 1];
            made = old - (isDown ? diagonal + 1 : diagonal - 1);
        }
    }
    return pairs.turned();
}
