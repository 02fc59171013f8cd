/* Which element of one drawing is which of another, where numbers don't say it. Elements that are the same, byte by
   byte, are one where they stand in the same order, then those that stand elsewhere; of what is left between those in
   their order elements of one type and size are one. */

import { Pairs, matching, matchingOfMany } from './matching.js';

const MANY = 1000000;             // more pairs than that aren't compared one by one
const SAME_MOST = 300;            // so many of the same elements may come and go between two anchors

/** @typedef {import('./contents.js').Comparable} Comparable */
/** @typedef {import('./contents.js').Contents} Contents */

/**
 * A type and a size as one number.
 * @param {Comparable} drawing
 * @param {number} number
 */
function kindOfElement({ records }, number) {
    return records.type[number] * 262144 + records.size[number];
}

/**
 * Which element of the second drawing is which of the first. The editor keeps numbers, and appends behind the last: so
 * those of one number are one, up to the first whose type and size don't agree. Or else elements came between, went, or
 * stand in another order: then those are one that are the same. Whichever tells of fewer elements is taken.
 * @param {Contents} contents
 * @returns {OrderedPairs}
 */
export function pairsOf(contents) {
    const { first, second } = contents, common = Math.min(first.count, second.count);
    let same = 0, isSame = true;
    while (same < common && kindOfElement(first, same) === kindOfElement(second, same)) {
        isSame = isSame && contents.isSame(same, same);
        same++;
    }
    const numbered = new Alignment(contents, same).pairs();
    if (isSame) {
        return numbered;
    }
    const whole = new Alignment(contents, 0).pairs();
    return isFewer(weightOf(contents, whole), weightOf(contents, numbered)) ? whole : numbered;
}

/**
 * Of how many elements a difference would be told, and of how many another one than that of their order.
 * @param {Contents} contents
 * @param {OrderedPairs} pairs
 * @returns {[number, number]}
 */
function weightOf(contents, { olds, news, count, elsewhere }) {
    let told = 0, reordered = 0;
    for (let at = 0; at < count; at++) {
        if (olds[at] >= 0 && elsewhere[olds[at]]) {
            reordered++;
        } else if (olds[at] < 0 || news[at] < 0 || !contents.isSame(olds[at], news[at])) {
            told++;
        }
    }
    return [told + reordered, told];
}

/**
 * @param {[number, number]} one
 * @param {[number, number]} other
 */
function isFewer(one, other) {
    return one[0] < other[0] || (one[0] === other[0] && one[1] < other[1]);
}

/** Pairs of elements in the order of the first drawing, and which of that stand elsewhere in the second. */
export class OrderedPairs extends Pairs {
    /** @param {Uint8Array} elsewhere by the number in the first drawing */
    constructor(elsewhere) {
        super();
        this.elsewhere = elsewhere;
    }
}

/** Pairs of the elements from a number on, behind those of one number. */
class Alignment {
    /**
     * @param {Contents} contents
     * @param {number} start
     */
    constructor(contents, start) {
        this.contents = contents;
        this.start = start;
        const { first, second } = contents;
        /** Of each element the number of the one in the other drawing, or -1. */
        this.after = new Int32Array(first.count).fill(-1);
        this.before = new Int32Array(second.count).fill(-1);
        /** Whether an element of the first drawing is the same, but stands in another order. */
        this.elsewhere = new Uint8Array(first.count);
    }

    pairs() {
        for (let at = 0; at < this.start; at++) {
            this.pair(at, at);
        }
        const same = this.sameInOrder();
        for (let at = 0; at < same.count; at++) {
            this.pair(same.olds[at], same.news[at]);
        }
        this.pairElsewhere();
        this.pairByKind(same);
        return this.inOrder();
    }

    /**
     * @param {number} old
     * @param {number} made
     */
    pair(old, made) {
        this.after[old] = made;
        this.before[made] = old;
    }

    /** All elements in the order of the first drawing; those of the second alone stand before the next one that is in
        both. */
    inOrder() {
        const { after, before, elsewhere } = this, found = new OrderedPairs(elsewhere);
        let made = 0;
        const addNew = (/** @type {number} */ end) => {
            for (; made < end; made++) {
                if (before[made] < 0) {
                    found.add(-1, made);
                }
            }
        };
        for (let old = 0; old < after.length; old++) {
            if (after[old] >= 0 && !elsewhere[old]) {
                addNew(after[old]);
                made = after[old] + 1;
            }
            found.add(old, after[old]);
        }
        addNew(before.length);
        return found;
    }

    /** The same elements in the same order: those whose bytes stand once in each drawing are anchors, and between two
        anchors as many as possible are taken, unless very many come and go. */
    sameInOrder() {
        const { contents: { first, second }, start } = this, anchors = this.anchors(), found = new Pairs();
        let old = start, made = start;
        for (let at = 0; at < anchors.count; at++) {
            this.addSame(found, old, anchors.olds[at], made, anchors.news[at]);
            found.add(anchors.olds[at], anchors.news[at]);
            old = anchors.olds[at] + 1;
            made = anchors.news[at] + 1;
        }
        this.addSame(found, old, first.count, made, second.count);
        return found;
    }

    /** Elements whose bytes stand once in each drawing, as many as stand in the same order in both. */
    anchors() {
        const { contents: { olds, news, size }, start } = this;
        const oldPlaces = singlesOf(olds, start, size), newPlaces = singlesOf(news, start, size), common = new Pairs();
        for (let old = start; old < olds.length; old++) {
            if (oldPlaces[olds[old]] === old && newPlaces[olds[old]] >= 0) {
                common.add(old, newPlaces[olds[old]]);
            }
        }
        return rising(common);
    }

    /**
     * Adds the same elements between two anchors: those at the front and at the back, and what a shortest way matches
     * of the others that stand in both rows.
     * @param {Pairs} found
     * @param {number} oldLow
     * @param {number} oldHigh
     * @param {number} newLow
     * @param {number} newHigh
     */
    addSame(found, oldLow, oldHigh, newLow, newHigh) {
        const { contents } = this, least = Math.min(oldHigh - oldLow, newHigh - newLow);
        let front = 0, back = 0;
        while (front < least && contents.isSame(oldLow + front, newLow + front)) {
            front++;
        }
        while (back < least - front && contents.isSame(oldHigh - 1 - back, newHigh - 1 - back)) {
            back++;
        }
        found.addRow(oldLow, newLow, front);
        if (front + back < least) {
            this.addWay(found, oldLow + front, oldHigh - back, newLow + front, newHigh - back);
        }
        found.addRow(oldHigh - back, newHigh - back, back);
    }

    /**
     * Adds what a shortest way matches of the elements that stand in both rows.
     * @param {Pairs} found
     * @param {number} oldLow
     * @param {number} oldHigh
     * @param {number} newLow
     * @param {number} newHigh
     */
    addWay(found, oldLow, oldHigh, newLow, newHigh) {
        const { olds, news } = this.contents;
        const left = placesIn(olds, oldLow, oldHigh, new Set(news.subarray(newLow, newHigh)));
        const right = placesIn(news, newLow, newHigh, new Set(olds.subarray(oldLow, oldHigh)));
        const way = matchingOfMany(left.map((at) => olds[at]), right.map((at) => news[at]), SAME_MOST);
        for (let at = 0; way && at < way.count; at++) {
            found.add(left[way.olds[at]], right[way.news[at]]);
        }
    }

    /** Pairs elements that aren't paired yet and are the same, the first with the first. */
    pairElsewhere() {
        const { contents: { olds, news, size }, start, after, before, elsewhere } = this;
        /** Of each content the first element of the second drawing that may have it, and of each such the next one. */
        const firsts = new Int32Array(size + 1).fill(-1), nexts = new Int32Array(news.length).fill(-1);
        for (let made = news.length - 1; made >= start; made--) {
            if (before[made] < 0) {
                nexts[made] = firsts[news[made]];
                firsts[news[made]] = made;
            }
        }
        for (let old = start; old < olds.length; old++) {
            const made = firsts[olds[old]];
            if (after[old] < 0 && made >= 0) {
                firsts[olds[old]] = nexts[made];
                this.pair(old, made);
                elsewhere[old] = 1;
            }
        }
    }

    /**
     * Pairs elements of one type and size between those that are the same, as far as they aren't paired yet.
     * @param {Pairs} same
     */
    pairByKind(same) {
        const { contents: { first, second }, start } = this;
        let old = start, made = start;
        for (let at = 0; at <= same.count; at++) {
            const oldEnd = at < same.count ? same.olds[at] : first.count;
            const newEnd = at < same.count ? same.news[at] : second.count;
            if (old < oldEnd && made < newEnd) {
                this.pairKinds(unpaired(this.after, old, oldEnd), unpaired(this.before, made, newEnd));
            }
            old = oldEnd + 1;
            made = newEnd + 1;
        }
    }

    /**
     * Pairs elements of one type and size, by the longest rows of such; of very many by the fewest that come and go,
     * or, where these are very many too, in their order up to the first that doesn't agree.
     * @param {Int32Array} olds
     * @param {Int32Array} news
     */
    pairKinds(olds, news) {
        if (olds.length === 0 || news.length === 0) {
            return;
        }
        const { first, second } = this.contents;
        const oldKinds = olds.map((at) => kindOfElement(first, at));
        const pairs = matchesOf(oldKinds, news.map((at) => kindOfElement(second, at)));
        for (let at = 0; at < pairs.count; at++) {
            this.pair(olds[pairs.olds[at]], news[pairs.news[at]]);
        }
    }
}

/**
 * The places from one to before another that have one of some numbers.
 * @param {Uint32Array} numbers
 * @param {number} from
 * @param {number} to
 * @param {Set<number>} wanted
 */
function placesIn(numbers, from, to, wanted) {
    return Int32Array.from({ length: to - from }, (_, at) => from + at).filter((at) => wanted.has(numbers[at]));
}

/**
 * The places from one to before another that have no partner.
 * @param {Int32Array} partners
 * @param {number} from
 * @param {number} to
 */
function unpaired(partners, from, to) {
    return Int32Array.from({ length: to - from }, (_, at) => from + at).filter((at) => partners[at] < 0);
}

/**
 * @param {Int32Array} olds
 * @param {Int32Array} news
 */
function matchesOf(olds, news) {
    return olds.length * news.length > MANY ? matchingOfMany(olds, news) || agreeing(olds, news) : matching(olds, news);
}

/**
 * The places up to which two rows of kinds agree from their front.
 * @param {Int32Array} olds
 * @param {Int32Array} news
 */
function agreeing(olds, news) {
    const pairs = new Pairs();
    for (let at = 0; at < Math.min(olds.length, news.length) && olds[at] === news[at]; at++) {
        pairs.add(at, at);
    }
    return pairs;
}

/**
 * Of each number of a content where it stands, from a place on: -1 where it stands nowhere, and -2 where it stands more
 * than once.
 * @param {Uint32Array} numbers
 * @param {number} start
 * @param {number} size the greatest number
 */
function singlesOf(numbers, start, size) {
    const places = new Int32Array(size + 1).fill(-1);
    for (let at = start; at < numbers.length; at++) {
        places[numbers[at]] = places[numbers[at]] === -1 ? at : -2;
    }
    return places;
}

/**
 * A longest part of pairs, whose first places rise, in which the second rise too.
 * @param {Pairs} pairs
 */
function rising(pairs) {
    const { olds, news, count } = pairs;
    /** The least last place of a rising part, by its length, and the pair that has it; of each pair the one before. */
    const ends = new Int32Array(count), last = new Int32Array(count), before = new Int32Array(count);
    let most = 0;
    for (let index = 0; index < count; index++) {
        const length = lengthBelow(ends, most, news[index]);
        before[index] = length > 0 ? last[length - 1] : -1;
        ends[length] = news[index];
        last[length] = index;
        most = Math.max(most, length + 1);
    }
    const made = new Pairs();
    for (let index = most > 0 ? last[most - 1] : -1; index >= 0; index = before[index]) {
        made.add(olds[index], news[index]);
    }
    return made.turned();
}

/**
 * How many of the first of rising numbers are less than another.
 * @param {Int32Array} numbers
 * @param {number} count
 * @param {number} value
 */
function lengthBelow(numbers, count, value) {
    let low = 0, high = count;
    while (low < high) {
        const middle = low + high >> 1;
        if (numbers[middle] < value) {
            low = middle + 1;
        } else {
            high = middle;
        }
    }
    return low;
}
