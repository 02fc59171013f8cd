/* What became of each element between two drawings, in words. */

import { pairsOf } from './aligning.js';
import { colourSaid } from './colour_table.js';
import { textPlace } from './bodies.js';
import { Contents } from './contents.js';
import { counted, described, quoted } from './describing.js';
import { isEqual } from './bytes.js';
import { fieldName, pointsSpan } from './fields.js';
import { FLAG, TYPE } from './format.js';
import { longAt, rangeNumberAt, wordAt } from './numbers.js';
import { cellName } from './radix50.js';
import { charactersAt } from './reading.js';
import { PIECE } from './slices.js';
import { CLASS, CLASS_OF } from './tables.js';
import { decoded } from './texts.js';
import { shiftSaid } from './units.js';

/** @typedef {import('./contents.js').Comparable} Comparable */

/**
 * A change: the number before and after, null where there is none, 'changed', 'added' or 'deleted', what the element
 * is, how it changed, and of how many more elements behind it the same is said.
 * @typedef {{ before: number | null, after: number | null, kind: string, described: string, words: string,
 *     more: number, type: number }} Change `type` is the element's
 */

/**
 * The elements that differ, in the order of the first drawing, and then what the second has more.
 * @param {Comparable} first
 * @param {Comparable} second
 * @param {(share: number) => void} tell is told now and then how much is done, from 0 to 1
 * @returns {Change[]}
 */
export function compared(first, second, tell = () => {}) {
    /** @type {Change[]} */
    const rows = [];
    const contents = new Contents(first, second);
    tell(0.1);
    const { olds, news, count, elsewhere } = pairsOf(contents);
    for (let at = 0; at < count; at++) {
        const before = olds[at] < 0 ? null : olds[at], after = news[at] < 0 ? null : news[at];
        if (before === null || after === null || elsewhere[before] || !contents.isSame(before, after)) {
            add(rows, first, second, before, after);
        }
        if (at % PIECE === 0) {
            tell(0.3 + 0.7 * at / count);
        }
    }
    return rows;
}

/**
 * Adds a change, or counts it with the one before where it says the same of the element behind.
 * @param {Change[]} rows
 * @param {Comparable} first
 * @param {Comparable} second
 * @param {number | null} before
 * @param {number | null} after
 */
function add(rows, first, second, before, after) {
    const { kind, words } = changeOf(first, second, before, after), last = rows[rows.length - 1];
    const type = before !== null ? first.records.type[before] : after !== null ? second.records.type[after] : 0;
    if (last && last.kind === kind && last.words === words && last.type === type
        && follows(last.before, before, last.more + 1) && follows(last.after, after, last.more + 1)) {
        last.more++;
    } else {
        const said = before !== null ? described(first, before) : after !== null ? described(second, after) : '';
        rows.push({ before, after, kind, described: said, words, more: 0, type });
    }
}

/**
 * @param {number | null} first
 * @param {number | null} number
 * @param {number} place
 */
function follows(first, number, place) {
    return first === null ? number === null : number === first + place;
}

/**
 * What kind of change it is, and what is said of it.
 * @param {Comparable} first
 * @param {Comparable} second
 * @param {number | null} before
 * @param {number | null} after
 */
function changeOf(first, second, before, after) {
    if (before === null || after === null) {
        return before === null ? { kind: 'added', words: 'appended' } : { kind: 'deleted', words: 'gone' };
    }
    const { words, isDeleted } = new Comparison(first, second, before, after).difference();
    const said = words.length > 0 ? words.join('; ') : 'the same, in another order';
    return { kind: isDeleted ? 'deleted' : 'changed', words: said };
}

/** What differs between two elements of one type and size. Each known change takes the bytes that it explains away;
    what is left is told as bytes. */
class Comparison {
    /**
     * @param {Comparable} first
     * @param {Comparable} second
     * @param {number} before
     * @param {number} after
     */
    constructor(first, second, before, after) {
        this.units = first.units;
        this.palette = first.colours.table;
        this.axes = first.axes;
        this.type = first.records.type[before];
        this.isSilent = CLASS_OF[this.type] === CLASS.silent;
        this.old = first.bytesOf(before);
        this.new = second.bytesOf(after);
        this.isLocked = (second.records.flags[after] & FLAG.locked) !== 0;
        /**
         * Where bytes differ that aren't explained yet, rising.
         * @type {number[]}
         */
        this.places = [];
        for (let at = 0; at < this.old.length; at++) {
            if (this.old[at] !== this.new[at]) {
                this.places.push(at);
            }
        }
        /** @type {string[]} */
        this.words = [];
        this.isDeleted = false;
    }

    difference() {
        const steps = [this.marks, this.looks, this.characters, this.name, this.total, this.place, this.range,
            this.points, this.rest];
        for (const step of steps) {
            if (this.places.length > 0) {
                step.call(this);
            }
        }
        return this;
    }

    /**
     * Whether bytes from `start` to before `end` differ; they are explained.
     * @param {number} start
     * @param {number} end
     */
    take(start, end) {
        const left = this.places.filter((at) => at < start || at >= end), isFound = left.length < this.places.length;
        this.places = left;
        return isFound;
    }

    /** Level, bit C, deleted, locked. */
    marks() {
        const { old, new: made, words } = this;
        if ((old[1] ^ made[1]) === 0x80 && this.take(1, 2)) {
            this.isDeleted = (made[1] & 0x80) !== 0;
            words.push(this.isDeleted ? 'deleted' : 'no longer deleted');
        }
        if (((old[0] ^ made[0]) & 0x40) === 0 && this.take(0, 1)) {
            if ((old[0] ^ made[0]) & 0x3F) {
                words.push('level ' + (old[0] & 0x3F) + ' to ' + (made[0] & 0x3F));
            }
            if ((old[0] ^ made[0]) & 0x80) {
                words.push('member mark (bit C) ' + (made[0] & 0x80 ? 'set' : 'cleared'));
            }
        }
        if (!this.isSilent && (old[33] ^ made[33]) === 1 && this.take(33, 34)) {
            words.push(this.isLocked ? 'locked' : 'unlocked');
        }
    }

    /** Colour, weight and style. */
    looks() {
        if (this.isSilent || !this.take(34, 36)) {
            return;
        }
        const [olds, news] = [this.old, this.new].map((it) => (
            [colourSaid(this.palette, it[35]), it[34] >> 3, it[34] & 7]));
        this.words.push(['colour', 'weight', 'style'].map((name, at) => name + ' ' + olds[at] + ' to ' + news[at])
            .filter((_, at) => olds[at] !== news[at]).join(', '));
    }

    /** The characters of a text, and their number. */
    characters() {
        if (this.type !== 17) {
            return;
        }
        const [one, other] = [this.old, this.new].map((it) => charactersAt(it, 0, this.axes));
        if (!isEqual(one, other)) {
            const start = textPlace(this.axes);
            this.take(start - 2, start - 1);
            this.take(start, start + Math.max(one.length, other.length));
            this.words.push('text ' + quoted(decoded(one)) + ' to ' + quoted(decoded(other)));
        }
    }

    /** The name of a cell. */
    name() {
        if (this.type === TYPE.cell && this.take(38, 42)) {
            const [old, made] = [this.old, this.new].map((it) => cellName(wordAt(it, 38), wordAt(it, 40)));
            this.words.push('name ' + old + ' to ' + made);
        }
    }

    /** The total of a header. */
    total() {
        if (CLASS_OF[this.type] === CLASS.counted && this.take(36, 38)) {
            this.words.push('total ' + wordAt(this.old, 36) + ' to ' + wordAt(this.new, 36));
        }
    }

    /**
     * Where the points of the old or the new element begin and end.
     * @param {Uint8Array} content
     */
    spanOf(content) {
        return pointsSpan({ content, type: this.type, axes: this.axes });
    }

    /**
     * The points of the old or the new element.
     * @param {Uint8Array} content
     */
    pointsOf(content) {
        const [start, end] = this.spanOf(content);
        return pointsIn(content, start, end, this.axes, longAt);
    }

    /**
     * The corners of its range; of a silent element there are none.
     * @param {Uint8Array} content
     */
    cornersOf(content) {
        const { axes } = this;
        return this.isSilent ? [] : [4, 16].flatMap((at) => (
            pointsIn(content, at, at + 4 * axes, axes, rangeNumberAt)));
    }

    /** A displacement of all points, and of the range with them. */
    place() {
        const olds = this.pointsOf(this.old), news = this.pointsOf(this.new);
        const ranges = shiftOf(this.cornersOf(this.old), this.cornersOf(this.new));
        let shift = shiftOf(olds, news);
        if (shift === null && olds.length === 0 && !this.isSilent) {
            shift = ranges;
        }
        if (shift === null || shift.every((it) => it === 0)) {
            return;
        }
        this.take(...this.spanOf(this.old));
        if (ranges !== null && String(ranges) === String(shift)) {
            this.takeRange();
        }
        this.words.push('moved ' + shiftSaid(this.units, shift));
    }

    /** Takes the range's fields of the axes that there are. */
    takeRange() {
        const low = this.take(4, 4 + 4 * this.axes);
        return this.take(16, 16 + 4 * this.axes) || low;
    }

    /** The range, where it isn't the points' displacement. */
    range() {
        if (this.isSilent || !this.takeRange()) {
            return;
        }
        const [low, high] = this.cornersOf(this.old), [newLow, newHigh] = this.cornersOf(this.new);
        const isWider = low.every((it, axis) => it >= newLow[axis]) && high.every((it, axis) => it <= newHigh[axis]);
        const what = isWider ? 'range widened' : 'range changed';
        this.words.push(what + ' from ' + low + ' ' + high + ' to ' + newLow + ' ' + newHigh);
    }

    /** Single points, where they have not all moved by the same. */
    points() {
        const olds = this.pointsOf(this.old), news = this.pointsOf(this.new);
        if (olds.length !== news.length || !this.take(...this.spanOf(this.old))) {
            return;
        }
        const changed = olds.map((_, at) => at).filter((at) => olds[at].some((it, axis) => it !== news[at][axis]));
        const [first] = changed, more = changed.length - 1;
        this.words.push('point ' + (first + 1) + ' from ' + olds[first] + ' to ' + news[first]
            + (more > 0 ? ' and ' + counted(more, 'more point', 'more points') : ''));
    }

    /** Any other bytes, by their places in the element. */
    rest() {
        const { places } = this;
        const element = { content: this.old, type: this.type, axes: this.axes };
        const names = Array.from(new Set(places.map((it) => fieldName(element, it)))).sort();
        this.words.push('other bytes at ' + places.slice(0, 8).join(', ') + (places.length > 8 ? ' ..' : '') + ' ('
            + counted(places.length, 'byte') + ': ' + names.join(', ') + ')');
    }
}

/**
 * The points that stand in an element from one place to before another.
 * @param {Uint8Array} content
 * @param {number} start
 * @param {number} end
 * @param {number} axes
 * @param {(content: Uint8Array, at: number) => number} read
 * @returns {number[][]}
 */
function pointsIn(content, start, end, axes, read) {
    return Array.from({ length: (end - start) / (4 * axes) }, (_, point) => (
        Array.from({ length: axes }, (__, axis) => read(content, start + 4 * (point * axes + axis)))));
}

/**
 * By what all points have moved, null where they haven't moved by the same.
 * @param {number[][]} olds
 * @param {number[][]} news
 */
function shiftOf(olds, news) {
    if (olds.length === 0 || olds.length !== news.length) {
        return null;
    }
    const shift = olds[0].map((value, axis) => news[0][axis] - value);
    const isOne = olds.every((old, at) => old.every((value, axis) => news[at][axis] - value === shift[axis]));
    return isOne ? shift : null;
}
