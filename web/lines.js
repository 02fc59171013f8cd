/* The lines of a script that the page writes. */

import { wordOf } from './answers.js';
import { spelledIn } from './encoding.js';

/**
 * Spans of levels as `levels` takes them: 'all', 'none', or '1-5 8'.
 * @param {Uint8Array} levels a 1 for each that is shown
 */
function spansOf(levels) {
    /** @type {[number, number][]} */
    const spans = [];
    for (let level = 0; level < 64; level++) {
        if (levels[level] && level > 0 && levels[level - 1]) {
            spans[spans.length - 1][1] = level;
        } else if (levels[level]) {
            spans.push([level, level]);
        }
    }
    if (spans.length === 0) {
        return 'none';
    }
    const isAll = spans.length === 1 && spans[0][0] === 0 && spans[0][1] === 63;
    return isAll ? 'all' : spans.map(([low, high]) => (low === high ? String(low) : low + '-' + high)).join(' ');
}

/**
 * The last line of a script that sets levels or a fence, or what holds without one.
 * @param {readonly string[]} script
 * @param {string[]} words of the commands that set it
 * @param {string} otherwise
 */
function lastOf(script, words, otherwise) {
    return script.filter((line) => words.includes(wordOf(line))).pop() || otherwise;
}

/**
 * The lines that set levels and a fence, but those that a script has set already.
 * @param {readonly string[]} script
 * @param {readonly (readonly number[])[]} corners
 * @param {Uint8Array} levels those that are shown
 */
export function fenceLines(script, corners, levels) {
    const lines = [], shown = 'levels ' + spansOf(levels);
    if (lastOf(script, ['levels'], 'levels all') !== shown) {
        lines.push(shown);
    }
    const fence = 'fence ' + corners.map((corner) => corner.join(',')).join(' ');
    if (lastOf(script, ['fence', 'nofence'], '') !== fence) {
        lines.push(fence);
    }
    return lines;
}

/**
 * An edit of elements: 'move' or 'copy' by a displacement in units of resolution, 'sym' to a look (colour, weight and
 * style, '-' for what stays), 'delete'.
 * @typedef {{ word: 'move' | 'copy' | 'sym' | 'delete', by?: number[], look?: string[] }} Edit
 */

/**
 * What stands behind the element or the mode in a line of an edit.
 * @param {Edit} edit
 */
function restOf(edit) {
    return /** @type {(number | string)[]} */ (edit.by || edit.look || []).map((it) => ' ' + it).join('');
}

/**
 * The line of an edit of one element.
 * @param {Edit} edit
 * @param {number} number
 */
export function editLine(edit, number) {
    const [colour, weight, style] = edit.look || [];
    if (edit.word === 'sym' && weight === '-' && style === '-' && colour !== '-') {
        return 'color ' + number + ' ' + colour;
    }
    return edit.word + ' ' + number + restOf(edit);
}

/**
 * The line of an edit of all that the fence takes.
 * @param {Edit} edit
 * @param {string} mode
 */
export function fenceEditLine(edit, mode) {
    return 'f' + edit.word + ' ' + mode + restOf(edit);
}

/**
 * Edits that change nothing, of each kind, by which the program is asked what it would refuse.
 * @param {number} axes
 * @returns {Edit[]}
 */
function probes(axes) {
    const by = new Array(axes).fill(0);
    return [{ word: 'move', by }, { word: 'copy', by }, { word: 'sym', look: ['-', '-', '-'] }, { word: 'delete' }];
}

/**
 * Lines that ask whether elements can be edited: all of a kind, then all of the next one.
 * @param {readonly number[]} numbers
 * @param {number} axes
 */
export function probesOf(numbers, axes) {
    return probes(axes).flatMap((edit) => numbers.map((number) => edit.word + ' ' + number + restOf(edit)));
}

/**
 * The same of a fence; each edit is taken back before the next one.
 * @param {string} mode
 * @param {number} axes
 */
export function probesOfFence(mode, axes) {
    return probes(axes).flatMap((edit) => [fenceEditLine(edit, mode), 'undo']);
}

/**
 * The line that appends an element.
 * @param {'line' | 'string' | 'shape' | 'text'} word
 * @param {Record<'level' | 'colour' | 'weight' | 'style' | 'font' | 'size' | 'words', string>} of
 * @param {number[][]} points
 * @param {import('./encoding.js').Encoding} encoding of a text
 */
export function newLine(word, of, points, encoding) {
    const front = [word, of.level, of.colour, of.weight, of.style];
    const places = points.map((point) => point.join(','));
    return word !== 'text' ? [...front, ...places].join(' ')
        : [...front, of.font, '0', of.size, of.size, places[0], spelledIn(of.words, encoding)].join(' ');
}

/**
 * A file's name as a shell takes it.
 * @param {string} name
 */
export function shellWord(name) {
    return /^[\w./+:@%-]+$/.test(name) ? name : "'" + name.replaceAll("'", "'\\''") + "'";
}
