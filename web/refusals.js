/* Why a line was refused or a script didn't run, in a sentence, and what one can do. */

import { whyBroken } from './broken.js';
import { described } from './describing.js';
import { mendingOf } from './mending.js';
import { GREATEST, LEAST } from './tables.js';

const TOO_LONG = ' Choose many elements by a fence or by their level: that is one line, however many they are. Or save'
    + ' the drawing, and go on in the saved one.';
const PLANE_SAID = 'the design plane, ' + LEAST + ' to ' + GREATEST;
/** @type {Readonly<Record<string, string>>} */
const FAULTS = Object.freeze({
    'not-design': 'it isn’t a design file of version 7',
    cut: 'the element that begins at byte K reaches past the end of the file: it was cut off, or is damaged',
    short: 'the element that begins at byte K is shorter than its type requires: the file is damaged there',
    attributes: 'the attribute data of the element that begins at byte K begin where they can’t: the file is damaged'
        + ' there',
});

/** @typedef {{ line: string, at: number }} Done an accepted line of the script, and its number from 1 */

/** Says of causes what they mean, of elements of the drawing as it was opened. */
export class Refusals {
    /** @param {import('./drawing.js').Drawing} drawing */
    constructor(drawing) {
        this.drawing = drawing;
        /** @type {ReturnType<typeof mendingOf> | null} */
        this.held = null;
    }

    /** What can be mended of the drawing, which is found out once. */
    get mending() {
        this.held = this.held || mendingOf(this.drawing);
        return this.held;
    }

    /**
     * Why a line was refused.
     * @param {string} line
     * @param {string} cause what the program says behind `refused`
     * @param {Done[]} done the accepted lines before it
     */
    sentence(line, cause, done = []) {
        const [word, rest, ...more] = cause.split(' ');
        const explain = this.explainers(line.trim().split(/ +/), done)[word];
        return (explain ? explain(rest, more) : 'the program says ' + cause) + '.';
    }

    /**
     * What each word of a cause means, of a line of these words.
     * @param {string[]} words
     * @param {Done[]} done
     * @returns {Record<string, (rest: string, more: string[]) => string>}
     */
    explainers(words, done) {
        const { axes, count } = this.drawing, corners = words.length - 1;
        const whose = (/** @type {string} */ rest) => this.named(rest) + this.whose(rest, words);
        return {
            'unknown': (rest) => 'there is no element ' + rest + ': the drawing has 0 to ' + (count - 1)
                + ', and what the script appends is numbered after that',
            'broken': (rest) => this.broken(Number(rest)),
            'deleted': (rest) => whose(rest) + this.whenDeleted(Number(rest), done),
            'locked': (rest) => whose(rest) + ' is locked',
            'dimension': () => 'the drawing has ' + axes + ' dimensions, but the command is for ' + (5 - axes),
            'floating': (rest) => whose(rest) + ' can’t be moved or copied: its coordinates are floating-point numbers,'
                + ' which dgnedit doesn’t read',
            'opaque': (rest) => whose(rest) + ' is of a type that this command can’t edit',
            'off-plane': (rest) => whose(rest) + ' would leave ' + PLANE_SAID + ': move it less far',
            'too-long': () => 'the drawing would have more than 67108864 bytes, which is the limit',
            'nothing': () => 'there is no accepted edit left to undo',
            'no-fence': () => 'no fence is set: set one before, with a line such as `fence 0,0 100,0 100,100`',
            'few': () => 'a fence needs at least 3 corners, and this one has ' + corners,
            'many': () => 'a fence has at most 256 corners, and this one has ' + corners,
            'import': (rest, more) => this.imported(rest, words[1], more),
        };
    }

    /**
     * Whether an element is marked deleted in the drawing, or by which line of the script.
     * @param {number} number
     * @param {Done[]} done
     */
    whenDeleted(number, done) {
        const { records, nesting, count } = this.drawing;
        if (number < count && records.isDeleted(number)) {
            return ' is marked deleted in the drawing, which no script can undo';
        }
        const found = done.filter(({ line }) => {
            const [word, top] = line.trim().split(/ +/), at = Number(top);
            return word === 'delete' && (at === number || (at < number && at < count && number < nesting.end[at]));
        }).pop();
        return ' was marked deleted by ' + (found ? 'line ' + found.at : 'an earlier line') + ' of the script';
    }

    /**
     * The element with a number, in words.
     * @param {string | number} number
     */
    named(number) {
        return Number(number) < this.drawing.count ? described(this.drawing, Number(number))
            : 'element ' + number + ', which the script appends,';
    }

    /**
     * How the element of the cause stands to the one that the line names.
     * @param {string} number
     * @param {string[]} words of the line
     */
    whose(number, words) {
        return words.length < 2 || words[1] === number || !/^\d+$/.test(words[1]) ? ''
            : ', which is in the same tree as element ' + words[1] + ',';
    }

    /**
     * Why a tree is broken, and whether it can be mended.
     * @param {number} number
     */
    broken(number) {
        if (number >= this.drawing.count) {
            return 'its tree contains ' + this.named(number) + ' and is broken';
        }
        const { mending } = this;
        const isMended = mending.changes.some((it) => number >= it.number && number <= it.number + it.members)
            && !mending.left.some((it) => it.number === number);
        const advice = isMended ? '‘Mend’ can mend it' : '‘Mend’ can’t mend it, and says why';
        return 'its tree is broken at ' + this.named(number) + ' (' + whyBroken(this.drawing, number) + '). ' + advice;
    }

    /**
     * Why a second drawing wasn't imported.
     * @param {string} word of the cause
     * @param {string} name of the drawing
     * @param {string[]} more words behind it
     */
    imported(word, name, more) {
        if (word in FAULTS) {
            return name + ' doesn’t open: ' + faultSaid(word, Number(more[1]));
        }
        if (word === 'dimension') {
            return name + ' or the displacement has another number of dimensions than the drawing, which has '
                + this.drawing.axes;
        }
        return 'element ' + more[0] + ' of ' + name + ' can’t be moved (' + word
            + '). Without a displacement it would be imported as it is';
    }

    /**
     * Why a run ended before it was done, by its exit number and what it printed last.
     * @param {number} status
     * @param {string} said
     */
    notRun(status, said) {
        const last = said.split('\n').pop() || '', number = /\d+$/.exec(last);
        switch (status) {
            case 3: return 'Line ' + number + ' isn’t a command of a script: a word or a number is wrong, missing or'
                + ' too many. Nothing was run.';
            case 5: return 'The file ‘' + last + '’ isn’t there, which an import names.';
            case 7: return 'There was not enough memory.';
            case 8: return 'The program says ‘' + last + '’: it is larger than the program can read.'
                + (last === 'too long script' ? TOO_LONG : '');
            case 10: return 'The file isn’t a patch file, or is damaged: the first bad piece begins at byte ' + number
                + '.';
            case 11: return 'The patch file doesn’t match this drawing: entry ' + number + ' doesn’t find the bytes'
                + ' that it was made for. Ask for a patch file for the drawing as you have it.';
            default: return 'The program ended with ' + status + (said === '' ? '.' : ': ' + last + '.');
        }
    }
}

/**
 * What keeps a file from opening, in a sentence.
 * @param {string} word
 * @param {number} at
 */
export function faultSaid(word, at) {
    return FAULTS[word].replace('K', String(at));
}
