/* Edits by hand: of what is chosen, of what a fence takes, of elements that are drawn. */

import { BoxTaker } from './boxing.js';
import { described } from './describing.js';
import { joined } from './choice.js';
import { isEqual } from './bytes.js';
import { Drawing } from './drawing.js';
import { encodingOf } from './encoding.js';
import { editLine, fenceEditLine, fenceLines, newLine } from './lines.js';
import { NotRun } from './making.js';
import { TOP } from './orientation.js';
import { lineSaid } from './surroundings.js';

/** @typedef {import('./answers.js').Answer} Answer */
/** @typedef {import('./document.js').Document} Document */
/** @typedef {import('./document.js').Made} Made */
/** @typedef {import('./lines.js').Edit} Edit */
/** @typedef {import('./work.js').Refusal} Refusal */

/** So many chosen trees are edited by a fence, in one line, where one takes just these. */
const MANY_CHOSEN = 200;
const MOST_TOLD = 1000;           // appended elements of which the place is looked up

/**
 * A fence that takes what is chosen.
 * @typedef {{ corners: readonly (readonly number[])[], mode: string, levels: Uint8Array }} Source
 */

export class Editing {
    /** @param {import('./app.js').App} app */
    constructor(app) {
        this.app = app;
    }

    get work() {
        return this.app.work;
    }

    /**
     * The trees that a fence takes of what is shown, or null.
     * @param {readonly (readonly number[])[]} corners
     * @param {string} mode
     * @param {Uint8Array} levels
     * @returns {Promise<number[] | null>}
     */
    async selected(corners, mode, levels = this.app.scene.levels) {
        const lines = [...fenceLines([], corners, levels), 'select ' + mode], answers = await this.work.ask(lines);
        const chosen = answers === null ? null : answers[answers.length - 1];
        if (answers === null || chosen === null) {
            return null;
        }
        if (chosen.cause !== null) {
            const document = /** @type {Document} */ (this.work.document);
            this.app.tellRefusal({ document, lines, answers, index: lines.length - 1 });
            return null;
        }
        return chosen.listed.map(Number);
    }

    /**
     * Chooses the trees that a box takes, besides those that are chosen: from above the program says which, as it does
     * of a fence; in another view it is what is seen in the box.
     * @param {number[][]} ends two of its corners that lie across from each other
     * @param {'inside' | 'overlap'} mode
     */
    async chooseIn([[x, y], [right, top]], mode) {
        const { scene } = this.app, corners = [[x, y], [right, y], [right, top], [x, top]];
        if (scene.orientation !== TOP) {
            const box = [Math.min(x, right), Math.min(y, top), Math.max(x, right), Math.max(y, top)];
            this.chooseMore(new BoxTaker(scene, box).trees(mode === 'inside'), null);
            return;
        }
        const levels = scene.levels.slice(), chosen = await this.selected(corners, mode, levels);
        if (chosen !== null && scene === this.app.scene) {
            this.chooseMore(chosen, { corners, mode, levels });
        }
    }

    /**
     * Chooses trees besides those that are chosen.
     * @param {number[]} numbers
     * @param {Source | null} source the fence that took them, if one did
     */
    chooseMore(numbers, source) {
        const { choice, scene } = this.app, before = choice.numbers.map((it) => scene.state.rootOf(it));
        choice.choose([...new Set([...before, ...numbers])], before.length === 0 ? source : null);
    }

    /**
     * Does an edit of what is chosen, or of the fence where one is drawn.
     * @param {Edit} edit
     */
    edit(edit) {
        return this.app.tools.fence.isSet ? this.editFence(edit) : this.editChosen(edit);
    }

    /** @param {Edit} edit */
    async editChosen(edit) {
        const { numbers, source } = this.app.choice, lines = numbers.map((number) => editLine(edit, number));
        const isMany = numbers.length > MANY_CHOSEN && source !== null;
        const few = isMany ? await this.inOneLine(edit, numbers, source) : null;
        return this.add(few || lines, numbers, lines);
    }

    /**
     * The lines of an edit of a fence, where it takes just these trees.
     * @param {Edit} edit
     * @param {number[]} numbers
     * @param {Source} source
     */
    async inOneLine(edit, numbers, { corners, mode, levels }) {
        const taken = await this.selected(corners, mode, levels), wanted = new Set(numbers);
        const isJust = taken !== null && taken.length === wanted.size && taken.every((it) => wanted.has(it));
        const { document } = this.work;
        return isJust && document !== null
            ? [...fenceLines(document.lines, corners, levels), fenceEditLine(edit, mode)] : null;
    }

    /** @param {Edit} edit */
    async editFence(edit) {
        const { fence } = this.app.tools, { chosen } = fence, { document } = this.work;
        if (document === null) {
            return false;
        }
        const lines = [...fence.lines(document.lines), fenceEditLine(edit, fence.mode)];
        const isDone = await this.add(lines, chosen, chosen.map((number) => editLine(edit, number)));
        if (isDone) {
            this.app.tools.clearFence();
        }
        return isDone;
    }

    /**
     * Adds lines, all or none of them, and says whether they were. `numbers` are the elements that they edit; `single`
     * is a line for each, of which those that are accepted can be added in their place.
     * @param {string[]} lines
     * @param {number[]} numbers
     * @param {string[]} single
     */
    async add(lines, numbers = [], single = []) {
        const { app } = this, { scene } = app, { count } = scene.after || scene.before;
        const leaveOut = single.length > 1 ? () => this.addWhatGoes(single, numbers) : null;
        const isDone = await this.work.apply({ why: 'edit', lines }, (refusal) => app.tellRefusal(refusal, leaveOut));
        if (isDone) {
            this.tellWhere(numbers, count);
        }
        return isDone;
    }

    /**
     * Adds those of the lines that the program accepts.
     * @param {string[]} lines
     * @param {number[]} numbers
     */
    async addWhatGoes(lines, numbers) {
        const { app } = this, answers = await this.work.ask(lines);
        if (answers === null) {
            return;
        }
        const kept = lines.filter((_, index) => answers[index] !== null && answers[index]?.cause === null);
        if (kept.length === 0) {
            app.notice('None of them can be edited.');
        } else if (await this.add(kept, numbers)) {
            app.tools.clearFence();
            app.say(kept.length + ' edited, ' + (lines.length - kept.length) + ' left out');
        }
    }

    /**
     * Appends an element by its points, and says whether it was; a line string of more points than the program takes at
     * once becomes several, end to end.
     * @param {'line' | 'string' | 'shape' | 'text'} word
     * @param {Record<'level' | 'colour' | 'weight' | 'style' | 'font' | 'size' | 'words', string>} of
     * @param {number[][]} points
     */
    async make(word, of, points) {
        const { document } = this.work, encoding = encodingOf(this.app.open.drawing);
        const lineOf = (/** @type {number[][]} */ some) => newLine(word, of, some, encoding);
        if (document === null) {
            return false;
        }
        const pieces = word === 'string' ? await this.piecesOf(lineOf, points) : [points];
        const isDone = await this.add(pieces.map(lineOf));
        if (isDone && pieces.length > 1) {
            this.app.notice('So many points aren’t taken in one line string: it was drawn as ' + pieces.length
                + ', end to end.');
        }
        return isDone;
    }

    /**
     * Points in as many pieces as the program wants, each beginning where the one before ends.
     * @param {(points: number[][]) => string} lineOf
     * @param {number[][]} points
     * @returns {Promise<number[][][]>}
     */
    async piecesOf(lineOf, points) {
        const pieces = [points], isTaken = (/** @type {number[][]} */ some) => this.isCommand(lineOf(some));
        if (points.length <= 3 || await isTaken(points) || !await isTaken(points.slice(0, 2))) {
            return pieces;
        }
        let most = 2, least = points.length;
        while (least - most > 1) {
            const middle = most + least >> 1;
            if (await isTaken(points.slice(0, middle))) {
                most = middle;
            } else {
                least = middle;
            }
        }
        pieces.length = 0;
        for (let at = 0; at < points.length - 1; at += most - 1) {
            pieces.push(points.slice(at, at + most));
        }
        return pieces;
    }

    /**
     * Whether the program takes a line as a command.
     * @param {string} line
     */
    async isCommand(line) {
        const { document, maker } = this.work;
        try {
            return document !== null && maker !== null
                && (await maker.ask(document, [line], this.work.asking.signal)).length === 1;
        } catch (why) {
            if (why instanceof NotRun) {
                return false;
            }
            throw why;
        }
    }

    /**
     * What the lines behind one do where it is taken out, as far as that isn't what they did: each line with what it
     * edits then, and its answer.
     * @param {Document} document
     * @param {Made} made what comes of the lines without it
     * @param {number} index
     */
    behind(document, made, index) {
        const before = stateOf(document.made), after = stateOf(made);
        // Only what is appended has another number then.
        const first = before.count === after.count ? Infinity : made.base.count;
        return made.lines.slice(index).flatMap((line, at) => {
            const was = document.answers[index + at + 1]?.said, is = made.answers[index + at]?.said;
            const number = Number(line.trim().split(/ +/)[1]);
            const isOther = number >= first && !isSame(before, after, number);
            return was === is && !isOther ? [] : [(index + at + 1) + ': ' + lineSaid(line)
                + (isOther ? ' – now ' + placed(after, number) + ', was ' + placed(before, number) : '')
                + (was === is ? '' : ' – ' + is)];
        });
    }

    /**
     * Says where what was edited or made lies, when it is out of sight.
     * @param {number[]} numbers
     * @param {number} count how many elements there were
     */
    tellWhere(numbers, count) {
        const { app } = this, { scene, stage } = app, { state } = scene;
        const length = Math.min(Math.max(state.count - count, 0), MOST_TOLD);
        const made = Array.from({ length }, (_, it) => count + it);
        const told = made.length > 0 ? made : numbers;
        const boxes = told.filter((it) => it < state.count).map((it) => scene.boxOfPart(state, it));
        const box = joined(boxes);
        if (box !== null && !stage.isSeen(box)) {
            app.notice((made.length > 0 ? 'What was added' : 'What was edited') + ' is out of sight.',
                ['Go to it', () => stage.goToBox(box)]);
        }
    }
}

/**
 * A drawing of what was made, to say what its numbers are.
 * @param {Made} made
 */
function stateOf({ base, bytes }) {
    const drawing = bytes === base.bytes ? base : Drawing.open('', bytes);
    return drawing instanceof Drawing ? drawing : base;
}

/**
 * Whether two drawings have the same bytes for a number.
 * @param {Drawing} one
 * @param {Drawing} other
 * @param {number} number
 */
function isSame(one, other, number) {
    return number < one.count && number < other.count && isEqual(one.bytesOf(number), other.bytesOf(number));
}

/**
 * The element of a number, and the low corner of its range.
 * @param {Drawing} drawing
 * @param {number} number
 */
function placed(drawing, number) {
    return number < drawing.count ? described(drawing, number) + ' at '
        + [...drawing.records.rangeOf(number)].slice(0, drawing.axes).join(',') : 'no element';
}
