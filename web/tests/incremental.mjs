/* Applies changes by chance, one after another, and holds what is told anew of what has changed alone against a drawing
   and a scene that are made anew of the same bytes. It prints how often that was, and ends with 1 at the first time
   that they differ. The first word is where chance begins, the second how many drawings are tried. */

import assert from 'node:assert';

import { changesBetween } from '../changes.js';
import { Drawing } from '../drawing.js';
import { Scene } from '../scene.js';
import { State } from '../state.js';
import { Chance, madeDrawing, part, tree } from './making.mjs';

const [seed = '1', rounds = '4'] = process.argv.slice(2);
const STEPS = 40;
let compared = 0;

/** What is appended, and bytes that are changed, of a drawing: an OUT that grows, shrinks and changes. */
class Work {
    constructor(chance, bytes) {
        this.chance = chance;
        this.drawing = Drawing.open('made.dgn', bytes);
        /** Changed bytes by their places. */
        this.edits = [];
        this.appended = [];
        this.past = [];
    }

    /** Does something, or takes something back. */
    step() {
        const { chance, past } = this;
        if (past.length > 0 && chance.next() < 0.3) {
            [this.edits, this.appended] = past.splice(chance.below(past.length), past.length).shift();
            return;
        }
        past.push([this.edits, this.appended]);
        const kind = chance.next();
        if (kind < 0.3) {
            this.appended = [...this.appended, tree(chance)];
        } else if (kind < 0.4 && this.appended.length > 0) {
            this.appended = this.appended.filter((_, at) => at !== chance.below(this.appended.length));
        } else if (kind < 0.5 && this.appended.length > 0) {
            const at = chance.below(this.appended.length);
            this.appended = this.appended.map((it, index) => (index === at ? this.otherTree(it) : it));
        } else {
            this.edits = [...this.edits, ...Array.from({ length: 1 + chance.below(5) }, () => this.edit())];
        }
    }

    /** An appended tree with another look, with a total that its members may not fit, or one of another kind. */
    otherTree(given) {
        const { chance } = this, made = given.slice(), kind = chance.below(3);
        if (kind === 0) {
            return part(chance, [chance.below(900), 0], false);
        }
        made[kind === 1 || (made[1] & 0x7F) !== 2 ? 35 : 36] ^= 1 + chance.below(3);
        return made;
    }

    /** A changed byte of an element: its look, its mark of deletion, its level, a coordinate, or a byte of its text. */
    edit() {
        const { chance, drawing: { offsets, count, bytes } } = this, number = 1 + chance.below(count - 1);
        const start = offsets[number], size = offsets[number + 1] - start;
        const at = start + chance.of([0, 1, 35, 34, Math.min(39, size - 1), size - 1 - chance.below(8)]);
        const value = at === start ? bytes[at] & 0xC0 | chance.below(64) : at === start + 1 ? bytes[at] ^ 0x80
            : chance.below(256);
        return [at, value];
    }

    /** The drawing as it is left. */
    out() {
        const made = this.drawing.bytes.slice();
        this.edits.forEach(([at, value]) => { made[at] = value; });
        const body = [...made.subarray(0, this.drawing.bodyLength), ...this.appended.flat(), 0xFF, 0xFF];
        return Uint8Array.from(body);
    }
}

/** A record as it is seen: its element and all that is read of it. */
function said(drawing, record) {
    const { records } = drawing, at = 4 * record;
    const columns = ['type', 'level', 'colour', 'weight', 'style', 'flags', 'size', 'number', 'points', 'group'];
    const points = Array.from({ length: records.points[record] }, (_, point) => (
        [records.coordinate(record, point, 0), records.coordinate(record, point, 1)]));
    return JSON.stringify([columns.map((it) => records[it][record]), points, [...records.box.slice(at, at + 4)],
        records.wordsOf(record), drawing.placeOf(record), [...drawing.bytesOf(record)]]);
}

/** All that is seen of a scene, whose state counts this. */
function seen(drawing, scene, counts) {
    const { state } = scene;
    const found = [];
    scene.query([-4000, -5000, 3000, 6000], (record) => found.push(record));
    const shown = Array.from({ length: drawing.records.length }, (_, record) => record)
        .filter((record) => scene.shown[record]);
    const marked = Array.from({ length: drawing.records.length }, (_, record) => record)
        .filter((record) => scene.marks[record]);
    return {
        elements: Array.from({ length: state.count }, (_, number) => said(drawing, state.record[number])),
        nesting: Array.from({ length: state.count }, (_, number) => [state.parent[number], state.end[number]]),
        order: Array.from(scene.order, (record) => said(drawing, record)),
        drawn: scene.drawn,
        shown: shown.map((it) => said(drawing, it)).sort(),
        marks: marked.map((it) => said(drawing, it) + scene.marks[it]).sort(),
        found: Array.from(scene.sorted(found), (it) => said(drawing, it)),
        counts: [[...counts.levels], [...counts.types], counts.deleted],
    };
}

/** The boxes of what is drawn otherwise than before, by what is drawn: they have to be said to have changed. */
function looks(drawing, scene) {
    return new Map(Array.from(scene.order, (record) => (
        [said(drawing, record) + scene.markOf(record), [...drawing.records.box.slice(4 * record, 4 * record + 4)]])));
}

function checkBoxes(before, after, boxes) {
    const has = (box) => boxes.some((_, at) => at % 4 === 0 && box.every((value, axis) => value === boxes[at + axis]));
    for (const [one, other] of [[before, after], [after, before]]) {
        for (const [key, box] of one) {
            assert(other.has(key) || has(box), 'what has changed is drawn anew: ' + key);
        }
    }
}

/** Has the scene show a state, as the app does. */
function show(scene, state, mode) {
    scene.mode = mode;
    scene.setAfter(state);
    scene.update();
}

function settle(scene, chance) {
    if (chance.next() < 0.1) {
        scene.levels.forEach((_, level) => { scene.levels[level] = chance.next() < 0.7 ? 1 : 0; });
    }
    if (chance.next() < 0.1) {
        scene.withDeleted = !scene.withDeleted;
    }
}

/** One drawing, with so many steps. */
function round(chance) {
    const work = new Work(chance, madeDrawing(chance, chance.of([3, 40, 150]))), { drawing } = work;
    const scene = new Scene(drawing.records, drawing.before);
    for (let step = 0; step < STEPS; step++) {
        work.step();
        settle(scene, chance);
        const out = work.out(), { version } = scene, before = looks(drawing, scene);
        if (chance.next() < 0.05) {
            drawing.edited.forget();
        }
        const mode = chance.of(['after', 'after', 'after', 'both', 'before']);
        const changes = changesBetween(drawing.bytes, drawing.bodyLength, out);
        const state = chance.next() < 0.1 ? null : drawing.after(changes);
        show(scene, state, state === null ? 'before' : mode);
        const boxes = scene.changed.between(version, scene.version);
        compare(drawing, scene, out);
        if (boxes !== null) {
            checkBoxes(before, looks(drawing, scene), boxes);
        }
    }
}

/** Makes all anew of the same bytes, and compares. */
function compare(drawing, scene, out) {
    const anew = Drawing.open('made.dgn', drawing.bytes), other = new Scene(anew.records, anew.before);
    other.levels.set(scene.levels);
    other.withDeleted = scene.withDeleted;
    const changes = changesBetween(anew.bytes, anew.bodyLength, out);
    show(other, scene.after === null ? null : anew.after(changes), scene.mode);
    const { record, parent, end } = other.state, whole = new State(anew.records, record, parent, end);
    const wanted = seen(anew, other, whole.counts), found = seen(drawing, scene, scene.state.counts);
    for (const name of Object.keys(wanted)) {
        assert.deepStrictEqual(found[name], wanted[name], name);
    }
    compared++;
}

for (let it = 0; it < Number(rounds); it++) {
    round(new Chance(Number(seed) * 1000 + it));
}
process.stdout.write(compared + ' states\n');
