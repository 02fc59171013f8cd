/* The listings `elements`, `tree` of every root, `show` and `links` of every element as the page's reader would print
   them, and `check`: to be held against what the program prints. Standard input has a row for each in JSON,

       [listing, drawing, out, levels]

   and what is printed is a row of texts. Where `out` isn't empty it is what the program made of the drawing, and the
   listing is that of `out`, read by what has changed alone. `levels` are 64 digits, 1 for each level that is shown. */

import fs from 'node:fs';

import { Drawing } from '../drawing.js';
import { changesBetween } from '../changes.js';
import { DRAWN, DRAWN_OF, FLAG } from '../format.js';
import { Fault } from '../opening.js';
import { signsOf } from '../radix50.js';
import { wordAt } from '../numbers.js';
import { charactersAt } from '../reading.js';
import { CLASS, CLASS_OF } from '../tables.js';

let said = [], levels = '';

/** One listing. */
function listingOf([asked, path, out, shown]) {
    const bytes = new Uint8Array(fs.readFileSync(path)), drawing = Drawing.open(path, bytes);
    said = [];
    levels = shown;
    if (drawing instanceof Fault) {
        said.push(`bad design ${drawing.word} at ${drawing.at}`);
    } else {
        const state = out === '' ? drawing.before
            : drawing.after(changesBetween(bytes, drawing.bodyLength, new Uint8Array(fs.readFileSync(out))));
        ({ check, elements, tree, show, links })[asked](drawing, state);
    }
    return said.map((line) => line + '\n').join('');
}

function check(it) {
    said.push('elements ' + it.count);
}

function elements(it, state) {
    const levelCounts = new Map(), typeCounts = new Map();
    for (let number = 0; number < state.count; number++) {
        const record = state.record[number], { records } = it;
        const marks = (records.has(record, FLAG.bitC) ? 'c' : '-') + (records.has(record, FLAG.deleted) ? 'd' : '-');
        const level = records.level[record], type = records.type[record];
        said.push([number, it.placeOf(record), records.size[record], type, level, marks].join(' '));
        levelCounts.set(level, (levelCounts.get(level) || 0) + 1);
        typeCounts.set(type, (typeCounts.get(type) || 0) + 1);
    }
    levelCounts.forEach((count, level) => said.push(`level ${level} ${count}`));
    typeCounts.forEach((count, type) => said.push(`type ${type} ${count}`));
    said.push('elements ' + state.count);
}

function tree(it, state) {
    for (let root = 0; root < state.count; root = state.end[root]) {
        for (let number = root; number < state.end[root]; number++) {
            const record = state.record[number], flags = it.records.flags[record];
            const knot = flags & FLAG.group ? 'group' : flags & FLAG.run ? 'run' : flags & FLAG.loose ? 'loose'
                : 'leaf';
            said.push([number, state.above(number).length, it.records.type[record], it.records.level[record], knot,
                flags & FLAG.deleted ? 'deleted' : 'live', ...(flags & FLAG.orphan ? ['orphan'] : [])].join(' '));
        }
        said.push('tree ' + (state.end[root] - root));
    }
}

function show(it, state) {
    const shown = new Uint8Array(it.records.length);
    const mask = levels ? Uint8Array.from(levels, Number) : new Uint8Array(64).fill(1);
    state.show(shown, mask, false);
    let count = 0;
    for (let number = 0; number < state.count; number++) {
        const record = state.record[number];
        if (shown[record]) {
            count++;
            said.push(itemOf(it, record, number, state.above(number).length));
        }
    }
    said.push('shown ' + count);
}

function itemOf(it, record, number, depth) {
    const { records } = it, axes = records.axes;
    const look = ['type', 'level', 'colour', 'weight', 'style'].map((name) => records[name][record]);
    const points = Array.from({ length: records.points[record] }, (_, point) => (
        Array.from({ length: axes }, (__, axis) => records.coordinate(record, point, axis)).join(',')));
    const range = [...records.rangeOf(record)];
    const front = [number, depth, ...look].join(' ');
    const content = it.bytesOf(record);
    switch (DRAWN_OF[records.type[record]]) {
        case DRAWN.path: return [front, 'path', ...points].join(' ');
        case DRAWN.text: return `${front} text ${points[0]} ${charactersSaid(charactersAt(content, 0, axes))}`;
        case DRAWN.cell: {
            const name = [38, 40].map((at) => signsOf(wordAt(content, at)).padEnd(5)).join('');
            return `${front} cell [${name}] ${points[0]}`;
        }
        case DRAWN.node: return `${front} node ${points[0]}`;
        case DRAWN.group: return `${front} group`;
        default: return `${front} box ${range.slice(0, axes).join(',')} ${range.slice(axes).join(',')}`;
    }
}

function charactersSaid(characters) {
    return [...characters].map((byte) => (byte < 0x20 || byte > 0x7E || byte === 0x5C
        ? '\\' + byte.toString(16).padStart(2, '0') : String.fromCharCode(byte))).join('');
}

function links(it, state) {
    for (let number = 0; number < state.count; number++) {
        const record = state.record[number];
        const found = CLASS_OF[it.records.type[record]] === CLASS.silent ? [] : it.linkagesOf(record);
        found.forEach(({ at, length, kind }) => said.push(`${at} ${length} ${kind}`));
        said.push('links ' + found.length);
    }
}

process.stdout.write(JSON.stringify(JSON.parse(fs.readFileSync(0, 'utf-8')).map(listingOf)));
