/* Compares two drawings of so many elements that no list of them fits into a call: lines that are all alike, of which a
   string stands at the front of the first and another one in the middle of the second; and as many that all differ.
   Standard input has their number in JSON, and printed are the rows of both. */

import fs from 'node:fs';

import { BareDrawing } from '../bare.js';
import { compared } from '../comparing.js';
import { element, long } from './making.mjs';

const count = JSON.parse(fs.readFileSync(0, 'utf-8'));
const line = (x, size = 3) => element({ type: size === 3 ? 3 : 4, level: 1, box: [x, 0, x + 9, 9] },
    [...(size === 3 ? [] : [2, 0]), ...[x, 0, x + 9, 9].flatMap(long)]);

/** A drawing of pieces, each so many times. */
function drawingOf(...pieces) {
    const parts = pieces.map(([piece, times]) => Buffer.concat(new Array(times).fill(Buffer.from(piece))));
    return new Uint8Array(Buffer.concat([Buffer.from([8, 9, 0xFE, 2, ...new Array(1532).fill(0)]), ...parts,
        Buffer.from([0xFF, 0xFF])]));
}

/** What differs between two of them. */
function differing(one, other) {
    const rows = compared(new BareDrawing(one), new BareDrawing(other));
    return rows.map(({ before, after, kind, more }) => [before, after, kind, more]);
}

const half = [line(5), count / 2], string = line(7, 4), other = line(0, 4);
process.stdout.write(JSON.stringify([
    differing(drawingOf([other, 1], [line(5), count]), drawingOf(half, [string, 1], half)),
    differing(drawingOf([line(5), count]), drawingOf([string, 1], [line(6), count])),
]));
