/* Reads a drawing in slices: standard input has a path in JSON, and printed is whether what is read is what is read at
   once, the fault of the drawing without its end, and the reason with which reading was stopped. */

import fs from 'node:fs';

import { Drawing } from '../drawing.js';

const bytes = new Uint8Array(fs.readFileSync(JSON.parse(fs.readFileSync(0, 'utf-8'))));

/** Reads it in both ways, without its end, and until it is stopped. */
async function read() {
    const drawing = await Drawing.read('read.dgn', bytes), atOnce = Drawing.open('read.dgn', bytes);
    const columns = ['type', 'level', 'colour', 'weight', 'flags', 'size', 'number', 'first', 'points', 'box', 'range'];
    const isEqual = (one, other) => one.every((value, at) => value === other[at]);
    const isSame = columns.every((name) => isEqual(drawing.records[name], atOnce.records[name]))
        && ['parent', 'end', 'flags'].every((name) => isEqual(drawing.nesting[name], atOnce.nesting[name]))
        && JSON.stringify(drawing.before.counts) === JSON.stringify(atOnce.before.counts);
    const fault = await Drawing.read('cut.dgn', bytes.subarray(0, bytes.length - 9));
    const why = await Drawing.read('stopped.dgn', bytes, AbortSignal.abort('stopped')).catch((reason) => reason);
    process.stdout.write(JSON.stringify({ isSame, fault: [fault.word, fault.at], why }));
}

read();
