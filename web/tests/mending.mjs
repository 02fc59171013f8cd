/* What the app would mend of drawings, and how: standard input has their paths in JSON, and printed is a row for each
   of the patch file in base64, what is mended in words, and what is left with its number. */

import fs from 'node:fs';

import { Drawing } from '../drawing.js';
import { changeSaid, mendingOf } from '../mending.js';
import { patchOf } from '../patch.js';

const rows = JSON.parse(fs.readFileSync(0, 'utf-8')).map((path) => {
    const drawing = Drawing.open(path, new Uint8Array(fs.readFileSync(path)));
    const { changes, left } = mendingOf(drawing);
    return {
        patch: Buffer.from(patchOf(drawing, changes)).toString('base64'),
        mended: changes.map((it) => changeSaid(drawing, it)),
        left: left.map(({ number, why }) => [number, why]),
    };
});
process.stdout.write(JSON.stringify(rows));
