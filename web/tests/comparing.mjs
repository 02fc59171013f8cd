/* What the app says differs between two drawings: standard input has pairs of paths in JSON, and printed is a row for
   each of the numbers before and after and the words of all changes. */

import fs from 'node:fs';

import { compared } from '../comparing.js';
import { Drawing } from '../drawing.js';

const open = (path) => Drawing.open(path, new Uint8Array(fs.readFileSync(path)));
const rows = JSON.parse(fs.readFileSync(0, 'utf-8')).map(([before, after]) => (
    compared(open(before), open(after)).flatMap((row) => Array.from({ length: row.more + 1 }, (_, at) => (
        [row.before === null ? null : row.before + at, row.after === null ? null : row.after + at, row.words])))));
process.stdout.write(JSON.stringify(rows));
