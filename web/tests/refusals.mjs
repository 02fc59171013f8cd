/* What the app says of refusals: standard input has rows in JSON of a drawing and the lines of a script, each with the
   cause that the program says, or null; printed is a row for each of the sentences, in the order of the lines. */

import fs from 'node:fs';

import { Drawing } from '../drawing.js';
import { Refusals } from '../refusals.js';

const rows = JSON.parse(fs.readFileSync(0, 'utf-8')).map(([path, lines]) => {
    const refusals = new Refusals(Drawing.open(path, new Uint8Array(fs.readFileSync(path))));
    const done = lines.map(([line, cause], index) => ({ line, cause, at: index + 1 }));
    return done.filter(({ cause }) => cause !== null).map(({ line, cause, at }) => (
        refusals.sentence(line, cause, done.slice(0, at - 1).filter((it) => it.cause === null))));
});
process.stdout.write(JSON.stringify(rows));
