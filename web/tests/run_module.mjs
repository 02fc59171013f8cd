/* Runs a module of the program on what stands on standard input, a run a line, and answers with a line each.

       node --experimental-wasm-memory64 web/tests/run_module.mjs MODULE

   A line is JSON: the words, and the files by name in base64; so are the answers, with status, text and file. The exit
   number is 3 where this Node has no memory of 64-bit places. */

import { readFileSync } from 'node:fs';
import { createInterface } from 'node:readline';
import { run } from '../module.js';

const bytes = readFileSync(process.argv[2]);
if (!WebAssembly.validate(bytes)) {
    process.exit(3);
}
const program = new WebAssembly.Module(bytes);
const inBase64 = (piece) => Buffer.from(piece).toString('base64');

for await (const line of createInterface({ input: process.stdin })) {
    const { words, files } = JSON.parse(line);
    const handed = new Map(Object.entries(files).map(([name, piece]) => [name, new Uint8Array(Buffer.from(piece, 'base64'))]));
    const { status, text, file } = run(program, words, handed);
    console.log(JSON.stringify({ status, text: inBase64(text), file: file === null ? null : inBase64(file) }));
}
