/* The second drawings that a script imports, by the names that it uses. */

import { wordOf } from './answers.js';
import { isEqual } from './bytes.js';

/** @typedef {{ name: string, bytes: Uint8Array }} NamedFile */

/**
 * Takes a second drawing among those that are there, under a name without blanks that no other one has.
 * @param {ReadonlyMap<string, Uint8Array>} files
 * @param {NamedFile} file
 * @returns {{ name: string, files: ReadonlyMap<string, Uint8Array> }}
 */
export function namedFile(files, { name, bytes }) {
    let held = name.replace(/[^!-~]/g, '_').slice(-200) || '_', there = files.get(held);
    while (there !== undefined && !isEqual(there, bytes)) {
        held = 'other-' + held;
        there = files.get(held);
    }
    return { name: held, files: new Map([...files, [held, bytes]]) };
}

/**
 * The names that lines import and that aren't among the files.
 * @param {readonly string[]} lines
 * @param {ReadonlyMap<string, Uint8Array>} files
 */
export function missingNames(lines, files) {
    const names = lines.filter((line) => wordOf(line) === 'import').map((line) => line.trim().split(/ +/)[1]);
    return [...new Set(names)].filter((name) => name !== undefined && !files.has(name));
}
