/* What acts come to, told once more and in the plainest way, for the walks. */

import { edited, text } from './walk_played.mjs';

/** What acts come to: scripts, each with the patch file that is put on what it makes. */
export function foldOf(acts) {
    const scripts = [[]], patches = [];
    for (const act of acts) {
        const lines = scripts[scripts.length - 1];
        if (act.why === 'patch') {
            patches.push(text(act.bytes));
            scripts.push([]);
        } else if (act.why === 'remove') {
            scripts[scripts.length - 1] = lines.filter((_, at) => at !== act.index);
        } else {
            scripts[scripts.length - 1] = lines.concat(act.lines);
        }
    }
    return { scripts, patches };
}

/** What they make of a drawing, all at once. */
export function modelOf(drawing, acts, files) {
    const { scripts, patches } = foldOf(acts);
    return scripts.reduce((made, lines, at) => edited(made, lines, files).file
        + (at < patches.length ? 'patch ' + patches[at] + ';' : ''), drawing);
}

/** A script as it is saved. */
export const scriptOf = (lines) => lines.map((line) => line + '\n').join('');

/** Whether what was kept may be acts at all. */
export const isClean = (acts) => Array.isArray(acts) && acts.every(({ why, lines = [], index }) => (
    why === 'remove' ? index >= 0 : lines.every((line) => !line.includes('\n'))));
