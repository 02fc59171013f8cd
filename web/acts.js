/* What a person has done to a drawing, act by act, and the scripts and patch files that this comes to. */

/**
 * An act that adds lines behind the script. `why` says where they come from: an edit by hand, the field for a typed
 * line, a second drawing, or a script that was opened.
 * @typedef {Readonly<{ why: 'edit' | 'typed' | 'import' | 'opened', lines: readonly string[] }>} LinesAct
 */

/**
 * An act that puts a patch file on what the script makes; a new script begins behind it.
 * @typedef {Readonly<{ why: 'patch', name: string, bytes: Uint8Array }>} PatchAct
 */

/**
 * An act that takes one line out of the script, by its place in it from 0.
 * @typedef {Readonly<{ why: 'remove', index: number, line: string }>} RemoveAct
 */

/** @typedef {LinesAct | PatchAct | RemoveAct} Act */

/**
 * A script, and the patch file that is put on what it makes; the last script has none.
 * @typedef {{ lines: string[], patch: PatchAct | null }} Stage
 */

/**
 * The scripts and patch files that acts come to, in their order; there is always a last script.
 * @param {readonly Act[]} acts
 * @returns {Stage[]}
 */
export function stagesOf(acts) {
    /** @type {Stage[]} */
    const stages = [{ lines: [], patch: null }];
    for (const act of acts) {
        const last = stages[stages.length - 1];
        if (act.why === 'patch') {
            last.patch = act;
            stages.push({ lines: [], patch: null });
        } else if (act.why === 'remove') {
            last.lines.splice(act.index, 1);
        } else {
            act.lines.forEach((line) => last.lines.push(line));
        }
    }
    return stages;
}

/**
 * How many acts there are up to the last patch file, with it.
 * @param {readonly Act[]} acts
 */
export function patchedCount(acts) {
    let count = acts.length;
    while (count > 0 && acts[count - 1].why !== 'patch') {
        count--;
    }
    return count;
}

/**
 * Whether two rows of acts begin with the same acts, so many of them.
 * @param {readonly Act[]} one
 * @param {readonly Act[]} other
 * @param {number} count
 */
export function beginAlike(one, other, count) {
    let at = 0;
    while (at < count && one[at] === other[at]) {
        at++;
    }
    return at === count;
}

/** @param {unknown} it */
function isLine(it) {
    return typeof it === 'string' && /^[\0-\x09\x0B-\xFF]*$/.test(it);
}

/**
 * Whether something that was kept is an act.
 * @param {unknown} it
 * @returns {it is Act}
 */
export function isAct(it) {
    if (typeof it !== 'object' || it === null) {
        return false;
    }
    const { why, lines, name, bytes, index, line } = /** @type {Record<string, unknown>} */ (it);
    switch (why) {
        case 'edit': case 'typed': case 'import': case 'opened':
            return Array.isArray(lines) && lines.length > 0 && lines.every(isLine);
        case 'patch':
            return typeof name === 'string' && bytes instanceof Uint8Array;
        case 'remove':
            return Number.isSafeInteger(index) && Number(index) >= 0 && isLine(line);
        default:
            return false;
    }
}
