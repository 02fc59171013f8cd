/* What the program prints, apart by the lines of the script (docs/EDITING.md, Answers). */

/**
 * The word with which a listing ends, by the command's.
 * @type {Readonly<Record<string, string | undefined>>}
 */
const LAST_WORDS = Object.freeze({
    show: 'shown', tree: 'tree', elements: 'elements', refs: 'refs', links: 'links', audit: 'audit', select: 'selected',
});

/**
 * The answer to a line: its last line, and what a listing has before it. `cause` is what stands behind `refused`.
 * @typedef {{ said: string, listed: string[], cause: string | null }} Answer
 */

/**
 * Whether a line is a command: comments and empty lines aren't.
 * @param {string} line
 */
export function isCommand(line) {
    return !/^ *(#|\r?$)/.test(line);
}

/**
 * The first word of a command.
 * @param {string} line
 */
export function wordOf(line) {
    return line.trim().split(' ')[0];
}

/**
 * The answers to the lines of a script, none to a line that is no command or wasn't run.
 * @param {readonly string[]} lines
 * @param {string} text what was printed
 * @returns {(Answer | null)[]}
 */
export function answersOf(lines, text) {
    const printed = text.split('\n');
    let at = 0;
    return lines.map((line) => {
        if (!isCommand(line) || at + 1 >= printed.length) {
            return null;
        }
        const start = at, last = LAST_WORDS[wordOf(line)];
        if (last !== undefined) {
            while (at + 2 < printed.length && !/^refused /.test(printed[at]) && !printed[at].startsWith(last + ' ')) {
                at++;
            }
        }
        const said = printed[at++], cause = said.startsWith('refused ') ? said.slice(8) : null;
        return { said, listed: printed.slice(start, at - 1), cause };
    });
}
