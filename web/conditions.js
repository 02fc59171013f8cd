/* Conditions on elements: levels and looks as numbers and spans, a type, a part of a text or name. */

/** @typedef {import('./records.js').Records} Records */
/** @typedef {import('./state.js').State} State */

/**
 * What stands in the fields that ask for elements; an empty one asks for nothing.
 * @typedef {{ level: string, type: string, colour: string, weight: string, style: string, words: string }} Asked
 */

/**
 * Whether a record meets a condition.
 * @typedef {(record: number) => boolean} Test
 */

const LOOKED_AT_ONCE = 4096;               // elements that are looked at before the page may answer

/**
 * The numbers of a field such as '3, 5-7', or null where it isn't one.
 * @param {string} text
 * @returns {Set<number> | null}
 */
export function numbersOf(text) {
    const numbers = new Set();
    for (const part of text.split(/[,;\s]+/).filter((it) => it !== '')) {
        const span = /^(\d{1,3})(?:-(\d{1,3}))?$/.exec(part), low = span === null ? 1 : Number(span[1]);
        const high = span === null ? 0 : span[2] === undefined ? low : Number(span[2]);
        if (low > high || high > 255) {
            return null;
        }
        for (let number = low; number <= high; number++) {
            numbers.add(number);
        }
    }
    return numbers;
}

/**
 * The conditions that the fields ask for; what one doesn't understand of them instead, in a sentence.
 * @param {Records} records
 * @param {Asked} asked
 * @returns {Test[] | string}
 */
export function testsOf(records, asked) {
    /** @type {[string, string, Uint8Array][]} */
    const columns = [['levels', asked.level, records.level], ['colours', asked.colour, records.colour],
        ['weights', asked.weight, records.weight], ['styles', asked.style, records.style]];
    /** @type {Test[]} */
    const tests = [];
    for (const [name, text, column] of columns.filter(([, said]) => said.trim() !== '')) {
        const numbers = numbersOf(text);
        if (numbers === null) {
            return '‘' + text + '’ isn’t a list of ' + name + ': write numbers and ranges, such as 3, 5-7.';
        }
        tests.push((record) => numbers.has(column[record]));
    }
    const type = Number.parseInt(asked.type, 10), words = asked.words.trim().toLowerCase();
    if (!Number.isNaN(type)) {
        tests.push((record) => records.type[record] === type);
    }
    if (words !== '') {
        tests.push((record) => records.wordsOf(record).toLowerCase().includes(words));
    }
    return tests;
}

/**
 * The trees in which something that is shown meets all conditions, in file order, in pieces.
 * @param {State} state
 * @param {Uint8Array} shown
 * @param {Test[]} tests
 * @returns {import('./slices.js').Pieces<number[]>}
 */
export function* treesThatMeet(state, shown, tests) {
    /** @type {number[]} */
    const roots = [];
    for (let number = 0; number < state.count; number++) {
        const record = state.record[number];
        if (shown[record] === 1 && tests.every((test) => test(record))) {
            const root = state.rootOf(number);
            if (roots[roots.length - 1] !== root) {
                roots.push(root);
            }
        }
        if (number % LOOKED_AT_ONCE === 0) {
            yield;
        }
    }
    return roots;
}
