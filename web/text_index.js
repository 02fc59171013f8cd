/* The texts of a drawing and the names of its cells, ready to be searched. */

import { PIECE } from './slices.js';

/** @typedef {import('./records.js').Records} Records */
/** @typedef {import('./state.js').State} State */

/** Which words the records of a drawing as it was opened have: each text and name is kept once, in lower case. */
export class TextIndex {
    /**
     * @param {Records} records
     * @param {number} count how many of them are the drawing's
     */
    constructor(records, count) {
        this.records = records;
        this.count = count;
        this.next = 0;
        /** Of each record the place of its words, 0 where it has none. */
        this.wordsOf = new Uint32Array(count);
        /** @type {string[]} */
        this.words = [''];
        /** @type {Map<string, number>} */
        this.places = new Map([['', 0]]);
    }

    /**
     * Takes in the words in pieces, from where that was left.
     * @returns {import('./slices.js').Pieces<void>}
     */
    *building() {
        while (this.next < this.count) {
            const end = Math.min(this.next + PIECE / 8, this.count);
            for (; this.next < end; this.next++) {
                this.wordsOf[this.next] = this.placeOf(this.records.readWords(this.next).toLowerCase());
            }
            yield;
        }
        this.places.clear();
    }

    /** @param {string} words */
    placeOf(words) {
        const place = this.places.get(words), added = this.words.length;
        if (place === undefined) {
            this.words.push(words);
            this.places.set(words, added);
        }
        return place === undefined ? added : place;
    }

    /**
     * The numbers of the elements of a state whose words have these in them, in pieces: first those that are just
     * these.
     * @param {State} state
     * @param {string} wanted in lower case
     * @returns {import('./slices.js').Pieces<number[]>}
     */
    *numbersWith(state, wanted) {
        yield* this.building();
        const matches = yield* this.matches(wanted);
        /** @type {number[]} */
        const whole = [];
        /** @type {number[]} */
        const part = [];
        for (let number = 0; number < state.count; number++) {
            const record = state.record[number];
            const match = record < this.count ? matches[this.wordsOf[record]]
                : matchOf(this.records.readWords(record).toLowerCase(), wanted);
            if (match > 0) {
                (match === 2 ? whole : part).push(number);
            }
            if (number % PIECE === 0) {
                yield;
            }
        }
        part.forEach((number) => whole.push(number));
        return whole;
    }

    /**
     * Of each place of words how they match.
     * @param {string} wanted
     * @returns {import('./slices.js').Pieces<Uint8Array>}
     */
    *matches(wanted) {
        const found = new Uint8Array(this.words.length);
        for (let place = 0; place < found.length; place++) {
            found[place] = matchOf(this.words[place], wanted);
            if (place % PIECE === 0) {
                yield;
            }
        }
        return found;
    }
}

/**
 * How words have others in them: 0 not at all, 1 in a part, 2 as a whole.
 * @param {string} words
 * @param {string} wanted
 */
function matchOf(words, wanted) {
    return words === wanted ? 2 : words.includes(wanted) ? 1 : 0;
}
