/* How the texts of a drawing spell signs beyond ASCII, and how new ones are spelled. */

import { byteString } from './byte_strings.js';
import { TYPE } from './format.js';
import { charactersAt } from './reading.js';
import { isUtf8 } from './texts.js';

/** @typedef {import('./drawing.js').Drawing} Drawing */
/** @typedef {'utf-8' | 'latin-1'} Encoding */

/**
 * The encoding of each drawing that was asked for: what is opened doesn't change.
 * @type {WeakMap<Drawing, Encoding>}
 */
const FOUND = new WeakMap();

/**
 * How a drawing's texts are spelled: as its first one with a byte beyond ASCII is. Where there is none it is Latin-1,
 * as MicroStation reads them.
 * @param {Drawing} drawing
 * @returns {Encoding}
 */
export function encodingOf(drawing) {
    let encoding = FOUND.get(drawing);
    if (encoding === undefined) {
        encoding = encodingIn(drawing);
        FOUND.set(drawing, encoding);
    }
    return encoding;
}

/**
 * @param {Drawing} drawing
 * @returns {Encoding}
 */
function encodingIn({ records, count, bytes, offsets, axes }) {
    for (let number = 0; number < count; number++) {
        if (records.type[number] === TYPE.text) {
            const characters = charactersAt(bytes, offsets[number], axes);
            if (characters.some((byte) => byte > 0x7F)) {
                return isUtf8(characters) ? 'utf-8' : 'latin-1';
            }
        }
    }
    return 'latin-1';
}

/**
 * A text as a string of its bytes in an encoding. What Latin-1 doesn't have is left as it is: it is told before.
 * @param {string} text
 * @param {Encoding} encoding
 */
export function spelledIn(text, encoding) {
    return encoding === 'latin-1' && strangersIn(text, encoding).length === 0 ? text
        : byteString(new TextEncoder().encode(text));
}

/**
 * The signs of a text that an encoding hasn't, each once. The bytes 80 to 9F of Latin-1 are no signs.
 * @param {string} text
 * @param {Encoding} encoding
 */
function strangersIn(text, encoding) {
    return encoding === 'utf-8' ? [] : [...new Set(text)].filter((sign) => !/^[\0-\x7F\u00A0-\u00FF]$/u.test(sign));
}

/**
 * Why a text can't be written into a drawing, in a sentence, or nothing.
 * @param {string} text
 * @param {Drawing} drawing
 */
export function spellingFault(text, drawing) {
    const strangers = strangersIn(text, encodingOf(drawing)), most = 5;
    if (strangers.length === 0) {
        return '';
    }
    return 'The texts of this drawing are written in Latin-1, which hasn’t '
        + strangers.slice(0, most).map((sign) => '‘' + sign + '’').join(', ') + (strangers.length > most ? ' …' : '')
        + '. Write it without.';
}
