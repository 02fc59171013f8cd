/* The characters of texts, and the line that is drawn where these can't be read. */

const UTF8 = new TextDecoder('utf-8', { fatal: true, ignoreBOM: true });
const LATIN1 = /[\u0080-\u00ff]/;
const FIRST_PLAIN = 0x20, LAST_PLAIN = 0x7E; // bytes from and to which each one is a sign that can be seen
const FROM_END = 0.1;             // of its base that is left to see of a text that is seen from its end
const UNSEEN = /[\p{Cc}\p{Cf}\p{Cs}\p{Co}\p{Cn}\p{Zl}\p{Zp}]|(?! )\p{Zs}/gu;

/**
 * Characters as they stand in the file: as UTF-8 where they are that, else as Latin-1.
 * @param {Uint8Array} characters
 */
export function decoded(characters) {
    return decodedBy(characters).text;
}

/** @param {Uint8Array} characters */
function decodedBy(characters) {
    const latin = latinOf(characters);
    const isLatin = !LATIN1.test(latin) || !isUtf8(characters);
    return { text: isLatin ? latin : UTF8.decode(characters), isLatin };
}

/**
 * Whether characters are valid UTF-8.
 * @param {Uint8Array} characters
 */
export function isUtf8(characters) {
    try {
        UTF8.decode(characters);
        return true;
    } catch {
        return false;
    }
}

/** @param {Uint8Array} characters */
function latinOf(characters) {
    return String.fromCharCode(...characters);
}

/**
 * Characters to read: what can't be seen is a backslash and two hexadecimal digits for each of its bytes.
 * @param {Uint8Array} characters
 */
export function readable(characters) {
    const { text, isLatin } = decodedBy(characters);
    return text.replace(UNSEEN, (sign) => {
        const bytes = isLatin ? [sign.charCodeAt(0)] : [...new TextEncoder().encode(sign)];
        return bytes.map((byte) => '\\' + byte.toString(16).padStart(2, '0')).join('');
    });
}

/**
 * How many signs characters have when they are read.
 * @param {Uint8Array} characters
 */
export function countOfSigns(characters) {
    let isPlain = true;
    for (let at = 0; at < characters.length && isPlain; at++) {
        isPlain = characters[at] >= FIRST_PLAIN && characters[at] <= LAST_PLAIN;
    }
    return isPlain ? characters.length : [...readable(characters)].length;
}

/**
 * The line that stands for a text whose characters can't be read, as it goes to the right and up from its origin: along
 * its base, or upwards where it is seen from its end.
 * @param {import('./records.js').TextSize} text
 * @param {number} least how long its base is at least
 * @returns {[number, number]}
 */
export function lineOfText({ width, height, turn: [alongX, alongY, upX, upY] }, least) {
    const length = width < 0 ? Math.min(width, -least) : Math.max(width, least);
    return Math.hypot(alongX, alongY) < FROM_END ? [height * upX, height * upY] : [length * alongX, length * alongY];
}
