/* Elements in words, as the companion says them. */

import { TYPE } from './format.js';
import { charactersAt } from './reading.js';
import { decoded } from './texts.js';
import { typeName } from './types.js';

/**
 * An element of a drawing: what it is, its number, its name or its characters, its level.
 * @param {import('./contents.js').Comparable} drawing
 * @param {number} number
 */
export function described(drawing, number) {
    const { records } = drawing, type = records.type[number];
    const name = type === TYPE.cell ? records.wordsOf(number) : '';
    const more = type === TYPE.text ? ' ' + quoted(decoded(charactersAt(drawing.bytes, drawing.offsets[number],
        drawing.axes))) : name === '' ? '' : ' ' + name;
    return typeName(type) + ' ' + number + more + ' on level ' + records.level[number];
}

/** @type {Readonly<Record<string, string | undefined>>} */
const ESCAPES = Object.freeze({ '\\': '\\\\', '\n': '\\n', '\r': '\\r', '\t': '\\t' });
const UNPRINTED = /[\\\p{Cc}\p{Cf}\p{Cs}\p{Co}\p{Cn}\p{Zl}\p{Zp}]|(?! )\p{Zs}/gu;

/**
 * A text between quotation marks, with escapes for what can't be seen.
 * @param {string} text
 */
export function quoted(text) {
    const mark = text.includes("'") && !text.includes('"') ? '"' : "'";
    const said = text.replace(UNPRINTED, (sign) => ESCAPES[sign] || escaped(sign));
    return mark + (mark === "'" ? said.replaceAll("'", "\\'") : said) + mark;
}

/** @param {string} sign */
function escaped(sign) {
    const code = Number(sign.codePointAt(0)), digits = code.toString(16);
    return code < 256 ? '\\x' + digits.padStart(2, '0') : code < 65536 ? '\\u' + digits.padStart(4, '0')
        : '\\U' + digits.padStart(8, '0');
}

/**
 * A number of things: '1 element', '2 elements'.
 * @param {number} count
 * @param {string} one
 * @param {string} many
 */
export function counted(count, one, many = one + 's') {
    return count + ' ' + (count === 1 ? one : many);
}
