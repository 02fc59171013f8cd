/* The colours of elements: a drawing's own table where it has one, else the usual one of MicroStation. */

import { FLAG, TYPE } from './format.js';

const FIRST = Object.freeze([
    [255, 255, 255], [0, 0, 255], [0, 255, 0], [255, 0, 0], [255, 255, 0], [255, 0, 255], [255, 127, 0], [0, 255, 255],
    [64, 64, 64], [192, 192, 192], [254, 0, 96], [160, 224, 0], [0, 254, 160], [128, 0, 160], [176, 176, 176],
    [0, 240, 240],
]);
const LAST = Object.freeze([[192, 192, 192], [28, 0, 100]]);
const TABLE_SIZE = 806;

/**
 * Eight colours of one brightness, in the order white, blue, green, red, yellow, magenta, orange, cyan.
 * @param {number} bright
 * @param {number} orange
 * @param {number} cyan
 */
function octet(bright, orange, cyan) {
    return [
        [bright, bright, bright], [0, 0, bright], [0, bright, 0], [bright, 0, 0], [bright, bright, 0],
        [bright, 0, bright], [bright, orange, 0], [0, cyan, cyan],
    ];
}

/**
 * The usual table. Behind the first 16 colours each row of 16 is a row of eight twice, 15 darker than the row before
 * it; its last colour is that of the next row already. The last two colours stand for themselves.
 */
function usualColours() {
    const table = [...FIRST];
    for (let row = 0; row < 15; row++) {
        const bright = 240 - 15 * row, orange = 122 - 5 * row;
        table.push(...octet(bright, orange, bright), ...octet(bright, orange, bright - 15));
    }
    return [...table.slice(0, 256 - LAST.length), ...LAST];
}

/**
 * What is read of the heads of elements, by their numbers.
 * @typedef {{ length: number, type: Uint8Array, level: Uint8Array, size: Uint32Array, flags: Uint8Array }} Heads
 */

/**
 * The drawing's own table: an element of type 5 on level 1. Its first three bytes are the last colour, the ground's.
 * @param {Uint8Array} bytes
 * @param {Uint32Array} offsets
 * @param {Heads} records
 */
function ownColours(bytes, offsets, records) {
    for (let number = 0; number < records.length; number++) {
        if (records.type[number] === TYPE.data && records.level[number] === 1 && records.size[number] >= TABLE_SIZE
            && !(records.flags[number] & FLAG.deleted)) {
            const table = bytes.subarray(offsets[number] + 38, offsets[number] + TABLE_SIZE);
            const colours = Array.from({ length: 256 }, (_, at) => [...table.subarray(3 * at, 3 * at + 3)]);
            return [...colours.slice(1), colours[0]];
        }
    }
    return null;
}

/** @type {Readonly<Record<string, string | undefined>>} */
const COLOUR_NAMES = Object.freeze({
    '#ffffff': 'white', '#0000ff': 'blue', '#00ff00': 'green', '#ff0000': 'red', '#ffff00': 'yellow',
    '#ff00ff': 'magenta', '#ff7f00': 'orange', '#00ffff': 'cyan', '#404040': 'dark grey', '#c0c0c0': 'light grey',
});

/**
 * A colour in words: its number, its name where it has one, and its red, green and blue, as in `3 (red, #ff0000)`.
 * @param {string[]} table
 * @param {number} colour
 */
export function colourSaid(table, colour) {
    const spelled = table[colour], name = COLOUR_NAMES[spelled];
    return colour + ' (' + (name ? name + ', ' : '') + spelled + ')';
}

/**
 * The colours 0 to 255 as `#rrggbb`, and whether they are the drawing's own.
 * @param {Uint8Array} bytes
 * @param {Uint32Array} offsets
 * @param {Heads} records
 */
export function coloursOf(bytes, offsets, records) {
    const own = ownColours(bytes, offsets, records);
    const table = (own || usualColours()).map((colour) => (
        '#' + colour.map((part) => part.toString(16).padStart(2, '0')).join('')));
    return { table, isOwn: own !== null };
}
