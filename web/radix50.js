/* The names of cells: two words of three signs each (docs/FORMAT.md, Radix-50). */

import { SIGNLESS, SIGNS } from './tables.js';

/**
 * The three signs of a word, or a backslash and its four hexadecimal digits where it stands for none.
 * @param {number} word
 */
export function signsOf(word) {
    return word >= SIGNLESS ? '\\' + word.toString(16).padStart(4, '0')
        : SIGNS[Math.floor(word / 1600)] + SIGNS[Math.floor(word / 40) % 40] + SIGNS[word % 40];
}

/**
 * A cell's name as a person writes it: its signs, without the blanks that fill it up.
 * @param {number} first
 * @param {number} second
 */
export function cellName(first, second) {
    return (signsOf(first) + signsOf(second)).trimEnd();
}
