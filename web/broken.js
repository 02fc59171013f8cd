/* Why a tree is broken, in words: headers whose total fits no members, and roots with bit C. */

import { counted } from './describing.js';
import { FLAG } from './format.js';
import { Reach } from './reach.js';
import { CLASS, CLASS_OF } from './tables.js';

/**
 * Why an element is broken.
 * @param {import('./drawing.js').Drawing} drawing
 * @param {number} number
 */
export function whyBroken(drawing, number) {
    const { records, nesting } = drawing, pieces = [];
    if (records.has(number, FLAG.orphan)) {
        const said = 'orphan: marked as part of a group (bit C), but no group claims it';
        const isGroup = CLASS_OF[records.type[number]] === CLASS.counted && records.has(number, FLAG.group);
        const below = nesting.end[number] - number - 1;
        pieces.push(isGroup ? said + ' (its own total is right: ' + counted(below, 'member') + ')' : said);
    }
    if (records.has(number, FLAG.loose)) {
        const parent = nesting.parent[number], end = parent < 0 ? drawing.count : nesting.end[parent];
        pieces.push(new Reach(drawing, number, end).whyLoose());
    }
    return pieces.join('; and ');
}
