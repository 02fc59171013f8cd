/* The tools that draw points, and what is said to guide them. */

import { areaMeasured, measuredSaid, partsOfWay } from './measuring.js';

/** @typedef {{ isArea: boolean, count: number, hint: string }} Draw */

/**
 * Tools that draw points: whether the last is joined to the first, how many there are at once, and what is said.
 * @type {Readonly<Record<string, Draw | undefined>>}
 */
export const DRAWS = Object.freeze({
    fence: { isArea: true, count: Infinity, hint: 'Click the corners of the fence; Enter or a double click closes it' },
    line: { isArea: false, count: 2, hint: 'Click the two ends of the line' },
    string: { isArea: false, count: Infinity, hint: 'Click the points; Enter or a double click ends the line string' },
    shape: { isArea: true, count: Infinity, hint: 'Click the corners; Enter or a double click closes the shape' },
    text: { isArea: false, count: 1, hint: 'Click where the text begins' },
    measure: { isArea: false, count: Infinity, hint: 'Click from point to point; Enter or a click on the first closes '
        + 'an area, Escape ends measuring' },
});
/** @type {Readonly<Record<string, string | undefined>>} */
const DRAG_HINTS = Object.freeze({
    'drag-move': 'Drag to move what is selected', 'drag-copy': 'Drag a copy of what is selected',
});
/** Corners that an area has at least. */
export const LEAST_OF_AREA = 3;
/** Those that make an element. */
export const MAKES = new Set(['line', 'string', 'shape', 'text']);

/**
 * What is said while a tool is used: what is to be done, or how far it goes.
 * @param {import('./tools.js').Tools} tools
 */
export function guideOf({ points, pointer, drag, tool, isMeasured, app }) {
    const draws = DRAWS[tool];
    if (drag !== null) {
        const { words } = app;
        return 'by ' + drag.by.join(' ') + (words.hasMaster
            ? '  =  ' + drag.by.map((value) => words.lengthOf(value)).join(', ') : '');
    }
    if (isMeasured) {
        return areaMeasured(app.words, points);
    }
    const way = partsOfWay(pointer === null || points.length === 0 ? points : [...points, pointer]);
    if (tool === 'measure' && way.length > 1) {
        return measuredSaid(app.words, way);
    }
    return draws ? draws.hint : DRAG_HINTS[tool] || '';
}
