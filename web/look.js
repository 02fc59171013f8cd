/* How a record looks: by its own colour, weight, style and fill, or by its mark where two states are compared. */

import { DASHES, widthOf } from './format.js';
import { BOX_DASH } from './painter.js';
import { MARK } from './marking.js';

/** How much is left of what hasn't changed where it is compared. */
export const FAINT = 0.45;

/**
 * What a record is drawn with.
 * @typedef {object} Drawn
 * @property {Pick<import('./scene.js').Scene, 'records' | 'mode' | 'markOf'>} scene
 * @property {import('./painter.js').Painter} painter
 * @property {string[]} colours those of the table as they are drawn on the ground
 * @property {Record<string, string>} pens
 */

/**
 * Draws a record as it looks in a scene.
 * @param {Drawn} drawn
 * @param {number} record
 */
export function drawLook({ scene, painter, colours, pens }, record) {
    const { records } = scene, mark = scene.markOf(record), isDeleted = records.isDeleted(record);
    const dash = DASHES[records.style[record]], width = widthOf(records.weight[record]);
    if (mark === MARK.old) {
        painter.setAlpha(0.75);
        painter.draw(record, pens.old, 0.8, BOX_DASH);
    } else if (mark !== MARK.none) {
        painter.setAlpha(1);
        const pen = mark === MARK.added ? pens.added : mark === MARK.deleted ? pens.deleted : pens.changed;
        painter.draw(record, pen, width + 1.2, mark === MARK.deleted ? DASHES[2] : dash);
    } else {
        painter.setAlpha(isDeleted || scene.mode === 'both' ? FAINT : 1);
        const fill = records.fill[record];
        painter.draw(record, colours[records.colour[record]], width, dash, fill > 0 ? colours[fill - 1] : null);
    }
}
