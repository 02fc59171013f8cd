/* A part of the drawing on a sheet of paper, by a scale or as large as it fits, with a frame where one is wanted. */

import { coloursOn, PENS } from './colours.js';
import { drawLook } from './look.js';
import { Painter } from './painter.js';
import { View } from './view.js';

export const PIXELS_OF_MILLIMETRE = 96 / 25.4;
const EDGE = 10;                // millimetres around the frame
const TITLE = 8;                  // millimetres of the strip below it
const EVERY = 20000;              // records that are drawn before the browser does something else

/** @typedef {import('./painter.js').Canvas} Canvas */
/** @typedef {import('./scene.js').Scene} Scene */

/**
 * Sheets of paper, upright, each its width and its height in millimetres.
 * @type {Readonly<Record<string, readonly [number, number]>>}
 */
export const SHEETS = Object.freeze({
    A4: [210, 297], A3: [297, 420], A2: [420, 594], A1: [594, 841], A0: [841, 1189],
});

/**
 * A sheet: its size and the room for the drawing on it, in pixels of 96 to the inch, and the view by which it is drawn.
 * @typedef {{ width: number, height: number, room: number[], view: View, title: string }} Sheet
 */

/**
 * A sheet of a size on which a box of the drawing is in the middle.
 * @param {object} of
 * @param {number[]} of.box low x, low y, high x, high y
 * @param {number} of.width in millimetres
 * @param {number} of.height
 * @param {number | null} of.scale pixels to a unit of resolution, or null for as large as it fits
 * @param {boolean} of.hasFrame
 * @param {(scale: number) => string} of.titleOf what the strip says
 * @returns {Sheet}
 */
export function sheetOf({ box, width, height, scale, hasFrame, titleOf }) {
    const [wide, high] = [width, height].map((it) => it * PIXELS_OF_MILLIMETRE);
    const margin = hasFrame ? EDGE * PIXELS_OF_MILLIMETRE : 0, strip = hasFrame ? TITLE * PIXELS_OF_MILLIMETRE : 0;
    const room = [margin, margin, wide - 2 * margin, high - 2 * margin - strip];
    const fitting = Math.min(room[2] / Math.max(box[2] - box[0], 1), room[3] / Math.max(box[3] - box[1], 1));
    const view = new View(wide, high);
    view.scale = scale === null ? fitting : scale;
    view.x = (box[0] + box[2]) / 2;
    view.y = (box[1] + box[3]) / 2 - strip / 2 / view.scale;
    return { width: wide, height: high, room, view, title: hasFrame ? titleOf(view.scale) : '' };
}

/**
 * Draws what a scene shows on a sheet, and its frame, in slices.
 * @param {Scene} scene
 * @param {readonly string[]} table the colours of the drawing
 * @param {Canvas} context
 * @param {Sheet} sheet
 * @param {number} ratio dots to a pixel
 */
export async function drawSheet(scene, table, context, sheet, ratio) {
    const painter = new Painter(scene.records, context), colours = coloursOn('light', table);
    const drawn = { scene, painter, colours, pens: PENS.light };
    context.setTransform(ratio, 0, 0, ratio, 0, 0);
    context.fillStyle = '#ffffff';
    context.fillRect(0, 0, sheet.width, sheet.height);
    painter.start(sheet.view, ratio);
    let left = EVERY;
    for (const record of scene.order) {
        drawLook(drawn, record);
        if (--left === 0) {
            left = EVERY;
            await new Promise((resolve) => setTimeout(resolve));
        }
    }
    painter.finish();
    if (sheet.title !== '') {
        drawFrame(context, sheet, ratio);
    }
}

/**
 * A frame around the room, with white beyond it, and the strip below it.
 * @param {Canvas} context
 * @param {Sheet} sheet
 * @param {number} ratio
 */
function drawFrame(context, { width, height, room: [left, top, wide, high], title }, ratio) {
    context.setTransform(ratio, 0, 0, ratio, 0, 0);
    context.globalAlpha = 1;
    context.fillStyle = '#ffffff';
    context.fillRect(0, 0, width, top);
    context.fillRect(0, top + high, width, height - top - high);
    context.fillRect(0, 0, left, height);
    context.fillRect(left + wide, 0, width - left - wide, height);
    context.setLineDash([]);
    context.strokeStyle = context.fillStyle = '#000000';
    context.lineWidth = 1.5;
    context.strokeRect(left, top, wide, high);
    context.font = '14px "Helvetica Neue", Arial, "Liberation Sans", sans-serif';
    context.fillText(title, left, top + high + 0.7 * TITLE * PIXELS_OF_MILLIMETRE);
}
