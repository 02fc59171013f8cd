/* Draws records on a canvas. */

import { cutArea, cutSegment } from './cutting.js';
import { holesIn, isFilled } from './fills.js';
import { DASHES, DRAWN, DRAWN_OF } from './format.js';
import { Path, middleOfDot } from './path.js';
import { lineOfText } from './texts.js';
import { View } from './view.js';

const FAR = 8000;                 // pixels beyond which a path is cut at the edge of the screen
const BEYOND = 100;               // pixels beyond the screen where it is cut
const MOST_IN_PATH = 256;         // points that are stroked at once
const LEAST_TEXT = 3.5;           // pixels of a text's height below which it is drawn as a line
export const LEAST_DRAWN = 1.2;   // pixels of a box below which what is in it is drawn as a dot
export const LEAST_CROSS = 14;    // pixels of a cell's range below which its origin isn't marked
export const BOX_DASH = [4, 3];
const EM = 100;                   // pixels of the font that texts are measured and drawn in
const CAPITAL = 0.7;              // height of a capital letter in it, of an em, where a browser doesn't measure that
const FONT = EM + 'px "Helvetica Neue", Arial, "Liberation Sans", sans-serif';

/** @typedef {import('./records.js').Records} Records */
/** @typedef {import('./records.js').TextLabel} TextLabel */

/**
 * What is drawn on: as much of a browser's canvas as painters use, which pictures of another kind have, too.
 * @typedef {object} Canvas
 * @property {number} globalAlpha how much is seen of what is drawn, from 0 to 1
 * @property {number} lineWidth
 * @property {string} lineJoin
 * @property {string} lineCap
 * @property {string} font
 * @property {string} textBaseline
 * @property {string | CanvasGradient | CanvasPattern} strokeStyle painters give colours alone
 * @property {string | CanvasGradient | CanvasPattern} fillStyle
 * @property {(a: number, b: number, c: number, d: number, e: number, f: number) => void} setTransform
 * @property {(dash: number[]) => void} setLineDash
 * @property {(text: string) => TextMetrics} measureText
 * @property {() => void} beginPath
 * @property {(left: number, top: number) => void} moveTo
 * @property {(left: number, top: number) => void} lineTo
 * @property {() => void} closePath
 * @property {() => void} stroke
 * @property {(rule: 'evenodd' | 'nonzero') => void} fill
 * @property {(left: number, top: number, width: number, height: number) => void} fillRect
 * @property {(left: number, top: number, width: number, height: number) => void} strokeRect
 * @property {(text: string, left: number, top: number) => void} fillText
 */

/** Draws records by a view. What has the same pen is stroked at once. Dots go to `dots`, where these are given. */
export class Painter {
    /**
     * @param {Records} records
     * @param {Canvas} context
     * @param {import('./dots.js').Dots | null} dots
     */
    constructor(records, context, dots = null) {
        this.records = records;
        this.context = context;
        this.dots = dots;
        this.view = new View(0, 0);
        this.ratio = 1;
        this.width = this.alpha = this.inPath = 0;
        this.capital = CAPITAL * EM;
        /** @type {string | null} */
        this.stroke = null;
        /** @type {string | null} */
        this.fill = null;
        /** @type {readonly number[] | null} */
        this.dash = null;
        this.path = new Path(records);
        /** Where what reaches far beyond the screen is cut. */
        this.rectangle = [0, 0, 0, 0];
    }

    /**
     * Begins a picture. `ratio` is how many dots of the canvas a pixel has.
     * @param {View} view
     * @param {number} ratio
     */
    start(view, ratio) {
        this.view = view;
        this.ratio = ratio;
        this.stroke = null;
        this.width = 0;
        this.dash = null;
        this.fill = null;
        this.alpha = 1;
        this.inPath = 0;
        this.rectangle = [-BEYOND, -BEYOND, view.width + BEYOND, view.height + BEYOND];
        this.context.globalAlpha = 1;
        this.context.setTransform(ratio, 0, 0, ratio, 0, 0);
        this.context.lineJoin = 'round';
        this.context.lineCap = 'butt';
        this.context.font = FONT;
        this.context.textBaseline = 'alphabetic';
        this.capital = this.context.measureText('H').actualBoundingBoxAscent || CAPITAL * EM;
    }

    finish() {
        if (this.inPath > 0) {
            this.context.stroke();
            this.inPath = 0;
        }
    }

    /**
     * Takes a pen. One of a pixel or less is as wide as one dot of the canvas.
     * @param {string} stroke
     * @param {number} width in pixels
     * @param {readonly number[]} dash
     */
    setPen(stroke, width, dash) {
        if (stroke === this.stroke && width === this.width && dash === this.dash && this.inPath < MOST_IN_PATH) {
            if (this.inPath === 0) {
                this.context.beginPath();
            }
            return;
        }
        this.finish();
        const { context } = this;
        if (stroke !== this.stroke) {
            context.strokeStyle = this.stroke = stroke;
        }
        if (width !== this.width) {
            this.width = width;
            context.lineWidth = width > 1 ? width : 1 / this.ratio;
        }
        if (dash !== this.dash) {
            this.dash = dash;
            context.setLineDash(/** @type {number[]} */ (dash));
        }
        context.beginPath();
    }

    /**
     * How much is seen of what is drawn from now on, from 0 to 1.
     * @param {number} alpha
     */
    setAlpha(alpha) {
        if (alpha !== this.alpha) {
            this.finish();
            this.context.globalAlpha = this.alpha = alpha;
        }
    }

    /** @param {string} fill */
    setFill(fill) {
        if (fill !== this.fill) {
            this.context.fillStyle = this.fill = fill;
        }
    }

    /**
     * Draws a record in a colour, by its own weight and style, or by others; an area is filled where a colour for that
     * is given.
     * @param {number} record
     * @param {string} colour
     * @param {number} width
     * @param {readonly number[]} dash
     * @param {string | null} fill
     */
    draw(record, colour, width, dash, fill = null) {
        const { records, view } = this;
        const at = record * 4, { box } = records;
        const left = view.toScreenX(box[at]), right = view.toScreenX(box[at + 2]);
        const top = view.toScreenY(box[at + 3]), bottom = view.toScreenY(box[at + 1]);
        if (right < -20 || bottom < -20 || left > view.width + 20 || top > view.height + 20) {
            return;
        }
        const drawn = DRAWN_OF[records.type[record]];
        const isSmall = right - left < LEAST_DRAWN && bottom - top < LEAST_DRAWN;
        if (isSmall && drawn !== DRAWN.cell && drawn !== DRAWN.node) {
            this.drawDot(left, top, colour, width);
        } else if (drawn === DRAWN.path || drawn === DRAWN.box) {
            const size = Math.max(right - left, bottom - top);
            const isFar = left < -FAR || top < -FAR || right > FAR || bottom > FAR;
            if (fill !== null && isFilled(records, record)) {
                this.fillArea(record, size, fill, isFar);
            }
            if (this.path.take(record, size)) {
                this.drawPath(colour, width, dash, isFar);
            } else {
                this.setPen(colour, width, BOX_DASH);
                this.traceBox(left, top, right, bottom);
            }
        } else if (drawn === DRAWN.text) {
            this.drawText(record, colour);
        } else if (drawn === DRAWN.cell || drawn === DRAWN.node) {
            this.drawOrigin(record, colour);
        }
    }

    /**
     * @param {number} left
     * @param {number} top
     * @param {string} colour
     * @param {number} width
     */
    drawDot(left, top, colour, width) {
        const size = width > 1 ? Math.max(Math.round(width * this.ratio), 1) : 1;
        if (this.dots === null) {
            this.setFill(colour);
            this.context.fillRect(left, top, size / this.ratio, size / this.ratio);
        } else {
            this.dots.set(Math.round(left * this.ratio), Math.round(top * this.ratio), size, colour, this.alpha);
        }
    }

    /**
     * Draws the path that was taken.
     * @param {string} colour
     * @param {number} width
     * @param {readonly number[]} dash
     * @param {boolean} isFar
     */
    drawPath(colour, width, dash, isFar) {
        const { context, path, view } = this;
        if (path.count === 1) {
            const [left, top] = path.corners(view);
            this.drawDot(left - 1, top - 1, colour, width + 1);
            return;
        }
        this.setPen(colour, width, dash);
        if (isFar) {
            this.traceFar();
            return;
        }
        if (width > 1) {
            path.trace(context, view);
        } else {
            path.traceThin(context, view, this.ratio);
        }
        this.inPath += path.count;
    }

    /**
     * Fills the area of a record but its holes; of what reaches far beyond the screen only what is seen.
     * @param {number} record
     * @param {number} size
     * @param {string} fill
     * @param {boolean} isFar
     */
    fillArea(record, size, fill, isFar) {
        const { context, path, records, view } = this;
        this.finish();
        this.setFill(fill);
        context.beginPath();
        for (const it of [record, ...holesIn(records, record)]) {
            if (path.take(it, size) && isFar) {
                this.traceCorners(cutArea(path.corners(view), this.rectangle));
            } else if (path.count > 0) {
                path.trace(context, view);
            }
        }
        context.fill('evenodd');
    }

    /** @param {number[]} corners of an area, x and y one behind the other */
    traceCorners(corners) {
        for (let at = 0; at < corners.length; at += 2) {
            if (at === 0) {
                this.context.moveTo(corners[0], corners[1]);
            } else {
                this.context.lineTo(corners[at], corners[at + 1]);
            }
        }
    }

    /** A path that reaches far beyond the screen: each of its segments, cut there. */
    traceFar() {
        const corners = this.path.corners(this.view), { length } = corners;
        const last = this.path.isClosed ? length : length - 2;
        for (let at = 0; at < last; at += 2) {
            const next = (at + 2) % length;
            this.traceSegment(corners[at], corners[at + 1], corners[next], corners[next + 1]);
        }
    }

    /**
     * @param {number} left
     * @param {number} top
     * @param {number} right
     * @param {number} bottom
     */
    traceSegment(left, top, right, bottom) {
        const cut = cutSegment(left, top, right, bottom, this.rectangle);
        if (cut) {
            if (this.width <= 1) {
                cut[0] = left === right ? middleOfDot(cut[0], this.ratio) : cut[0];
                cut[2] = left === right ? cut[0] : cut[2];
                cut[1] = top === bottom ? middleOfDot(cut[1], this.ratio) : cut[1];
                cut[3] = top === bottom ? cut[1] : cut[3];
            }
            this.context.moveTo(cut[0], cut[1]);
            this.context.lineTo(cut[2], cut[3]);
            this.inPath += 2;
        }
    }

    /**
     * @param {number} left
     * @param {number} top
     * @param {number} right
     * @param {number} bottom
     */
    traceBox(left, top, right, bottom) {
        this.traceSegment(left, top, right, top);
        this.traceSegment(right, top, right, bottom);
        this.traceSegment(right, bottom, left, bottom);
        this.traceSegment(left, bottom, left, top);
    }

    /** @param {number} record */
    x(record) {
        const { records } = this;
        return this.view.toScreenX(records.coordinate(record, 0, records.orientation.across));
    }

    /** @param {number} record */
    y(record) {
        const { records } = this;
        return this.view.toScreenY(records.coordinate(record, 0, records.orientation.up));
    }

    /**
     * @param {number} record
     * @param {string} colour
     */
    drawText(record, colour) {
        const { view, context } = this;
        const text = /** @type {TextLabel} */ (this.records.labelOf(record));
        const left = this.x(record), top = this.y(record), [alongX, alongY, upX, upY] = text.turn;
        if (Math.abs(text.height * (alongX * upY - alongY * upX) * view.scale) < LEAST_TEXT) {
            this.setPen(colour, 1, DASHES[0]);
            const [lineX, lineY] = lineOfText(text, 2 / view.scale);
            this.traceSegment(left, top, left + lineX * view.scale, top - lineY * view.scale);
            return;
        }
        this.finish();
        this.setFill(colour);
        this.turnTo(left, top, text);
        context.fillText(text.characters, 0, 0);
        context.setTransform(this.ratio, 0, 0, this.ratio, 0, 0);
    }

    /**
     * Puts the canvas at a text's origin, turned and stretched so that its characters have their height and width;
     * where one of these is negative they are mirrored.
     * @param {number} left
     * @param {number} top
     * @param {TextLabel} text
     */
    turnTo(left, top, text) {
        const { context, ratio, view } = this;
        text.natural = text.natural || context.measureText(text.characters).width || 1;
        const up = text.height * view.scale / this.capital;
        const along = text.width !== 0 ? text.width * view.scale / text.natural : Math.abs(up);
        const [alongX, alongY, upX, upY] = text.turn;
        context.setTransform(ratio * along * alongX, -ratio * along * alongY, -ratio * up * upX, ratio * up * upY,
            ratio * left, ratio * top);
    }

    /**
     * @param {number} record
     * @param {string} colour
     */
    drawOrigin(record, colour) {
        const { records, view, context } = this;
        const range = records.rangeOf(record), { axes, orientation: { across, up } } = records;
        const size = Math.max(range[axes + across] - range[across], range[axes + up] - range[up]) * view.scale;
        if (size < LEAST_CROSS) {
            return;
        }
        const left = this.x(record), top = this.y(record);
        this.setPen(colour, 1, DASHES[0]);
        context.moveTo(left - 3.5, top);
        context.lineTo(left + 3.5, top);
        context.moveTo(left, top - 3.5);
        context.lineTo(left, top + 3.5);
        this.inPath += 4;
    }
}
