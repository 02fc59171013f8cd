/* The path that a record is drawn by. */

import { TYPE } from './format.js';
import { finenessOf, isCurved } from './outlines.js';

/** @typedef {import('./records.js').Records} Records */
/** @typedef {import('./view.js').View} View */

/** One path after another: the points that a record holds, or those of its outline where it is curved. */
export class Path {
    /** @param {Records} records */
    constructor(records) {
        this.records = records;
        /**
         * Coordinates, of which the path's lie from one place to before another, a step from point to point. At the
         * place of a point stands its coordinate to the right.
         * @type {Int32Array | Float64Array}
         */
        this.points = new Int32Array(0);
        this.from = this.to = 0;
        this.step = 2;
        /** How far behind the first coordinate of a point the one upwards stands, and the one along which one looks. */
        this.rise = 1;
        this.away = 0;
        this.isClosed = false;
    }

    /** How many points it has. */
    get count() {
        return (this.to - this.from) / this.step;
    }

    /**
     * Takes the path of a record that has so many pixels, and says whether there is one.
     * @param {number} record
     * @param {number} size
     */
    take(record, size) {
        const { records } = this, type = records.type[record];
        const outline = isCurved(type) ? records.outlines.of(record, finenessOf(size)) : null;
        if (outline !== null && outline.length > 0) {
            this.points = outline;
            this.from = 0;
            this.to = outline.length;
            this.step = 2;
            this.rise = 1;
        } else {
            this.takePoints(record);
        }
        this.isClosed = type === TYPE.shape;
        return this.to > this.from;
    }

    /**
     * Takes the points that a record holds.
     * @param {number} record
     */
    takePoints(record) {
        const { coordinates, axes, first, points, orientation: { across, rise, away } } = this.records;
        this.points = coordinates;
        this.from = first[record] * axes + across;
        this.to = this.from + points[record] * axes;
        this.step = axes;
        this.rise = rise;
        this.away = away;
    }

    /**
     * Adds it to what a canvas draws.
     * @param {Pick<import('./painter.js').Canvas, 'moveTo' | 'lineTo' | 'closePath'>} context
     * @param {View} view
     */
    trace(context, view) {
        const { points, from, to, step, rise } = this;
        context.moveTo(view.toScreenX(points[from]), view.toScreenY(points[from + rise]));
        for (let place = from + step; place < to; place += step) {
            context.lineTo(view.toScreenX(points[place]), view.toScreenY(points[place + rise]));
        }
        if (this.isClosed) {
            context.closePath();
        }
    }

    /**
     * Adds it as a line of one dot's width: where it goes along an axis it goes through the middles of dots, so it is
     * sharp.
     * @param {Pick<import('./painter.js').Canvas, 'moveTo' | 'lineTo' | 'closePath'>} context
     * @param {View} view
     * @param {number} ratio dots to a pixel
     */
    traceThin(context, view, ratio) {
        const { points, from, to, step, rise, isClosed } = this;
        for (let place = from; place < to; place += step) {
            const x = points[place], y = points[place + rise];
            const before = place > from ? place - step : isClosed ? to - step : place + step;
            const behind = place + step < to ? place + step : isClosed ? from : place - step;
            const isUpright = x === points[before] || x === points[behind];
            const isLevel = y === points[before + rise] || y === points[behind + rise];
            const left = isUpright ? middleOfDot(view.toScreenX(x), ratio) : view.toScreenX(x);
            const top = isLevel ? middleOfDot(view.toScreenY(y), ratio) : view.toScreenY(y);
            if (place === from) {
                context.moveTo(left, top);
            } else {
                context.lineTo(left, top);
            }
        }
        if (isClosed) {
            context.closePath();
        }
    }

    /** Its corners as they are seen, x and y one behind the other. */
    places() {
        const { points, from, to, step, rise } = this, places = [];
        for (let place = from; place < to; place += step) {
            places.push(points[place], points[place + rise]);
        }
        return places;
    }

    /**
     * The same on the screen.
     * @param {View} view
     */
    corners(view) {
        return this.places().map((value, at) => (at % 2 === 0 ? view.toScreenX(value) : view.toScreenY(value)));
    }
}

/**
 * The middle of the dot that a place of the screen lies in.
 * @param {number} place
 * @param {number} ratio dots to a pixel
 */
export function middleOfDot(place, ratio) {
    return (Math.floor(place * ratio) + 0.5) / ratio;
}
