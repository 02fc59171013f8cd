/* The points that curved elements are drawn by, which their elements don't hold: they are found when they are first
   drawn, and again where they are drawn much larger. */

import { arcOf, arcPoints } from './arcs.js';
import { curvePoints, knotsOfCurve } from './curves.js';
import { TYPE } from './format.js';
import { polesOf, runSize, splineOf } from './splines.js';
import { splinePoints } from './stroking.js';

/** @typedef {import('./orientation.js').Orientation} Orientation */
/** @typedef {import('./records.js').Records} Records */

const FINEST = 8;
const STEPS_OF_TURN = 16;         // of an arc at fineness 0; each next one has twice as many
const STEPS_OF_PIECE = 4;         // of a curve or a B-spline from one point or knot to the next
const LEAST_SIZE = 24;            // pixels up to which fineness 0 does; each next one does for four times as many
const MOST_OF_CURVE = 16384;      // points of a curve
const MOST_KEPT = 6291456;        // coordinates that are kept
const KEPT_FOR_EACH = 8;          // what keeping an outline costs beside its coordinates, as so many of these
const SPLINE_NEAR = 2;             // units of resolution by which a B-spline may leave its range
const SPLINE_SHARE = 0.001;        // and the share of its range's longer side
const CHECK_STEPS = 8;
const NONE = new Float64Array(0);

/**
 * Whether elements of a type are drawn by other points than they hold.
 * @param {number} type
 */
export function isCurved(type) {
    return type === TYPE.curve || type === TYPE.ellipse || type === TYPE.arc || type === TYPE.spline
        || type === TYPE.surface;
}

/**
 * How fine something is to be drawn that has so many pixels.
 * @param {number} size
 */
export function finenessOf(size) {
    let fineness = 0;
    while (fineness < FINEST && size > LEAST_SIZE * 4 ** fineness) {
        fineness++;
    }
    return fineness;
}

/** The outlines of records as these are seen, x and y one behind the other. */
export class Outlines {
    /**
     * @param {Records} records
     * @param {(record: number) => Uint8Array} runOf gives the bytes of a header of a B-spline and of its parts
     */
    constructor(records, runOf) {
        this.records = records;
        this.runOf = runOf;
        /**
         * Those that were asked for, by their records.
         * @type {Map<number, { fineness: number, points: Float64Array }>}
         */
        this.kept = new Map();
        this.coordinateCount = 0;
    }

    /**
     * The points of a record of a curved type; none where it is drawn by what it holds, or known by its range alone.
     * @param {number} record
     * @param {number} fineness
     */
    of(record, fineness) {
        const kept = this.kept.get(record);
        if (kept !== undefined && (kept.points.length === 0
            || (kept.fineness >= fineness && kept.fineness <= fineness + 2))) {
            return kept.points;
        }
        const points = this.made(record, fineness);
        if (this.coordinateCount > MOST_KEPT) {
            this.forget();
        }
        this.kept.set(record, { fineness, points });
        this.coordinateCount += points.length + KEPT_FOR_EACH;
        return points;
    }

    /** Forgets all outlines; those that are asked for are found again. */
    forget() {
        this.kept.clear();
        this.coordinateCount = 0;
    }

    /**
     * The same, made anew and not kept, and perhaps in another view than all are seen in.
     * @param {number} record
     * @param {number} fineness
     * @param {Orientation} seen
     */
    made(record, fineness, seen = this.records.orientation) {
        switch (this.records.type[record]) {
            case TYPE.curve: return this.curve(record, STEPS_OF_PIECE << fineness, seen);
            case TYPE.ellipse: case TYPE.arc: return this.arc(record, STEPS_OF_TURN << fineness, seen);
            default: return this.spline(record, STEPS_OF_PIECE << fineness, seen);
        }
    }

    /**
     * @param {number} record
     * @param {number} steps
     * @param {Orientation} seen
     */
    curve(record, steps, seen) {
        const { coordinates, axes, first, points } = this.records;
        const rows = knotsOfCurve(coordinates, first[record] * axes, points[record], axes, seen);
        const most = Math.max(Math.floor(MOST_OF_CURVE / (points[record] + 1)), 1);
        return rows.length === 0 ? NONE : curvePoints(rows, Math.min(steps, most));
    }

    /**
     * @param {number} record
     * @param {number} steps
     * @param {Orientation} seen
     */
    arc(record, steps, seen) {
        const { records } = this;
        const arc = arcOf(records.bytesOf(record), records.axes, records.rangeOf(record), seen);
        return arc === null ? NONE : arcPoints(arc, steps);
    }

    /**
     * A B-spline, where it lies in its range.
     * @param {number} record
     * @param {number} steps
     * @param {Orientation} seen
     */
    spline(record, steps, seen) {
        const run = this.runOf(record), { axes } = this.records, range = this.records.rangeOf(record);
        const spline = splineOf(run.subarray(0, runSize(run, 0)), axes, seen), { across, up } = seen;
        if (spline === null) {
            return NONE;
        }
        // it lies between its poles, so where these are in the range it is
        const box = [range[across], range[up], range[axes + across], range[axes + up]];
        return isWithin(polesOf(spline), box) || isWithin(splinePoints(spline, CHECK_STEPS), box)
            ? splinePoints(spline, steps) : NONE;
    }
}

/**
 * Whether points lie in a box, or nearly so.
 * @param {Float64Array} points
 * @param {number[]} box low x, low y, high x, high y
 */
function isWithin(points, [lowX, lowY, highX, highY]) {
    const near = SPLINE_NEAR + SPLINE_SHARE * Math.max(highX - lowX, highY - lowY);
    let isIn = true;
    for (let at = 0; at < points.length && isIn; at += 2) {
        isIn = points[at] >= lowX - near && points[at] <= highX + near && points[at + 1] >= lowY - near
            && points[at + 1] <= highY + near;
    }
    return isIn;
}
