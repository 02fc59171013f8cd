/* Places of the drawing that the pointer snaps to: ends and vertices, crossings, middles, centres and origins, and else
   the nearest point on a line. Only what lies around the pointer is looked at, and of very much only a part. */

import { arcOf } from './arcs.js';
import { LEAST_OF_CURVE } from './curves.js';
import { DRAWN, DRAWN_OF, TYPE } from './format.js';
import { isCurved } from './outlines.js';
import { Path } from './path.js';

/** @typedef {import('./records.js').Records} Records */

/** @typedef {'end' | 'vertex' | 'crossing' | 'middle' | 'centre' | 'origin' | 'on'} SnapKind */

/**
 * A place that is snapped to: what it is of which record, and of which other one where two cross, else -1; as it is
 * seen, to the right, up and, where that is known, how far along the line of sight.
 * @typedef {{ kind: SnapKind, x: number, y: number, z: number | null, record: number, other: number }} Snap
 */

/** A segment near the pointer, and the square of its distance from there.
 * @typedef {{ record: number, square: number, ax: number, ay: number, az: number | null, bx: number, by: number,
 *     bz: number | null }} Segment
 */

/** What is looked at of a scene: its records, and those that meet a rectangle.
 * @typedef {{ records: Records, query: (rectangle: number[], visit: (record: number) => void) => void,
 *     isDrawn: (record: number) => boolean }} Seen
 */

/** What goes first: of equal ones it is the nearest. */
export const SNAP_RANK = Object.freeze({ end: 0, vertex: 0, crossing: 1, middle: 2, centre: 3, origin: 3, on: 4 });

/** @type {ReadonlySet<number>} */
const NONE_LEFT_OUT = new Set();
const MOST_RECORDS = 20000;       // records around the pointer that are looked at
const MOST_SNAP_POINTS = 60000;   // and their points
const MOST_CROSSED = 160;         // segments, the nearest ones, whose crossings are looked for
const MOST_MET = 32;              // arcs whose centres are known, those that the pointer met last
const SNAP_FINENESS = 12;         // pixels that the distance is taken to be for the outlines of what is curved
const EDGE_SHARE = 1e-6;          // of the square of its size that the area of an arc has which is seen as a line
const CLOSES = 1e-6;              // share of an outline's radius within which its ends are one

/** Finds the place that is snapped to at a place of the drawing. */
export class Snapper {
    /** @param {Seen} scene */
    constructor(scene) {
        this.scene = scene;
        this.path = new Path(scene.records);
        this.x = this.y = this.within = 0;
        /** @type {Snap | null} */
        this.best = null;
        /** The square of its distance. */
        this.square = Infinity;
        /** @type {Segment[]} */
        this.segments = [];
        this.recordsLeft = this.pointsLeft = 0;
        this.leftOut = NONE_LEFT_OUT;
        /**
         * Arcs and ellipses that were met: their centres may lie far from where they are drawn.
         * @type {number[]}
         */
        this.met = [];
    }

    /**
     * What is snapped to at a place within a distance, in units of resolution; null where there is nothing.
     * @param {number} x
     * @param {number} y
     * @param {number} within
     * @param {ReadonlySet<number>} leftOut records that aren't snapped to
     * @returns {Snap | null}
     */
    find(x, y, within, leftOut = NONE_LEFT_OUT) {
        this.leftOut = leftOut;
        this.x = x;
        this.y = y;
        this.within = within;
        this.best = null;
        this.square = Infinity;
        this.segments = [];
        this.recordsLeft = MOST_RECORDS;
        this.pointsLeft = MOST_SNAP_POINTS;
        this.scene.query([x - within, y - within, x + within, y + within], (record) => this.look(record));
        for (const record of this.met) {
            this.considerCentre(record);
        }
        if (this.isWanted('crossing')) {
            this.lookForCrossings();
        }
        return this.best;
    }

    /**
     * Whether something of this kind would go before what was found.
     * @param {SnapKind} kind
     */
    isWanted(kind) {
        return this.best === null || SNAP_RANK[kind] <= SNAP_RANK[this.best.kind];
    }

    /**
     * Takes a place if it is near enough, and goes before what was found.
     * @param {SnapKind} kind
     * @param {number} x
     * @param {number} y
     * @param {number | null} z
     * @param {number} record
     * @param {number} other
     */
    consider(kind, x, y, z, record, other = -1) {
        const { best } = this, square = (x - this.x) ** 2 + (y - this.y) ** 2;
        const rank = SNAP_RANK[kind], former = best === null ? Infinity : SNAP_RANK[best.kind];
        const isNearer = square < this.square || (square === this.square && best !== null && record < best.record);
        if (square <= this.within * this.within && (rank < former || (rank === former && isNearer))) {
            this.best = { kind, x, y, z, record, other };
            this.square = square;
        }
    }

    /** @param {number} record */
    look(record) {
        const { records } = this.scene, drawn = DRAWN_OF[records.type[record]];
        if (this.recordsLeft === 0 || this.pointsLeft <= 0 || this.leftOut.has(record)) {
            return;
        }
        this.recordsLeft--;
        if (drawn === DRAWN.path || drawn === DRAWN.box) {
            this.lookAlong(record);
        } else if (records.points[record] > 0) {
            this.considerPoint('origin', record, 0);
        }
    }

    /**
     * Takes a point that a record holds if it is near enough, and goes before what was found.
     * @param {SnapKind} kind
     * @param {number} record
     * @param {number} point
     */
    considerPoint(kind, record, point) {
        const { records } = this.scene, { across, up, along } = records.orientation;
        this.consider(kind, records.coordinate(record, point, across), records.coordinate(record, point, up),
            records.axes === 3 ? records.coordinate(record, point, along) : null, record);
    }

    /** @param {number} record */
    lookAlong(record) {
        const { path, scene: { records } } = this, { box } = records, at = record * 4;
        const side = Math.max(box[at + 2] - box[at], box[at + 3] - box[at + 1]);
        const isThere = path.take(record, side / this.within * SNAP_FINENESS);
        this.pointsLeft -= isThere ? path.count : 0;
        if (isThere && path.points !== records.coordinates) {
            this.lookAtOutline(record);
        } else if (isThere && DRAWN_OF[records.type[record]] === DRAWN.path) {
            this.lookAtPoints(record);
        }
    }

    /**
     * What is drawn by the points that it holds; its path was taken.
     * @param {number} record
     */
    lookAtPoints(record) {
        const { points, from, to, step, rise, isClosed } = this.path, last = to - step;
        for (let place = from; place < to; place += step) {
            const kind = !isClosed && (place === from || place === last) ? 'end' : 'vertex';
            this.consider(kind, points[place], points[place + rise], this.zAt(place), record);
            if (place > from || isClosed) {
                this.lookAtSegment(record, place > from ? place - step : last, place);
            }
        }
    }

    /**
     * How far along the line of sight a point of the path that was taken lies, or null in two axes.
     * @param {number} place
     */
    zAt(place) {
        return this.path.step === 3 ? this.path.points[place + this.path.away] : null;
    }

    /**
     * @param {number} record
     * @param {number} start where its ends stand in the path
     * @param {number} end
     */
    lookAtSegment(record, start, end) {
        const { points, rise } = this.path, { x, y } = this;
        const ax = points[start], ay = points[start + rise], bx = points[end], by = points[end + rise];
        const share = shareOfNearest(x, y, ax, ay, bx, by);
        const nearX = ax + share * (bx - ax), nearY = ay + share * (by - ay);
        const square = (nearX - x) ** 2 + (nearY - y) ** 2;
        if (square > this.within * this.within || (ax === bx && ay === by)) {
            return;
        }
        const az = this.zAt(start), bz = this.zAt(end);
        this.segments.push({ record, square, ax, ay, az, bx, by, bz });
        this.consider('middle', (ax + bx) / 2, (ay + by) / 2, shareBetween(az, bz, 0.5), record);
        this.consider('on', nearX, nearY, shareBetween(az, bz, share), record);
    }

    /**
     * What is curved: its ends, the points that a curve goes through, the centre of an arc; its outline was taken.
     * @param {number} record
     */
    lookAtOutline(record) {
        const { scene: { records } } = this, type = records.type[record];
        if (type === TYPE.surface || !isCurved(type)) {
            return;
        }
        if (type === TYPE.curve) {
            this.lookAtKnots(record);
        } else {
            this.lookAtEnds(record);
        }
        if (type === TYPE.arc || type === TYPE.ellipse) {
            this.met = [record, ...this.met.filter((it) => it !== record)].slice(0, MOST_MET);
        }
        if (this.isWanted('on')) {
            this.lookOnOutline(record);
        }
    }

    /**
     * The points that a curve goes through, all but the first two and the last two.
     * @param {number} record
     */
    lookAtKnots(record) {
        const { records } = this.scene, count = records.points[record];
        for (let point = 2; count >= LEAST_OF_CURVE && point < count - 2; point++) {
            this.considerPoint(point === 2 || point === count - 3 ? 'end' : 'vertex', record, point);
        }
    }

    /**
     * Both ends of an outline that isn't closed.
     * @param {number} record
     */
    lookAtEnds(record) {
        const { path: { points, from, to }, scene: { records: { box } } } = this, last = to - 2, at = record * 4;
        const size = Math.max(box[at + 2] - box[at], box[at + 3] - box[at + 1], 1);
        const apart = Math.hypot(points[last] - points[from], points[last + 1] - points[from + 1]);
        for (const place of apart > CLOSES * size ? [from, last] : []) {
            this.consider('end', points[place], points[place + 1], null, record);
        }
    }

    /**
     * The nearest point of an outline; of an arc it is one of the arc itself.
     * @param {number} record
     */
    lookOnOutline(record) {
        const { path: { points, from, to, step }, x, y } = this;
        let nearX = Infinity, nearY = Infinity, least = Infinity;
        for (let place = from + step; place < to; place += step) {
            const ax = points[place - step], ay = points[place - step + 1], bx = points[place], by = points[place + 1];
            const share = shareOfNearest(x, y, ax, ay, bx, by);
            const offX = ax + share * (bx - ax) - x, offY = ay + share * (by - ay) - y;
            if (offX * offX + offY * offY < least) {
                least = offX * offX + offY * offY;
                nearX = offX + x;
                nearY = offY + y;
            }
        }
        if (least <= (2 * this.within) ** 2) {
            const [onX, onY] = this.onArc(record, nearX, nearY);
            this.consider('on', onX, onY, null, record);
        }
    }

    /**
     * The point of an arc at the angle of a place that lies nearly on it; of anything else the place itself.
     * @param {number} record
     * @param {number} x
     * @param {number} y
     */
    onArc(record, x, y) {
        const arc = this.arcOf(record);
        if (arc === null || isEdgeOn(arc)) {
            return [x, y];
        }
        const area = arc.alongX * arc.upY - arc.alongY * arc.upX;
        const cosine = ((x - arc.x) * arc.upY - (y - arc.y) * arc.upX) / area;
        const sine = ((y - arc.y) * arc.alongX - (x - arc.x) * arc.alongY) / area, size = Math.hypot(cosine, sine);
        return size === 0 ? [x, y] : [arc.x + (arc.alongX * cosine + arc.upX * sine) / size,
            arc.y + (arc.alongY * cosine + arc.upY * sine) / size];
    }

    /** @param {number} record */
    arcOf(record) {
        const { records } = this.scene, type = records.type[record];
        return type === TYPE.arc || type === TYPE.ellipse
            ? arcOf(records.bytesOf(record), records.axes, records.rangeOf(record), records.orientation) : null;
    }

    /** @param {number} record */
    considerCentre(record) {
        const arc = this.scene.isDrawn(record) && !this.leftOut.has(record) ? this.arcOf(record) : null;
        if (arc !== null) {
            this.consider('centre', arc.x, arc.y, null, record);
        }
    }

    /** Where two of the segments cross that are nearest to the pointer. */
    lookForCrossings() {
        const near = this.segments.sort((one, other) => one.square - other.square).slice(0, MOST_CROSSED);
        near.forEach((one, at) => this.lookForCrossingsOf(one, near.slice(0, at)));
    }

    /**
     * @param {Segment} one
     * @param {Segment[]} others
     */
    lookForCrossingsOf(one, others) {
        for (const other of others) {
            const share = shareOfCrossing(one, other);
            if (share !== null) {
                const [lower, higher] = [one.record, other.record].sort((low, high) => low - high);
                this.consider('crossing', one.ax + share * (one.bx - one.ax), one.ay + share * (one.by - one.ay),
                    one.az !== null && one.az === one.bz && one.az === other.az && one.az === other.bz ? one.az : null,
                    lower, higher);
            }
        }
    }
}

/**
 * Whether an arc is seen as a line, or nearly so.
 * @param {import('./arcs.js').Arc} arc
 */
function isEdgeOn({ alongX, alongY, upX, upY }) {
    return Math.abs(alongX * upY - alongY * upX) <= EDGE_SHARE * Math.hypot(alongX, alongY, upX, upY) ** 2;
}

/**
 * Where on a segment the point is that is nearest to a place: 0 at its start, 1 at its end.
 * @param {number} x
 * @param {number} y
 * @param {number} ax
 * @param {number} ay
 * @param {number} bx
 * @param {number} by
 */
function shareOfNearest(x, y, ax, ay, bx, by) {
    const along = bx - ax, up = by - ay, square = along * along + up * up;
    return square === 0 ? 0 : Math.min(Math.max(((x - ax) * along + (y - ay) * up) / square, 0), 1);
}

/**
 * Where on a segment another one crosses it, or null where none does.
 * @param {Segment} one
 * @param {Segment} other
 */
function shareOfCrossing(one, other) {
    const along = one.bx - one.ax, up = one.by - one.ay;
    const otherAlong = other.bx - other.ax, otherUp = other.by - other.ay;
    const area = along * otherUp - up * otherAlong, offX = other.ax - one.ax, offY = other.ay - one.ay;
    const share = (offX * otherUp - offY * otherAlong) / area, otherShare = (offX * up - offY * along) / area;
    return area !== 0 && share >= 0 && share <= 1 && otherShare >= 0 && otherShare <= 1 ? share : null;
}

/**
 * A value at a share of the way between two, or null where these aren't known.
 * @param {number | null} start
 * @param {number | null} end
 * @param {number} share
 */
function shareBetween(start, end, share) {
    return start === null || end === null ? null : start + share * (end - start);
}
