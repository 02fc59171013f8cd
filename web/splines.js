/* B-splines: a header, type 27 of a curve and 24 of a surface, and its parts behind it, poles (21), knots (26), weights
   (28) and boundaries (25). Their fields are read to draw them alone. */

import { TYPE } from './format.js';
import { longAt, wordAt } from './numbers.js';
import { LINKED, SPLINE_PARTS } from './tables.js';

/** @typedef {import('./orientation.js').Orientation} Orientation */

const PART = Object.freeze({ poles: 21, knots: 26, weights: 28 });
const RATIONAL = 0x40;
const CLOSED = 0x80;
const ORDER_MOST = 15;
const SCALE = 2147483647;         // a weight or a knot of 1
const RUN_MOST = 4194304;         // bytes of a run that are read
const POLES_MOST_OF_SURFACE = 1024; // poles of a surface each way

/**
 * How a B-spline goes one way: its order, its knots, how many poles it has, and whether it is closed.
 * @typedef {{ order: number, knots: Float64Array, poles: number, isClosed: boolean }} Way
 */

/**
 * A B-spline: its ways, one of a curve, two of a surface; its poles, with x·w, y·w and w each, those of the first way
 * one behind the other; and of a surface how many lines are drawn along each way.
 * @typedef {{ ways: Way[], poles: Float64Array, lines: number[] }} Spline
 */

/**
 * How many bytes a header has together with its parts.
 * @param {Uint8Array} bytes
 * @param {number} at where the header begins
 */
export function runSize(bytes, at) {
    let end = at + 4 + 2 * wordAt(bytes, at + 2);
    while (end + 4 <= bytes.length && end - at < RUN_MOST && bytes[end] & 0x80
        && SPLINE_PARTS.includes(bytes[end + 1] & 0x7F)) {
        end += 4 + 2 * wordAt(bytes, end + 2);
    }
    return Math.min(end, bytes.length) - at;
}

/**
 * The B-spline of a header with its parts, as it is seen; null where its fields can't be one.
 * @param {Uint8Array} run
 * @param {number} axes
 * @param {Orientation} seen
 * @returns {Spline | null}
 */
export function splineOf(run, axes, seen) {
    const type = run[1] & 0x7F, size = 4 + 2 * wordAt(run, 2);
    if (size < (type === TYPE.spline ? 46 : 58)) {
        return null;
    }
    const parts = partsOfRun(run, axes, seen), places = type === TYPE.spline ? [40] : [40, 48];
    const knotCounts = places.map((place) => wordAt(run, place + 4));
    let knotsFrom = 0;
    const ways = places.map((place, way) => {
        const own = parts.knots.slice(knotsFrom, knotsFrom += knotCounts[way]);
        return own.length === knotCounts[way] ? wayOf(run, place, own) : null;
    });
    const isRational = places.some((place) => run[place] & RATIONAL);
    const poles = weighed(parts, isRational, ways.reduce((count, way) => count * (way === null ? 0 : way.poles), 1));
    if (poles === null) {
        return null;
    }
    const made = { ways: /** @type {Way[]} */ (ways), poles, lines: places.map((place) => wordAt(run, place + 6)) };
    return type === TYPE.spline ? made : inRows(made, parts.row);
}

/**
 * What the parts of a run hold: poles as x and y, knots, weights; and how many poles the first row of them has.
 * @param {Uint8Array} run
 * @param {number} axes
 * @param {Orientation} seen
 */
function partsOfRun(run, axes, seen) {
    const parts = {
        poles: /** @type {number[]} */ ([]), knots: /** @type {number[]} */ ([]), weights: /** @type {number[]} */ ([]),
        row: 0,
    };
    let size = 4 + 2 * wordAt(run, 2);
    for (let at = size; at + 38 <= run.length; at += size) {
        size = 4 + 2 * wordAt(run, at + 2);
        const type = run[at + 1] & 0x7F, end = Math.min(endOfPart(run, at, size), run.length);
        if (type === PART.poles) {
            takePoles(parts.poles, run, at + 38, end, axes, seen);
            parts.row = parts.row || parts.poles.length / 2;
        } else if (type === PART.knots || type === PART.weights) {
            takeLongs(type === PART.knots ? parts.knots : parts.weights, run, at + 36, end);
        }
    }
    return parts;
}

/**
 * Where the body of a part ends: where its attribute data begin, or else where it ends itself.
 * @param {Uint8Array} run
 * @param {number} at
 * @param {number} size
 */
function endOfPart(run, at, size) {
    return at + (wordAt(run, at + 32) & LINKED ? Math.min(32 + 2 * wordAt(run, at + 30), size) : size);
}

/**
 * @param {number[]} poles
 * @param {Uint8Array} run
 * @param {number} from the place of the first; the word before counts them
 * @param {number} end
 * @param {number} axes
 * @param {Orientation} seen
 */
function takePoles(poles, run, from, end, axes, { across, up }) {
    const count = Math.min(wordAt(run, from - 2), Math.max(Math.floor((end - from) / (4 * axes)), 0));
    for (let pole = 0, at = from; pole < count; pole++, at += 4 * axes) {
        poles.push(longAt(run, at + 4 * across), longAt(run, at + 4 * up));
    }
}

/**
 * @param {number[]} values
 * @param {Uint8Array} run
 * @param {number} from
 * @param {number} end
 */
function takeLongs(values, run, from, end) {
    for (let at = from; at + 4 <= end; at += 4) {
        values.push(longAt(run, at) / SCALE);
    }
}

/**
 * One way of a B-spline, by the fields of its header; null where they can't be one.
 * @param {Uint8Array} run
 * @param {number} at where they begin: order and properties, the type, the number of poles
 * @param {number[]} own the knots that are stored
 * @returns {Way | null}
 */
function wayOf(run, at, own) {
    const order = (run[at] & 0x0F) + 2, poles = wordAt(run, at + 2), isClosed = (run[at] & CLOSED) !== 0;
    if (order > ORDER_MOST || poles < (isClosed ? 2 : order)) {
        return null;
    }
    const knots = knotsOf(own, order, poles, isClosed);
    return knots === null ? null : { order, knots, poles, isClosed };
}

/**
 * All knots of a way. The file has those between its ends, or all, or none, and then they stand evenly. An open way has
 * each end as many times as its order says; a closed one goes on as it begins.
 * @param {number[]} own
 * @param {number} order
 * @param {number} poles
 * @param {boolean} isClosed
 * @returns {Float64Array | null}
 */
function knotsOf(own, order, poles, isClosed) {
    const inner = isClosed ? poles - 1 : poles - order, all = isClosed ? poles + 2 * order - 1 : poles + order;
    let knots = Float64Array.from(own);
    if (own.length !== all) {
        if (own.length !== 0 && own.length !== inner) {
            return null;
        }
        const between = own.length > 0 ? own : Array.from({ length: inner }, (_, it) => (it + 1) / (inner + 1));
        const within = [0, ...between, 1];
        knots = Float64Array.from({ length: all }, (_, it) => knotAt(within, it - order + 1, isClosed));
    }
    const rises = knots.every((knot, it) => it === 0 || knots[it - 1] <= knot);
    return rises && knots[order - 1] < knots[all - order] ? knots : null;
}

/**
 * A knot before, within or behind the ones from the front end to the back end.
 * @param {number[]} within
 * @param {number} place
 * @param {boolean} isClosed
 */
function knotAt(within, place, isClosed) {
    const last = within.length - 1;
    if (!isClosed) {
        return within[Math.min(Math.max(place, 0), last)];
    }
    const turns = Math.floor(place / last);
    return within[place - turns * last] + turns;
}

/**
 * Poles with their weights: x·w, y·w and w of each; null where there are too few.
 * @param {{ poles: number[], weights: number[] }} parts
 * @param {boolean} isRational
 * @param {number} count
 */
function weighed({ poles, weights }, isRational, count) {
    if (count === 0 || poles.length < 2 * count || (isRational && weights.length < count)) {
        return null;
    }
    const made = new Float64Array(3 * count);
    for (let pole = 0; pole < count; pole++) {
        const weight = isRational ? weights[pole] : 1;
        made[3 * pole] = poles[2 * pole] * weight;
        made[3 * pole + 1] = poles[2 * pole + 1] * weight;
        made[3 * pole + 2] = weight;
        if (!(weight > 0)) {
            return null;
        }
    }
    return made;
}

/**
 * The poles of a B-spline, x and y one behind the other.
 * @param {Spline} spline
 */
export function polesOf({ poles }) {
    const places = new Float64Array(poles.length / 3 * 2);
    for (let from = 0, to = 0; from < poles.length; from += 3, to += 2) {
        places[to] = poles[from] / poles[from + 2];
        places[to + 1] = poles[from + 1] / poles[from + 2];
    }
    return places;
}

/**
 * A surface with its ways in the order of its poles; null where its rows of poles are neither way's, or where it
 * has more than are drawn.
 * @param {Spline} spline
 * @param {number} row
 * @returns {Spline | null}
 */
function inRows(spline, row) {
    const { ways, poles, lines } = spline;
    if (ways.some((way) => way.poles > POLES_MOST_OF_SURFACE)) {
        return null;
    }
    if (row === ways[0].poles) {
        return spline;
    }
    return row === ways[1].poles ? { ways: [ways[1], ways[0]], poles, lines: [lines[1], lines[0]] } : null;
}
