/* Arcs and ellipses as they are seen: their fields are floating numbers, which no edit reads. */

import { TYPE } from './format.js';
import { longAt, vaxDoubleAt } from './numbers.js';

/** @typedef {import('./orientation.js').Orientation} Orientation */

const WHOLE = 2 * Math.PI;
const ANGLE_UNIT = Math.PI / 180 / 360000;       // an angle of the file in radians
// By how much the stored range may differ: by so many units of resolution, and by such a share of the longer axis.
const RANGE_NEAR = 2;
const RANGE_SHARE = 0.001;

/**
 * Where the fields of each type begin, in two and in three axes: both axes, the turn, the origin, the element's end.
 * @type {Readonly<Record<number, Record<number, { axes: number, turn: number, origin: number, end: number }>>>}
 */
const PLACES = Object.freeze({
    [TYPE.ellipse]: Object.freeze({
        2: { axes: 36, turn: 52, origin: 56, end: 72 }, 3: { axes: 36, turn: 52, origin: 68, end: 92 },
    }),
    [TYPE.arc]: Object.freeze({
        2: { axes: 44, turn: 60, origin: 64, end: 80 }, 3: { axes: 44, turn: 60, origin: 76, end: 100 },
    }),
});

/**
 * An arc as it is seen: at the angle t it is at x + alongX · cos t + upX · sin t, and likewise in y. It begins at the
 * angle `start`, and goes round by `sweep`, against the clock where that is positive; both in radians.
 * @typedef {{ x: number, y: number, alongX: number, alongY: number, upX: number, upY: number, start: number,
 *     sweep: number }} Arc
 */

/**
 * The arc or the ellipse that an element is; null where its fields don't lie in its range, as it is seen, and so may
 * stand for something else.
 * @param {Uint8Array} element
 * @param {number} axes
 * @param {Int32Array} range its stored range, low corner and high corner
 * @param {Orientation} seen
 * @returns {Arc | null}
 */
export function arcOf(element, axes, range, seen) {
    const type = element[1] & 0x7F, places = PLACES[type]?.[axes];
    if (places === undefined || element.length < places.end) {
        return null;
    }
    const turn = axes === 2 ? turnOf(longAt(element, places.turn)) : projectionAt(element, places.turn, seen);
    if (turn === null) {
        return null;
    }
    const first = vaxDoubleAt(element, places.axes), second = vaxDoubleAt(element, places.axes + 8);
    const arc = {
        x: vaxDoubleAt(element, places.origin + 8 * seen.across),
        y: vaxDoubleAt(element, places.origin + 8 * seen.up),
        alongX: first * turn[0], alongY: first * turn[1], upX: second * turn[2], upY: second * turn[3],
        start: type === TYPE.arc ? longAt(element, 36) * ANGLE_UNIT : 0,
        sweep: type === TYPE.arc ? sweepOf(longAt(element, 40)) : WHOLE,
    };
    const near = RANGE_NEAR + RANGE_SHARE * Math.max(Math.abs(first), Math.abs(second));
    return isItsRange(arc, axes, range, near, seen) ? arc : null;
}

/**
 * What a turn against the clock makes of the two axes: x and y of the first, x and y of the second.
 * @param {number} angle as it stands in the file
 * @returns {number[]}
 */
export function turnOf(angle) {
    const cosine = Math.cos(angle * ANGLE_UNIT), sine = Math.sin(angle * ANGLE_UNIT);
    return [cosine, sine, -sine, cosine];
}

/**
 * What a quaternion of four longs, the real part first, makes of the two axes, as they are seen; null where it is zero.
 * It turns the drawing's axes to the element's, so the element is turned by its inverse.
 * @param {Uint8Array} element
 * @param {number} at
 * @param {Orientation} seen
 * @returns {number[] | null}
 */
export function projectionAt(element, at, seen) {
    const [w, x, y, z] = [0, 4, 8, 12].map((more) => longAt(element, at + more));
    const size = w * w + x * x + y * y + z * z;
    const first = [w * w + x * x - y * y - z * z, 2 * (x * y - w * z), 2 * (x * z + w * y)];
    const second = [2 * (x * y + w * z), w * w - x * x + y * y - z * z, 2 * (y * z - w * x)];
    return size === 0 ? null : projected(first, second, seen).map((value) => value / size);
}

/**
 * Two axes of an element as they are seen: to the right and up of the first, to the right and up of the second.
 * @param {number[]} first
 * @param {number[]} second
 * @param {Orientation} seen
 */
export function projected(first, second, { across, up }) {
    return [first[across], first[up], second[across], second[up]];
}

/**
 * How far an arc goes round. The highest bit is the sign of what is left, and 0 is all the way round.
 * @param {number} sweep as it stands in the file
 */
function sweepOf(sweep) {
    const size = Math.min((sweep & 0x7FFFFFFF) * ANGLE_UNIT, WHOLE);
    return size === 0 ? WHOLE : sweep < 0 ? -size : size;
}

/**
 * Whether a stored range is the least box of an arc, or nearly so.
 * @param {Arc} arc
 * @param {number} axes
 * @param {Int32Array} range
 * @param {number} near
 * @param {Orientation} seen
 */
function isItsRange({ x, y, alongX, alongY, upX, upY, start, sweep }, axes, range, near, { across, up }) {
    return Math.abs(range[across] + highOf(-x, -alongX, -upX, start, sweep)) <= near
        && Math.abs(range[up] + highOf(-y, -alongY, -upY, start, sweep)) <= near
        && Math.abs(range[axes + across] - highOf(x, alongX, upX, start, sweep)) <= near
        && Math.abs(range[axes + up] - highOf(y, alongY, upY, start, sweep)) <= near;
}

/**
 * The greatest value of an arc in one axis: where it turns back there, or else at one of its ends.
 * @param {number} middle
 * @param {number} along
 * @param {number} up
 * @param {number} start
 * @param {number} sweep
 */
function highOf(middle, along, up, start, sweep) {
    const end = start + sweep, turning = Math.atan2(up, along);
    const behind = ((turning - Math.min(start, end)) % WHOLE + WHOLE) % WHOLE;
    return middle + (behind <= Math.abs(sweep) ? Math.sqrt(along * along + up * up)
        : Math.max(along * Math.cos(start) + up * Math.sin(start), along * Math.cos(end) + up * Math.sin(end)));
}

/**
 * Points of an arc, x and y one behind the other.
 * @param {Arc} arc
 * @param {number} steps to a whole turn
 */
export function arcPoints(arc, steps) {
    const count = Math.max(Math.ceil(Math.abs(arc.sweep) / WHOLE * steps - 1e-9), 1);
    const points = new Float64Array(2 * (count + 1));
    for (let step = 0; step <= count; step++) {
        const angle = arc.start + arc.sweep * step / count, cosine = Math.cos(angle), sine = Math.sin(angle);
        points[2 * step] = arc.x + arc.alongX * cosine + arc.upX * sine;
        points[2 * step + 1] = arc.y + arc.alongY * cosine + arc.upY * sine;
    }
    return points;
}
