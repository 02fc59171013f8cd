/* Lengths, areas and directions of rows of points, and how they are said. */

import { namesOfSeen } from './orientation.js';

/** @typedef {import('./words.js').Words} Words */

/** The most digits behind the point that an area in master units has. */
const MOST_AREA_DIGITS = 6;

/**
 * How long each part of a row of points is, in all the axes that they have.
 * @param {readonly (readonly number[])[]} points
 */
function lengthsOf(points) {
    return points.slice(1).map((point, at) => Math.hypot(...point.map((value, axis) => value - points[at][axis])));
}

/**
 * How long a row of points is.
 * @param {readonly (readonly number[])[]} points
 */
export function lengthOf(points) {
    return lengthsOf(points).reduce((sum, length) => sum + length, 0);
}

/**
 * A row of points without those that lie where the one before does.
 * @param {readonly (readonly number[])[]} points
 */
export function partsOfWay(points) {
    return points.filter((point, at) => at === 0 || point[0] !== points[at - 1][0] || point[1] !== points[at - 1][1]);
}

/**
 * The area within points as they are seen, the last of which is joined to the first. What is gone around twice in one
 * direction counts twice, and what is gone around in both directions not at all.
 * @param {readonly (readonly number[])[]} points
 */
export function areaOf(points) {
    const [x, y] = points[0];
    const twice = points.reduce((sum, point, at) => {
        const next = points[(at + 1) % points.length];
        return sum + (point[0] - x) * (next[1] - y) - (next[0] - x) * (point[1] - y);
    }, 0);
    return Math.abs(twice) / 2;
}

/**
 * The direction from one point to another in degrees, against the clock from the axis to the right, from 0 to before
 * 360.
 * @param {readonly number[]} from
 * @param {readonly number[]} to
 */
function angleOf(from, to) {
    const degrees = Math.atan2(to[1] - from[1], to[0] - from[0]) * 180 / Math.PI;
    return degrees < 0 ? degrees + 360 : degrees;
}

/**
 * A length in master units where these are known, and in units of resolution.
 * @param {Words} words
 * @param {number} length
 */
export function lengthSaid(words, length) {
    return (words.hasMaster ? words.lengthOf(length) + '  =  ' : '') + length.toFixed(1) + ' units';
}

/**
 * An area in square master units where these are known, and in square units of resolution.
 * @param {Words} words
 * @param {number} area
 */
export function areaSaid(words, area) {
    const plain = area.toFixed(1) + ' square units';
    if (!words.hasMaster) {
        return plain;
    }
    const { master } = words.drawing.units, value = area / words.unitsOfMaster ** 2;
    const name = master ? master + '²' : 'square master units';
    return value.toFixed(Math.min(2 * words.digits, MOST_AREA_DIGITS)) + ' ' + name + '  =  ' + plain;
}

/**
 * What is measured along a row of places as they are seen: its last part with its displacement and its direction, and
 * all of it.
 * @param {Words} words
 * @param {readonly (readonly number[])[]} points at least two
 */
export function measuredSaid(words, points) {
    const [from, to] = points.slice(-2).map((point) => point.slice(0, 2)), flat = points.map((it) => it.slice(0, 2));
    const by = (/** @type {number} */ axis) => (words.hasMaster ? words.lengthOf(to[axis] - from[axis])
        : String(to[axis] - from[axis]));
    const [right, up] = namesOfSeen(words.scene.orientation);
    const last = lengthSaid(words, lengthOf([from, to])) + ', d' + right + ' ' + by(0) + ', d' + up + ' ' + by(1)
        + ', angle ' + Number(angleOf(from, to).toFixed(3)) + '°';
    return last + (points.length > 2 ? ', in total ' + lengthSaid(words, lengthOf(flat)) : '');
}

/**
 * What is measured of an outline that is closed.
 * @param {Words} words
 * @param {readonly (readonly number[])[]} points its corners
 */
export function areaMeasured(words, points) {
    const corners = points.map((point) => point.slice(0, 2));
    return 'area ' + areaSaid(words, areaOf(corners)) + ', perimeter '
        + lengthSaid(words, lengthOf([...corners, corners[0]]));
}
