/* The views of a drawing of three axes: from above, from the front, and from the right. */

/**
 * From where a drawing is looked at: the name of that; which axis goes to the right and which one up, 0 for x, 1 for y
 * and 2 for z; the axis along which one looks; and how far the second and the third stand behind the first in a row of
 * coordinates. A place that is seen is given by these axes in this order, of which the third may be unknown.
 * @typedef {{ name: string, across: number, up: number, along: number, rise: number, away: number }} Orientation
 */

/**
 * @param {string} name
 * @param {number} across
 * @param {number} up
 * @param {number} along
 * @returns {Readonly<Orientation>}
 */
function orientation(name, across, up, along) {
    return Object.freeze({ name, across, up, along, rise: up - across, away: along - across });
}

/** From above, along -z; a drawing of two axes has no other one. */
export const TOP = orientation('Top', 0, 1, 2);
/** From the front, along y. */
const FRONT = orientation('Front', 0, 2, 1);
/** From the right, along -x. */
const RIGHT = orientation('Right', 1, 2, 0);

export const ORIENTATIONS = Object.freeze([TOP, FRONT, RIGHT]);

/** The names of the axes. */
export const AXIS_NAMES = Object.freeze(['x', 'y', 'z']);

/**
 * The axes by which a place is seen that has so many numbers.
 * @param {Orientation} seen
 * @param {number} count 2, or 3 where it is known how far away the place is
 */
export function axesOfSeen({ across, up, along }, count = 2) {
    return [across, up, along].slice(0, count);
}

/**
 * The names of the axes that are seen: of the one to the right, and of the one up.
 * @param {Orientation} seen
 */
export function namesOfSeen(seen) {
    return axesOfSeen(seen).map((axis) => AXIS_NAMES[axis]);
}

/**
 * The numbers of a point in the order in which it is seen.
 * @param {Orientation} seen
 * @param {readonly number[]} point by x, y and, in a drawing of three axes, z
 */
export function asSeen(seen, point) {
    return axesOfSeen(seen, point.length).map((axis) => point[axis]);
}

/**
 * A displacement that is seen, by the axes of the drawing; along one that isn't known it is 0.
 * @param {Orientation} seen
 * @param {readonly number[]} by to the right, up and perhaps away
 * @param {number} axes of the drawing
 */
export function displacementOf(seen, by, axes) {
    const made = new Array(axes).fill(0);
    axesOfSeen(seen, Math.min(by.length, axes)).forEach((axis, at) => {
        made[axis] = by[at];
    });
    return /** @type {number[]} */ (made);
}
