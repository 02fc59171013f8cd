/* Points and displacements that are typed. */

import { TOP, asSeen, axesOfSeen, namesOfSeen } from './orientation.js';

/**
 * What a typed point is read by: how many axes it has, units of resolution in a unit that is typed and the origin that
 * it is counted from there, in units of resolution; the point before as it is seen, null where there is none; whether
 * it is a displacement, which isn't counted from anywhere; and the view, where it isn't the one from above.
 * @typedef {{ axes: number, unit: number, origin: readonly number[], last: readonly number[] | null,
 *     isDisplacement: boolean, orientation?: import('./orientation.js').Orientation }} TypedContext
 */

/** A point as it is seen, in whole units, or in a sentence why it is none.
 * @typedef {{ point: number[], fault: '' } | { point: null, fault: string }} TypedPoint
 */

const DECIMAL = /^[-+]?(\d+\.?\d*|\.\d+)$/;
const MOST_DIGITS = 15;           // of a product, so that half a unit comes out as just that

/**
 * A number that is written in a field, times a factor, as a whole number; null where it is none.
 * @param {string} text
 * @param {number} factor
 */
export function unitsIn(text, factor) {
    const trimmed = text.trim().replace('−', '-').replace(',', '.');
    if (!(factor === 1 ? /^[-+]?\d+$/ : DECIMAL).test(trimmed)) {
        return null;
    }
    return wholeOf(Number(trimmed) * factor, 0);
}

/**
 * The whole number that is nearest to a product and a base together; the product is one of decimal numbers.
 * @param {number} product
 * @param {number} base
 */
function wholeOf(product, base) {
    return Math.round(Number(product.toPrecision(MOST_DIGITS)) + base) || 0;
}

/**
 * The point that is typed: `x,y`, `@dx,dy` from the point before, or `@length<angle` from there, the angle in degrees
 * against the clock from x; of three axes with z, too. Two numbers are along the axes that are seen, and three along x,
 * y and z. A `u` at the end says that it is in units of resolution. With a semicolon between its numbers these may have
 * a decimal comma.
 * @param {string} text
 * @param {TypedContext} context
 * @returns {TypedPoint}
 */
export function typedPoint(text, context) {
    const [, at, numbers, inUnits] = /^\s*(@?)(.*?)\s*(u?)\s*$/i.exec(text.replaceAll('−', '-')) || ['', '', '', ''];
    const isFromLast = at !== '' && !context.isDisplacement, own = inUnits === ''
        ? context : { ...context, unit: 1, origin: [0, 0, 0] };
    if (isFromLast && context.last === null) {
        return faulty('@ counts from the point before, and there is none yet.');
    }
    const read = numbers.includes('<') ? polarIn(numbers, own) : valuesIn(numbers, own);
    if (typeof read === 'string') {
        return faulty(read);
    }
    if (numbers.includes('<') && at === '' && !context.isDisplacement) {
        return faulty('A length and an angle count from the point before: @' + numbers + '.');
    }
    const { orientation = TOP } = context, values = read.length === 3 ? asSeen(orientation, read) : read;
    const base = isFromLast ? context.last || [] : context.isDisplacement || numbers.includes('<') ? []
        : axesOfSeen(orientation, 3).map((axis) => own.origin[axis]);
    const point = pointFrom(values, base, context);
    return point.every((value) => Number.isSafeInteger(value)) ? { point, fault: '' } : faulty('That is too far away.');
}

/**
 * @param {string} fault
 * @returns {TypedPoint}
 */
function faulty(fault) {
    return { point: null, fault };
}

/**
 * Whole units of what was read, counted from a base. Of three axes a point without a z has that of the point before.
 * @param {number[]} values in units of resolution
 * @param {readonly number[]} base
 * @param {TypedContext} context
 */
function pointFrom(values, base, { axes, last, isDisplacement }) {
    const point = values.map((value, axis) => wholeOf(value, base[axis] || 0));
    return axes === 3 && point.length === 2 ? [...point, isDisplacement ? 0 : last?.[2] ?? 0] : point;
}

/**
 * The numbers of each axis in units of resolution, or why they are none.
 * @param {string} text
 * @param {TypedContext} context
 */
function valuesIn(text, { axes, unit, orientation = TOP }) {
    const parts = text.includes(';') ? text.split(';') : text.trim().split(/\s*,\s*|\s+/);
    const values = parts.map((part) => unitsIn(part, unit)), [right, up] = namesOfSeen(orientation);
    const wanted = right + ',' + up + (axes === 3 ? ' or x,y,z' : '');
    if (parts.length < 2 || parts.length > axes) {
        return 'Type ' + wanted + ', @d' + right + ',d' + up + ' or @length<angle.';
    }
    return values.includes(null) ? notNumbers(text, unit) : scaled(parts, unit);
}

/**
 * Numbers times a unit, not yet rounded.
 * @param {string[]} parts
 * @param {number} unit
 */
function scaled(parts, unit) {
    return parts.map((part) => Number(part.trim().replace(',', '.')) * unit);
}

/**
 * A displacement by its length and its angle in units of resolution, or why it is none.
 * @param {string} text
 * @param {TypedContext} context
 */
function polarIn(text, { unit }) {
    const parts = text.split('<').map((part) => part.trim().replace(',', '.').replace(/°$/, ''));
    if (parts.length !== 2 || !parts.every((part) => DECIMAL.test(part))) {
        return '‘' + text + '’ isn’t a length and an angle in degrees, such as @12.5<90.';
    }
    const [length, degrees] = parts.map(Number), angle = degrees * Math.PI / 180;
    return [length * unit * Math.cos(angle), length * unit * Math.sin(angle)];
}

/**
 * @param {string} text
 * @param {number} unit
 */
function notNumbers(text, unit) {
    return '‘' + text.trim() + '’ isn’t a position: ' + (unit === 1
        ? 'units of resolution are whole numbers, such as 1500,-560.' : 'its numbers are such as 12.5,-3.');
}
