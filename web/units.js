/* Displacements in words. */

/**
 * What two characters are known to stand for, in metres, each as a fraction; a foot is the international one.
 * @type {Readonly<Record<string, readonly number[]>>}
 */
const METRES = Object.freeze({
    'm': [1, 1], 'km': [1000, 1], 'dm': [1, 10], 'cm': [1, 100], 'mm': [1, 1000], 'um': [1, 1000000],
    'ft': [3048, 10000], "'": [3048, 10000], 'in': [254, 10000], '"': [254, 10000], 'yd': [9144, 10000],
    'mi': [1609344, 1000],
});

const WAYS = Object.freeze([['east', 'west'], ['north', 'south'], ['up', 'down']]);

/**
 * A displacement in words: how far to the east, north and up in master units where these are known, and in metres where
 * their name is; else in units of resolution.
 * @param {import('./tcb.js').Units} units
 * @param {number[]} shift
 */
export function shiftSaid({ subunits, resolution, master }, shift) {
    const said = shift.join(',') + ' units of resolution', inMaster = subunits * resolution;
    if (inMaster === 0) {
        return 'by ' + said;
    }
    const told = shift.map((it, axis) => ({ by: Math.abs(it), way: WAYS[axis][it < 0 ? 1 : 0] }))
        .filter(({ by }) => by !== 0);
    const ways = told.length > 0 ? told : [{ by: 0, way: WAYS[0][0] }];
    const masters = ways.map(({ by, way }) => shortest(by / inMaster) + ' ' + (master || 'master units') + ' ' + way);
    const [over, under] = METRES[master.toLowerCase()] || [1, 1];
    const more = over === under ? ''
        : ', or ' + listed(ways.map(({ by }) => shortest(by * over / (under * inMaster)) + ' m'));
    return listed(masters) + more + ' (' + said + ')';
}

/**
 * How many metres a unit of resolution is, where the name of the master unit is known; else null.
 * @param {import('./tcb.js').Units} units
 * @returns {number | null}
 */
export function metresOfUnit({ subunits, resolution, master }) {
    const metres = METRES[master.toLowerCase()];
    return metres === undefined || subunits * resolution === 0 ? null : metres[0] / metres[1] / (subunits * resolution);
}

/**
 * Words as a row of them is spoken: '1', '1 and 2', '1, 2 and 3'.
 * @param {string[]} words
 */
function listed(words) {
    return words.length === 1 ? words[0] : words.slice(0, -1).join(', ') + ' and ' + words[words.length - 1];
}

/**
 * A number with at most 15 digits, without needless ones behind the point, and without an exponent.
 * @param {number} value
 */
export function shortest(value) {
    const rounded = Number(value.toPrecision(15));
    return Math.abs(rounded) < 1e-6 && rounded !== 0 ? rounded.toFixed(20).replace(/0+$/, '') : String(rounded);
}
