/* How long an element is and which area it has, by the points that it holds. */

import { TYPE } from './format.js';
import { areaOf, areaSaid, lengthOf, lengthSaid } from './measuring.js';
import { AXIS_NAMES, asSeen } from './orientation.js';

/** @typedef {import('./records.js').Records} Records */

/** @type {ReadonlySet<number>} */
const STRAIGHT = new Set([TYPE.line, TYPE.string, TYPE.shape]);
/** @type {ReadonlySet<number>} */
const CHAINS = new Set([TYPE.chain, TYPE.complexShape]);

/**
 * The terms of an element's size with what is said of each; none where it isn't drawn by straight lines.
 * @param {import('./words.js').Words} words
 * @param {import('./scene.js').Scene} scene
 * @param {number} number
 * @returns {[string, string][]}
 */
export function sizesOf(words, { records, state }, number) {
    const type = state.typeOf(number);
    if (STRAIGHT.has(type)) {
        return sizesSaid(words, [pointsOf(records, state.record[number])], type, records);
    }
    if (!CHAINS.has(type)) {
        return [];
    }
    const members = membersOf(records, state, number);
    if (!members.every((it) => STRAIGHT.has(records.type[it]))) {
        return [['length, area', 'not known here: it has members that aren’t straight']];
    }
    return members.length === 0 ? [] : sizesSaid(words, members.map((it) => pointsOf(records, it)), type, records);
}

/**
 * The records of a chain's members, but those that are marked deleted in a chain that isn't.
 * @param {Records} records
 * @param {import('./state.js').State} state
 * @param {number} number
 * @returns {number[]}
 */
function membersOf(records, state, number) {
    const isDead = records.isDeleted(state.record[number]);
    return Array.from({ length: state.end[number] - number - 1 }, (_, at) => state.record[number + 1 + at])
        .filter((it) => !CHAINS.has(records.type[it]) && (isDead || !records.isDeleted(it)));
}

/**
 * The points that a record holds, with all their axes.
 * @param {Records} records
 * @param {number} record
 */
function pointsOf(records, record) {
    const { axes } = records, axisList = [0, 1, 2].slice(0, axes);
    return Array.from({ length: records.points[record] }, (_, point) => (
        axisList.map((axis) => records.coordinate(record, point, axis))));
}

/**
 * Length and area of paths end to end; of what is open it is said so.
 * @param {import('./words.js').Words} words
 * @param {number[][][]} paths
 * @param {number} type
 * @param {Records} records
 * @returns {[string, string][]}
 */
function sizesSaid(words, paths, type, { axes, orientation }) {
    const length = paths.reduce((sum, path) => sum + lengthOf(path), 0), isClosed = isOneRound(paths);
    /** @type {[string, string][]} */
    const rows = [[isClosed ? 'perimeter' : 'length', lengthSaid(words, length)]];
    if (isClosed) {
        const area = areaOf(paths.flat().map((point) => asSeen(orientation, point)));
        const view = axes === 2 ? '' : ', as seen along ' + AXIS_NAMES[orientation.along];
        rows.push(['area', areaSaid(words, area) + view]);
    } else if (type !== TYPE.line) {
        rows.push(['area', 'not closed']);
    }
    return rows;
}

/**
 * Whether each path begins where the one before ends, and the first where the last one does.
 * @param {number[][][]} paths
 */
function isOneRound(paths) {
    return paths.flat().length > 3 && paths.every((path, at) => {
        const before = paths[(at || paths.length) - 1], end = before[before.length - 1];
        return path.length > 0 && end !== undefined && path[0].every((it, axis) => it === end[axis]);
    });
}
