/* What is shown as GeoJSON: a feature for each element that is drawn, in master units where the drawing has them. */

import { DRAWN, DRAWN_OF, TYPE } from './format.js';
import { TOP } from './orientation.js';
import { isCurved } from './outlines.js';

const FINENESS = 4;               // of outlines of arcs, curves and B-splines

/** @typedef {import('./records.js').Records} Records */
/** @typedef {import('./words.js').Words} Words */

/**
 * The features of what a scene shows, as the text of a file.
 * @param {Pick<import('./scene.js').Scene, 'records' | 'order'>} scene
 * @param {Words} words
 */
export function featuresOf(scene, words) {
    const rows = [];
    for (const record of scene.order) {
        const geometry = geometryOf(scene.records, record, words);
        if (geometry !== null) {
            rows.push(JSON.stringify({ type: 'Feature', properties: propertiesOf(scene.records, record), geometry }));
        }
    }
    return '{"type":"FeatureCollection","features":[\n' + rows.join(',\n') + '\n]}\n';
}

/**
 * @param {Records} records
 * @param {number} record
 */
function propertiesOf(records, record) {
    const label = records.labelOf(record), text = label === null ? null
        : typeof label === 'string' ? label : label.characters;
    return {
        number: records.number[record], type: records.type[record], level: records.level[record],
        color: records.colour[record], weight: records.weight[record], style: records.style[record],
        ...(text === null ? {} : { text }),
    };
}

/**
 * The geometry of a record, or null where it has none.
 * @param {Records} records
 * @param {number} record
 * @param {Words} words
 */
function geometryOf(records, record, words) {
    const type = records.type[record], points = pointsDrawn(records, record).map((point) => inMaster(words, point));
    if (points.length === 0) {
        return null;
    }
    if (DRAWN_OF[type] === DRAWN.text || DRAWN_OF[type] === DRAWN.cell || DRAWN_OF[type] === DRAWN.node) {
        return { type: 'Point', coordinates: points[0] };
    }
    if (type === TYPE.shape || type === TYPE.ellipse) {
        const isClosed = points[0].every((value, axis) => value === points[points.length - 1][axis]);
        return { type: 'Polygon', coordinates: [isClosed ? points : [...points, points[0]]] };
    }
    return points.length === 1 ? { type: 'Point', coordinates: points[0] }
        : { type: 'LineString', coordinates: points };
}

/**
 * The points that a record is drawn by, x and y and, where it holds it, z.
 * @param {Records} records
 * @param {number} record
 * @returns {number[][]}
 */
function pointsDrawn(records, record) {
    const outline = isCurved(records.type[record]) ? records.outlines.made(record, FINENESS, TOP) : [], points = [];
    for (let at = 0; at < outline.length; at += 2) {
        points.push([outline[at], outline[at + 1]]);
    }
    for (let point = 0; outline.length === 0 && point < records.points[record]; point++) {
        points.push(Array.from({ length: records.axes }, (_, axis) => records.coordinate(record, point, axis)));
    }
    return points;
}

/**
 * A point as the file has it.
 * @param {Words} words
 * @param {number[]} point
 */
function inMaster(words, point) {
    return words.hasMaster ? point.map((value, axis) => words.toMaster(value, axis)) : point;
}
