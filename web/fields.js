/* What a byte of an element is, in words. */

import { pointsCount, pointsPlace, textPlace } from './bodies.js';
import { linkagePlace } from './drawing.js';
import { CLASS, CLASS_OF } from './tables.js';

/** @typedef {{ content: Uint8Array, type: number, axes: number }} Content an element's bytes, its type, its axes */

const HEAD = Object.freeze([
    [1, 'level and bit C'], [2, 'type and deleted bit'], [4, 'number of words'], [16, 'low corner of the range'],
    [28, 'high corner of the range'], [30, 'graphic group'], [32, 'attribute index'], [34, 'properties'],
    [35, 'weight and style'], [36, 'colour'],
]);

/**
 * Where an element's points or its origin begin and end, 0 and 0 where none are read.
 * @param {Content} element
 * @returns {[number, number]}
 */
export function pointsSpan({ content, type, axes }) {
    const start = pointsPlace(type, axes);
    return start === 0 ? [0, 0] : [start, start + 4 * axes * pointsCount(content, 0, type)];
}

/**
 * The field that the byte at a place of an element belongs to.
 * @param {Content} element
 * @param {number} place
 */
export function fieldName(element, place) {
    if (CLASS_OF[element.type] === CLASS.silent && place >= 4) {
        return 'unread data';
    }
    const head = HEAD.find(([end]) => place < end);
    if (head) {
        return head[1];
    }
    return place >= linkagePlace(element.content) ? 'attribute data' : bodyField(element, place);
}

/**
 * @param {Content} element
 * @param {number} place
 */
function bodyField(element, place) {
    const { type, axes } = element;
    if (CLASS_OF[type] === CLASS.counted && place < 38) {
        return 'total';
    }
    if (type === 17 && textPlace(axes) <= place) {
        return 'characters';
    }
    const [start, end] = pointsSpan(element);
    if (start <= place && place < end) {
        return CLASS_OF[type] === CLASS.vertices ? 'point ' + (Math.floor((place - start) / (4 * axes)) + 1) : 'origin';
    }
    if (type === 17 && place >= 38 && place < start) {
        return place < 46 ? 'size' : 'rotation';
    }
    return type === 2 && place >= 38 && place < 42 ? 'name of the cell' : 'body';
}
