/* The linkages of an element (docs/FORMAT.md, Linkages). */

import { DMRS_LENGTH, LINKAGE_LEAST, USER_BIT } from './tables.js';

/**
 * A linkage; its place counts from the element's start.
 * @typedef {{ at: number, length: number, kind: 'dmrs' | 'user' | 'rest' }} Linkage
 */

/**
 * The linkages of attribute data that begin at a place of an element.
 * @param {Uint8Array} element
 * @param {number} start
 * @returns {Linkage[]}
 */
export function linkagesOf(element, start) {
    const found = [];
    for (let at = start; at < element.length;) {
        const linkage = linkageAt(element, at);
        found.push(linkage);
        at += linkage.length;
    }
    return found;
}

/**
 * @param {Uint8Array} element
 * @param {number} at
 * @returns {Linkage}
 */
function linkageAt(element, at) {
    const left = element.length - at, [first, second] = element.subarray(at, at + 2);
    if (left >= LINKAGE_LEAST) {
        if (first === 0 && (second === 0 || second === 128)) {
            return left < DMRS_LENGTH ? { at, length: left, kind: 'rest' } : { at, length: DMRS_LENGTH, kind: 'dmrs' };
        }
        if (second & USER_BIT && 2 + 2 * first <= left) {
            return { at, length: 2 + 2 * first, kind: 'user' };
        }
    }
    return { at, length: left, kind: 'rest' };
}
