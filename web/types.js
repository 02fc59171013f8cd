/* Types of elements in words. */

/** @type {Readonly<Record<number, string>>} */
const TYPE_NAMES = Object.freeze({
    0: 'nothing', 1: 'cell library header', 2: 'cell', 3: 'line', 4: 'line string', 5: 'group data', 6: 'shape',
    7: 'text node', 8: 'digitizer setup', 9: 'design file header', 10: 'level symbology', 11: 'curve',
    12: 'complex chain', 14: 'complex shape', 15: 'ellipse', 16: 'arc', 17: 'text', 18: 'surface', 19: 'solid',
    21: 'B-spline pole', 22: 'point string', 23: 'cone', 24: 'B-spline surface', 25: 'B-spline surface boundary',
    26: 'B-spline knot', 27: 'B-spline curve', 28: 'B-spline weight factor', 33: 'dimension',
    34: 'shared cell definition', 35: 'shared cell', 37: 'tag value', 66: 'application data', 87: 'raster header',
    88: 'raster component',
});

/**
 * A type in words, or its number where it has none.
 * @param {number} type
 * @returns {string}
 */
export function typeName(type) {
    return TYPE_NAMES[type] || 'element of type ' + type;
}
