/* Rows of bytes. */

const FEW = 128;                  // bytes that are compared one by one

/**
 * Whether two rows of bytes are the same.
 * @param {Uint8Array} one
 * @param {Uint8Array} other
 */
export function isEqual(one, other) {
    if (one.length !== other.length) {
        return false;
    }
    const isQuick = one.length > FEW && one.byteOffset % 4 === 0 && other.byteOffset % 4 === 0;
    const quads = isQuick ? one.length >> 2 : 0;
    return isSameRow(quadsIn(one, quads), quadsIn(other, quads), 0) && isSameRow(one, other, 4 * quads);
}

/**
 * The first bytes of a row as numbers of four bytes each.
 * @param {Uint8Array} bytes
 * @param {number} count
 */
function quadsIn(bytes, count) {
    return count === 0 ? NO_QUADS : new Uint32Array(bytes.buffer, bytes.byteOffset, count);
}

const NO_QUADS = new Uint32Array(0);

/**
 * Whether two rows of one length are the same from a place on.
 * @template {Uint8Array | Uint32Array} Row
 * @param {Row} one
 * @param {Row} other
 * @param {number} start
 */
function isSameRow(one, other, start) {
    let at = start;
    while (at < one.length && one[at] === other[at]) {
        at++;
    }
    return at >= one.length;
}
