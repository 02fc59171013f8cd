/* Which bytes of a drawing a run of the program has changed. */

const NEAR = 16;                  // units of four bytes that are the same and still belong to one piece

/** @typedef {import('./drawing.js').Changes} Changes */

/**
 * What differs in the body, in pieces, and what stands behind it: all that is left of OUT but the tail, which has moved
 * behind what is appended.
 * @param {Uint8Array} before IN
 * @param {number} bodyLength how many bytes of IN are its elements
 * @param {Uint8Array} after OUT
 * @returns {Changes}
 */
export function changesBetween(before, bodyLength, after) {
    /** @type {number[]} */
    const starts = [];
    /** @type {number[]} */
    const lengths = [];
    let total = 0;
    for (const [start, end] of pieces(before, after, bodyLength)) {
        starts.push(start);
        lengths.push(end - start);
        total += end - start;
    }
    const bytes = new Uint8Array(total);
    let to = 0;
    starts.forEach((start, index) => {
        bytes.set(after.subarray(start, start + lengths[index]), to);
        to += lengths[index];
    });
    return { starts, lengths, bytes, appended: after.slice(bodyLength, appendedEnd(after, bodyLength)) };
}

/**
 * Where what is appended ends: with the file, or where the mark FF FF stands in the place of an element.
 * @param {Uint8Array} bytes
 * @param {number} start
 */
function appendedEnd(bytes, start) {
    let at = start;
    while (at < bytes.length && !(bytes[at] === 0xFF && bytes[at + 1] === 0xFF)) {
        at += 4 + 2 * (bytes[at + 2] | bytes[at + 3] << 8);
    }
    return at;
}

/**
 * The pieces of the first `length` bytes that differ, each from about its first byte to about behind its last.
 * @param {Uint8Array} before
 * @param {Uint8Array} after
 * @param {number} length
 * @returns {Generator<[number, number]>}
 */
function* pieces(before, after, length) {
    const olds = quadsOf(before, length), news = quadsOf(after, length), count = olds.length;
    let start = -1, last = -1;
    for (let at = 0; at < count; at++) {
        if (olds[at] !== news[at]) {
            if (start >= 0 && at - last > NEAR) {
                yield [4 * start, 4 * last + 4];
                start = -1;
            }
            start = start < 0 ? at : start;
            last = at;
        }
    }
    if (start >= 0) {
        yield [4 * start, 4 * last + 4];
    }
    const rest = 4 * count;
    if (rest < length && (before[rest] !== after[rest] || before[rest + 1] !== after[rest + 1])) {
        yield [rest, length];
    }
}

/**
 * Bytes as numbers of four bytes each, as many as there are whole ones.
 * @param {Uint8Array} bytes
 * @param {number} length
 */
function quadsOf(bytes, length) {
    const aligned = bytes.byteOffset % 4 === 0 ? bytes : bytes.slice();
    return new Uint32Array(aligned.buffer, aligned.byteOffset, length >> 2);
}
