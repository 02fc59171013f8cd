/* The numbers of a design file (docs/FORMAT.md): words, longs, range numbers, and the doubles of the TCB. */

/**
 * A word: two bytes, the low one first, without sign.
 * @param {Uint8Array} bytes
 * @param {number} at
 */
export function wordAt(bytes, at) {
    return bytes[at] | bytes[at + 1] << 8;
}

/**
 * A long: two words, the high one first, with sign.
 * @param {Uint8Array} bytes
 * @param {number} at
 */
export function longAt(bytes, at) {
    return (bytes[at] | bytes[at + 1] << 8) << 16 | bytes[at + 2] | bytes[at + 3] << 8;
}

/**
 * A range number: in the order of a long, and 2147483648 more than it means.
 * @param {Uint8Array} bytes
 * @param {number} at
 */
export function rangeNumberAt(bytes, at) {
    return longAt(bytes, at) ^ -2147483648;
}

/**
 * A VAX D floating number of eight bytes.
 * @param {Uint8Array} bytes
 * @param {number} at
 */
export function vaxDoubleAt(bytes, at) {
    const first = wordAt(bytes, at), exponent = first >> 7 & 0xFF;
    if (exponent === 0) {
        return 0;
    }
    // the three lower words have 48 bits, which is exact; only the sum with the highest is rounded
    const low = wordAt(bytes, at + 6) + 0x10000 * (wordAt(bytes, at + 4) + 0x10000 * wordAt(bytes, at + 2));
    const value = ((first & 0x7F | 0x80) * 2 ** 48 + low) * 2 ** (exponent - 128 - 56);
    return first & 0x8000 ? -value : value;
}
