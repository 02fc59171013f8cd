/* Lines of a script as strings of bytes: each sign stands for one byte, so what is opened is saved as it was. */

/**
 * Text that is typed as a string of its bytes in UTF-8.
 * @param {string} text
 */
export function typed(text) {
    return byteString(new TextEncoder().encode(text));
}

/**
 * @param {Uint8Array} bytes
 * @returns {string}
 */
export function byteString(bytes) {
    const pieces = [];
    for (let at = 0; at < bytes.length; at += 8192) {
        pieces.push(String.fromCharCode(...bytes.subarray(at, at + 8192)));
    }
    return pieces.join('');
}

/**
 * @param {string} text
 * @returns {Uint8Array}
 */
export function bytesOf(text) {
    const bytes = new Uint8Array(text.length);
    for (let at = 0; at < text.length; at++) {
        bytes[at] = text.charCodeAt(at);
    }
    return bytes;
}
