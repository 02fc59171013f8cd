/* Files that the page saves. */

import { make } from './dom.js';

/**
 * How files are called beside a drawing of this name.
 * @param {string} name
 */
export function namesOf(name) {
    const stem = name.replace(/\.dgn$/i, ''), end = name.slice(stem.length) || '.dgn';
    return {
        picture: stem + '.png', svg: stem + '.svg', features: stem + '.geojson',
        script: stem + '-edit.txt', out: stem + '-new' + end, patch: stem + '-edit.patch', mend: stem + '-mend.patch',
        between: (/** @type {number} */ index) => stem + '-' + index + end,
        scriptBefore: (/** @type {number} */ index) => stem + '-edit-' + index + '.txt',
    };
}

/** @typedef {import('./saver.js').Target} Target */

/**
 * A file that the browser lets the page write, and what asks for one: FileSystemFileHandle and showSaveFilePicker, as
 * much of them as is used here.
 * @typedef {{ write: (bytes: Uint8Array) => Promise<void>, close: () => Promise<void>,
 *     abort: () => Promise<void> }} Stream
 * @typedef {{ name: string, createWritable: () => Promise<Stream> }} FileHandle
 * @typedef {(options: { suggestedName: string }) => Promise<FileHandle>} Picking
 */

/**
 * Asks where a file is to be saved, where the browser lets a page write files, and then writes it whole or not at all;
 * otherwise the browser saves it among what is loaded down. None where the person cancels.
 * @param {string} name
 * @returns {Promise<Target | null>}
 */
export async function targetOf(name) {
    // Not every browser has it, nor has the checker's list of what a browser has.
    const { showSaveFilePicker: pick } = /** @type {{ showSaveFilePicker?: Picking }} */ (globalThis);
    if (typeof pick !== 'function') {
        return { name, put: async (bytes) => handOver(name, bytes) };
    }
    try {
        const handle = await pick({ suggestedName: name });
        return { name: handle.name, put: (bytes) => write(handle, bytes) };
    } catch (why) {
        if (why instanceof DOMException && why.name === 'AbortError') {
            return null;
        }
        return { name, put: async (bytes) => handOver(name, bytes) };
    }
}

/**
 * Writes a file. It is whole when its stream has closed: until then what stood there before stays.
 * @param {FileHandle} handle
 * @param {Uint8Array} bytes
 */
async function write(handle, bytes) {
    const stream = await handle.createWritable();
    try {
        await stream.write(bytes);
        await stream.close();
    } catch (why) {
        await stream.abort().catch(() => {});
        throw why;
    }
    return true;
}

/**
 * Hands a file to the browser, which saves it as it saves what is loaded down; nobody tells whether it did.
 * @param {string} name
 * @param {Uint8Array} bytes
 */
function handOver(name, bytes) {
    const link = /** @type {HTMLAnchorElement} */ (make('a', { download: name }));
    link.href = URL.createObjectURL(new Blob([/** @type {BlobPart} */ (bytes)], { type: 'application/octet-stream' }));
    link.click();
    setTimeout(() => URL.revokeObjectURL(link.href), 60000);
    return false;
}

/**
 * The SHA-256 of bytes in hexadecimal digits; nothing where the browser has no such sum.
 * @param {Uint8Array} bytes
 */
export async function sha256(bytes) {
    if (!globalThis.crypto || !crypto.subtle) {
        return '';
    }
    const sum = await crypto.subtle.digest('SHA-256', /** @type {BufferSource} */ (bytes));
    return [...new Uint8Array(sum)].map((byte) => byte.toString(16).padStart(2, '0')).join('');
}
