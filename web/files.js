/* Files that are opened: by a button, by dropping them, or with the page. */

import { byId } from './dom.js';

/** @typedef {import('./second_files.js').NamedFile} NamedFile */

/**
 * Ends the choice that is open.
 * @type {(file: File | null) => void}
 */
let endChoice = () => {};

/**
 * Asks for one file, and gives it, or null where none was chosen or another one is asked for meanwhile.
 * @param {string} [accept] the endings that are offered first
 * @returns {Promise<File | null>}
 */
function chosenFile(accept = '') {
    const field = /** @type {HTMLInputElement} */ (byId('second-file'));
    endChoice(null);
    field.accept = accept;
    field.value = '';
    return new Promise((resolve) => {
        endChoice = resolve;
        field.onchange = () => resolve(field.files && field.files[0]);
        field.addEventListener('cancel', () => resolve(null), { once: true });
        field.click();
    });
}

/**
 * The same, with the file's bytes.
 * @param {string} [accept]
 * @returns {Promise<NamedFile | null>}
 */
export async function chosenBytes(accept = '') {
    const file = await chosenFile(accept);
    return file === null ? null : readFile(file);
}

/**
 * @param {File} file
 * @returns {Promise<{ name: string, bytes: Uint8Array }>}
 */
export async function readFile(file) {
    return { name: file.name, bytes: new Uint8Array(await file.arrayBuffer()) };
}

/**
 * Bytes that were packed by gzip, and stand in base64 in the page under a name; null where none do.
 * @param {string} id
 * @returns {Promise<Uint8Array | null>}
 */
export async function partOf(id) {
    const part = document.getElementById(id);
    const text = part === null || part.textContent === null ? '' : part.textContent.trim();
    if (text === '') {
        return null;
    }
    const packed = Uint8Array.from(atob(text), (sign) => sign.charCodeAt(0));
    // @ts-ignore: older lists of what a browser has leave it out
    const stream = new Blob([packed]).stream().pipeThrough(new DecompressionStream('gzip'));
    return new Uint8Array(await new Response(stream).arrayBuffer());
}
