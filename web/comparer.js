/* Has two drawings compared beside the page. */

import { byId } from './dom.js';

/** @typedef {import('./comparing.js').Change} Change */

/**
 * What the worker tells: how much is done, from 0 to 1, some of the rows, or that these are all.
 * @typedef {{ share?: number, rows?: Change[], isDone?: boolean }} Told
 */

/**
 * What differs between two drawings, from one to the other as their bytes are, as `compared` gives it. It is found in a
 * worker, which goes with all its memory when it is done, or when the signal comes: the promise is then broken with the
 * signal's reason.
 * @param {{ bytes: Uint8Array }} before
 * @param {{ bytes: Uint8Array }} after
 * @param {(share: number) => void} onProgress is told now and then how much is done, from 0 to 1
 * @param {AbortSignal | null} signal
 * @returns {Promise<Change[]>}
 */
export function compareInWorker(before, after, onProgress = () => {}, signal = null) {
    const source = new Blob([byId('comparer-part').textContent || ''], { type: 'text/javascript' });
    const place = URL.createObjectURL(source), worker = new Worker(place);
    URL.revokeObjectURL(place);
    const stopped = new AbortController();
    /** @type {Promise<Change[]>} */
    const found = new Promise((resolve, reject) => {
        /** @type {Change[]} */
        const all = [];
        worker.onmessage = (/** @type {MessageEvent<Told>} */ { data: { share, rows = [], isDone } }) => {
            rows.forEach((row) => all.push(row));
            if (share !== undefined) {
                onProgress(share);
            }
            if (isDone) {
                resolve(all);
            }
        };
        worker.onerror = (event) => reject(new Error(event.message || 'the worker couldn’t be started'));
        if (signal !== null) {
            signal.throwIfAborted();
            signal.addEventListener('abort', () => reject(signal.reason), { signal: stopped.signal });
        }
        const bytes = [before.bytes.slice(), after.bytes.slice()];
        worker.postMessage({ before: bytes[0], after: bytes[1] }, [bytes[0].buffer, bytes[1].buffer]);
    });
    return found.finally(() => {
        stopped.abort();
        worker.terminate();
    });
}
