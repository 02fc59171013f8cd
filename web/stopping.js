/* What a step waits for, and is stopped in. */

import { Drawing } from './drawing.js';
import { Stopped } from './queue.js';

/**
 * Ends with what a promise gives; where it is broken since the signal came, by Stopped.
 * @template T
 * @param {AbortSignal} signal
 * @param {Promise<T>} promise
 * @returns {Promise<T>}
 */
export async function endedBy(signal, promise) {
    try {
        return await promise;
    } catch (why) {
        throw signal.aborted ? new Stopped('stopped') : why;
    }
}

/**
 * Reads a drawing in slices, or gives the fault that keeps it from opening.
 * @param {string} name
 * @param {Uint8Array} bytes
 * @param {AbortSignal} signal
 */
export function readOf(name, bytes, signal) {
    return endedBy(signal, Drawing.read(name, bytes, signal));
}
