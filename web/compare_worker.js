/* Compares two drawings beside the page. */

import { BareDrawing } from './bare.js';
import { compared } from './comparing.js';

const ROWS_AT_ONCE = 2000;        // of which the page takes over so many without a pause that is felt

/** @param {MessageEvent<{ before: Uint8Array, after: Uint8Array }>} event */
self.onmessage = ({ data: { before, after } }) => {
    const rows = compared(new BareDrawing(before), new BareDrawing(after), (share) => postMessage({ share }));
    for (let at = 0; at < rows.length; at += ROWS_AT_ONCE) {
        postMessage({ rows: rows.slice(at, at + ROWS_AT_ONCE) });
    }
    postMessage({ isDone: true });
};
