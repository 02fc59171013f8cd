/* Work that is kept in the browser until it is saved or discarded: what was done to a drawing, never a drawing. */

import { isAct, stagesOf } from './acts.js';

/** The shape of the records. One that has another is set aside. */
const SHAPE = 2;

/** @typedef {import('./acts.js').Act} Act */
/** @typedef {import('./document.js').Document} Document */

/**
 * What was done to a drawing since it was opened, with the second drawings that it wants, by name and SHA-256. `from`
 * is the record that was continued, with its time.
 * @typedef {object} Kept
 * @property {string} id
 * @property {number} shape
 * @property {string} digest the SHA-256 of the drawing
 * @property {string} name
 * @property {number} size bytes of the drawing
 * @property {readonly Act[]} acts
 * @property {readonly Act[]} undone
 * @property {{ name: string, digest: string }[]} imports
 * @property {{ id: string, time: number } | null} from
 * @property {number} time milliseconds since 1970
 */

/**
 * A record that isn't one of ours, and why it isn't offered.
 * @typedef {{ id: string, why: string }} SetAside
 */

/**
 * Whether something that stands in the store is a record of this shape.
 * @param {unknown} it
 * @returns {it is Kept}
 */
export function isKept(it) {
    const { shape, id, digest, name, size, time, acts, undone, imports, from } = heldIn(it);
    return shape === SHAPE && typeof id === 'string' && typeof name === 'string'
        && typeof digest === 'string' && /^[0-9a-f]{64}$/.test(digest)
        && [size, time].every((value) => Number.isFinite(value) && Number(value) >= 0)
        && [acts, undone].every((all) => Array.isArray(all) && all.every(isAct))
        && Array.isArray(imports) && imports.every(isImport)
        && (from === null || typeof heldIn(from).id === 'string');
}

/** @param {unknown} it */
function isImport(it) {
    const { name, digest } = heldIn(it);
    return typeof name === 'string' && typeof digest === 'string';
}

/**
 * What an object holds; of anything else nothing.
 * @param {unknown} it
 * @returns {Record<string, unknown>}
 */
function heldIn(it) {
    return typeof it === 'object' && it !== null ? /** @type {Record<string, unknown>} */ (it) : {};
}

/**
 * What stands in the store, apart: records of work, the newest first, and what is set aside. A record that was
 * continued and has stayed as it was then isn't among them, since the record that goes on from it has all of it.
 * @param {unknown[]} all
 * @returns {{ kept: Kept[], aside: SetAside[] }}
 */
export function sorted(all) {
    const kept = all.filter(isKept), times = new Map(kept.map(({ id, time }) => [id, time]));
    const continued = new Set(kept.flatMap(({ from }) => (from !== null && times.get(from.id) === from.time
        ? [from.id] : [])));
    const aside = all.filter((it) => !isKept(it)).map((it) => ({
        id: String(heldIn(it).id), why: 'it is damaged, or of another version of this page',
    }));
    return { kept: kept.filter(({ id }) => !continued.has(id)).sort((one, other) => other.time - one.time), aside };
}

/**
 * How many lines and patch files a record has, and how many acts that were taken back.
 * @param {Kept} record
 */
export function countsOf({ acts, undone }) {
    const stages = stagesOf(acts);
    return {
        lines: stages.reduce((sum, { lines }) => sum + lines.length, 0), patches: stages.length - 1,
        undone: undone.length,
    };
}

/**
 * The record of a document.
 * @param {Document} document
 * @param {string} id
 * @param {{ name: string, digest: string }[]} imports
 * @param {{ id: string, time: number } | null} from
 * @param {number} time
 * @returns {Kept}
 */
export function recordOf({ original, acts, undone }, id, imports, from, time) {
    const { digest, name, bytes } = original;
    return { id, shape: SHAPE, digest, name, size: bytes.length, acts, undone, imports, from, time };
}
