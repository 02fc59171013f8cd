/* Keeps the work on the drawing that is open, one record for each time that a drawing is opened. */

import { recordOf, sorted } from './kept.js';

/** @typedef {import('./document.js').Document} Document */
/** @typedef {import('./kept.js').Kept} Kept */
/** @typedef {import('./store.js').Store} Store */

const NO_SUM = 'This browser can’t keep the work on this drawing: save it before you leave.';
const NOT_KEPT = 'The browser doesn’t let the page keep this work: save it before you leave.';
const NO_ROOM = 'The browser has no room to keep this work: save it before you leave.';

/** @param {unknown} why */
function isFull(why) {
    return why instanceof Error && why.name === 'QuotaExceededError';
}

export class Keeper {
    /**
     * @param {Store} store
     * @param {(bytes: Uint8Array) => Promise<string>} digest the SHA-256 of bytes
     * @param {() => number} now milliseconds since 1970
     */
    constructor(store, digest, now) {
        this.store = store;
        this.digest = digest;
        this.now = now;
        /**
         * The records that had to go for want of room, which nobody was told of yet.
         * @type {Kept[]}
         */
        this.gone = [];
        /** Why the work can't be kept, or nothing. */
        this.fault = '';
        /** Whether the record is in the store. */
        this.isThere = false;
        this.id = crypto.randomUUID();
        /**
         * The record that this one goes on from.
         * @type {{ id: string, time: number } | null}
         */
        this.from = null;
        /**
         * The SHA-256 of second drawings.
         * @type {Map<Uint8Array, string>}
         */
        this.digests = new Map();
    }

    /** Begins a record of its own for what is done from now on. */
    begin() {
        this.id = crypto.randomUUID();
        this.from = null;
        this.fault = '';
        this.isThere = false;
        this.digests.clear();
    }

    /**
     * Goes on from a record: what is done from now on has a record of its own, behind that one.
     * @param {Kept} record
     */
    goOn(record) {
        this.begin();
        this.from = { id: record.id, time: record.time };
    }

    /**
     * Keeps what was done to a document, as it is now. Where that fails `fault` says so until it goes well.
     * @param {Document} document
     */
    async keep(document) {
        if (document.original.digest === '') {
            this.fault = NO_SUM;
            return;
        }
        if (document.acts.length === 0 && document.undone.length === 0 && !this.isThere) {
            return;
        }
        try {
            await this.putWithRoom(recordOf(document, this.id, await this.importsOf(document), this.from, this.now()));
            this.isThere = true;
            this.fault = '';
        } catch (why) {
            this.fault = isFull(why) ? NO_ROOM : NOT_KEPT;
        }
    }

    /**
     * Puts a record; where there is no room the oldest other ones go, and it is told.
     * @param {Kept} record
     */
    async putWithRoom(record) {
        for (;;) {
            try {
                await this.store.put(record);
                return;
            } catch (why) {
                if (!isFull(why) || !await this.dropOldest()) {
                    throw why;
                }
            }
        }
    }

    /** Removes the oldest record of other work, and says whether there was one. The record that this work goes on from
        stays: it has what this one couldn't keep. */
    async dropOldest() {
        const own = [this.id, this.from === null ? '' : this.from.id];
        const others = sorted(await this.store.all()).kept.filter(({ id }) => !own.includes(id));
        const oldest = others.pop();
        if (oldest === undefined) {
            return false;
        }
        await this.store.remove(oldest.id);
        this.gone.push(oldest);
        return true;
    }

    /** @param {Document} document */
    async importsOf({ files }) {
        const imports = [];
        for (const [name, bytes] of files) {
            const digest = this.digests.get(bytes) || await this.digest(bytes);
            this.digests.set(bytes, digest);
            imports.push({ name, digest });
        }
        return imports;
    }

    /** Removes the record of the work that is open, since all of it is in a file, or was discarded; and the record that
        it goes on from, where that has stayed as it was. */
    async drop() {
        const { id, from } = this;
        try {
            if (from !== null) {
                await this.store.removeOf(from.id, from.time);
            }
            await this.store.remove(id);
            this.isThere = false;
        } catch {
            // What can't be reached is offered again, and can be discarded then.
        }
    }

    /**
     * What is kept for a drawing, the newest first.
     * @param {string} digest
     * @returns {Promise<Kept[]>}
     */
    async keptOf(digest) {
        const { kept } = await this.list();
        return kept.filter((it) => it.digest === digest && it.id !== this.id);
    }

    /** All that is kept, and what is set aside; none where the store can't be read. */
    async list() {
        try {
            return sorted(await this.store.all());
        } catch {
            return { kept: [], aside: [] };
        }
    }

    /** @param {string} id */
    async discard(id) {
        await this.store.remove(id);
    }
}
