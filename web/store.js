/* The browser's own store of kept work, a database that stays when the page is closed. */

const DATABASE = 'dgnedit';
const RECORDS = 'kept';
const PATIENCE = 5000;            // milliseconds that an answer of the store may take

/**
 * What keeps records under their `id`. Each call may fail.
 * @typedef {object} Store
 * @property {() => Promise<unknown[]>} all
 * @property {(record: { id: string }) => Promise<void>} put
 * @property {(id: string) => Promise<void>} remove
 * @property {(id: string, time: number) => Promise<void>} removeOf removes a record where it is still that of a time
 */

/**
 * What a request of the database comes to.
 * @template T
 * @param {IDBRequest<T>} request
 * @returns {Promise<T>}
 */
function resultOf(request) {
    return new Promise((resolve, reject) => {
        request.onsuccess = () => resolve(request.result);
        request.onerror = () => reject(request.error);
    });
}

/**
 * What a promise gives, where that comes in time: a store that doesn't answer must not hold up the work.
 * @template T
 * @param {Promise<T>} promise
 * @returns {Promise<T>}
 */
function inTime(promise) {
    return new Promise((resolve, reject) => {
        const timer = setTimeout(() => reject(new DOMException('the store doesn’t answer', 'TimeoutError')), PATIENCE);
        promise.then(resolve, reject).finally(() => clearTimeout(timer));
    });
}

/**
 * @param {IDBTransaction} transaction
 * @returns {Promise<void>}
 */
function endOf(transaction) {
    return new Promise((resolve, reject) => {
        transaction.oncomplete = () => resolve();
        transaction.onabort = () => reject(transaction.error || new DOMException('it was aborted', 'AbortError'));
    });
}

/** @implements {Store} */
export class BrowserStore {
    constructor() {
        /** @type {Promise<IDBDatabase> | null} */
        this.opened = null;
    }

    /** The database; where it can't be opened it is tried anew at the next call. */
    async open() {
        this.opened = this.opened || this.openNow();
        try {
            return await inTime(this.opened);
        } catch (why) {
            this.opened = null;
            throw why;
        }
    }

    async openNow() {
        const request = indexedDB.open(DATABASE, 1);
        request.onupgradeneeded = () => request.result.createObjectStore(RECORDS, { keyPath: 'id' });
        const database = await resultOf(request);
        database.onversionchange = () => database.close();
        database.onclose = () => {
            this.opened = null;
        };
        return database;
    }

    /** @returns {Promise<unknown[]>} */
    async all() {
        const database = await this.open();
        return inTime(resultOf(database.transaction(RECORDS, 'readonly').objectStore(RECORDS).getAll()));
    }

    /** @param {{ id: string }} record */
    async put(record) {
        await this.change((records) => records.put(record));
    }

    /** @param {string} id */
    async remove(id) {
        await this.change((records) => records.delete(id));
    }

    /**
     * Removes a record where it is still that of a time; no other page can change it in between.
     * @param {string} id
     * @param {number} time
     */
    async removeOf(id, time) {
        await this.change((records) => {
            const request = records.get(id);
            request.onsuccess = () => {
                if (request.result && request.result.time === time) {
                    records.delete(id);
                }
            };
            return request;
        });
    }

    /**
     * Changes the records, and ends when that is on the disk.
     * @param {(records: IDBObjectStore) => IDBRequest} act
     */
    async change(act) {
        const database = await this.open();
        const transaction = database.transaction(RECORDS, 'readwrite', { durability: 'strict' });
        const ended = endOf(transaction);
        act(transaction.objectStore(RECORDS));
        await inTime(ended);
    }
}
