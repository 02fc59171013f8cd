/* What edits made of a drawing, read by what has changed since the last time. */

import { isEqual } from './bytes.js';
import { FLAG } from './format.js';
import { nestingOf } from './nesting.js';
import { wordAt } from './numbers.js';
import { readElement } from './reading.js';
import { grown } from './records.js';
import { State } from './state.js';

const PLACE_FLAGS = FLAG.orphan | FLAG.loose | FLAG.group | FLAG.run;
/** Bytes of records that are no longer in use and still held, beyond as many as are in use. */
const MOST_UNUSED = 2097152;
const MOST_CHUNKS = 65000;

/** @typedef {import('./drawing.js').Changes} Changes */
/** @typedef {import('./drawing.js').Drawing} Drawing */

/** The bytes of changed elements: as they were opened, with the pieces in them that a run of the program changed. They
    are asked for in rising order. */
class Patched {
    /**
     * @param {Drawing} drawing
     * @param {Changes} changes
     */
    constructor(drawing, changes) {
        this.drawing = drawing;
        this.changes = changes;
        this.piece = 0;
        this.from = 0;
    }

    /**
     * Puts the bytes of an element into a row of bytes at a place, and gives them.
     * @param {number} number
     * @param {Uint8Array} row
     * @param {number} to
     */
    put(number, row, to) {
        const { bytes: opened, offsets } = this.drawing, { starts, lengths, bytes } = this.changes;
        const start = offsets[number], end = offsets[number + 1];
        row.set(opened.subarray(start, end), to);
        while (this.piece < starts.length && starts[this.piece] + lengths[this.piece] <= start) {
            this.from += lengths[this.piece++];
        }
        for (let it = this.piece, at = this.from; it < starts.length && starts[it] < end; at += lengths[it++]) {
            const low = Math.max(starts[it], start), high = Math.min(starts[it] + lengths[it], end);
            row.set(bytes.subarray(at + low - starts[it], at + high - starts[it]), to + low - start);
        }
        return row.subarray(to, to + end - start);
    }
}

/** What is appended behind the elements of a drawing, where each of it begins, and how it nests. */
class Appended {
    /** @param {Uint8Array} bytes */
    constructor(bytes) {
        this.bytes = bytes;
        this.offsets = appendedOffsets(bytes);
        this.count = this.offsets.length - 1;
        this.nesting = nestingOf(bytes, this.offsets, false);
    }

    /** @param {number} index */
    bytesOf(index) {
        return this.bytes.subarray(this.offsets[index], this.offsets[index + 1]);
    }
}

/**
 * The elements that edits made: their bytes, and the states that they make up with those that were opened. Their
 * records stand behind the drawing's. What a state has in common with the last one keeps its record.
 */
export class EditedElements {
    /** @param {Drawing} drawing */
    constructor(drawing) {
        this.drawing = drawing;
        this.records = drawing.records;
        /** Where the drawing's own records end. */
        this.ends = drawing.records.ends();
        this.epoch = 1;
        /**
         * Bytes of records that were read at one time.
         * @type {Uint8Array[]}
         */
        this.chunks = [];
        /** Which of them has the bytes of each record behind the drawing's, where, and where the file has them. */
        this.chunkOf = new Uint16Array(0);
        this.places = new Uint32Array(0);
        this.filePlaces = new Uint32Array(0);
        this.heldBytes = 0;
        this.usedBytes = 0;
        /** @type {State | null} */
        this.state = null;
        /** @type {Appended | null} */
        this.appended = null;
        /** Whether the records are those of another drawing. */
        this.isBeside = false;
    }

    /** Forgets all. */
    forget() {
        this.records.cut(this.ends);
        this.isBeside = false;
        this.epoch++;
        this.chunks = [];
        this.heldBytes = this.usedBytes = 0;
        this.state = this.appended = null;
    }

    /**
     * The state that a run of the program left.
     * @param {Changes} changes
     * @returns {State}
     */
    after(changes) {
        if (this.heldBytes > 2 * this.usedBytes + MOST_UNUSED || this.chunks.length > MOST_CHUNKS) {
            this.forget();
        }
        const appended = this.appendedOf(changes.appended), numbers = this.changedNumbers(changes);
        const isLonger = appended !== this.appended;
        const record = new Uint32Array(this.drawing.count + appended.count);
        record.set(this.drawing.before.record);
        this.usedBytes = changes.appended.length;
        this.readChanged(record, numbers, changes);
        this.readAppended(record, appended);
        const nesting = this.state !== null && !isLonger ? this.state : this.nestingWith(appended);
        this.appended = appended;
        this.state = new State(this.records, record, nesting.parent, nesting.end,
            { origin: this.drawing.before, numbers, epoch: this.epoch });
        return this.state;
    }

    /**
     * What is appended; the same as the last time where its bytes are the same.
     * @param {Uint8Array} bytes
     */
    appendedOf(bytes) {
        return this.appended !== null && isEqual(this.appended.bytes, bytes) ? this.appended : new Appended(bytes);
    }

    /**
     * The numbers of the opened elements that have other bytes now.
     * @param {Changes} changes
     * @returns {Uint32Array}
     */
    changedNumbers(changes) {
        const { drawing } = this, touched = touchedBy(drawing, changes), patched = new Patched(drawing, changes);
        const row = new Uint8Array(4 + 2 * 65535);
        return Uint32Array.from(touched.filter((number) => (
            !isEqual(patched.put(number, row, 0), drawing.bytesOf(number)))));
    }

    /**
     * Finds the records of what was opened and has changed, and reads those that the last state hasn't.
     * @param {Uint32Array} record
     * @param {Uint32Array} numbers
     * @param {Changes} changes
     */
    readChanged(record, numbers, changes) {
        const { state, drawing: { offsets, before } } = this, row = new Uint8Array(4 + 2 * 65535);
        const patched = new Patched(this.drawing, changes);
        const unread = numbers.filter((number) => {
            const bytes = patched.put(number, row, 0), last = state === null ? number : state.record[number];
            const isKept = last !== before.record[number] && isEqual(bytes, this.bytesOf(last));
            this.usedBytes += bytes.length;
            record[number] = isKept ? last : 0;
            return !isKept;
        });
        const chunk = new Uint8Array(unread.reduce((sum, it) => sum + offsets[it + 1] - offsets[it], 0));
        const again = new Patched(this.drawing, changes);
        let to = 0;
        this.beginChunk(chunk, unread.length);
        for (const number of unread) {
            const { length } = again.put(number, chunk, to);
            record[number] = this.read(number, to, offsets[number], this.records.flags[number] & PLACE_FLAGS);
            to += length;
        }
    }

    /**
     * The same of what is appended: an element is kept where it stands at the same number, with the same bytes.
     * @param {Uint32Array} record
     * @param {Appended} appended
     */
    readAppended(record, appended) {
        const { state, drawing: { count, bodyLength } } = this, { offsets, nesting: { flags } } = appended;
        /** @type {number[]} */
        const unread = [];
        let size = 0;
        for (let index = 0; index < appended.count; index++) {
            const last = state !== null && count + index < state.count ? state.record[count + index] : -1;
            if (last >= 0 && this.isKept(last, appended, index)) {
                record[count + index] = last;
            } else {
                unread.push(index);
                size += offsets[index + 1] - offsets[index];
            }
        }
        const chunk = new Uint8Array(size);
        let to = 0;
        this.beginChunk(chunk, unread.length);
        for (const index of unread) {
            chunk.set(appended.bytesOf(index), to);
            record[count + index] = this.read(count + index, to, bodyLength + offsets[index], flags[index]);
            to += offsets[index + 1] - offsets[index];
        }
    }

    /**
     * Whether a record of the last state is that of an appended element now.
     * @param {number} record
     * @param {Appended} appended
     * @param {number} index
     */
    isKept(record, appended, index) {
        const place = this.drawing.bodyLength + appended.offsets[index];
        return this.filePlaces[record - this.drawing.count] === place
            && (this.records.flags[record] & PLACE_FLAGS) === appended.nesting.flags[index]
            && isEqual(this.bytesOf(record), appended.bytesOf(index));
    }

    /**
     * Makes room for so many more records, whose bytes are these.
     * @param {Uint8Array} chunk
     * @param {number} count
     */
    beginChunk(chunk, count) {
        if (count === 0) {
            return;
        }
        const most = this.records.length + count - this.drawing.count;
        this.records.reserve(count);
        this.chunkOf = grown(this.chunkOf, most);
        this.places = grown(this.places, most);
        this.filePlaces = grown(this.filePlaces, most);
        this.chunks.push(chunk);
        this.heldBytes += chunk.length;
    }

    /**
     * Reads an element of the last chunk.
     * @param {number} number
     * @param {number} place in the chunk
     * @param {number} filePlace
     * @param {number} flags of its place in its tree
     */
    read(number, place, filePlace, flags) {
        const index = this.records.length - this.drawing.count;
        this.chunkOf[index] = this.chunks.length - 1;
        this.places[index] = place;
        this.filePlaces[index] = filePlace;
        return readElement(this.records, this.chunks[this.chunks.length - 1], place, number, flags);
    }

    /**
     * How all nests: what is appended stands behind the rest.
     * @param {Appended} appended
     */
    nestingWith({ count, nesting }) {
        const { count: base, before } = this.drawing;
        if (count === 0) {
            return before;
        }
        const parent = new Int32Array(base + count), end = new Uint32Array(base + count);
        parent.set(before.parent);
        end.set(before.end);
        for (let index = 0; index < count; index++) {
            parent[base + index] = nesting.parent[index] < 0 ? -1 : base + nesting.parent[index];
            end[base + index] = base + nesting.end[index];
        }
        return { parent, end };
    }

    /**
     * The state of another drawing, with records of its own for what isn't as the element of that number here.
     * @param {Drawing} other
     * @param {Set<number>} told numbers of `other` that have records of their own in any case
     * @returns {State}
     */
    beside(other, told) {
        this.forget();
        const { drawing } = this, record = new Uint32Array(other.count);
        /** @type {number[]} */
        const own = [];
        for (let number = 0; number < other.count; number++) {
            if (number < drawing.count && !told.has(number) && drawing.isSame(other, number)) {
                record[number] = number;
            } else {
                own.push(number);
            }
        }
        this.beginChunk(other.bytes, own.length);
        for (const number of own) {
            record[number] = this.read(number, other.offsets[number], other.offsets[number],
                other.nesting.flags[number]);
        }
        this.heldBytes = Infinity;
        this.isBeside = true;
        return new State(this.records, record, other.nesting.parent, other.nesting.end);
    }

    /**
     * The bytes of a record behind the drawing's.
     * @param {number} record
     */
    bytesOf(record) {
        const index = record - this.drawing.count, place = this.places[index];
        return this.chunks[this.chunkOf[index]].subarray(place, place + this.records.size[record]);
    }

    /**
     * The bytes of such a record and of all behind it, which a header's parts are among. No edit changes where the
     * parts of an element of the drawing lie, so they are read where they were; those of an appended header follow it.
     * @param {number} record
     */
    runOf(record) {
        const { drawing, appended } = this, index = record - drawing.count, number = this.records.number[record];
        if (this.isBeside) {
            return this.chunks[this.chunkOf[index]].subarray(this.places[index]);
        }
        return number < drawing.count || appended === null
            ? drawing.bytes.subarray(drawing.offsets[number], drawing.bodyLength)
            : appended.bytes.subarray(appended.offsets[number - drawing.count]);
    }

    /**
     * The byte of the file at which the element of such a record begins.
     * @param {number} record
     */
    placeOf(record) {
        return this.filePlaces[record - this.drawing.count];
    }
}

/**
 * The numbers of the elements that a piece of what has changed reaches into, in rising order.
 * @param {Drawing} drawing
 * @param {Changes} changes
 */
function touchedBy(drawing, { starts, lengths }) {
    /** @type {number[]} */
    const numbers = [];
    starts.forEach((start, index) => {
        let number = Math.max(drawing.numberAt(start), numbers.length > 0 ? numbers[numbers.length - 1] + 1 : 0);
        for (; number < drawing.count && drawing.offsets[number] < start + lengths[index]; number++) {
            numbers.push(number);
        }
    });
    return numbers;
}

/**
 * Where elements begin that the program has appended one behind the other, and behind the last where they end.
 * @param {Uint8Array} bytes
 */
function appendedOffsets(bytes) {
    let offsets = new Uint32Array(1), count = 0;
    for (let at = 0; at < bytes.length; at += 4 + 2 * wordAt(bytes, at + 2)) {
        offsets = grown(offsets, count + 2);
        offsets[count++] = at;
    }
    offsets[count] = bytes.length;
    return offsets.subarray(0, count + 1);
}
