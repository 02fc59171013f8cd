/* Elements of two drawings by their bytes. */

/**
 * What is compared of a drawing: its bytes, where its elements stand in them, and their heads.
 * @typedef {{ bytes: Uint8Array, offsets: Uint32Array, count: number, axes: number,
 *     units: import('./tcb.js').Units, colours: { table: string[] }, bytesOf: (number: number) => Uint8Array,
 *     records: { type: Uint8Array, level: Uint8Array, size: Uint32Array, flags: Uint8Array,
 *         wordsOf: (number: number) => string } }} Comparable
 */

const FACTOR = 0x01000193;

/** Of each element of two drawings a number from 1 on: the same where the bytes are the same. */
export class Contents {
    /**
     * @param {Comparable} first
     * @param {Comparable} second
     */
    constructor(first, second) {
        this.first = first;
        this.second = second;
        const count = first.count + second.count;
        /** Where a number stands is told by a hash, which nobody foresees. */
        this.seed = Math.floor(Math.random() * 4294967296);
        this.mask = 2 ** Math.ceil(Math.log2(2 * count + 2)) - 1;
        this.slots = new Uint32Array(this.mask + 1);
        /** Of each number an element that has it; those of the second drawing are counted behind those of the first. */
        this.heads = new Uint32Array(count + 1);
        this.size = 0;
        this.olds = this.numbersOf(first, 0);
        this.news = this.numbersOf(second, first.count);
    }

    /**
     * @param {Comparable} drawing
     * @param {number} behind how many elements are counted before those of the drawing
     */
    numbersOf(drawing, behind) {
        const { bytes, offsets, count } = drawing, numbers = new Uint32Array(count);
        for (let at = 0; at < count; at++) {
            numbers[at] = this.numberOf(bytes, offsets[at], offsets[at + 1], behind + at);
        }
        return numbers;
    }

    /**
     * The number of an element, which is a new one where its bytes weren't there before.
     * @param {Uint8Array} bytes
     * @param {number} start
     * @param {number} end
     * @param {number} element
     */
    numberOf(bytes, start, end, element) {
        let slot = hashOf(bytes, start, end, this.seed) & this.mask;
        while (this.slots[slot] !== 0 && !this.isHead(this.slots[slot], bytes, start, end)) {
            slot = slot + 1 & this.mask;
        }
        if (this.slots[slot] === 0) {
            this.size++;
            this.slots[slot] = this.size;
            this.heads[this.size] = element;
        }
        return this.slots[slot];
    }

    /**
     * Whether the elements of a number have these bytes.
     * @param {number} number
     * @param {Uint8Array} bytes
     * @param {number} start
     * @param {number} end
     */
    isHead(number, bytes, start, end) {
        const head = this.heads[number], isFirst = head < this.first.count;
        const { bytes: others, offsets } = isFirst ? this.first : this.second;
        const at = isFirst ? head : head - this.first.count;
        if (offsets[at + 1] - offsets[at] !== end - start) {
            return false;
        }
        let place = start;
        const shift = offsets[at] - start;
        while (place < end && bytes[place] === others[place + shift]) {
            place++;
        }
        return place === end;
    }

    /**
     * Whether two elements have the same bytes.
     * @param {number} old
     * @param {number} made
     */
    isSame(old, made) {
        return this.olds[old] === this.news[made];
    }
}

/**
 * A number of 32 bits that is told from bytes, which are an even number.
 * @param {Uint8Array} bytes
 * @param {number} start
 * @param {number} end
 * @param {number} seed
 */
function hashOf(bytes, start, end, seed) {
    let hash = seed ^ end - start;
    for (let at = start; at < end; at += 2) {
        hash = Math.imul(hash ^ (bytes[at] | bytes[at + 1] << 8), FACTOR);
        hash ^= hash >>> 15;
    }
    return Math.imul(hash ^ hash >>> 13, 0x5BD1E995) >>> 3;
}
