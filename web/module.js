/* The program as a WebAssembly module: one call is one run, in an instance of its own, whose memory goes with it. */

/** @typedef {{ status: number, text: Uint8Array, file: Uint8Array | null }} Ran the exit number, what is said, the file that is written */
/** @typedef {{ text: number, file: number }} Rooms how many bytes the two buffers take */
/** @typedef {{ malloc: (size: bigint) => bigint, dgnedit_run: (...numbers: bigint[]) => void, memory: WebAssembly.Memory }} Exports */

const NO_MEMORY = 7;
const WORD = 8;
const ENDED = 24;   // bytes of `struct dgnedit_ended`

/** Thrown inside this file where the module has no memory left. */
class NoMemory extends Error {}

/** The memory of an instance, as this page fills and reads it. */
class Memory {
    /** @param {Exports} exports */
    constructor(exports) {
        this.exports = exports;
    }

    /** @param {number} size */
    take(size) {
        const place = Number(this.exports.malloc(BigInt(Math.max(size, 1))));
        if (place === 0) {
            throw new NoMemory();
        }
        return place;
    }

    /** @param {Uint8Array} bytes */
    put(bytes) {
        const place = this.take(bytes.length);
        new Uint8Array(this.exports.memory.buffer).set(bytes, place);
        return place;
    }

    /**
     * Puts an array of slices, each a place and a length.
     * @param {Uint8Array[]} pieces
     */
    putSlices(pieces) {
        const numbers = pieces.flatMap((piece) => [this.put(piece), piece.length]);
        const place = this.take(numbers.length * WORD);
        const view = new DataView(this.exports.memory.buffer);
        numbers.forEach((number, at) => view.setBigUint64(place + at * WORD, BigInt(number), true));
        return place;
    }

    /** @param {number} place @param {number} length */
    copy(place, length) {
        return new Uint8Array(this.exports.memory.buffer, place, length).slice();
    }
}

/**
 * The room to try first: for the file the drawing and what a script may well add, for the text the answers of a script
 * without listings.
 * @param {string[]} words
 * @param {Map<string, Uint8Array>} files
 * @returns {Rooms}
 */
function usualRooms(words, files) {
    const size = [...files.values()].reduce((sum, bytes) => sum + bytes.length, 0);
    const script = files.get(words[2]);
    return { text: 65536 + 4 * (script === undefined ? 0 : script.length), file: size + 65536 };
}

/**
 * Runs the module once with buffers of this size; gives how large they have to be where one is too small.
 * @param {WebAssembly.Module} module
 * @param {string[]} words
 * @param {Map<string, Uint8Array>} files
 * @param {Rooms} rooms
 * @returns {Ran | Rooms}
 */
function runWithin(module, words, files, rooms) {
    const exports = /** @type {Exports} */ (/** @type {unknown} */ (new WebAssembly.Instance(module).exports));
    const memory = new Memory(exports);
    const encoder = new TextEncoder();
    const named = [...files].flatMap(([name, bytes]) => [encoder.encode(name), bytes]);
    const ended = memory.take(ENDED);
    const text = memory.take(rooms.text), file = memory.take(rooms.file);
    const numbers = [ended, memory.putSlices(words.map((word) => encoder.encode(word))), words.length,
        memory.putSlices(named), files.size, text, rooms.text, file, rooms.file];
    exports.dgnedit_run(...numbers.map(BigInt));
    const view = new DataView(exports.memory.buffer, ended, ENDED);
    const sizes = { text: Number(view.getBigUint64(0, true)), file: Number(view.getBigUint64(WORD, true)) };
    if (sizes.text > rooms.text || sizes.file > rooms.file) {
        return sizes;
    }
    return {
        status: view.getUint32(2 * WORD, true), text: memory.copy(text, sizes.text),
        file: view.getUint8(2 * WORD + 4) ? memory.copy(file, sizes.file) : null,
    };
}

/**
 * Runs the program once. The words are those of its command line, as `['edit', 'IN', 'SCRIPT', 'OUT']`; the files are given
 * by the names that words and script use. Status 5 says that a file isn't there, whose name is the text, and 7 that there
 * was no memory.
 * @param {WebAssembly.Module} module
 * @param {string[]} words
 * @param {Map<string, Uint8Array>} files
 * @param {Rooms} [rooms] how large text and file may well be; where that is too little, it is run again
 * @returns {Ran}
 */
export function run(module, words, files, rooms = usualRooms(words, files)) {
    try {
        const first = runWithin(module, words, files, rooms);
        return 'status' in first ? first : /** @type {Ran} */ (runWithin(module, words, files, first));
    } catch (fault) {
        if (fault instanceof NoMemory) {
            return { status: NO_MEMORY, text: new Uint8Array(0), file: null };
        }
        throw fault;
    }
}
