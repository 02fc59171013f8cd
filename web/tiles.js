/* The parts of a picture that are drawn anew. */

const TILE = 32;                  // dots of a side of a tile

/** Square tiles over a picture, of which some are drawn anew. */
export class Tiles {
    /**
     * @param {number} width in dots
     * @param {number} height
     */
    constructor(width, height) {
        this.columns = Math.ceil(width / TILE);
        this.rows = Math.ceil(height / TILE);
        this.taken = new Uint8Array(this.columns * this.rows);
    }

    /**
     * Takes the tiles that a rectangle of dots meets.
     * @param {number} left
     * @param {number} top
     * @param {number} right
     * @param {number} bottom
     */
    take(left, top, right, bottom) {
        const first = Math.max(Math.floor(left / TILE), 0), last = Math.min(Math.floor(right / TILE), this.columns - 1);
        const lowest = Math.min(Math.floor(bottom / TILE), this.rows - 1);
        for (let row = Math.max(Math.floor(top / TILE), 0); row <= lowest && first <= last; row++) {
            this.taken.fill(1, row * this.columns + first, row * this.columns + last + 1);
        }
    }

    /** How much of the picture is taken, from 0 to 1. */
    get share() {
        return this.taken.reduce((sum, it) => sum + it, 0) / this.taken.length;
    }

    /**
     * What is taken as rectangles of dots that don't overlap: left, top, width, height.
     * @returns {number[][]}
     */
    rectangles() {
        /** @type {number[][]} */
        const made = [];
        /** @type {Map<string, number[]>} */
        let open = new Map();
        for (let row = 0; row < this.rows; row++) {
            /** @type {Map<string, number[]>} */
            const next = new Map();
            for (const [first, last] of this.runsOf(row)) {
                const key = first + ' ' + last, above = open.get(key);
                const it = above || [first * TILE, row * TILE, (last - first) * TILE, 0];
                it[3] += TILE;
                next.set(key, it);
                if (above === undefined) {
                    made.push(it);
                }
            }
            open = next;
        }
        return made;
    }

    /**
     * The rows of tiles that are taken, each from one column to before another.
     * @param {number} row
     */
    runsOf(row) {
        /** @type {number[][]} */
        const runs = [];
        for (let column = 0; column < this.columns; column++) {
            const last = runs[runs.length - 1];
            if (this.taken[row * this.columns + column] === 1 && last !== undefined && last[1] === column) {
                last[1]++;
            } else if (this.taken[row * this.columns + column] === 1) {
                runs.push([column, column + 1]);
            }
        }
        return runs;
    }
}
