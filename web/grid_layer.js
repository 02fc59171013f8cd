/* One of the grids that records are found by. */

/** One grid of square cells, and the records of each cell one behind the other. */
export class GridLayer {
    /**
     * @param {number[]} extent low x, low y, high x, high y
     * @param {number} size the side of a cell
     */
    constructor(extent, size) {
        this.size = size;
        this.lowX = extent[0];
        this.lowY = extent[1];
        this.columns = Math.floor((extent[2] - extent[0]) / size) + 1;
        this.rows = Math.floor((extent[3] - extent[1]) / size) + 1;
        this.starts = new Uint32Array(this.columns * this.rows + 1);
        this.held = new Uint32Array(0);
    }

    /**
     * @param {Int32Array} box
     * @param {number} record
     */
    cellOf(box, record) {
        return this.rowOf(box[record * 4 + 1]) * this.columns + this.columnOf(box[record * 4]);
    }

    /** @param {number} x */
    columnOf(x) {
        return Math.min(Math.max(Math.floor((x - this.lowX) / this.size), 0), this.columns - 1);
    }

    /** @param {number} y */
    rowOf(y) {
        return Math.min(Math.max(Math.floor((y - this.lowY) / this.size), 0), this.rows - 1);
    }

    /**
     * Counts a record in its cell.
     * @param {Int32Array} box
     * @param {number} record
     */
    tally(box, record) {
        this.starts[this.cellOf(box, record)]++;
    }

    /** Makes of the numbers of each cell the place behind it, from which `put` counts down. */
    open() {
        let sum = 0;
        for (let cell = 0; cell < this.starts.length; cell++) {
            sum += this.starts[cell];
            this.starts[cell] = sum;
        }
        this.held = new Uint32Array(sum);
    }

    /**
     * Puts a record into its cell.
     * @param {Int32Array} box
     * @param {number} record
     */
    put(box, record) {
        this.held[--this.starts[this.cellOf(box, record)]] = record;
    }

    /**
     * Calls `visit` with each record whose box meets a rectangle.
     * @param {Int32Array} box
     * @param {number[]} rectangle low x, low y, high x, high y
     * @param {(record: number) => void} visit
     */
    query(box, [lowX, lowY, highX, highY], visit) {
        if (this.held.length === 0) {
            return;
        }
        const left = this.columnOf(lowX - this.size), right = this.columnOf(highX);
        const top = this.rowOf(highY);
        for (let row = this.rowOf(lowY - this.size); row <= top; row++) {
            const end = this.starts[row * this.columns + right + 1];
            for (let at = this.starts[row * this.columns + left]; at < end; at++) {
                const record = this.held[at], place = record * 4;
                if (box[place] <= highX && box[place + 2] >= lowX
                    && box[place + 1] <= highY && box[place + 3] >= lowY) {
                    visit(record);
                }
            }
        }
    }

    /**
     * Of how many records a query looks at the box.
     * @param {number[]} rectangle
     */
    reach([lowX, lowY, highX, highY]) {
        const left = this.columnOf(lowX - this.size), right = this.columnOf(highX), top = this.rowOf(highY);
        let count = 0;
        for (let row = this.rowOf(lowY - this.size); row <= top; row++) {
            count += this.starts[row * this.columns + right + 1] - this.starts[row * this.columns + left];
        }
        return count;
    }
}
