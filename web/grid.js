/* Finds records by their place. */

import { extentOfAll } from './extent.js';
import { GridLayer } from './grid_layer.js';
import { PIECE, atOnce } from './slices.js';

const MOST_CELLS_A_SIDE = 1024;

/** @typedef {import('./records.js').Records} Records */

/**
 * Grids over the boxes of records. A box lies in the grid whose cells are just as large as it or larger, in the cell of
 * its low corner; so each record stands in one cell, however large, and what meets a place is in a few cells a grid.
 */
export class Grid {
    /**
     * @param {Records} records
     * @param {number} from the first record
     * @param {number} to the record behind the last
     * @param {boolean} isFilled whether it is filled at once, and not in pieces later
     */
    constructor(records, from, to, isFilled = true) {
        this.records = records;
        /** The view that the boxes are of. */
        this.orientation = records.orientation;
        this.from = from;
        this.to = to;
        this.count = to - from;
        this.extent = extentOfAll(records, from, to);
        const side = Math.max(this.extent[2] - this.extent[0], this.extent[3] - this.extent[1], 1);
        const cells = Math.min(Math.max(Math.ceil(Math.sqrt(this.count)), 1), MOST_CELLS_A_SIDE);
        /** @type {GridLayer[]} */
        this.layers = [];
        for (let size = side / cells; ; size *= 2) {
            this.layers.push(new GridLayer(this.extent, size));
            if (size >= side) {
                break;
            }
        }
        if (isFilled) {
            atOnce(this.filling());
        }
    }

    /**
     * Puts the records into the layers.
     * @returns {import('./slices.js').Pieces<void>}
     */
    *filling() {
        const layerOf = new Uint8Array(this.count);
        for (let start = this.from; start < this.to; start += PIECE) {
            this.tally(layerOf, start, Math.min(start + PIECE, this.to));
            yield;
        }
        this.layers.forEach((layer) => layer.open());
        for (let start = this.from; start < this.to; start += PIECE) {
            this.put(layerOf, start, Math.min(start + PIECE, this.to));
            yield;
        }
    }

    /**
     * Counts in which layer and cell records lie, from one to before another.
     * @param {Uint8Array} layerOf keeps the layer of each record
     * @param {number} start
     * @param {number} end
     */
    tally(layerOf, start, end) {
        const { box } = this.records;
        for (let record = start; record < end; record++) {
            const layer = this.layerOf(box, record);
            layerOf[record - this.from] = layer;
            this.layers[layer].tally(box, record);
        }
    }

    /**
     * @param {Uint8Array} layerOf
     * @param {number} start
     * @param {number} end
     */
    put(layerOf, start, end) {
        const { box } = this.records;
        for (let record = start; record < end; record++) {
            this.layers[layerOf[record - this.from]].put(box, record);
        }
    }

    /**
     * @param {Int32Array} box
     * @param {number} record
     */
    layerOf(box, record) {
        const size = Math.max(box[record * 4 + 2] - box[record * 4], box[record * 4 + 3] - box[record * 4 + 1]);
        let layer = 0;
        while (layer + 1 < this.layers.length && this.layers[layer].size < size) {
            layer++;
        }
        return layer;
    }

    /**
     * Calls `visit` with each record whose box meets the rectangle.
     * @param {number[]} rectangle low x, low y, high x, high y
     * @param {(record: number) => void} visit
     */
    query(rectangle, visit) {
        for (const layer of this.layers) {
            layer.query(this.records.box, rectangle, visit);
        }
    }

    /**
     * Of how many records a query looks at the box.
     * @param {number[]} rectangle
     */
    reach(rectangle) {
        return this.layers.reduce((sum, layer) => sum + layer.reach(rectangle), 0);
    }
}

/** Grids over records that come one after another: what comes joins those before it that aren't many more. */
export class GrowingGrid {
    /**
     * @param {Records} records
     * @param {number} from the first record
     */
    constructor(records, from) {
        this.records = records;
        this.end = from;
        /** @type {Grid[]} */
        this.grids = [];
    }

    /**
     * Takes the records up to before one.
     * @param {number} end
     */
    extend(end) {
        if (end <= this.end) {
            return;
        }
        let from = this.end;
        while (this.grids.length > 0 && this.grids[this.grids.length - 1].count <= 2 * (end - from)) {
            from = this.grids[this.grids.length - 1].from;
            this.grids.pop();
        }
        this.grids.push(new Grid(this.records, from, end));
        this.end = end;
    }

    /**
     * Calls `visit` with each record whose box meets the rectangle.
     * @param {number[]} rectangle
     * @param {(record: number) => void} visit
     */
    query(rectangle, visit) {
        this.grids.forEach((grid) => grid.query(rectangle, visit));
    }

    /**
     * Of how many records a query looks at the box.
     * @param {number[]} rectangle
     */
    reach(rectangle) {
        return this.grids.reduce((sum, grid) => sum + grid.reach(rectangle), 0);
    }
}
