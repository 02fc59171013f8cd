/* Elements that are smaller than a pixel, of which a large drawing has most when all of it is seen. */

import { partsOf } from './colours.js';

/**
 * What draws on a canvas.
 * @param {HTMLCanvasElement} canvas
 */
export function contextOf(canvas) {
    return /** @type {CanvasRenderingContext2D} */ (canvas.getContext('2d'));
}

/** Dots of a picture: they are set one by one in a block of memory, and put on the canvas all at once. */
export class Dots {
    constructor() {
        this.canvas = document.createElement('canvas');
        this.context = contextOf(this.canvas);
        this.width = this.height = 1;
        this.image = this.context.createImageData(1, 1);
        /** The dots, each as four bytes in the order of the image. */
        this.values = new Uint32Array(this.image.data.buffer);
        /**
         * Values by how much is seen of them, and by their colours.
         * @type {Map<number, Map<string, number>>}
         */
        this.known = new Map();
        this.isEmpty = true;
        this.colour = '';
        this.alpha = 0;
        this.value = 0;
    }

    /**
     * Begins a picture of so many dots.
     * @param {number} width
     * @param {number} height
     */
    start(width, height) {
        if (this.width !== width || this.height !== height) {
            this.width = width;
            this.height = height;
            this.canvas.width = width;
            this.canvas.height = height;
            this.image = this.context.createImageData(width, height);
            this.values = new Uint32Array(this.image.data.buffer);
        } else if (!this.isEmpty) {
            this.values.fill(0);
        }
        this.isEmpty = true;
    }

    /**
     * Sets a square of dots.
     * @param {number} left
     * @param {number} top
     * @param {number} size
     * @param {string} colour
     * @param {number} alpha
     */
    set(left, top, size, colour, alpha) {
        this.put(left, top, size, colour === this.colour && alpha === this.alpha ? this.value
            : this.valueOf(colour, alpha));
    }

    /**
     * Sets a square of dots to a value.
     * @param {number} left
     * @param {number} top
     * @param {number} size
     * @param {number} value
     */
    put(left, top, size, value) {
        const { width, height, values } = this;
        const right = Math.min(left + size, width), bottom = Math.min(top + size, height);
        for (let y = Math.max(top, 0); y < bottom; y++) {
            for (let x = Math.max(left, 0); x < right; x++) {
                values[y * width + x] = value;
            }
        }
        this.isEmpty = false;
    }

    /**
     * A colour as the four bytes of a dot: red, green, blue, and how much is seen of it.
     * @param {string} colour
     * @param {number} alpha
     * @returns {number}
     */
    valueOf(colour, alpha) {
        const known = this.known.get(alpha) || new Map(), value = known.get(colour);
        this.colour = colour;
        this.alpha = alpha;
        if (value !== undefined) {
            this.value = value;
            return value;
        }
        const bytes = Uint8Array.of(...partsOf(colour), Math.round(alpha * 255));
        this.value = new Uint32Array(bytes.buffer)[0];
        this.known.set(alpha, known.set(colour, this.value));
        return this.value;
    }

    /**
     * Puts what is set on another canvas of this size.
     * @param {CanvasRenderingContext2D} context
     */
    show(context) {
        if (this.isEmpty) {
            return;
        }
        this.context.putImageData(this.image, 0, 0);
        context.setTransform(1, 0, 0, 1, 0, 0);
        context.globalAlpha = 1;
        context.drawImage(this.canvas, 0, 0);
    }
}
