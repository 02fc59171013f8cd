/* Which place of the drawing stands where on the screen. */

import { GREATEST, LEAST } from './tables.js';

export const GREATEST_SCALE = 240;
const LEAST_SCALE = 1 / 16777216;

/** A place and a scale: the point of the drawing at the centre of the screen, and pixels to a unit of resolution. */
export class View {
    /**
     * @param {number} width
     * @param {number} height
     */
    constructor(width, height) {
        this.width = width;
        this.height = height;
        this.x = 0;
        this.y = 0;
        this.scale = 1;
    }

    copy() {
        return Object.assign(new View(this.width, this.height), this);
    }

    /** @param {View | null} other */
    equals(other) {
        return other !== null && this.x === other.x && this.y === other.y && this.scale === other.scale
            && this.width === other.width && this.height === other.height;
    }

    /** @param {number} x */
    toScreenX(x) {
        return (x - this.x) * this.scale + this.width / 2;
    }

    /** @param {number} y */
    toScreenY(y) {
        return (this.y - y) * this.scale + this.height / 2;
    }

    /** @param {number} left */
    toDrawingX(left) {
        return (left - this.width / 2) / this.scale + this.x;
    }

    /** @param {number} top */
    toDrawingY(top) {
        return this.y - (top - this.height / 2) / this.scale;
    }

    /** The rectangle of the drawing that is seen, a margin in pixels around it. */
    rectangle(margin = 0) {
        const wide = (this.width / 2 + margin) / this.scale, high = (this.height / 2 + margin) / this.scale;
        return [this.x - wide, this.y - high, this.x + wide, this.y + high];
    }

    /**
     * @param {number} right
     * @param {number} down
     */
    pan(right, down) {
        this.x -= right / this.scale;
        this.y += down / this.scale;
        this.keepOnPlane();
    }

    /**
     * Scales by a factor; the point of the drawing at this place of the screen stays there.
     * @param {number} factor
     */
    zoom(factor, left = this.width / 2, top = this.height / 2) {
        const x = this.toDrawingX(left), y = this.toDrawingY(top);
        this.scale = Math.min(Math.max(this.scale * factor, LEAST_SCALE), GREATEST_SCALE);
        this.x += x - this.toDrawingX(left);
        this.y += y - this.toDrawingY(top);
        this.keepOnPlane();
    }

    /**
     * Shows a box in the middle of the screen, or of what is left of it between pixels at its top and at its foot.
     * `most` is the greatest scale to show it in.
     * @param {number[]} box
     */
    fit([lowX, lowY, highX, highY], most = GREATEST_SCALE, margin = 32, top = margin, foot = margin) {
        const wide = Math.max(this.width - 2 * margin, 40) / Math.max(highX - lowX, 1e-9);
        const high = Math.max(this.height - top - foot, 40) / Math.max(highY - lowY, 1e-9);
        this.scale = Math.min(Math.max(Math.min(wide, high), LEAST_SCALE), most);
        this.x = (lowX + highX) / 2;
        this.y = (lowY + highY) / 2 + (top - foot) / 2 / this.scale;
    }

    keepOnPlane() {
        this.x = Math.min(Math.max(this.x, 2 * LEAST), 2 * GREATEST);
        this.y = Math.min(Math.max(this.y, 2 * LEAST), 2 * GREATEST);
    }
}
