/* Many elements that are lit, in a picture of their own, so that a frame needn't draw each of them. */

import { DASHES, widthOf } from './format.js';
import { Picture } from './picture.js';
import { Renderer } from './renderer.js';

/** How much wider than drawn something is lit, in pixels. */
export const LIT_WIDER = 1.4;

/** @typedef {import('./scene.js').Scene} Scene */
/** @typedef {import('./picture.js').Scene} Drawable */
/** @typedef {import('./view.js').View} View */

/**
 * The parts of elements that are shown, as a scene of their own.
 * @implements {Drawable}
 */
class LitScene {
    /**
     * @param {Scene} scene
     * @param {number[]} numbers
     */
    constructor(scene, numbers) {
        const { state: { end, record }, shown } = scene;
        this.scene = scene;
        this.records = scene.records;
        /** @type {import('./scene.js').Mode} */
        this.mode = 'after';
        this.version = 0;
        this.changed = { between: () => null };
        /** @type {number[]} */
        const found = [];
        for (const number of numbers) {
            for (let at = number; at < end[number]; at++) {
                if (shown[record[at]] === 1) {
                    found.push(record[at]);
                }
            }
        }
        this.order = Uint32Array.from(found);
        this.drawn = this.order.length;
    }

    /** All are gone through: of what is lit nothing is found by its place. */
    reach() {
        return Infinity;
    }

    /** @returns {Uint32Array} */
    within() {
        return this.order;
    }

    /** @param {number} record */
    isDrawn(record) {
        return this.scene.isDrawn(record);
    }

    markOf() {
        return 0;
    }
}

/** A picture of what is lit. */
class LitPicture extends Picture {
    /** @param {number} record */
    drawRecord(record) {
        this.painter.draw(record, this.pens.lit, widthOf(this.scene.records.weight[record]) + LIT_WIDER, DASHES[0]);
    }

    /** All colours are one. */
    prepareDots() {
        this.values = this.faintValues = new Uint32Array(256).fill(this.dots.valueOf(this.pens.lit, 1));
    }

    /** @param {number} record */
    dotSizeOf(record) {
        return super.dotSizeOf(record) + Math.round(LIT_WIDER * this.ratio);
    }
}

/** What is lit with one pen, kept up to date as the drawing is. */
export class LitLayer extends Renderer {
    /**
     * @param {HTMLCanvasElement} canvas
     * @param {Scene} scene
     * @param {View} view
     * @param {number[]} numbers
     * @param {string} pen
     */
    constructor(canvas, scene, view, numbers, pen) {
        super(canvas, view);
        this.take(new LitScene(scene, numbers));
        this.of = { scene, numbers, pen, version: scene.version };
        this.pens = { lit: pen };
    }

    /**
     * Whether it has these elements as they are.
     * @param {Scene} scene
     * @param {number[]} numbers
     * @param {string} pen
     */
    has(scene, numbers, pen) {
        const { of } = this;
        return of.scene === scene && of.numbers === numbers && of.pen === pen && of.version === scene.version;
    }

    /**
     * While the view moves it has a third of the time, and the drawing the rest.
     * @param {boolean} isMoving
     */
    budget(isMoving) {
        return isMoving ? super.budget(isMoving) / 3 : super.budget(isMoving);
    }

    newPicture() {
        return new LitPicture(this.scene, this.dots);
    }

    /** It is put above what is on the canvas. */
    clear() {
        this.context.setTransform(1, 0, 0, 1, 0, 0);
        this.context.globalAlpha = 1;
    }
}
