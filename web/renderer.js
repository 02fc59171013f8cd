/* Draws a scene, a slice of it in each frame where it is large. */

import { Dots, contextOf } from './dots.js';
import { Picture } from './picture.js';

// Milliseconds of a frame for drawing: while the view stands still; the least and the most while it moves; and how long
// a frame may be then before less is drawn in the next one. A longer pause says nothing of how quick it goes.
const STILL_SLICE = 50;
const LEAST_SLICE = 2;
const MOST_SLICE = 9;
const LONG_FRAME = 25;
const PAUSE = 200;
/** How much of the margin around a picture is used while the view moves, until the next one is begun. */
const USED = 0.6;

/** @typedef {import('./picture.js').Scene} Scene */
/** @typedef {import('./view.js').View} View */

/** Keeps a canvas up to date: it shows the newest whole picture, moved to the view, until the next one is whole. Where
    little has changed that is drawn anew in the picture. */
export class Renderer {
    /**
     * @param {HTMLCanvasElement} canvas
     * @param {View} view
     */
    constructor(canvas, view) {
        this.canvas = canvas;
        this.context = contextOf(canvas);
        /**
         * What is shown; nothing is drawn before it is given.
         * @type {Scene | null}
         */
        this.taken = null;
        this.view = view;
        this.dots = new Dots();
        /** @type {Picture | null} */
        this.whole = null;
        /** @type {Picture | null} */
        this.making = null;
        /** @type {Picture | null} */
        this.spare = null;
        this.ratio = 1;
        this.isQuick = false;
        this.slice = MOST_SLICE;
        this.lastFrame = 0;
        /** @type {View | null} */
        this.lastView = null;
        /** @type {string[]} */
        this.colours = [];
        /** @type {Record<string, string>} */
        this.pens = {};
    }

    /** The scene that is shown. */
    get scene() {
        if (this.taken === null) {
            throw new Error('nothing is shown yet');
        }
        return this.taken;
    }

    /**
     * Shows another scene from now on.
     * @param {Scene} scene
     */
    take(scene) {
        this.taken = scene;
        this.whole = this.making = null;
    }

    /**
     * @param {string[]} colours
     * @param {Record<string, string>} pens
     */
    setColours(colours, pens) {
        this.colours = colours;
        this.pens = pens;
        this.scene.version++;
    }

    /** @param {number} ratio */
    resize(ratio) {
        this.ratio = ratio;
        this.canvas.width = Math.round(this.view.width * ratio);
        this.canvas.height = Math.round(this.view.height * ratio);
        this.whole = this.making = null;
    }

    /**
     * Whether a picture is of this view and of the scene as it is.
     * @param {Picture | null} picture
     */
    isFresh(picture) {
        return picture !== null && picture.version === this.scene.version && picture.seen.equals(this.view);
    }

    /** Draws a frame, and says whether another one is wanted. */
    frame() {
        if (this.making === null && this.isFresh(this.whole)) {
            return this.compose();
        }
        const isMoving = this.lastView !== null && !this.lastView.equals(this.view), budget = this.budget(isMoving);
        if (isMoving && this.making === null && this.isEnough(this.whole)) {
            this.compose();
            return true;
        }
        const making = this.making === null || this.isUseless(this.making) ? this.begin() : this.making;
        if (making.draw(this.isQuick ? STILL_SLICE : budget)) {
            this.isQuick = making.isMending ? this.isQuick : making.spent < MOST_SLICE;
            this.spare = this.whole;
            this.whole = making;
            this.making = null;
        }
        this.compose();
        return this.making !== null || !this.isFresh(this.whole);
    }

    /**
     * Whether a picture has all that is seen, and some of what comes next.
     * @param {Picture | null} picture
     */
    isEnough(picture) {
        const { view, scene } = this;
        return picture !== null && picture.version === scene.version && picture.view.scale === view.scale
            && 2 * Math.abs(view.x - picture.view.x) * view.scale < USED * (picture.view.width - view.width)
            && 2 * Math.abs(view.y - picture.view.y) * view.scale < USED * (picture.view.height - view.height);
    }

    /**
     * How long to draw in this frame: less while the view moves, and then as much as lets the frames come in time.
     * @param {boolean} isMoving
     */
    budget(isMoving) {
        const now = performance.now(), interval = now - this.lastFrame;
        this.lastFrame = now;
        this.lastView = this.view.copy();
        if (!isMoving) {
            return STILL_SLICE;
        }
        if (interval < PAUSE) {
            const wanted = interval > LONG_FRAME ? 0.7 * this.slice : 1.1 * this.slice;
            this.slice = Math.min(Math.max(wanted, LEAST_SLICE), MOST_SLICE);
        }
        return this.slice;
    }

    newPicture() {
        return new Picture(this.scene, this.dots);
    }

    /** Begins a picture: on that which is there, where it is of the same view and little has changed since. */
    begin() {
        const { whole, scene, view } = this, picture = this.making || this.spare || this.newPicture();
        this.spare = null;
        this.making = picture;
        if (whole === null || !whole.seen.equals(view) || !picture.mend(scene, whole)) {
            picture.start(scene, view, this.ratio, this.colours, this.pens);
        }
        return picture;
    }

    /**
     * Whether a picture in the making no longer shows what is there, or hardly any of what is seen. Where little has
     * changed meanwhile that is drawn when it is whole.
     * @param {Picture} picture
     */
    isUseless(picture) {
        const { seen } = picture;
        const factor = this.view.scale / seen.scale;
        const isAway = Math.abs(this.view.x - seen.x) * this.view.scale > this.view.width
            || Math.abs(this.view.y - seen.y) * this.view.scale > this.view.height;
        return this.scene.changed.between(picture.version, this.scene.version) === null || isAway || factor > 2
            || factor < 0.5 || seen.width !== this.view.width || seen.height !== this.view.height;
    }

    clear() {
        this.context.setTransform(1, 0, 0, 1, 0, 0);
        this.context.clearRect(0, 0, this.canvas.width, this.canvas.height);
    }

    /** Puts the newest picture on the canvas, where the view has it. */
    compose() {
        const picture = this.whole || this.making, { context, view, ratio } = this;
        if (picture === null) {
            return false;
        }
        this.clear();
        const factor = view.scale / picture.view.scale;
        let left = (view.toScreenX(picture.view.x) - picture.view.width / 2 * factor) * ratio;
        let top = (view.toScreenY(picture.view.y) - picture.view.height / 2 * factor) * ratio;
        if (factor === 1) {
            left = Math.round(left);
            top = Math.round(top);
        }
        context.drawImage(picture.canvas, left, top, picture.canvas.width * factor, picture.canvas.height * factor);
        return false;
    }
}
