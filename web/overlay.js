/* What is drawn above the drawing: what is under the pointer, what is chosen, a fence, a displacement. */

import { contextOf } from './dots.js';
import { DASHES, widthOf } from './format.js';
import { LIT_WIDER, LitLayer } from './lit.js';
import { Painter } from './painter.js';
import { Records } from './records.js';

const FEW_LIT = 1000;             // records that are lit in each frame anew
const MOST_MADE = 4000;           // records that are drawn before the picture has them, or while they are dragged
const MOST_FRAMES = 12;           // trees that are framed: of more the frames would hide the drawing

const noBytes = () => new Uint8Array(0);

/** Draws on a canvas of its own, in every frame that changes something of it. */
export class Overlay {
    /**
     * @param {HTMLCanvasElement} canvas
     * @param {import('./app.js').App} app
     */
    constructor(canvas, app) {
        this.canvas = canvas;
        this.context = contextOf(canvas);
        this.app = app;
        this.ratio = 1;
        /** Each frame has one of its own: before the first it draws nothing. */
        this.painter = new Painter(new Records(2, 0, noBytes, noBytes), this.context);
        /**
         * What is lit and much, by what it is.
         * @type {Map<string, LitLayer>}
         */
        this.layers = new Map();
    }

    /** @param {number} ratio */
    resize(ratio) {
        this.ratio = ratio;
        this.canvas.width = Math.round(this.app.view.width * ratio);
        this.canvas.height = Math.round(this.app.view.height * ratio);
        this.layers.clear();
    }

    draw() {
        const { context, app } = this, { pens, choice, tools } = app;
        context.setTransform(1, 0, 0, 1, 0, 0);
        context.clearRect(0, 0, this.canvas.width, this.canvas.height);
        this.painter = new Painter(app.scene.records, context);
        this.lightLayer('chosen', choice.numbers, pens.chosen);
        this.lightLayer('fence', tools.fence.chosen, pens.fence);
        this.painter.start(app.view, this.ratio);
        this.drawMade();
        if (choice.hovered >= 0) {
            this.light(choice.hovered, pens.hover, 1.6);
        }
        this.lightParts('chosen', choice.numbers, pens.chosen);
        this.lightParts('fence', tools.fence.chosen, pens.fence);
        this.painter.finish();
        this.drawOutline();
        this.drawBox();
        this.drawDrag();
        tools.snap.draw(this.painter, this.ratio);
        if (app.stage.showsCentre) {
            const [left, top] = app.stage.centre();
            this.drawCross(left, top, pens.hover);
        }
        if (app.place !== null) {
            this.drawCross(app.view.toScreenX(app.place[0]), app.view.toScreenY(app.place[1]), pens.fence);
        }
    }

    /** What edits made last, until the picture of the whole drawing has it. */
    drawMade() {
        const { scene, stage, colours } = this.app, { records } = scene;
        if (scene.after === null || stage.renderer.isFresh(stage.renderer.whole)) {
            return;
        }
        for (let record = Math.max(scene.base, records.length - MOST_MADE); record < records.length; record++) {
            if (scene.shown[record]) {
                this.painter.draw(record, colours[records.colour[record]], widthOf(records.weight[record]), DASHES[0]);
            }
        }
    }

    /**
     * A cross: at the centre, where keys choose and set corners, or at a place that was asked for.
     * @param {number} left
     * @param {number} top
     * @param {string} colour
     */
    drawCross(left, top, colour) {
        this.painter.start(this.app.view, this.ratio);
        this.painter.setPen(colour, 1.5, DASHES[0]);
        this.painter.traceSegment(left - 14, top, left + 14, top);
        this.painter.traceSegment(left, top - 14, left, top + 14);
        this.painter.finish();
    }

    /**
     * @param {number} record
     * @param {string} colour
     * @param {number} more how much wider than it is drawn, in pixels
     */
    light(record, colour, more) {
        const { records } = this.app.scene;
        this.painter.draw(record, colour, widthOf(records.weight[record]) + more, DASHES[0]);
    }

    /**
     * Lights the parts of elements by a picture of their own, where these are many.
     * @param {string} name what they are
     * @param {number[]} numbers
     * @param {string} pen
     */
    lightLayer(name, numbers, pen) {
        const { app: { scene, view, stage }, canvas } = this, last = this.layers.get(name);
        if (this.isFew(numbers)) {
            this.layers.delete(name);
            return;
        }
        const layer = last !== undefined && last.has(scene, numbers, pen) ? last
            : new LitLayer(canvas, scene, view, numbers, pen);
        layer.ratio = this.ratio;
        this.layers.set(name, layer);
        if (layer.frame()) {
            stage.request();
        }
    }

    /**
     * Whether elements have so few parts that each frame can draw them.
     * @param {number[]} numbers
     */
    isFew(numbers) {
        const { end } = this.app.scene.state;
        let count = 0;
        for (let at = 0; at < numbers.length && count <= FEW_LIT; at++) {
            count += end[numbers[at]] - numbers[at];
        }
        return count <= FEW_LIT;
    }

    /**
     * Lights the parts of elements, and frames them where they are few.
     * @param {string} name
     * @param {number[]} numbers
     * @param {string} colour
     */
    lightParts(name, numbers, colour) {
        if (!this.layers.has(name)) {
            this.drawParts(numbers, colour);
        }
        if (numbers.length <= MOST_FRAMES) {
            numbers.forEach((number) => this.frame(this.app.scene.boxOfPart(this.app.scene.state, number), colour));
        }
    }

    /**
     * Draws the parts of elements, up to so many records.
     * @param {number[]} numbers
     * @param {string} colour
     */
    drawParts(numbers, colour) {
        const { shown, state } = this.app.scene;
        let left = MOST_MADE;
        for (let index = 0; index < numbers.length && left > 0; index++) {
            const end = Math.min(state.end[numbers[index]], numbers[index] + left);
            left -= end - numbers[index];
            for (let at = numbers[index]; at < end; at++) {
                if (shown[state.record[at]]) {
                    this.light(state.record[at], colour, LIT_WIDER);
                }
            }
        }
        this.painter.finish();
    }

    /**
     * A frame around a box of the drawing, a little away from it.
     * @param {number[] | null} box
     * @param {string} colour
     */
    frame(box, colour) {
        if (box === null) {
            return;
        }
        const { view } = this.app;
        this.painter.setPen(colour, 1, DASHES[5]);
        this.painter.traceBox(view.toScreenX(box[0]) - 6, view.toScreenY(box[3]) - 6, view.toScreenX(box[2]) + 6,
            view.toScreenY(box[1]) + 6);
        this.painter.finish();
    }

    /** The fence, or what is drawn by its points. */
    drawOutline() {
        const { outline, isOpen, isArea } = this.app.tools;
        if (outline.length === 0) {
            return;
        }
        const { context } = this, { view, pens } = this.app;
        if (isArea) {
            context.beginPath();
            outline.forEach(([x, y]) => context.lineTo(view.toScreenX(x), view.toScreenY(y)));
            context.globalAlpha = 0.12;
            context.fillStyle = pens.fence;
            context.fill();
            context.globalAlpha = 1;
        }
        this.painter.start(view, this.ratio);
        this.painter.setPen(pens.fence, 1.5, DASHES[0]);
        this.drawCorners(outline, isOpen);
    }

    /**
     * @param {number[][]} corners
     * @param {boolean} isOpen
     */
    drawCorners(corners, isOpen) {
        const { context } = this, { view, pens } = this.app;
        const last = isOpen ? corners.length - 1 : corners.length;
        for (let corner = 0; corner < last; corner++) {
            const [x, y] = corners[corner], [nextX, nextY] = corners[(corner + 1) % corners.length];
            this.painter.traceSegment(view.toScreenX(x), view.toScreenY(y), view.toScreenX(nextX),
                view.toScreenY(nextY));
        }
        this.painter.finish();
        context.fillStyle = pens.fence;
        corners.forEach(([x, y]) => context.fillRect(view.toScreenX(x) - 3, view.toScreenY(y) - 3, 6, 6));
    }

    /** The box that is drawn to choose by. */
    drawBox() {
        const { ends } = this.app.tools.box;
        if (ends === null) {
            return;
        }
        const [[left, top], [right, bottom]] = ends, { pens, view } = this.app;
        this.painter.start(view, this.ratio);
        this.painter.setPen(pens.chosen, 1.2, DASHES[right < left ? 5 : 0]);
        this.painter.traceBox(left, top, right, bottom);
        this.painter.finish();
    }

    /** While something is dragged: its lines at the new place, and an arrow there. */
    drawDrag() {
        const { tools: { drag }, choice, view, pens } = this.app;
        if (drag === null || choice.numbers.length === 0) {
            return;
        }
        const moved = view.copy();
        moved.x -= drag.to[0] - drag.from[0];
        moved.y -= drag.to[1] - drag.from[1];
        this.painter.start(moved, this.ratio);
        this.drawParts(choice.numbers, pens.changed);
        this.painter.start(view, this.ratio);
        this.painter.setPen(pens.changed, 1, DASHES[0]);
        this.painter.traceSegment(view.toScreenX(drag.from[0]), view.toScreenY(drag.from[1]),
            view.toScreenX(drag.to[0]), view.toScreenY(drag.to[1]));
        this.painter.finish();
    }
}
