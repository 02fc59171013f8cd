/* A picture of a scene by one view. */

import { contextOf } from './dots.js';
import { DRAWN, DRAWN_OF, FLAG, widthOf } from './format.js';
import { FAINT, drawLook } from './look.js';
import { MARK } from './marking.js';
import { LEAST_CROSS, LEAST_DRAWN, Painter } from './painter.js';
import { Tiles } from './tiles.js';
import { View } from './view.js';

const MARGIN = 0.25;              // of the screen that is drawn beyond each of its edges
const REACH_OF_LINES = 24;        // pixels that what is drawn may reach beyond its box
const AT_ONCE = 512;              // records that are drawn before the clock is looked at
const MOST_MENDED = 0.5;          // of a picture, and of what is drawn, where more is drawn as a whole

/** @typedef {import('./dots.js').Dots} Dots */

/**
 * A scene, as much of it as pictures use.
 * @typedef {Pick<import('./scene.js').Scene, 'records' | 'mode' | 'version' | 'order' | 'drawn' | 'reach' | 'within'
 *     | 'isDrawn' | 'markOf'> & { changed: Pick<import('./redrawn.js').ChangedBoxes, 'between'> }} Scene
 */

/** A picture of the scene by a view, with a margin around it, drawn in slices: as a whole, or anew in tiles. */
export class Picture {
    /**
     * @param {Scene} scene
     * @param {Dots} dots for what is smaller than a pixel, while the picture is made
     */
    constructor(scene, dots) {
        this.scene = scene;
        this.canvas = document.createElement('canvas');
        this.context = contextOf(this.canvas);
        this.dots = dots;
        this.painter = new Painter(scene.records, this.context, dots);
        /** What is seen of it, and what it shows. */
        this.seen = new View(0, 0);
        this.view = this.seen;
        this.ratio = 1;
        this.version = -1;
        /**
         * The records to draw, in their order, and how far that is done.
         * @type {Uint32Array}
         */
        this.list = new Uint32Array(0);
        this.next = 0;
        this.spent = 0;
        /** Whether it is drawn in tiles alone. */
        this.isMending = false;
        /** @type {string[]} */
        this.colours = [];
        /** @type {Record<string, string>} */
        this.pens = {};
        /** Dots of each colour, and those of what is hardly seen. */
        this.values = this.faintValues = new Uint32Array(0);
    }

    /**
     * Begins to draw the scene anew.
     * @param {Scene} scene
     * @param {View} view
     * @param {number} ratio dots of the canvas to a pixel
     * @param {string[]} colours
     * @param {Record<string, string>} pens
     */
    start(scene, view, ratio, colours, pens) {
        this.seen = view.copy();
        this.view = view.copy();
        this.view.width = Math.ceil(view.width * MARGIN) * 2 + view.width;
        this.view.height = Math.ceil(view.height * MARGIN) * 2 + view.height;
        this.ratio = ratio;
        this.begin(scene, colours, pens, this.recordsIn(scene, [this.view.rectangle(REACH_OF_LINES)]) || scene.order);
    }

    /**
     * Begins with a picture of an older version by the same view, and draws anew what has changed since. It says
     * whether it does: too much may have changed for that.
     * @param {Scene} scene
     * @param {Picture} picture
     */
    mend(scene, picture) {
        const boxes = scene.changed.between(picture.version, scene.version);
        const tiles = boxes === null ? null : picture.tilesOf(boxes);
        const places = tiles === null || tiles.share > MOST_MENDED ? null : tiles.rectangles();
        const list = places && this.recordsIn(scene, places.map((place) => picture.rectangleOf(place)));
        if (!places || !list) {
            return false;
        }
        this.seen = picture.seen;
        this.view = picture.view;
        this.ratio = picture.ratio;
        this.begin(scene, picture.colours, picture.pens, list);
        this.context.setTransform(1, 0, 0, 1, 0, 0);
        this.context.drawImage(picture.canvas, 0, 0);
        this.clip(places);
        this.painter.start(this.view, this.ratio);
        return true;
    }

    /**
     * @param {Scene} scene
     * @param {string[]} colours
     * @param {Record<string, string>} pens
     * @param {Uint32Array} list
     */
    begin(scene, colours, pens, list) {
        this.scene = scene;
        this.version = scene.version;
        this.colours = colours;
        this.pens = pens;
        this.list = list;
        this.next = 0;
        this.spent = 0;
        this.clear();
        this.painter = new Painter(scene.records, this.context, this.dots);
        this.painter.start(this.view, this.ratio);
    }

    clear() {
        const width = Math.round(this.view.width * this.ratio), height = Math.round(this.view.height * this.ratio);
        if (this.isMending) {
            this.context.restore();
            this.isMending = false;
        }
        if (this.canvas.width !== width || this.canvas.height !== height) {
            this.canvas.width = width;
            this.canvas.height = height;
        } else {
            this.context.setTransform(1, 0, 0, 1, 0, 0);
            this.context.clearRect(0, 0, width, height);
        }
        this.dots.start(width, height);
        this.prepareDots();
    }

    /** Finds the dots of each colour. */
    prepareDots() {
        this.values = Uint32Array.from(this.colours, (colour) => this.dots.valueOf(colour, 1));
        this.faintValues = Uint32Array.from(this.colours, (colour) => this.dots.valueOf(colour, FAINT));
    }

    /**
     * Clears rectangles of dots, and lets nothing be drawn but in them.
     * @param {number[][]} places
     */
    clip(places) {
        this.isMending = true;
        this.context.save();
        this.context.beginPath();
        places.forEach(([left, top, width, height]) => this.context.rect(left, top, width, height));
        this.context.clip();
        this.context.clearRect(0, 0, this.canvas.width, this.canvas.height);
    }

    /**
     * The records whose boxes meet rectangles, in the order to draw them in, or null where these are very many.
     * @param {Scene} scene
     * @param {number[][]} rectangles
     * @returns {Uint32Array | null}
     */
    recordsIn(scene, rectangles) {
        if (rectangles.reduce((sum, it) => sum + scene.reach(it), 0) > MOST_MENDED * scene.drawn) {
            return null;
        }
        return scene.within(rectangles);
    }

    /**
     * The tiles that boxes of the drawing reach into.
     * @param {number[]} boxes
     */
    tilesOf(boxes) {
        const { view, ratio } = this, tiles = new Tiles(this.canvas.width, this.canvas.height);
        for (let at = 0; at < boxes.length; at += 4) {
            tiles.take((view.toScreenX(boxes[at]) - REACH_OF_LINES) * ratio,
                (view.toScreenY(boxes[at + 3]) - REACH_OF_LINES) * ratio,
                (view.toScreenX(boxes[at + 2]) + REACH_OF_LINES) * ratio,
                (view.toScreenY(boxes[at + 1]) + REACH_OF_LINES) * ratio);
        }
        return tiles;
    }

    /**
     * The rectangle of the drawing of which something may be seen in a rectangle of dots.
     * @param {number[]} place
     */
    rectangleOf([left, top, width, height]) {
        const { view, ratio } = this;
        const right = (left + width) / ratio + REACH_OF_LINES, bottom = (top + height) / ratio + REACH_OF_LINES;
        return [view.toDrawingX(left / ratio - REACH_OF_LINES), view.toDrawingY(bottom), view.toDrawingX(right),
            view.toDrawingY(top / ratio - REACH_OF_LINES)];
    }

    get isDone() {
        return this.next >= this.list.length;
    }

    /**
     * Draws for so many milliseconds, and says whether it is done.
     * @param {number} budget
     */
    draw(budget) {
        const start = performance.now(), { list } = this;
        while (this.next < list.length && performance.now() - start < budget) {
            const end = Math.min(this.next + AT_ONCE, list.length);
            for (; this.next < end; this.next++) {
                if (this.scene.isDrawn(list[this.next]) && !this.drawAsDot(list[this.next])) {
                    this.drawRecord(list[this.next]);
                }
            }
        }
        this.painter.finish();
        if (this.isDone) {
            this.dots.show(this.context);
        }
        this.spent += performance.now() - start;
        return this.isDone;
    }

    /**
     * Draws what is hardly larger than a dot, and isn't marked, as one, and says whether it did: of a large drawing
     * that is nearly all.
     * @param {number} record
     */
    drawAsDot(record) {
        const { view, ratio, dots, scene } = this, { box, type, flags, colour } = scene.records;
        const drawn = DRAWN_OF[type[record]], at = 4 * record;
        if (drawn === DRAWN.cell || drawn === DRAWN.node) {
            return this.isWithoutCross(record);
        }
        if ((box[at + 2] - box[at]) * view.scale >= LEAST_DRAWN
            || (box[at + 3] - box[at + 1]) * view.scale >= LEAST_DRAWN || scene.markOf(record) !== MARK.none) {
            return false;
        }
        const isFaint = (flags[record] & FLAG.deleted) !== 0 || scene.mode === 'both';
        dots.put(Math.round(view.toScreenX(box[at]) * ratio), Math.round(view.toScreenY(box[at + 3]) * ratio),
            this.dotSizeOf(record), (isFaint ? this.faintValues : this.values)[colour[record]]);
        return true;
    }

    /**
     * How many dots a side what is hardly larger than one is drawn with.
     * @param {number} record
     */
    dotSizeOf(record) {
        const width = widthOf(this.scene.records.weight[record]);
        return width > 1 ? Math.max(Math.round(width * this.ratio), 1) : 1;
    }

    /**
     * Whether a cell or a text node is too small for its origin to be marked.
     * @param {number} record
     */
    isWithoutCross(record) {
        const { view: { scale }, scene: { records: { range, axes, orientation } } } = this, low = 2 * axes * record;
        const right = low + orientation.across, up = low + orientation.up;
        return (range[right + axes] - range[right]) * scale < LEAST_CROSS
            && (range[up + axes] - range[up]) * scale < LEAST_CROSS;
    }

    /** @param {number} record */
    drawRecord(record) {
        drawLook(this, record);
    }
}
