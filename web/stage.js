/* The drawing on the screen: its frames, its room, and how it is looked at. */

import { PENS, coloursOn } from './colours.js';
import { byId, setHidden } from './dom.js';
import { Overlay } from './overlay.js';
import { Renderer } from './renderer.js';
import { GREATEST_SCALE } from './view.js';

const MARGIN_OF_FIT = 32;         // pixels that are left at each side where all is shown
const CLEAR = 14;                 // pixels that are left to what floats above the drawing

/** @typedef {import('./colours.js').Ground} Ground */
/** @typedef {import('./view.js').View} View */

export class Stage {
    /** @param {import('./app.js').App} app */
    constructor(app) {
        this.app = app;
        this.showsCentre = false;
        this.isWaiting = false;
        /** @type {Ground} */
        this.ground = 'dark';
        this.renderer = new Renderer(byId('drawing'), app.view);
        this.overlay = new Overlay(byId('marks'), app);
        this.setGround(matchMedia('(prefers-color-scheme: light)').matches ? 'light' : 'dark');
        byId('zoom-in').addEventListener('click', () => this.zoom(1.5));
        byId('zoom-out').addEventListener('click', () => this.zoom(1 / 1.5));
        byId('fit').addEventListener('click', () => this.fit());
        byId('ground').addEventListener('click', () => this.changeGround());
        new ResizeObserver(() => this.resize()).observe(byId('stage'));
        byId('marks').addEventListener('blur', () => {
            this.showsCentre = false;
            this.request();
        });
    }

    /* Frames. */

    request() {
        if (!this.isWaiting && this.app.drawing !== null) {
            this.isWaiting = true;
            requestAnimationFrame(() => {
                this.isWaiting = false;
                this.frame();
            });
        }
    }

    frame() {
        this.app.choice.hover();
        const isMore = this.renderer.frame();
        this.overlay.draw();
        if (isMore) {
            this.request();
        } else if (!document.documentElement.dataset.ready) {
            document.documentElement.dataset.ready = String(Math.round(performance.now()));
        }
    }

    /** The view has changed. */
    moved() {
        this.showScale();
        this.request();
    }

    /** Another drawing is shown. */
    changed() {
        this.renderer.take(this.app.scene);
        this.setGround(this.ground);
        this.takeRoom();
        this.fit();
    }

    /**
     * Another view of the drawing is shown: a place of it by a scale, or all of it.
     * @param {View | null} place
     */
    turned(place) {
        this.renderer.take(this.app.scene);
        if (place === null) {
            this.fit();
        } else {
            Object.assign(this.app.view, { x: place.x, y: place.y, scale: place.scale });
            this.moved();
        }
    }

    /** Fits the canvases to the room that they have, and says whether it has changed; they then show nothing. */
    takeRoom() {
        const { view } = this.app;
        const box = byId('stage').getBoundingClientRect();
        const width = Math.max(Math.round(box.width), 50), height = Math.max(Math.round(box.height), 50);
        const ratio = Math.min(window.devicePixelRatio || 1, 3);
        if (width === view.width && height === view.height && ratio === this.renderer.ratio) {
            return false;
        }
        view.width = width;
        view.height = height;
        this.renderer.resize(ratio);
        this.overlay.resize(ratio);
        return true;
    }

    resize() {
        if (this.app.drawing !== null && this.takeRoom()) {
            this.showScale();
            this.frame();
        }
    }

    /* The view. */

    /** Shows all that is drawn, clear of what floats above it, and says where origins of cells lie outside of it. */
    fit() {
        const { box, outside } = this.app.scene.extent(), room = byId('stage').getBoundingClientRect();
        const top = Math.max(byId('tools').getBoundingClientRect().bottom - room.top, 0) + CLEAR;
        const foot = Math.max(room.bottom - byId('scale-text').getBoundingClientRect().top, 0) + CLEAR;
        this.app.view.fit(box, GREATEST_SCALE, MARGIN_OF_FIT, top, foot);
        if (outside > 0) {
            this.app.say(outside === 1 ? 'The origin of 1 cell lies outside of the view.'
                : 'The origins of ' + outside + ' cells lie outside of the view.');
        }
        this.moved();
    }

    /** @param {number} factor above 1 for larger, around the middle of the screen */
    zoom(factor) {
        this.app.view.zoom(factor);
        this.moved();
    }

    centre() {
        return [this.app.view.width / 2, this.app.view.height / 2];
    }

    /** @param {number[] | null} box low x, low y, high x, high y */
    goToBox(box) {
        const { view } = this.app;
        if (box === null) {
            this.app.say('It has no position in the drawing.');
            return;
        }
        const side = Math.max(box[2] - box[0], box[3] - box[1]) * view.scale;
        if (side >= 24 && side <= 0.8 * Math.min(view.width, view.height)) {
            view.x = (box[0] + box[2]) / 2;
            view.y = (box[1] + box[3]) / 2;
        } else {
            const most = box[0] === box[2] && box[1] === box[3] ? Math.max(view.scale, 1) : GREATEST_SCALE;
            view.fit(box, most, 0.3 * Math.min(view.width, view.height));
        }
        this.moved();
    }

    /**
     * Goes to a place and marks it; what was chosen elsewhere isn't any more.
     * @param {number[]} place
     */
    goToPlace([x, y]) {
        const { view, scene, words } = this.app;
        const [lowX, lowY, highX, highY] = scene.extent().box;
        this.app.choice.choose([]);
        view.x = x;
        view.y = y;
        view.scale = Math.max(view.scale, 2 * view.width / Math.max(highX - lowX, highY - lowY, 1));
        this.app.place = [x, y];
        this.app.say('Marked: ' + words.placeOf([x, y]));
        this.moved();
    }

    /**
     * Whether something of a box is seen.
     * @param {number[]} box
     */
    isSeen([lowX, lowY, highX, highY]) {
        const [left, bottom, right, top] = this.app.view.rectangle();
        return lowX <= right && highX >= left && lowY <= top && highY >= bottom;
    }

    showScale() {
        const { words, view } = this.app;
        const unit = words.hasMaster ? words.unitsOfMaster : 1;
        const most = 150 / view.scale / unit;
        const power = 10 ** Math.floor(Math.log10(most));
        const length = power * ([5, 2, 1].find((it) => it * power <= most) || 1);
        byId('scale-bar').style.width = Math.round(length * unit * view.scale) + 'px';
        const name = words.hasMaster ? words.master : 'units';
        byId('scale-text').textContent = Number(length.toPrecision(3)) + ' ' + name;
    }

    /** @param {Ground} ground */
    setGround(ground) {
        const { app } = this;
        this.ground = ground;
        document.documentElement.dataset.ground = ground;
        byId('ground').textContent = ground === 'dark' ? 'Light' : 'Dark';
        app.pens = PENS[ground];
        app.colours = coloursOn(ground, app.drawing ? app.drawing.colours.table : []);
        if (app.drawing) {
            this.renderer.setColours(app.colours, app.pens);
        }
    }

    changeGround() {
        this.setGround(this.ground === 'dark' ? 'light' : 'dark');
        this.app.show();
        this.request();
    }

    /** Says where nothing is to be seen. */
    showNothing() {
        setHidden(byId('nothing'), this.app.scene.drawn > 0);
    }
}
