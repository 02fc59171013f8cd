/* The switch between the views of a drawing of three axes. */

import { byId, setHidden } from './dom.js';
import { MAKES } from './draws.js';
import { ORIENTATIONS, TOP } from './orientation.js';
import { Switch } from './switch.js';

/** @typedef {import('./orientation.js').Orientation} Orientation */
/** @typedef {import('./view.js').View} View */

/** Why a tool isn't there in another view than the one from above. */
const TOP_ALONE = Object.freeze({
    fence: 'A fence is drawn in the view ‘Top’, key 1.', make: 'New elements are drawn in the view ‘Top’, key 1.',
});

export class Views {
    /** @param {import('./app.js').App} app */
    constructor(app) {
        this.app = app;
        /**
         * The view that is chosen.
         * @type {Orientation}
         */
        this.orientation = TOP;
        /**
         * Which place of the drawing was seen in each of them, and by which scale.
         * @type {Map<Orientation, View>}
         */
        this.places = new Map();
        /**
         * What the buttons of the tools say where these are there.
         * @type {Map<HTMLElement, string>}
         */
        this.titles = new Map();
        this.switch = new Switch(byId('views'), (button) => this.set(orientationOf(button)));
    }

    /** Another file is shown, from above. */
    clear() {
        this.orientation = TOP;
        this.places.clear();
    }

    /** Shows it, of three axes alone, and the tools that there are. */
    show() {
        setHidden(byId('views-row'), this.app.open.drawing.axes === 2);
        this.switch.show((button) => orientationOf(button) === this.orientation);
        for (const button of this.app.tools.buttons()) {
            const own = this.titles.get(button) ?? button.title, why = this.refusal(button.dataset.tool || '');
            this.titles.set(button, own);
            button.disabled = why !== '';
            button.title = why || own;
        }
    }

    /**
     * Why a tool isn't there in this view, or nothing where it is.
     * @param {string} tool
     */
    refusal(tool) {
        if (this.orientation === TOP) {
            return '';
        }
        return tool === 'fence' ? TOP_ALONE.fence : MAKES.has(tool) ? TOP_ALONE.make : '';
    }

    /**
     * Takes a view: the first time all of it is shown, later the place where it was left.
     * @param {Orientation} orientation
     */
    set(orientation) {
        const { app } = this, { drawing, scene } = app.open;
        if (drawing.axes === 2 || orientation === this.orientation) {
            return;
        }
        if (app.exports.isDrawing) {
            app.say('A picture is still being made in this view.');
            return;
        }
        this.places.set(this.orientation, app.view.copy());
        this.orientation = orientation;
        scene.turn(orientation);
        app.place = null;
        app.tools.turned();
        this.show();
        app.stage.turned(this.places.get(orientation) || null);
        app.sceneChanged();
        app.say('View: ' + orientation.name);
    }
}

/**
 * The view that a button of the switch is for.
 * @param {HTMLElement} button
 */
function orientationOf(button) {
    return ORIENTATIONS.find(({ name }) => name === button.dataset.view) || TOP;
}
