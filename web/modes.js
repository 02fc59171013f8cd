/* The switch between the drawing before and after edits, and both. */

import { byId, setHidden } from './dom.js';
import { Switch } from './switch.js';

/** @typedef {import('./scene.js').Mode} Mode */

export class Modes {
    /** @param {import('./app.js').App} app */
    constructor(app) {
        this.app = app;
        this.switch = new Switch(byId('modes'), (button) => this.set(modeOf(button)));
    }

    show() {
        const { scene } = this.app;
        setHidden(byId('modes'), scene.after === null);
        this.switch.show((button) => modeOf(button) === scene.mode);
    }

    /** @param {Mode} mode */
    set(mode) {
        this.app.scene.mode = mode;
        this.app.sceneChanged();
    }
}

/**
 * The mode that a button of the switch is for.
 * @param {HTMLElement} button
 */
function modeOf(button) {
    return /** @type {Mode} */ (button.dataset.mode);
}
