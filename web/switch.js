/* A switch: buttons in a row, of which one is on. */

import { WAY_OF_KEY } from './tabs.js';

export class Switch {
    /**
     * @param {import('./dom.js').Buttons} row
     * @param {(button: HTMLElement) => void} take is called with the button that is to be on
     */
    constructor(row, take) {
        this.row = row;
        this.take = take;
        for (const button of row.children) {
            button.addEventListener('click', () => take(button));
            button.addEventListener('keydown', (event) => this.key(event, button));
        }
    }

    /**
     * Shows which button is on.
     * @param {(button: HTMLElement) => boolean} isOn
     */
    show(isOn) {
        for (const button of this.row.children) {
            button.setAttribute('aria-checked', String(isOn(button)));
            button.tabIndex = isOn(button) ? 0 : -1;
        }
    }

    /**
     * @param {KeyboardEvent} event
     * @param {HTMLElement} button
     */
    key(event, button) {
        const way = WAY_OF_KEY[event.key], next = /** @type {HTMLElement | null} */ (way ? button[way] : null);
        if (next) {
            event.preventDefault();
            this.take(next);
            next.focus();
        }
    }
}
