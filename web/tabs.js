/* The panels at the side, of which one is seen. */

import { byId, setHidden } from './dom.js';

/** @typedef {'edit' | 'script' | 'changes'} TabName */

/** @type {readonly TabName[]} */
const NAMES = Object.freeze(['edit', 'script', 'changes']);

/**
 * Where each key goes from a button in a row of buttons.
 * @type {Readonly<Record<string, 'nextElementSibling' | 'previousElementSibling' | undefined>>}
 */
export const WAY_OF_KEY = Object.freeze({ ArrowRight: 'nextElementSibling', ArrowLeft: 'previousElementSibling' });

export class Tabs {
    /** @param {import('./app.js').App} app */
    constructor(app) {
        this.app = app;
        for (const name of NAMES) {
            const tab = byId('tab-' + name);
            tab.addEventListener('click', () => this.show(name));
            tab.addEventListener('keydown', (event) => this.key(event, tab));
        }
        this.show('edit');
    }

    /** @param {TabName} name */
    show(name) {
        for (const it of NAMES) {
            byId('tab-' + it).setAttribute('aria-selected', String(it === name));
            byId('tab-' + it).tabIndex = it === name ? 0 : -1;
            setHidden(byId(it + '-panel'), it !== name);
        }
    }

    /**
     * @param {KeyboardEvent} event
     * @param {HTMLElement} tab
     */
    key(event, tab) {
        const way = WAY_OF_KEY[event.key], next = /** @type {HTMLElement | null} */ (way ? tab[way] : null);
        if (next && !next.hidden) {
            event.preventDefault();
            next.click();
            next.focus();
        }
    }
}
