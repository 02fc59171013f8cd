/* Mouse, pen, fingers and keys on the drawing. */

import { byId, setHidden } from './dom.js';
import { ORIENTATIONS } from './orientation.js';

const CLICK = 4;                  // pixels that a click may move
export const REACH = Object.freeze({ mouse: 7, pen: 9, touch: 16 });
const STEP = 80;                  // pixels of an arrow key
/** Keys of the drawing that leave a search as it is, so that Enter goes on to the next that was found. */
const GO_ON = new Set(['Enter', 'Shift', 'Delete']);

/**
 * What is pressed: where that began, and what it comes to.
 * @typedef {{ at: number[], isDrag: boolean, isBox: boolean, isMore: boolean, hasMoved: boolean,
 *     isMain: boolean }} Pressed
 */

/** Takes what is done on the canvas to the app. */
export class Pointer {
    /**
     * @param {HTMLCanvasElement} canvas
     * @param {import('./app.js').App} app
     */
    constructor(canvas, app) {
        this.canvas = canvas;
        this.app = app;
        /**
         * Where each pointer that is down is.
         * @type {Map<number, number[]>}
         */
        this.down = new Map();
        /** @type {Pressed | null} */
        this.pressed = null;
        /** Pixels that something may be away from the pointer. */
        this.reach = /** @type {number} */ (REACH.mouse);
        /** Whether Enter goes on to the next that was found. */
        this.isSearching = false;
        canvas.addEventListener('pointerdown', (event) => this.press(event));
        canvas.addEventListener('pointermove', (event) => this.move(event));
        canvas.addEventListener('pointerup', (event) => this.release(event));
        canvas.addEventListener('pointercancel', (event) => this.leave(event));
        canvas.addEventListener('pointerleave', () => app.choice.point(null));
        canvas.addEventListener('dblclick', () => app.tools.close());
        canvas.addEventListener('wheel', (event) => this.wheel(event), { passive: false });
        canvas.addEventListener('keydown', (event) => this.key(event));
        canvas.addEventListener('keyup', (event) => this.alt(event, false));
        canvas.addEventListener('blur', () => this.endSearch());
        canvas.addEventListener('contextmenu', (event) => event.preventDefault());
        document.addEventListener('keydown', (event) => this.keyAnywhere(event));
        byId('search-field').addEventListener('keydown', (event) => this.leaveSearch(event));
    }

    /** @param {MouseEvent} event */
    placeOf(event) {
        const box = this.canvas.getBoundingClientRect();
        return [event.clientX - box.left, event.clientY - box.top];
    }

    /** @param {PointerEvent} event */
    press(event) {
        this.canvas.focus({ preventScroll: true });
        this.canvas.setPointerCapture(event.pointerId);
        this.endSearch();
        this.app.tools.snap.hold(event.altKey);
        this.reach = REACH[/** @type {'mouse'} */ (event.pointerType)] || REACH.mouse;
        this.down.set(event.pointerId, this.placeOf(event));
        if (this.down.size === 1) {
            const isMain = event.button === 0, isMore = event.shiftKey || event.ctrlKey || event.metaKey;
            const isDrag = isMain && this.app.tools.isDragging;
            const isBox = isMain && isMore && this.app.tools.tool === 'choose' && this.app.hasProgram;
            this.pressed = { at: this.placeOf(event), isDrag, isBox, isMore, hasMoved: false, isMain };
        } else if (this.pressed) {
            this.pressed.hasMoved = true;
        }
        event.preventDefault();
    }

    /** @param {PointerEvent} event */
    move(event) {
        const place = this.placeOf(event), before = this.down.get(event.pointerId);
        this.app.tools.snap.hold(event.altKey);
        if (!before) {
            this.app.choice.point(place);
            return;
        }
        if (this.down.size === 2) {
            this.pinch(event.pointerId, place);
        } else if (this.pressed !== null && isDragged(this.pressed, place)) {
            this.drag(this.pressed, before, place);
        } else {
            return;
        }
        this.down.set(event.pointerId, place);
    }

    /**
     * @param {Pressed} pressed
     * @param {number[]} before where the pointer was
     * @param {number[]} place
     */
    drag(pressed, before, place) {
        const { app } = this;
        if (pressed.isDrag) {
            app.tools.dragTo(pressed.at, place);
        } else if (pressed.isBox) {
            app.tools.box.drawTo(pressed.at, place);
        } else {
            const start = pressed.hasMoved ? before : pressed.at;
            app.view.pan(place[0] - start[0], place[1] - start[1]);
            app.stage.moved();
        }
        pressed.hasMoved = true;
        app.choice.point(place);
    }

    /**
     * Two fingers: what is between them stays between them.
     * @param {number} moving
     * @param {number[]} place
     */
    pinch(moving, place) {
        const { view } = this.app;
        const before = this.down.get(moving) || place;
        const [, other] = [...this.down].find(([id]) => id !== moving) || [moving, place];
        const factor = Math.hypot(place[0] - other[0], place[1] - other[1])
            / Math.max(Math.hypot(before[0] - other[0], before[1] - other[1]), 1);
        view.pan((place[0] - before[0]) / 2, (place[1] - before[1]) / 2);
        view.zoom(factor, (place[0] + other[0]) / 2, (place[1] + other[1]) / 2);
        this.app.stage.moved();
    }

    /** @param {PointerEvent} event */
    release(event) {
        const { app, pressed } = this;
        const place = this.placeOf(event);
        this.down.delete(event.pointerId);
        if (this.down.size > 0 || pressed === null) {
            return;
        }
        this.pressed = null;
        if (pressed.isDrag && pressed.hasMoved) {
            app.tools.drop();
        } else if (pressed.isBox && pressed.hasMoved) {
            app.tools.box.drop();
        } else if (!pressed.hasMoved && pressed.isMain) {
            app.tools.click(place, this.reach, pressed.isMore);
        }
        app.choice.point(event.pointerType === 'mouse' ? place : null);
    }

    /** @param {PointerEvent} event */
    leave(event) {
        this.down.delete(event.pointerId);
        this.pressed = null;
        this.app.tools.cancelDrag();
    }

    /** @param {WheelEvent} event */
    wheel(event) {
        event.preventDefault();
        const lines = event.deltaMode === 1 ? 16 : 1;
        const speed = event.ctrlKey ? 0.01 : 0.0016;
        const amount = Math.min(Math.max(event.deltaY * lines, -400), 400);
        const place = this.placeOf(event);
        this.app.view.zoom(Math.exp(-amount * speed), place[0], place[1]);
        this.app.stage.moved();
        this.app.choice.point(place);
    }

    /** @param {KeyboardEvent} event */
    key(event) {
        this.alt(event, true);
        if (event.ctrlKey || event.metaKey || event.altKey || (event.key === 'Escape' && byId('more').open)) {
            return;
        }
        const { isSearching } = this;
        this.isSearching = isSearching && GO_ON.has(event.key);
        const acts = this.acts(event.shiftKey ? STEP / 8 : STEP);
        const act = (isSearching ? this.searchActs(event.shiftKey ? -1 : 1)[event.key] : undefined) || acts[event.key];
        if (act) {
            event.preventDefault();
            act();
        }
    }

    /**
     * What each key does while the drawing has the focus.
     * @param {number} step pixels of an arrow key
     * @returns {Record<string, () => unknown>}
     */
    acts(step) {
        const { app } = this;
        const pan = (/** @type {number} */ right, /** @type {number} */ down) => () => {
            app.stage.showsCentre = true;
            app.view.pan(right, down);
            app.stage.moved();
            if (tools.takesPoints) {
                tools.point(stage.centre(), REACH.touch);
            }
        };
        const { stage, tools, choice, views } = app;
        return {
            'ArrowLeft': pan(step, 0), 'ArrowRight': pan(-step, 0), 'ArrowUp': pan(0, step), 'ArrowDown': pan(0, -step),
            '+': () => stage.zoom(1.5), '=': () => stage.zoom(1.5), '-': () => stage.zoom(1 / 1.5),
            '0': () => stage.fit(), 'Home': () => stage.fit(), 'n': () => choice.step(1), 'p': () => choice.step(-1),
            'f': () => (app.hasProgram ? tools.set('fence') : undefined), 'm': () => tools.set('measure'),
            'Enter': () => (tools.draws ? tools.close() : choice.click(stage.centre(), REACH.touch, false)),
            ' ': () => tools.click(stage.centre(), REACH.touch, false),
            'Backspace': () => tools.dropPoint(), 'Delete': () => app.editPanel.edit({ word: 'delete' }),
            '1': () => views.set(ORIENTATIONS[0]), '2': () => views.set(ORIENTATIONS[1]),
            '3': () => views.set(ORIENTATIONS[2]), 's': () => tools.snap.toggle(),
            '@': () => tools.field.begin('@'), 'Escape': () => tools.letGo(),
        };
    }

    /**
     * While Alt is held the pointer doesn't snap; the browser isn't to open its menu for that.
     * @param {KeyboardEvent} event
     * @param {boolean} isDown
     */
    alt(event, isDown) {
        if (event.key === 'Alt' && this.app.tools.takesPoints) {
            event.preventDefault();
            this.app.tools.snap.hold(isDown);
        }
    }

    /* Searching. */

    /**
     * Enter in the search goes back to the drawing, so that what was found can be edited; it still goes on there.
     * @param {KeyboardEvent} event
     */
    leaveSearch(event) {
        if (event.key === 'Enter' && this.app.search.count > 0) {
            this.canvas.focus({ preventScroll: true });
            this.isSearching = true;
        }
    }

    endSearch() {
        this.isSearching = false;
    }

    /**
     * What keys do after a search: the next that was found, or an end of it.
     * @param {number} by
     * @returns {Record<string, () => unknown>}
     */
    searchActs(by) {
        const { search } = this.app;
        return { Enter: () => search.take(search.at + by), Escape: () => search.clear() };
    }

    /**
     * Escape closes what is open above the page, and the focus doesn't stay in it.
     * @param {KeyboardEvent} event
     */
    closeOpen(event) {
        const target = /** @type {Node} */ (event.target), more = byId('more');
        if (more.contains(target)) {
            more.open = false;
            more.querySelector('summary')?.focus();
        } else if (byId('search-list').contains(target)) {
            setHidden(byId('search-list'), true);
        }
    }

    /**
     * Keys that hold wherever the focus is, but in a field.
     * @param {KeyboardEvent} event
     */
    keyAnywhere(event) {
        if (event.key === 'Escape') {
            this.closeOpen(event);
        }
        const target = /** @type {HTMLInputElement} */ (event.target);
        const isField = /^(INPUT|SELECT|TEXTAREA)$/.test(target.tagName) && target.type !== 'checkbox';
        if (event.altKey || this.app.isAsking) {
            return;
        }
        if (event.ctrlKey || event.metaKey) {
            this.keyWithControl(event, isField);
        } else if (isField) {
            return;
        } else if (event.key === 'o') {
            byId('open').click();
        } else if (this.app.drawing === null) {
            return;
        } else if (event.key === '/') {
            event.preventDefault();
            byId('search-field').focus();
            byId('search-field').select();
        } else if (event.key === 'g') {
            this.app.stage.changeGround();
        }
    }

    /**
     * Opens and saves wherever the focus is; in a field the other keys are the field's own.
     * @param {KeyboardEvent} event
     * @param {boolean} isField
     */
    keyWithControl(event, isField) {
        const key = event.key.toLowerCase();
        /** @type {Record<string, string>} */
        const ids = { z: event.shiftKey ? 'redo' : 'undo', y: 'redo', s: 'save', o: 'open' }, id = ids[key];
        if (id !== undefined && (!isField || key === 's' || key === 'o')) {
            event.preventDefault();
            byId(id).click();
        }
    }
}

/**
 * Whether what is pressed has moved further than a click may.
 * @param {Pressed} pressed
 * @param {number[]} place
 */
function isDragged({ at, hasMoved }, place) {
    return hasMoved || Math.hypot(place[0] - at[0], place[1] - at[1]) > CLICK;
}
