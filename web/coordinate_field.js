/* The field for points that are typed, while points are set or something is dragged or measured. */

import { typedPoint } from './coordinates.js';
import { byId, setHidden } from './dom.js';
import { AXIS_NAMES, TOP, displacementOf, namesOfSeen } from './orientation.js';

/** @typedef {import('./words.js').Words} Words */

export class CoordinateField {
    /**
     * @param {import('./app.js').App} app
     * @param {import('./tools.js').Tools} tools
     */
    constructor(app, tools) {
        this.app = app;
        this.tools = tools;
        /** @type {HTMLInputElement} */
        this.field = byId('coordinate');
        this.field.addEventListener('input', () => this.follow());
        this.field.addEventListener('keydown', (event) => this.key(event));
        byId('coordinates').addEventListener('submit', (/** @type {Event} */ event) => {
            event.preventDefault();
            this.enter();
        });
    }

    /** Fits it to the tool: it is there while a point can be typed. */
    show() {
        const { tools, app } = this, hadFocus = document.activeElement === this.field;
        setHidden(byId('coordinates'), !tools.takesPoints);
        this.field.value = '';
        this.say('');
        if (tools.takesPoints) {
            const words = /** @type {Words} */ (app.words);
            byId('coordinate-unit').textContent = words.hasMaster ? words.master : 'units';
            this.field.placeholder = this.forms();
        } else if (hadFocus) {
            byId('marks').focus({ preventScroll: true });
        }
    }

    /** What can be typed. */
    forms() {
        const { tools, app } = this, { orientation } = app.scene, names = namesOfSeen(orientation);
        const own = tools.axes === 3 && orientation === TOP ? AXIS_NAMES.slice() : names;
        const displacement = names.map((name) => 'd' + name).join(',');
        return tools.isDragging ? own.map((name) => 'd' + name).join(',') + '   length<angle'
            : own.join(',') + '   @' + displacement + '   @length<angle';
    }

    /**
     * Goes to the field, and types something there.
     * @param {string} text
     */
    begin(text) {
        if (this.tools.takesPoints) {
            this.field.focus();
            this.field.value = text;
        }
    }

    /**
     * Says beside the field why what is typed isn't taken.
     * @param {string} text
     */
    say(text) {
        byId('coordinate-said').textContent = text;
        this.field.setAttribute('aria-invalid', String(text !== ''));
    }

    /** What is typed. */
    read() {
        const { tools, app } = this, words = /** @type {Words} */ (app.words);
        const { hasMaster, drawing: { units: { origin } } } = words;
        return typedPoint(this.field.value, {
            axes: tools.axes, unit: hasMaster ? words.unitsOfMaster : 1, origin: hasMaster ? origin : [0, 0, 0],
            last: tools.isMeasured ? null : tools.points[tools.points.length - 1] || null,
            isDisplacement: tools.isDragging, orientation: app.scene.orientation,
        });
    }

    /** Shows where the point that is typed would be, as the pointer does. */
    follow() {
        const { tools } = this, { point } = this.read();
        this.say('');
        if (point !== null && tools.draws !== null) {
            tools.preview(point);
        }
    }

    /** Takes what is typed; an empty field ends what is drawn. What isn't taken stays in the field. */
    enter() {
        const { tools } = this;
        if (this.field.value.trim() === '') {
            tools.close();
            return;
        }
        const { point, fault } = this.read();
        const why = point === null ? fault : tools.isDragging ? this.displace(point) : this.addPoint(point);
        this.say(why);
        if (why === '') {
            this.field.value = '';
            tools.showHint();
        }
    }

    /**
     * Sets a point, and says why where it can't.
     * @param {number[]} point
     */
    addPoint(point) {
        const { tools } = this;
        if (tools.isClosing) {
            return 'What was drawn is still being made.';
        }
        if (tools.isFull) {
            return 'All its points are set: Enter in the empty field tries it again, Backspace takes one back.';
        }
        return tools.addPoint(point) ? '' : 'That is where the point before is.';
    }

    /**
     * Moves or copies what was to be dragged, and says why where it can't.
     * @param {number[]} by as it is seen
     */
    displace(by) {
        const { app, tools } = this;
        if (app.work.isDoing) {
            return 'The program is still working on the last edit.';
        }
        tools.displace(displacementOf(app.scene.orientation, by, tools.axes));
        return '';
    }

    /** @param {KeyboardEvent} event */
    key(event) {
        const isEmpty = this.field.value === '';
        if (event.key === 'Escape' && isEmpty) {
            byId('marks').focus({ preventScroll: true });
        } else if (event.key === 'Escape') {
            this.field.value = '';
            this.say('');
            this.tools.pointAgain();
        } else if (event.key === 'Backspace' && isEmpty) {
            this.tools.dropPoint();
        }
    }
}
