/* What the pointer does: choose, drag, draw a fence or a new element, measure. */

import { ChoiceBox } from './choice_box.js';
import { CoordinateField } from './coordinate_field.js';
import { byId, setHidden } from './dom.js';
import { DRAWS, LEAST_OF_AREA, MAKES, guideOf } from './draws.js';
import { Fence } from './fence.js';
import { TOP, displacementOf } from './orientation.js';
import { REACH } from './pointer.js';
import { SNAP_REACH, SnapTool } from './snap_tool.js';

export class Tools {
    /** @param {import('./app.js').App} app */
    constructor(app) {
        this.app = app;
        this.tool = 'choose';
        /** @type {number[][]} */
        this.points = [];
        /**
         * Where the pointer is on the screen, and what that is in the drawing, in whole units.
         * @type {number[] | null}
         */
        this.at = null;
        /** @type {number[] | null} */
        this.pointer = null;
        /** Whether the element that was drawn is being made. */
        this.isClosing = false;
        /** Whether what is measured is an area, whose outline is closed. */
        this.isMeasured = false;
        /**
         * From where to where something is dragged as it is seen, and by how much along the drawing's axes; and its
         * records where it is moved, which its end doesn't snap to.
         * @type {{ from: number[], to: number[], by: number[], own: ReadonlySet<number> } | null}
         */
        this.drag = null;
        this.box = new ChoiceBox(app);
        this.fence = new Fence(app);
        this.snap = new SnapTool(app);
        this.field = new CoordinateField(app, this);
        for (const button of this.buttons()) {
            button.addEventListener('click', () => this.set(button.dataset.tool || 'choose'));
        }
        for (const name of /** @type {const} */ (['drag-move', 'drag-copy'])) {
            byId(name).addEventListener('click', () => this.set(this.tool === name ? 'choose' : name));
        }
    }

    /** The buttons of the tools. */
    buttons() {
        return [...byId('tools').children].filter((button) => button.dataset.tool !== undefined);
    }

    /** Forgets what is drawn, for another drawing. */
    clear() {
        this.points = [];
        this.cancelDrag();
        this.at = this.pointer = null;
        this.fence.clear();
        this.set('choose');
    }

    get draws() {
        return DRAWS[this.tool] || null;
    }

    get isMaking() {
        return MAKES.has(this.tool);
    }

    get isDragging() {
        return this.tool.startsWith('drag');
    }

    /** Whether points are set, to which the pointer snaps and which can be typed. */
    get takesPoints() {
        return this.draws !== null || this.isDragging;
    }

    /** Whether the pointer is taken by something else than choosing. */
    get isBusy() {
        return this.drag !== null || this.draws !== null;
    }

    get isOpen() {
        return this.draws !== null && !this.isMeasured;
    }

    get isArea() {
        return this.draws ? this.draws.isArea || this.isMeasured : true;
    }

    /** Whether all the points of what is drawn are set, as where it was refused. */
    get isFull() {
        return this.draws !== null && this.points.length >= this.draws.count;
    }

    /** How many axes its points have: what is made and what is moved has all of the drawing's, the rest x and y. */
    get axes() {
        return this.isMaking || this.isDragging ? this.app.open.drawing.axes : 2;
    }

    /** What is drawn above the drawing: the points and the pointer behind them, or the fence. */
    get outline() {
        if (this.draws === null) {
            return this.app.views.orientation === TOP ? this.fence.corners || [] : [];
        }
        const { pointer, points } = this;
        return pointer !== null && points.length > 0 && !this.isMeasured ? [...points, pointer] : points;
    }

    /**
     * Takes a tool, unless this view hasn't got it.
     * @param {string} tool
     */
    set(tool) {
        const { app } = this, why = app.views.refusal(tool);
        if (why !== '') {
            app.say(why);
            return;
        }
        this.tool = tool;
        this.drag = null;
        this.points = [];
        this.isMeasured = false;
        if (tool === 'fence') {
            this.fence.clear();
        }
        for (const button of [...this.buttons(), byId('drag-move'), byId('drag-copy')]) {
            button.setAttribute('aria-pressed', String(tool === (button.dataset.tool || button.id)));
        }
        byId('marks').classList.toggle('draws', tool !== 'choose');
        this.field.show();
        this.pointAgain();
        if (app.drawing !== null) {
            app.show();
            app.stage.request();
        }
    }

    /** Says in the drawing what is to be done there, or how far it goes, and what the pointer has snapped to. */
    showHint() {
        const text = [guideOf(this), this.snap.said()].filter((it) => it !== '').join('  ·  ');
        if (byId('hint').textContent !== text) {
            byId('hint').textContent = text;
            setHidden(byId('hint'), text === '');
        }
    }

    /**
     * The pointer is at a place of the screen, or nowhere.
     * @param {number[] | null} place
     * @param {number} reach pixels
     */
    point(place, reach = REACH.mouse) {
        this.at = place;
        this.pointer = place === null ? null : this.placeAt(place, reach);
        if (place === null) {
            this.snap.found = null;
        }
        this.showHint();
    }

    /**
     * The place of the drawing that is said of one of the screen: what the pointer snapped to, or else just there.
     * @param {number[]} place
     */
    seenAt(place) {
        return this.snap.found !== null && this.pointer !== null ? this.pointer : this.app.drawingPlace(place);
    }

    /** The same again, where it may be something else now. */
    pointAgain() {
        if (this.app.drawing !== null) {
            this.point(this.at);
            this.app.stage.request();
        }
    }

    /**
     * A place that isn't the pointer's, as one that is typed.
     * @param {number[] | null} point
     */
    preview(point) {
        this.snap.found = null;
        this.pointer = point;
        this.showHint();
        this.app.stage.request();
    }

    /**
     * What a place of the screen is in the drawing, in whole units: what it snaps to, while points are set.
     * @param {number[]} place
     * @param {number} reach
     */
    placeAt(place, reach) {
        if (this.takesPoints && !this.isAtFirst(place, reach)) {
            return this.snap.take(place, Math.max(reach, SNAP_REACH));
        }
        this.snap.found = null;
        if (!this.takesPoints) {
            return this.app.wholePlace(place);
        }
        this.snap.markFirst(this.points[0]);
        return this.points[0];
    }

    /**
     * @param {number[]} place of the screen
     * @param {number} reach
     * @param {boolean} isMore
     */
    click(place, reach, isMore) {
        if (!this.draws) {
            this.app.choice.click(place, reach, isMore);
            return;
        }
        const point = this.placeAt(place, reach), [first] = this.points;
        if (this.canClose && point[0] === first[0] && point[1] === first[1]) {
            this.close();
        } else {
            this.addPoint(point);
        }
        this.snap.tell();
        this.showHint();
    }

    /** Whether the points are the corners of an area, which a click on the first of them closes. */
    get canClose() {
        return (this.tool === 'measure' || (this.draws !== null && this.draws.isArea)) && !this.isMeasured
            && this.points.length >= LEAST_OF_AREA;
    }

    /**
     * Whether a place is where the outline of an area began, which closes it.
     * @param {number[]} place
     * @param {number} reach
     */
    isAtFirst([left, top], reach) {
        const { view } = this.app, { points } = this;
        return this.canClose
            && Math.hypot(view.toScreenX(points[0][0]) - left, view.toScreenY(points[0][1]) - top) <= reach;
    }

    /**
     * Takes a point, and says whether it did: not one that is there already, one too many, or one while what is drawn
     * is being made. In a drawing of three axes a point without a z has that of the point before.
     * @param {number[]} point
     */
    addPoint(point) {
        const points = this.isMeasured ? [] : this.points, last = points[points.length - 1];
        const z = point.length > 2 ? point[2] : last && last.length > 2 ? last[2] : 0;
        const taken = [point[0], point[1], z].slice(0, this.axes);
        const isThere = last !== undefined && taken.every((value, axis) => value === last[axis]);
        const most = this.draws === null ? 0 : this.draws.count;
        const isTaken = !isThere && !this.isClosing && points.length < most;
        if (isTaken) {
            points.push(taken);
            this.points = points;
            this.isMeasured = false;
        }
        if (points.length >= most) {
            this.close();
        }
        this.app.stage.request();
        return isTaken;
    }

    /** Takes the last point back; what was measured as an area is open again. */
    dropPoint() {
        if (this.isMeasured) {
            this.isMeasured = false;
        } else if (!this.isClosing) {
            this.points.pop();
        }
        this.showHint();
        this.app.stage.request();
    }

    /** Ends what is drawn by points. The points of an element stay until it is made: where it is refused they can be
        changed, and tried again. */
    async close() {
        const { tool, points } = this;
        if (this.draws === null || points.length === 0 || this.isClosing) {
            return;
        }
        if (tool === 'measure') {
            this.isMeasured = points.length >= LEAST_OF_AREA;
            this.pointAgain();
            return;
        }
        if (tool === 'fence') {
            this.set('choose');
            this.fence.set(points);
            return;
        }
        this.isClosing = true;
        try {
            if (await this.app.editPanel.make(tool, tool === 'shape' ? [...points, points[0]] : points)
                && this.points === points) {
                this.points = [];
                this.app.stage.request();
            }
        } finally {
            this.isClosing = false;
        }
    }

    clearFence() {
        this.fence.clear();
        this.app.show();
        this.app.stage.request();
    }

    /* Dragging. */

    /**
     * Drags from one place of the screen to another, unless that was given up: both are what they snap to.
     * @param {number[]} start
     * @param {number[]} place
     */
    dragTo(start, place) {
        if (!this.isDragging) {
            return;
        }
        const { app } = this, { from, own } = this.drag || this.dragFrom(start);
        const to = this.placeAt(place, REACH.mouse);
        const seen = to.slice(0, from.length).map((value, axis) => value - from[axis]);
        this.drag = { from, to, by: displacementOf(app.scene.orientation, seen, app.open.drawing.axes), own };
        app.stage.request();
    }

    /**
     * Begins to drag what is chosen.
     * @param {number[]} start
     */
    dragFrom(start) {
        const { choice, scene } = this.app, from = this.placeAt(start, REACH.mouse);
        const own = scene.state.partsOf(this.tool === 'drag-move' ? choice.numbers : []);
        this.drag = { from, to: from, by: [], own };
        return this.drag;
    }

    /** Ends a drag: what was dragged is moved or copied by as much. */
    drop() {
        const { drag } = this;
        if (drag === null) {
            this.set('choose');
        } else {
            this.displace(drag.by);
        }
    }

    /**
     * Moves or copies what is chosen, which was to be dragged.
     * @param {number[]} by
     */
    displace(by) {
        const { tool } = this;
        this.set('choose');
        this.app.editPanel.edit({ word: tool === 'drag-copy' ? 'copy' : 'move', by });
    }

    endDrag() {
        if (this.isDragging) {
            this.set('choose');
        }
    }

    /** Another view is seen: what was begun is given up, and so is a tool that it hasn't got. */
    turned() {
        const isLeft = this.drag !== null || this.app.views.refusal(this.tool) !== '';
        this.cancelDrag();
        this.set(isLeft ? 'choose' : this.tool);
    }

    cancelDrag() {
        this.drag = null;
        this.box.clear();
        this.showHint();
        this.app.stage.request();
    }

    /** Gives up what is begun, or else what is chosen. */
    letGo() {
        if (this.tool !== 'choose' && this.points.length > 0) {
            this.points = [];
            this.isMeasured = false;
            this.showHint();
        } else if (this.tool !== 'choose') {
            this.set('choose');
        } else if (this.fence.isSet) {
            this.clearFence();
        } else {
            this.app.place = null;
            this.app.choice.choose([]);
        }
        this.app.stage.request();
    }
}
