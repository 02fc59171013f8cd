/* What is said of elements and places, in words. */

import { counted } from './describing.js';
import { AXIS_NAMES, axesOfSeen } from './orientation.js';
import { typeName } from './types.js';

/** Numbers, places and names of a drawing as a person reads them. */
export class Words {
    /**
     * @param {import('./drawing.js').Drawing} drawing
     * @param {import('./scene.js').Scene} scene
     */
    constructor(drawing, scene) {
        this.drawing = drawing;
        this.scene = scene;
        const { subunits, resolution } = drawing.units;
        this.unitsOfMaster = subunits * resolution;
        this.digits = Math.min(Math.max(Math.ceil(Math.log10(this.unitsOfMaster || 1)), 0), 9);
    }

    /** The drawing in a line. */
    summary() {
        const { drawing } = this;
        const parts = [counted(drawing.count, 'element'), drawing.axes + ' dimensions'];
        if (this.hasMaster) {
            parts.push('1 ' + this.master + ' = ' + this.unitsOfMaster + ' units');
        }
        if (drawing.colours.isOwn) {
            parts.push('its own colours');
        }
        return parts.join(' · ');
    }

    /** Whether the drawing says what a master unit is. */
    get hasMaster() {
        return this.unitsOfMaster > 0;
    }

    get master() {
        return this.drawing.units.master || 'master units';
    }

    /**
     * A coordinate in master units.
     * @param {number} value in units of resolution
     * @param {number} axis 0 for x, 1 for y, 2 for z
     */
    toMaster(value, axis) {
        return (value - this.drawing.units.origin[axis]) / this.unitsOfMaster;
    }

    /**
     * A place that is seen in master units as one in units of resolution.
     * @param {number[]} values
     */
    fromMaster(values) {
        const axes = axesOfSeen(this.scene.orientation), { units: { origin } } = this.drawing;
        return values.map((value, at) => value * this.unitsOfMaster + origin[axes[at]]);
    }

    /**
     * A coordinate in master units, without their name.
     * @param {number} value in units of resolution
     * @param {number} axis
     */
    masterOf(value, axis) {
        return this.toMaster(value, axis).toFixed(this.digits);
    }

    /**
     * A length in master units with their name.
     * @param {number} units of resolution
     */
    lengthOf(units) {
        return (units / this.unitsOfMaster).toFixed(this.digits) + ' ' + this.master;
    }

    /**
     * A place that is seen, in units of resolution, and in master units where these are known; of three axes it is said
     * which they are.
     * @param {number[]} point
     */
    placeOf(point) {
        const axes = axesOfSeen(this.scene.orientation, point.length), inOrder = axes.slice().sort();
        const values = inOrder.map((axis) => point[axes.indexOf(axis)]);
        const names = this.drawing.axes === 2 ? '' : inOrder.map((axis) => AXIS_NAMES[axis]).join(',') + '  ';
        const plain = names + values.map((value) => String(Math.round(value))).join(',');
        const master = values.map((value, at) => this.masterOf(value, inOrder[at])).join(', ');
        return this.hasMaster ? plain + '  =  ' + master + ' ' + this.master : plain;
    }

    /** @param {number} type */
    typeOf(type) {
        return typeName(type);
    }

    /**
     * An element in a few words: its number, its type, its text or its cell's name.
     * @param {number} record
     */
    nameOf(record) {
        const { records } = this.scene;
        const label = records.labelOf(record);
        const words = records.number[record] + ' ' + this.typeOf(records.type[record]);
        if (label === null) {
            return words;
        }
        return words + (typeof label === 'string' ? ' ' + label : ' “' + label.characters + '”');
    }

    /**
     * What is said of what is under the pointer.
     * @param {number} record
     */
    hoverOf(record) {
        const { records } = this.scene;
        const parts = [this.nameOf(record), 'level ' + records.level[record], 'colour ' + records.colour[record]];
        const cell = this.cellAbove(record);
        if (cell !== null) {
            parts.push('in ' + cell);
        }
        return parts.join(' · ');
    }

    /**
     * The number and the name of the outermost header above a record, or null.
     * @param {number} record
     */
    cellAbove(record) {
        const state = this.stateOf(record);
        const headers = state.above(this.scene.records.number[record]);
        if (headers.length === 0) {
            return null;
        }
        return this.nameOf(state.record[headers[0]]);
    }

    /**
     * The state that a record stands in.
     * @param {number} record
     */
    stateOf(record) {
        const { before, after, records } = this.scene;
        const number = records.number[record];
        return after && number < after.count && after.record[number] === record ? after : before;
    }
}
