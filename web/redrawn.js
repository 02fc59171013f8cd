/* What has to be drawn anew, since which version of a scene. */

const MOST_BOXES = 60000;
const MOST_PARTS = 64;

/** @typedef {import('./records.js').Records} Records */

/** The boxes of what has changed, by the versions of a scene. */
export class ChangedBoxes {
    constructor() {
        /**
         * The last versions, in rising order, each with the boxes that changed with it, four numbers each, or null for
         * everything.
         * @type {{ version: number, boxes: number[] | null }[]}
         */
        this.entries = [];
    }

    /**
     * Says that everything has changed with a version, or boxes alone.
     * @param {number} version
     * @param {number[] | null} boxes low x, low y, high x, high y of each, one behind the other
     */
    add(version, boxes) {
        const isMany = boxes === null || boxes.length > 4 * MOST_BOXES;
        if (isMany) {
            this.entries.length = 0;
        } else if (this.entries.length === MOST_PARTS) {
            this.entries.shift();
        }
        this.entries.push({ version, boxes: isMany ? null : boxes });
    }

    /**
     * The boxes that have changed after one version up to another, or null where that is everything, or isn't known.
     * @param {number} from
     * @param {number} to
     * @returns {number[] | null}
     */
    between(from, to) {
        const found = this.entries.filter(({ version }) => version > from && version <= to);
        const isKnown = found.length === to - from && found.every(({ boxes }) => boxes !== null);
        return isKnown ? found.flatMap(({ boxes }) => boxes || []) : null;
    }
}

/**
 * Adds the box of a record to boxes.
 * @param {number[]} boxes
 * @param {Records} records
 * @param {number} record
 */
export function addBox(boxes, { box }, record) {
    boxes.push(box[4 * record], box[4 * record + 1], box[4 * record + 2], box[4 * record + 3]);
}
