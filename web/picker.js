/* Finds what is under the pointer. */

import { holesIn, isFilled } from './fills.js';
import { DRAWN, DRAWN_OF } from './format.js';
import { Path } from './path.js';
import { lineOfText } from './texts.js';

const PIXELS_WITHIN = 8;          // about how many pixels of the screen the distance is that is picked within
const SHARE_OF_FILL = 0.9;        // of that distance that the inside of what is filled has
const EDGE_ON = 0.01;             // of its area of which a text is seen that is pointed at as a line
const SIZE_OF_NEAREST = 1000;     // pixels that a record is taken to have where no distance is given
/** Half the side of a square that holds the plane, whatever its centre. */
const GREATEST_HALF = 2 ** 34;

/**
 * The square of a point's distance from a segment.
 * @param {number} x
 * @param {number} y
 * @param {number} startX
 * @param {number} startY
 * @param {number} endX
 * @param {number} endY
 */
function squareFromSegment(x, y, startX, startY, endX, endY) {
    const along = endX - startX, up = endY - startY;
    const square = along * along + up * up;
    const share = square === 0 ? 0 : Math.min(Math.max(((x - startX) * along + (y - startY) * up) / square, 0), 1);
    const offX = x - startX - share * along, offY = y - startY - share * up;
    return offX * offX + offY * offY;
}

/**
 * A record that is near a place, and the square of its distance in units of resolution.
 * @typedef {{ record: number, square: number }} Near
 */

/** Picks records of a scene by a place of the drawing. */
export class Picker {
    /** @param {import('./scene.js').Scene} scene */
    constructor(scene) {
        this.scene = scene;
        this.path = new Path(scene.records);
    }

    /**
     * The nearest record that is drawn within a distance, in units of resolution; of equals the last; or -1.
     * @param {number} x
     * @param {number} y
     * @param {number} within
     */
    pick(x, y, within) {
        let nearest = -1, least = within * within;
        this.scene.query([x - within, y - within, x + within, y + within], (/** @type {number} */ record) => {
            const square = this.squareFrom(record, x, y, within);
            if (square < least || (square === least && this.isAbove(record, nearest))) {
                nearest = record;
                least = square;
            }
        });
        return nearest;
    }

    /**
     * The records that are nearest to a place, with their distances in units of resolution, the nearest first.
     * @param {number[]} place
     * @param {number} count
     */
    nearest(place, count) {
        /** @type {Near[]} */
        let found = [];
        let half = 1;
        while (half < GREATEST_HALF && (found.length < count || found[count - 1].square > half * half)) {
            half *= 2;
            found = this.nearestWithin(place, half, count);
        }
        return found.map(({ record, square }) => ({ record, distance: Math.sqrt(square) }));
    }

    /**
     * The nearest of the records in a square around a place, with the squares of their distances.
     * @param {number[]} place
     * @param {number} half of its side
     * @param {number} count
     */
    nearestWithin([x, y], half, count) {
        const { records } = this.scene;
        /** @type {Near[]} */
        let found = [];
        this.scene.query([x - half, y - half, x + half, y + half], (record) => {
            const drawn = DRAWN_OF[records.type[record]];
            const last = found.length < count ? Infinity : found[count - 1].square;
            if (drawn !== DRAWN.cell && drawn !== DRAWN.node && this.squareFromBounds(record, x, y) <= last) {
                found.push({ record, square: this.squareFrom(record, x, y, 0) });
                found = found.sort((one, other) => one.square - other.square || one.record - other.record)
                    .slice(0, count);
            }
        });
        return found;
    }

    /**
     * The square of a place's distance from the box of a record, which is no more than that from the record.
     * @param {number} record
     * @param {number} x
     * @param {number} y
     */
    squareFromBounds(record, x, y) {
        const { box } = this.scene.records, at = record * 4;
        const offX = Math.max(box[at] - x, x - box[at + 2], 0), offY = Math.max(box[at + 1] - y, y - box[at + 3], 0);
        return offX * offX + offY * offY;
    }

    /**
     * @param {number} record
     * @param {number} other
     */
    isAbove(record, other) {
        const isMarked = this.scene.isAbove(record), isOtherMarked = other >= 0 && this.scene.isAbove(other);
        return isMarked === isOtherMarked ? other < 0 || this.scene.placeOf(record) > this.scene.placeOf(other)
            : isMarked;
    }

    /**
     * The square of a place's distance from a record; a distance that is picked within says how large it is seen.
     * @param {number} record
     * @param {number} x
     * @param {number} y
     * @param {number} within
     */
    squareFrom(record, x, y, within) {
        const { records } = this.scene;
        switch (DRAWN_OF[records.type[record]]) {
            case DRAWN.path: return this.squareFromPath(record, x, y, within);
            case DRAWN.text: return this.squareFromText(record, x, y, within);
            case DRAWN.box: return this.squareFromPath(record, x, y, within);
            default: {
                const [offX, offY] = this.fromOrigin(record, x, y);
                return (offX * offX + offY * offY) * 4 + within * within / 64;
            }
        }
    }

    /**
     * How far to the right and up a place lies from the origin of a record.
     * @param {number} record
     * @param {number} x
     * @param {number} y
     */
    fromOrigin(record, x, y) {
        const { records } = this.scene, { across, up } = records.orientation;
        return [x - records.coordinate(record, 0, across), y - records.coordinate(record, 0, up)];
    }

    /**
     * From the path that a record is drawn by, or else from its range. Within what is filled it isn't quite at it, so
     * that a line there can be pointed at.
     * @param {number} record
     * @param {number} x
     * @param {number} y
     * @param {number} within
     */
    squareFromPath(record, x, y, within) {
        const { records } = this.scene, { path } = this, { box } = records, at = record * 4;
        const side = Math.max(box[at + 2] - box[at], box[at + 3] - box[at + 1]);
        if (!path.take(record, within > 0 ? side / within * PIXELS_WITHIN : SIZE_OF_NEAREST)) {
            return DRAWN_OF[records.type[record]] === DRAWN.box ? this.squareFromBox(record, x, y) : Infinity;
        }
        const least = this.squareFromTaken(x, y);
        return isFilled(records, record) && this.isInArea(record, x, y)
            ? Math.min(least, (SHARE_OF_FILL * within) ** 2) : least;
    }

    /**
     * The square of a place's distance from the path that was taken.
     * @param {number} x
     * @param {number} y
     */
    squareFromTaken(x, y) {
        const { points, from, to, step, rise, isClosed, count } = this.path;
        let least = Infinity;
        for (let place = from, before = isClosed || count === 1 ? to - step : from; place < to; place += step) {
            least = Math.min(least, squareFromSegment(x, y, points[before], points[before + rise], points[place],
                points[place + rise]));
            before = place;
        }
        return least;
    }

    /**
     * Whether a place is in the area of a record, and in none of its holes. Its own path was taken.
     * @param {number} record
     * @param {number} x
     * @param {number} y
     */
    isInArea(record, x, y) {
        const { records } = this.scene;
        return this.isInTaken(x, y) && !holesIn(records, record).some((hole) => (
            this.path.take(hole, SIZE_OF_NEAREST) && this.isInTaken(x, y)));
    }

    /**
     * Whether a place is in the area of the path that was taken.
     * @param {number} x
     * @param {number} y
     */
    isInTaken(x, y) {
        const { points, from, to, step, rise } = this.path;
        let isInside = false;
        for (let place = from, before = to - step; place < to; before = place, place += step) {
            isInside = crosses(x, y, points[before], points[before + rise], points[place], points[place + rise])
                ? !isInside : isInside;
        }
        return isInside;
    }

    /**
     * Within a text's characters it isn't quite at the text, so that a line there can be pointed at: the larger the
     * text, the less a line has to be met.
     * @param {number} record
     * @param {number} x
     * @param {number} y
     * @param {number} within
     */
    squareFromText(record, x, y, within) {
        const { records } = this.scene;
        const text = /** @type {import('./records.js').TextLabel} */ (records.labelOf(record));
        const [offX, offY] = this.fromOrigin(record, x, y);
        const [alongX, alongY, upX, upY] = text.turn, area = alongX * upY - alongY * upX;
        if (Math.abs(area) < EDGE_ON) {
            return squareFromSegment(offX, offY, 0, 0, ...lineOfText(text, 0));
        }
        const along = (offX * upY - offY * upX) / area, up = (offY * alongX - offX * alongY) / area;
        const beyond = distanceBeyond(along, text.width), over = distanceBeyond(up, text.height);
        const share = Math.min(0.2 + Math.abs(text.height) / (within + 1) / 12, 0.9);
        return Math.max(beyond * beyond + over * over, (share * within) ** 2);
    }

    /**
     * @param {number} record
     * @param {number} x
     * @param {number} y
     */
    squareFromBox(record, x, y) {
        const { box } = this.scene.records;
        const at = record * 4;
        const [lowX, lowY, highX, highY] = [box[at], box[at + 1], box[at + 2], box[at + 3]];
        return Math.min(
            squareFromSegment(x, y, lowX, lowY, highX, lowY), squareFromSegment(x, y, highX, lowY, highX, highY),
            squareFromSegment(x, y, highX, highY, lowX, highY), squareFromSegment(x, y, lowX, highY, lowX, lowY));
    }
}

/**
 * Whether a segment crosses what lies to the right of a place.
 * @param {number} x
 * @param {number} y
 * @param {number} startX
 * @param {number} startY
 * @param {number} endX
 * @param {number} endY
 */
function crosses(x, y, startX, startY, endX, endY) {
    return (startY > y) !== (endY > y) && x < startX + (y - startY) / (endY - startY) * (endX - startX);
}

/**
 * How far a place lies beyond a length that goes from 0, forwards or back.
 * @param {number} place
 * @param {number} length
 */
function distanceBeyond(place, length) {
    return Math.max(Math.min(length, 0) - place, place - Math.max(length, 0), 0);
}
