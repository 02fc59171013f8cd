/* What of a segment or of an area lies in a rectangle. */

/**
 * A segment's part within a rectangle: its ends, or null.
 * @param {number} left
 * @param {number} top
 * @param {number} right
 * @param {number} bottom
 * @param {number[]} rectangle low x, low y, high x, high y
 * @returns {number[] | null}
 */
export function cutSegment(left, top, right, bottom, [lowX, lowY, highX, highY]) {
    const along = right - left, down = bottom - top;
    let enter = 0, leave = 1;
    const sides = [[-along, left - lowX], [along, highX - left], [-down, top - lowY], [down, highY - top]];
    for (const [step, room] of sides) {
        if (step === 0 && room < 0) {
            return null;
        }
        if (step < 0) {
            enter = Math.max(enter, room / step);
        } else if (step > 0) {
            leave = Math.min(leave, room / step);
        }
    }
    return enter > leave ? null : [left + enter * along, top + enter * down, left + leave * along, top + leave * down];
}

/**
 * An area's part within a rectangle: its corners, x and y one behind the other.
 * @param {number[]} corners
 * @param {number[]} rectangle low x, low y, high x, high y
 * @returns {number[]}
 */
export function cutArea(corners, [lowX, lowY, highX, highY]) {
    let cut = corners;
    for (const [axis, side, sign] of [[0, lowX, 1], [0, highX, -1], [1, lowY, 1], [1, highY, -1]]) {
        cut = cutSide(cut, axis, side, sign);
    }
    return cut;
}

/**
 * An area's part on one side of a line along an axis.
 * @param {number[]} corners
 * @param {number} axis
 * @param {number} side
 * @param {number} sign 1 where what is greater is kept, -1 where it is what is less
 */
function cutSide(corners, axis, side, sign) {
    const kept = [];
    for (let at = 0; at < corners.length; at += 2) {
        const before = at === 0 ? corners.length - 2 : at - 2;
        const over = sign * (corners[at + axis] - side), overBefore = sign * (corners[before + axis] - side);
        if ((over < 0) !== (overBefore < 0)) {
            const share = overBefore / (overBefore - over);
            kept.push(corners[before] + share * (corners[at] - corners[before]),
                corners[before + 1] + share * (corners[at + 1] - corners[before + 1]));
        }
        if (over >= 0) {
            kept.push(corners[at], corners[at + 1]);
        }
    }
    return kept;
}
