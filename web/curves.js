/* Curves, type 11, by the definition of the format: a curve goes through all of its points but the first two and the
   last two, which give its direction at its ends. Between two points it is a cubic in each axis, whose parameter is the
   length on the chord, and whose slope at a point is the mean of those of the two chords there, each weighed by how
   much the slope changes from the other chord to the one beyond. */

/** @typedef {import('./orientation.js').Orientation} Orientation */

/** The fewest points of a curve that has a piece. */
export const LEAST_OF_CURVE = 6;

/** What is known of a point that a curve goes through: x, y, the slopes there, and the length of the chord behind. */
const ROW = 5;

/** What is known of a chord: its length in all axes, and its slopes in the two that are seen. */
const CHORD = 3;

/**
 * The points that a curve goes through as they are seen, a row each; none where it has too few points for a piece.
 * @param {Int32Array} coordinates
 * @param {number} first the place of its first coordinate
 * @param {number} count of its points
 * @param {number} axes
 * @param {Orientation} seen
 */
export function knotsOfCurve(coordinates, first, count, axes, seen) {
    if (count < LEAST_OF_CURVE) {
        return new Float64Array(0);
    }
    const rows = new Float64Array((count - 4) * ROW), chords = chordsOf(coordinates, first, count, axes, seen);
    for (let point = 2; point < count - 2; point++) {
        const at = (point - 2) * ROW, chord = (point - 2) * CHORD;
        rows[at] = coordinates[first + point * axes + seen.across];
        rows[at + 1] = coordinates[first + point * axes + seen.up];
        rows[at + 2] = slopeOf(chords, chord + 1);
        rows[at + 3] = slopeOf(chords, chord + 2);
        rows[at + 4] = chords[chord + 2 * CHORD];
    }
    return rows;
}

/**
 * The chords from each point to the next one; one without length has no slope.
 * @param {Int32Array} coordinates
 * @param {number} first
 * @param {number} count
 * @param {number} axes
 * @param {Orientation} seen
 */
function chordsOf(coordinates, first, count, axes, { across, up }) {
    const chords = new Float64Array((count - 1) * CHORD);
    for (let chord = 0, at = first; chord < chords.length; chord += CHORD, at += axes) {
        const x = coordinates[at + axes] - coordinates[at], y = coordinates[at + axes + 1] - coordinates[at + 1];
        const z = axes === 2 ? 0 : coordinates[at + 5] - coordinates[at + 2];
        const length = Math.sqrt(x * x + y * y + z * z);
        chords[chord] = length;
        chords[chord + 1] = length === 0 ? 0 : (across === 0 ? x : y) / length;
        chords[chord + 2] = length === 0 ? 0 : (up === 1 ? y : z) / length;
    }
    return chords;
}

/**
 * The slope at a point in one axis, of the slopes of the two chords before it and of the two behind it.
 * @param {Float64Array} chords
 * @param {number} at where the first of the four stands
 */
function slopeOf(chords, at) {
    const before = chords[at], to = chords[at + CHORD], from = chords[at + 2 * CHORD], behind = chords[at + 3 * CHORD];
    const weightTo = Math.abs(behind - from), weightFrom = Math.abs(to - before), weights = weightTo + weightFrom;
    return weights === 0 ? (to + from) / 2 : (to * weightTo + from * weightFrom) / weights;
}

/**
 * A box that holds a curve as it is seen, and is hardly larger: each of its cubics stays between its ends and two
 * corners, a third of its chord away from them. As the slope at a point lies between those of the two chords there, the
 * corner lies between a place of its own chord and one in the direction of the other chord.
 * @param {Int32Array} coordinates
 * @param {number} first the place of its first coordinate
 * @param {number} count of its points
 * @param {number} axes
 * @param {Orientation} seen
 * @returns {number[]} low x, low y, high x, high y
 */
export function boxOfCurve(coordinates, first, count, axes, { across, rise, away: third }) {
    const start = first + 2 * axes + across, end = first + (count - 3) * axes + across, depth = axes - 2;
    const away = depth * third;
    let lowX = coordinates[start], highX = lowX, lowY = coordinates[start + rise], highY = lowY;
    for (let at = start; at <= end; at += axes) {
        const x = coordinates[at], y = coordinates[at + rise], z = coordinates[at + away];
        const toX = x - coordinates[at - axes], toY = y - coordinates[at + rise - axes];
        const toZ = depth * (z - coordinates[at + away - axes]);
        const fromX = coordinates[at + axes] - x, fromY = coordinates[at + axes + rise] - y;
        const fromZ = depth * (coordinates[at + away + axes] - z);
        const to = toX * toX + toY * toY + toZ * toZ, from = fromX * fromX + fromY * fromY + fromZ * fromZ;
        const share = to > 0 && from > 0 ? Math.sqrt(from / to) / 3 : 0;
        const ahead = at < end ? share : 0, back = at > start && share > 0 ? 1 / (9 * share) : 0;
        lowX = Math.min(lowX, x, x + toX * ahead, x - fromX * back);
        highX = Math.max(highX, x, x + toX * ahead, x - fromX * back);
        lowY = Math.min(lowY, y, y + toY * ahead, y - fromY * back);
        highY = Math.max(highY, y, y + toY * ahead, y - fromY * back);
    }
    return [lowX, lowY, highX, highY];
}

/**
 * Points of a curve, x and y one behind the other.
 * @param {Float64Array} rows
 * @param {number} steps from a point that it goes through to the next
 */
export function curvePoints(rows, steps) {
    const pieces = rows.length / ROW - 1, points = new Float64Array(2 * (pieces * steps + 1));
    points[0] = rows[0];
    points[1] = rows[1];
    for (let step = 1; step <= pieces * steps; step++) {
        const piece = Math.ceil(step / steps) - 1, at = piece * ROW;
        const share = step / steps - piece;
        points[2 * step] = cubic(rows, at, share);
        points[2 * step + 1] = cubic(rows, at + 1, share);
    }
    return points;
}

/**
 * One axis of a curve's piece, at a share of the chord.
 * @param {Float64Array} rows
 * @param {number} at where its value in the row of the piece's first point stands
 * @param {number} share
 */
function cubic(rows, at, share) {
    const length = rows[at - at % ROW + 4], rise = rows[at + ROW] - rows[at];
    const start = rows[at + 2] * length, end = rows[at + ROW + 2] * length;
    return rows[at] + share * (start + share * (3 * rise - 2 * start - end + share * (start + end - 2 * rise)));
}
