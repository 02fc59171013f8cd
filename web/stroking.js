/* Points of B-splines, found by de Boor's rule: each time the weighted mean of neighbours, one less than before. */

/** @typedef {import('./splines.js').Way} Way */
/** @typedef {import('./splines.js').Spline} Spline */

const LINES_MOST_DRAWN = 16;      // intervals between the lines of a surface that are drawn each way
const LINE_STEPS = 4;             // steps from one such line to the next
const POINTS_MOST_OF_CURVE = 8192;

/**
 * A parameter of a way, and the knot before it.
 * @typedef {{ at: number, span: number }} Parameter
 */

/**
 * Points of a B-spline, x and y one behind the other: of a surface those of its lines, which are one path.
 * @param {Spline} spline
 * @param {number} steps of a curve from one knot to the next
 */
export function splinePoints(spline, steps) {
    return spline.ways.length === 1 ? curveOfSpline(spline, steps) : netOfSpline(spline);
}

/**
 * @param {Spline} spline
 * @param {number} steps
 */
function curveOfSpline({ ways: [way], poles }, steps) {
    const spans = spansOfWay(way), most = Math.max(Math.min(steps, Math.floor(POINTS_MOST_OF_CURVE / spans.length)), 1);
    const parameters = parametersIn(way, spans, most), points = new Float64Array(2 * parameters.length);
    parameters.forEach((parameter, index) => {
        const [x, y, weight] = pointOn(way, parameter, poles, 0, 3);
        points[2 * index] = x / weight;
        points[2 * index + 1] = y / weight;
    });
    return points;
}

/**
 * The knots of a way behind which a piece begins.
 * @param {Way} way
 * @returns {number[]}
 */
function spansOfWay({ knots, order }) {
    const spans = [];
    for (let span = order - 1; span < knots.length - order; span++) {
        if (knots[span] < knots[span + 1]) {
            spans.push(span);
        }
    }
    return spans;
}

/**
 * Parameters from one end of a way to the other, so many steps to a piece.
 * @param {Way} way
 * @param {number[]} spans
 * @param {number} steps
 * @returns {Parameter[]}
 */
function parametersIn({ knots }, spans, steps) {
    const parameters = [{ at: knots[spans[0]], span: spans[0] }];
    for (let step = 1; step <= spans.length * steps; step++) {
        const span = spans[Math.ceil(step / steps) - 1], share = (step - 1) % steps + 1;
        parameters.push({ at: knots[span] + (knots[span + 1] - knots[span]) * share / steps, span });
    }
    return parameters;
}

/**
 * Parameters from one end of a way to the other, so many steps in all.
 * @param {Way} way
 * @param {number} steps
 * @returns {Parameter[]}
 */
function parametersAlong(way, steps) {
    const spans = spansOfWay(way), { knots } = way, start = knots[spans[0]];
    const end = knots[spans[spans.length - 1] + 1];
    return Array.from({ length: steps + 1 }, (_, step) => {
        const at = start + (end - start) * step / steps;
        return { at, span: spans.filter((span) => knots[span] <= at).pop() || spans[0] };
    });
}

/**
 * A point of a way as x·w, y·w and w.
 * @param {Way} way
 * @param {Parameter} parameter
 * @param {Float64Array} poles
 * @param {number} first the place of its first pole in `poles`
 * @param {number} stride from one pole to the next
 * @returns {number[]}
 */
function pointOn(way, { at, span }, poles, first, stride) {
    const { order, knots } = way, held = new Float64Array(3 * order);
    for (let pole = 0; pole < order; pole++) {
        const place = first + (span - order + 1 + pole) % way.poles * stride;
        held[3 * pole] = poles[place];
        held[3 * pole + 1] = poles[place + 1];
        held[3 * pole + 2] = poles[place + 2];
    }
    for (let round = 1; round < order; round++) {
        for (let pole = order - 1; pole >= round; pole--) {
            const low = knots[span - order + 1 + pole], high = knots[span + 1 + pole - round];
            mix(held, pole, high > low ? (at - low) / (high - low) : 0);
        }
    }
    return [held[3 * order - 3], held[3 * order - 2], held[3 * order - 1]];
}

/**
 * Puts in the place of one of three numbers its mean with the three before.
 * @param {Float64Array} held
 * @param {number} pole
 * @param {number} share of its own
 */
function mix(held, pole, share) {
    for (let place = 3 * pole; place < 3 * pole + 3; place++) {
        held[place] = held[place - 3] * (1 - share) + held[place] * share;
    }
}

/**
 * The lines of a surface as one path: along all lines of one way, there and back in turn, and then along those of the
 * other one. From line to line it goes on the surface's edge, which is one itself.
 * @param {Spline} spline
 */
function netOfSpline(spline) {
    const [wide, high] = spline.lines.map((lines) => LINE_STEPS * Math.min(Math.max(lines, 1), LINES_MOST_DRAWN));
    const grid = gridOfSpline(spline, wide, high), points = [];
    let isBack = false;
    for (let row = 0; row <= high; row++) {
        points.push(...stepsOf(row, wide, isBack).map((column) => row * (wide + 1) + column));
        isBack = row % LINE_STEPS === 0 ? !isBack : isBack;
    }
    const isRight = isBack;
    isBack = true;
    for (let step = 0; step <= wide; step++) {
        const column = isRight ? wide - step : step;
        points.push(...stepsOf(step, high, isBack).map((row) => row * (wide + 1) + column));
        isBack = step % LINE_STEPS === 0 ? !isBack : isBack;
    }
    return Float64Array.from(points.flatMap((point) => [grid[2 * point], grid[2 * point + 1]]));
}

/**
 * Where a path through a grid goes in one of its rows: along all of it where a line stands there; else it is on its way
 * to the next one, at the edge that it came to.
 * @param {number} row
 * @param {number} length
 * @param {boolean} isBack whether the next line is to be gone from its end
 * @returns {number[]}
 */
function stepsOf(row, length, isBack) {
    if (row % LINE_STEPS !== 0) {
        return [isBack ? length : 0];
    }
    const steps = Array.from({ length: length + 1 }, (_, step) => step);
    return isBack ? steps.reverse() : steps;
}

/**
 * Points of a surface in rows along its first way.
 * @param {Spline} spline
 * @param {number} wide
 * @param {number} high
 */
function gridOfSpline({ ways: [along, across], poles }, wide, high) {
    const grid = new Float64Array(2 * (wide + 1) * (high + 1)), columns = parametersAlong(along, wide);
    const row = new Float64Array(3 * along.poles);
    parametersAlong(across, high).forEach((parameter, line) => {
        for (let pole = 0; pole < along.poles; pole++) {
            row.set(pointOn(across, parameter, poles, 3 * pole, 3 * along.poles), 3 * pole);
        }
        columns.forEach((column, index) => {
            const [x, y, weight] = pointOn(along, column, row, 0, 3), at = 2 * (line * (wide + 1) + index);
            grid[at] = x / weight;
            grid[at + 1] = y / weight;
        });
    });
    return grid;
}
