/* What is snapped to, held against all that there is: random segments around many places, of which each end, middle,
   crossing and nearest point is looked at, and the numbers that the field for points takes.

       node web/tests/snapping.mjs [ROUNDS]

   The status is 0 where all is the same; else what isn't is printed. */

import { Grid } from '../grid.js';
import { typedPoint } from '../coordinates.js';
import { TYPE } from '../format.js';
import { areaOf, lengthOf } from '../measuring.js';
import { Records } from '../records.js';
import { SNAP_RANK, Snapper } from '../snapping.js';

const rounds = Number(process.argv[2] || 40);
let seed = 1, faults = 0;

/** A whole number from 0 to before a limit, the same in each run. */
function below(limit) {
    seed = (Math.imul(seed, 1103515245) + 12345) & 0x7FFFFFFF;
    return Math.floor(seed / 0x80000000 * limit);
}

function expect(isSo, ...said) {
    if (!isSo && faults++ < 20) {
        console.log(...said.map((it) => (typeof it === 'string' ? it : JSON.stringify(it))));
    }
}

/* Snapping. */

/** Records of paths: lines, line strings and shapes by their points. */
function recordsOf(paths) {
    const records = new Records(2, paths.length, () => new Uint8Array(0), () => new Uint8Array(0));
    paths.forEach(({ type, points }, record) => {
        records.reservePoints(points.length);
        Object.assign(records, { length: record + 1 });
        records.type[record] = type;
        records.number[record] = record + 1;
        records.first[record] = records.pointCount;
        records.points[record] = points.length;
        records.coordinates.set(points.flat(), records.pointCount * 2);
        records.pointCount += points.length;
        records.setBox(record, null);
    });
    return records;
}

function sceneOf(paths) {
    const records = recordsOf(paths), grid = new Grid(records, 0, records.length);
    return { records, isDrawn: () => true, query: (rectangle, visit) => grid.query(rectangle, visit) };
}

/** Lines, line strings and shapes on a small plane, some of whose points are those of others. */
function pathsAtRandom(count, size) {
    const paths = [];
    for (let at = 0; at < count; at++) {
        const type = [TYPE.line, 4, TYPE.shape][below(3)], length = type === TYPE.line ? 2 : 3 + below(4);
        const points = Array.from({ length }, () => (
            paths.length > 0 && below(8) === 0 ? paths[below(paths.length)].points[0] : [below(size), below(size)]));
        paths.push({ type, points: type === TYPE.shape ? [...points, points[0]] : points });
    }
    return paths;
}

/** All segments of paths, with the number of the path's record. */
function segmentsOf(paths) {
    return paths.flatMap(({ points }, record) => points.slice(1).map((end, at) => ({ record, start: points[at], end }))
        .filter(({ start, end }) => start[0] !== end[0] || start[1] !== end[1]));
}

/** The nearest point of a segment, by the projection of a place on its line. */
function nearestOn({ start: [ax, ay], end: [bx, by] }, [x, y]) {
    const square = (bx - ax) ** 2 + (by - ay) ** 2, along = (x - ax) * (bx - ax) + (y - ay) * (by - ay);
    return along <= 0 ? [ax, ay] : along >= square ? [bx, by]
        : [ax + along * (bx - ax) / square, ay + along * (by - ay) / square];
}

/** Where two segments cross, by the sides of each on which the ends of the other lie; null where they don't. */
function crossingOf(one, other) {
    const side = ({ start: [ax, ay], end: [bx, by] }, [x, y]) => (bx - ax) * (y - ay) - (by - ay) * (x - ax);
    const atStart = side(one, other.start), atEnd = side(one, other.end);
    const isApart = atStart * atEnd > 0 || side(other, one.start) * side(other, one.end) > 0;
    if (isApart || atStart === atEnd) {
        return null;
    }
    const share = atStart / (atStart - atEnd);
    return [0, 1].map((axis) => other.start[axis] + share * (other.end[axis] - other.start[axis]));
}

/** All places of a kind's rank, of all segments. */
function placesAll(paths, segments, place) {
    const all = { 0: paths.flatMap(({ points }) => points), 1: [], 2: [], 3: [], 4: [] };
    segments.forEach((one, at) => {
        all[2].push([(one.start[0] + one.end[0]) / 2, (one.start[1] + one.end[1]) / 2]);
        all[4].push(nearestOn(one, place));
        segments.slice(0, at).forEach((other) => all[1].push(crossingOf(one, other)));
    });
    return all;
}

/** What has to be found: the first rank that has a place near enough, and how far the nearest of it is. */
function wantedAt(paths, segments, place, within) {
    const all = placesAll(paths, segments, place);
    for (const rank of [0, 1, 2, 3, 4]) {
        const apart = all[rank].filter((it) => it !== null).map(([x, y]) => Math.hypot(x - place[0], y - place[1]));
        const least = Math.min(...apart);
        if (least <= within) {
            return { rank, least };
        }
    }
    return null;
}

function compareAt(snapper, paths, segments, place, within) {
    const found = snapper.find(...place, within), wanted = wantedAt(paths, segments, place, within);
    const apart = found === null ? -1 : Math.hypot(found.x - place[0], found.y - place[1]);
    // what lies just at the edge of what is near may be taken or not
    const isAtEdge = wanted !== null && Math.abs(wanted.least - within) < 1e-6;
    expect(isAtEdge || (found === null) === (wanted === null), 'found', found, 'wanted', wanted, 'at', place);
    if (found !== null && wanted !== null && !isAtEdge) {
        expect(SNAP_RANK[found.kind] === wanted.rank && Math.abs(apart - wanted.least) < 1e-6,
            'found', found, apart, 'wanted', wanted, 'at', place);
    }
}

for (let round = 0; round < rounds; round++) {
    const size = [60, 1000, 100000][round % 3], paths = pathsAtRandom(3 + below(40), size);
    const snapper = new Snapper(sceneOf(paths)), segments = segmentsOf(paths);
    for (let at = 0; at < 60; at++) {
        const place = [below(size) + below(8) / 8, below(size) + below(8) / 8];
        compareAt(snapper, paths, segments, place, size / (10 + below(90)));
    }
}

/* Very much at one place: an answer comes soon, and it is one of what is there. */

const many = Array.from({ length: 200000 }, () => (
    { type: TYPE.line, points: [[below(1000), below(1000)], [below(1000), below(1000)]] }));
const crowded = new Snapper(sceneOf(many)), before = performance.now();
for (let at = 0; at < 20; at++) {
    expect(crowded.find(500, 500, 1 + at) !== null, 'nothing where very much is');
}
const took = (performance.now() - before) / 20;
expect(took < 60, 'among 200,000 lines through one place it takes', took, 'milliseconds');

/* Typed points: each number by its decimal digits, not by a floating one. */

/** Digits with two decimals, times 100 to the nearest whole number, half up. */
function hundredfold(text) {
    const [, sign, whole, digits] = /^(-?)(\d+)\.(\d{4})$/.exec(text), tenThousandths = BigInt(sign + whole + digits);
    const shifted = tenThousandths + 50n;
    return Number(shifted >= 0n || shifted % 100n === 0n ? shifted / 100n : shifted / 100n - 1n);
}

for (let at = 0; at < 20000; at++) {
    const decimals = () => (below(2) ? '-' : '') + below(30000) + '.' + String(below(10000)).padStart(4, '0');
    const x = decimals(), y = decimals(), last = [below(1000), -below(1000)];
    const context = { axes: 2, unit: 100, origin: [700, -20], last, isDisplacement: false };
    const there = typedPoint(x + ' , ' + y, context), onwards = typedPoint('@' + x + ',' + y, context);
    expect(`${there.point}` === `${[hundredfold(x) + 700, hundredfold(y) - 20]}`, 'typed', x, y, there);
    expect(`${onwards.point}` === `${[hundredfold(x) + last[0], hundredfold(y) + last[1]]}`, 'typed @', x, y, onwards);
}
for (let quarter = -8; quarter <= 8; quarter++) {
    const context = { axes: 2, unit: 1, origin: [0, 0], last: [5, 6], isDisplacement: false };
    const { point } = typedPoint('@2000000000<' + 90 * quarter, context);
    const [x, y] = [[1, 0], [0, 1], [-1, 0], [0, -1]][((quarter % 4) + 4) % 4];
    expect(`${point}` === `${[5 + 2e9 * x, 6 + 2e9 * y]}`, 'typed by an angle', quarter, point);
}

/* Areas: of random polygons by the lattice points within them, which Pick's theorem counts. */

for (let at = 0; at < 300; at++) {
    const base = [below(4e9) - 2e9, below(4e9) - 2e9], wide = 1 + below(50), high = 1 + below(50), cut = below(wide);
    const corners = [[0, 0], [wide, 0], [wide, high], [cut, high]].map(([x, y]) => [x + base[0], y + base[1]]);
    expect(areaOf(corners) === (wide + wide - cut) * high / 2, 'area', corners, areaOf(corners));
    expect(areaOf(corners.reverse()) === (wide + wide - cut) * high / 2, 'area the other way round', corners);
}
expect(lengthOf([[0, 0, 0], [2, 3, 6], [2, 3, 6]]) === 7, 'length in three axes');

console.log(faults === 0 ? 'all is the same' : faults + ' faults');
process.exit(faults === 0 ? 0 : 1);
