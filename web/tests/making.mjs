/* Makes drawings for tests: elements of every kind that is drawn, in trees, by chance. */

/** Numbers that look like chance and are the same each time. */
export class Chance {
    /** @param {number} seed */
    constructor(seed) {
        this.state = seed >>> 0;
    }

    next() {
        this.state = this.state + 0x6D2B79F5 >>> 0;
        let value = Math.imul(this.state ^ this.state >>> 15, this.state | 1);
        value ^= value + Math.imul(value ^ value >>> 7, value | 61);
        return ((value ^ value >>> 14) >>> 0) / 4294967296;
    }

    /** A whole number from 0 to before another. */
    below(most) {
        return Math.floor(this.next() * most);
    }

    /** One of a row. */
    of(row) {
        return row[this.below(row.length)];
    }
}

export function word(value) {
    return [value & 0xFF, value >> 8 & 0xFF];
}

export function long(value) {
    return [...word(value >> 16), ...word(value)];
}

const rangeNumber = (value) => long(value ^ -2147483648);

/** An element with a display header: what stands behind the header is its body. */
export function element({ type, level, box, look = 0, colour = 0, isMember = false, isDeleted = false }, body) {
    const range = [box[0], box[1], 0, box[2], box[3], 0].flatMap(rangeNumber);
    const rest = [...range, ...word(0), ...word((4 + body.length) / 2), ...word(0), look, colour, ...body];
    return [level | (isMember ? 0x80 : 0), type | (isDeleted ? 0x80 : 0), ...word(rest.length / 2), ...rest];
}

const points = (corners) => corners.flatMap(([x, y]) => [...long(x), ...long(y)]);

/** A part by chance at a place: a line, a line string, a shape, a curve, a text or an element known by its range. */
export function part(chance, [x, y], isMember) {
    const side = 1 + chance.below(chance.of([3, 60, 900])), box = [x, y, x + side, y + side];
    const head = { level: chance.below(64), box, look: chance.below(32), colour: chance.below(256), isMember,
        isDeleted: chance.next() < 0.1 };
    const corners = [[x, y], [x + side, y + side], [x + side, y], [x, y]];
    const kind = chance.below(6);
    if (kind === 0) {
        return element({ ...head, type: 3 }, points(corners.slice(0, 2)));
    }
    if (kind === 1) {
        const characters = [...'pipe ' + chance.below(50)].map((sign) => sign.charCodeAt(0)).slice(0, 7);
        const full = [...characters, ...new Array(8 - characters.length).fill(32)];
        const font = [1, 0, ...long(9000), ...long(9000), ...long(0)];
        return element({ ...head, type: 17 }, [...font, ...points([[x, y]]), 8, 0, ...full]);
    }
    if (kind === 2) {
        return element({ ...head, type: 33 }, word(0));
    }
    const type = chance.of([4, 6, 11]);
    return element({ ...head, type }, [...word(4), ...points(corners)]);
}

/** A tree by chance: a part, a cell with members, of which one may be a cell, a definition with a run, or what is
    broken: a header whose total fits nothing, and a member without a header. */
export function tree(chance, depth = 0) {
    const place = [chance.below(20000) - 10000, chance.below(20000) - 10000], isMember = depth > 0;
    const kind = chance.next();
    if (kind < 0.6 || depth > 2) {
        return part(chance, place, isMember);
    }
    if (kind > 0.96 && depth === 0) {
        return part(chance, place, true);
    }
    const members = Array.from({ length: 1 + chance.below(4) }, () => tree(chance, depth + 1)).flat();
    const head = { level: chance.below(64), box: [...place, place[0] + 500, place[1] + 500], isMember,
        isDeleted: chance.next() < 0.1 };
    if (kind > 0.9 && depth === 0) {
        return [...element({ ...head, type: 34 }, word(0)), ...members];
    }
    const body = [...new Array(46).fill(0), ...points([place])];
    const total = kind > 0.86 ? 1 : (92 - 38 + members.length) / 2;
    return [...element({ ...head, type: 2 }, [...word(total), ...word(1601 + chance.below(900)), ...word(0),
        ...body.slice(4)]), ...members];
}

/** A drawing of so many trees. */
export function madeDrawing(chance, count) {
    const body = Array.from({ length: count }, () => tree(chance)).flat();
    return Uint8Array.from([8, 9, 0xFE, 2, ...new Array(1532).fill(0), ...body, 0xFF, 0xFF]);
}
