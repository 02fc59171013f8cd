/* What a walk is played with: drawings, a program, and a store that all tabs share. */

import { Stopped } from '../queue.js';

export const bytes = (text) => new TextEncoder().encode(text);
export const text = (them) => new TextDecoder('latin1').decode(them);

/** A played drawing is its name and what was done to it, a word each. Nothing reads the broken one; the odd one is read
 * here, but the program refuses it. */
export const DRAWINGS = { A: 'A|', B: 'B|', big: 'big|' + '.'.repeat(2000), broken: 'broken', odd: 'odd|' };

/** A sum of bytes in 64 digits. */
export const digestOf = (them) => [...text(them)].reduce((sum, sign) => (
    (sum * 31n + BigInt(sign.charCodeAt(0))) % (1n << 256n)), 7n).toString(16).padStart(64, '0');

/** What the played program answers to a script, and makes of a drawing: each accepted line stands behind it. */
export function edited(drawing, lines, files) {
    const isRefused = (line) => line.startsWith('color bad');
    const done = (line) => line + (line.startsWith('import ') ? '=' + text(files.get(line.split(' ')[1])) : '') + ';';
    return { text: lines.map((line) => (isRefused(line) ? 'refused locked 1\n' : 'ok\n')).join(''),
        file: drawing + lines.filter((line) => !isRefused(line)).map(done).join('') };
}

/** The program: a run takes a while, and one runs at a time in a tab. */
export function playedProgram(world) {
    const { clock } = world;
    let running = 0;
    const run = async (signal, act, most = 300) => {
        world.must(++running === 1, 'one run at a time');
        try {
            await clock.delay(most, signal, () => new Stopped());
            return act();
        } finally {
            running--;
        }
    };
    const said = (them) => ({ status: 0, text: bytes(them) });
    const isBad = (them) => text(them) === 'broken' || text(them).startsWith('odd');
    return {
        check: (them, signal) => run(signal, () => (isBad(them) ? { status: 4, text: bytes('bad design cut at 0') }
            : said(''))),
        edit: (drawing, script, files, signal) => run(signal, () => {
            const lines = text(script).split('\n').slice(0, -1);
            if (lines.some((line) => line.includes('worse'))) {
                return { status: 3, text: bytes('bad script line 1'), file: null, changes: null };
            }
            const made = edited(text(drawing.bytes), lines, files);
            return { ...said(made.text), file: bytes(made.file), changes: null };
        }, 600),
        apply: (them, patch, signal) => run(signal, () => (text(patch).startsWith('bad')
            ? { status: 11, text: bytes('refused patch 1'), file: null }
            : { ...said(''), file: bytes(text(them) + 'patch ' + text(patch) + ';') })),
    };
}

/** The store. It may be full, and then takes nothing until something has gone, or can't be reached. */
export class PlayedStore {
    constructor(world) {
        this.world = world;
        this.records = new Map();
        this.owners = new Map();
        this.isFull = false;
        this.isShut = false;
    }

    async reached() {
        await this.world.clock.delay();
        if (this.isShut) {
            throw new DOMException('no', 'InvalidStateError');
        }
    }

    remove(tab, id) {
        this.world.removing(tab, id);
        this.records.delete(id);
        this.isFull = false;
    }

    /** The store as one tab sees it. */
    of(tab) {
        return {
            all: async () => {
                await this.reached();
                tab.seen = structuredClone([...this.records.values()]);
                return structuredClone(tab.seen);
            },
            put: async (record) => {
                await this.reached();
                const owner = this.owners.get(record.id) || tab;
                this.world.must(owner === tab, 'a record belongs to one tab');
                if (this.isFull) {
                    throw new DOMException('full', 'QuotaExceededError');
                }
                this.owners.set(record.id, tab);
                this.records.set(record.id, structuredClone(record));
            },
            remove: async (id) => {
                await this.reached();
                this.remove(tab, id);
            },
            removeOf: async (id, time) => {
                await this.reached();
                if (this.records.get(id)?.time === time) {
                    this.remove(tab, id);
                }
            },
        };
    }
}

/** A file that is saved: it is whole, or it fails, or the browser takes it over, or nobody says where it goes. */
export function playedTarget(world, name) {
    const kind = world.dice.of(['whole', 'cancelled', 'failing', 'handed']);
    return kind === 'cancelled' ? null : { name, kind, put: async (them) => {
        await world.clock.delay();
        if (kind === 'failing') {
            throw new Error('disk');
        }
        world.count('files ' + kind);
        world.handed = text(them);
        if (kind === 'whole') {
            world.whole.add(text(them));
        }
        return kind === 'whole';
    } };
}

