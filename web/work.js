/* What is done to the drawing that is open. Whatever changes it is a step; steps run one after another. */

import { Keeper } from './keeper.js';
import { Maker } from './making.js';
import { Queue, Stopped } from './queue.js';
import { namedFile, missingNames } from './second_files.js';

/** @typedef {import('./acts.js').Act} Act */
/** @typedef {import('./acts.js').LinesAct} LinesAct */
/** @typedef {import('./answers.js').Answer} Answer */
/** @typedef {import('./document.js').Document} Document */
/** @typedef {import('./document.js').Made} Made */
/** @typedef {import('./kept.js').Kept} Kept */
/** @typedef {import('./making.js').NotRun} NotRun */
/** @typedef {import('./making.js').Program} Program */
/** @typedef {import('./making.js').Reader} Reader */
/** @typedef {import('./opening.js').Fault} Fault */
/** @typedef {import('./queue.js').Kind} Kind */
/** @typedef {import('./queue.js').Step} Step */
/** @typedef {import('./second_files.js').NamedFile} NamedFile */
/** @typedef {import('./store.js').Store} Store */

/**
 * What is asked of a person: a text, a list, buttons, a file or numbers that are wanted.
 * @typedef {{ title: string, said: string[], list?: string[], buttons: string[], accept?: string,
 *     fields?: { name: string, label: string, value: string, options?: string[] }[] }} Question
 */

/**
 * An answer: the button that was pressed, the file that was chosen, what stands in the fields.
 * @typedef {{ button: string, file: NamedFile | null, values: Record<string, string> }} Reply
 */

/**
 * What stands around the work: the program, the store, the person, and what shows the document after a step.
 * @typedef {object} Surroundings
 * @property {Program | null} program none where the browser can't run it
 * @property {Reader} read
 * @property {Store} store
 * @property {(bytes: Uint8Array) => Promise<string>} digest SHA-256
 * @property {() => number} now milliseconds since 1970
 * @property {(question: Question, signal: AbortSignal) => Promise<Reply | null>} ask
 * @property {(document: Document, former: Document | null) => void} show
 * @property {(queue: Queue) => void} busy is told when a step is asked, begins or ends
 * @property {(text: string) => void} say
 * @property {(why: unknown, document: Document | null) => void} tellFault something that failed
 * @property {(name: string, fault: Fault | NotRun, bytes: Uint8Array) => void} tellNotOpened
 * @property {(refusal: Refusal) => void} tellRefusal
 * @property {(gone: Kept) => void} tellGone
 * @property {(document: Document, made: Made, index: number) => string[]} behind what the lines behind one that is
 *     taken out do then, where it isn't what they did
 */

/**
 * A line that was refused, behind the lines of a document; `lines` are those that were tried with it.
 * @typedef {{ document: Document, lines: readonly string[], answers: readonly (Answer | null)[],
 *     index: number }} Refusal
 */

/**
 * What a step leaves: another document, and what is said of it, if anything; the record that it goes on from, where it
 * does; and whether what was done is kept, or has to be kept no more.
 * @typedef {{ document: Document, said: string, from?: Kept, keeping?: 'drop' | 'nothing' }} Left
 */

/**
 * How a step ended: whether it left another document.
 * @typedef {Promise<boolean>} Ended
 */

/** @param {Answer | null} answer */
export function isRefused(answer) {
    return answer !== null && answer.cause !== null;
}

export class Work {
    /** @param {Surroundings} around */
    constructor(around) {
        this.around = around;
        /** @type {Document | null} */
        this.document = null;
        this.queue = new Queue(around.busy);
        this.keeper = new Keeper(around.store, around.digest, around.now);
        this.maker = around.program === null ? null : new Maker(around.program, around.read);
        this.asking = new AbortController();
    }

    /* Steps. */

    /**
     * Does a step: `act` gives what it leaves, or null where it leaves all as it was.
     * @param {string} name
     * @param {Kind} kind
     * @param {(step: Step) => Promise<Left | null>} act
     * @returns {Ended}
     */
    async step(name, kind, act) {
        try {
            return await this.queue.add(name, kind, async (step) => {
                const left = await act(step);
                if (left !== null) {
                    step.settle();
                    await this.put(left);
                }
                return left !== null;
            });
        } catch (why) {
            this.around.tellFault(why, this.document);
            return false;
        }
    }

    /**
     * Keeps what a step leaves, puts it in place, and shows it.
     * @param {Left} left
     */
    async put({ document, said, from, keeping }) {
        const former = this.document, { keeper } = this;
        if (former === null || former.original !== document.original) {
            keeper.begin();
        }
        if (from !== undefined) {
            keeper.goOn(from);
        }
        if (keeping === 'drop') {
            await keeper.drop();
        } else if (keeping !== 'nothing' && (former === null || former.acts !== document.acts)) {
            await keeper.keep(document);
        }
        this.stopAsking();
        this.document = document;
        this.around.show(document, former);
        if (said !== '') {
            this.around.say(said);
        }
        keeper.gone.splice(0).forEach((gone) => this.around.tellGone(gone));
    }

    /**
     * Does a step on the drawing that is open when it is asked; where another one is open by then it isn't done.
     * @param {string} name
     * @param {Kind} kind
     * @param {(document: Document, step: Step) => Promise<Left | null>} act
     * @returns {Ended}
     */
    stepOn(name, kind, act) {
        const asked = this.document;
        if (asked === null) {
            return Promise.resolve(false);
        }
        return this.step(name, kind, async (step) => {
            const { document } = this;
            if (document === null || document.original !== asked.original) {
                this.around.say(name + ': ' + asked.original.name + ' isn’t open any more.');
                return null;
            }
            return act(document, step);
        });
    }

    /** Stops what runs and what waits. */
    stop() {
        this.stopAsking();
        this.queue.stop();
    }

    /** Whether leaving the page would lose something: a step runs or waits, or what was done is in no file. */
    get losesByLeaving() {
        return this.queue.isWorking || (this.document !== null && this.document.isUnsaved);
    }

    get isDoing() {
        return this.queue.running !== null;
    }

    /* Doing. */

    /**
     * Adds lines behind the script. Where one of them is refused none is added, but lines that a person typed or opened
     * stay with their answers.
     * @param {LinesAct} act
     * @param {(refusal: Refusal) => void} [refused] is told in the place of `tellRefusal`
     * @returns {Ended}
     */
    apply(act, refused = this.around.tellRefusal) {
        const stays = act.why === 'typed' || act.why === 'opened', said = act.lines.length === 1 ? 'a line' : 'lines';
        return this.stepOn('Running ' + said, 'edit', async (document, step) => {
            const files = await this.filesFor(document, act.lines, step.signal);
            if (files === null) {
                return null;
            }
            const left = await this.added(document, act, files, step.signal);
            const answers = left.answers.slice(document.lines.length), index = answers.findIndex(isRefused);
            if (index >= 0 && !stays) {
                refused({ document, lines: act.lines, answers, index });
                return null;
            }
            return { document: left, said: saidOf(act, answers) };
        });
    }

    /**
     * A document with one act more, of which what was taken back can't be done again.
     * @param {Document} document
     * @param {Act} act
     * @param {ReadonlyMap<string, Uint8Array>} files
     * @param {AbortSignal} signal
     */
    async added(document, act, files, signal) {
        const acts = [...document.acts, act];
        return document.with({ acts, undone: [], files, made: await this.made(document, acts, files, signal) });
    }

    /**
     * @param {Document} document
     * @param {readonly Act[]} acts
     * @param {ReadonlyMap<string, Uint8Array>} files
     * @param {AbortSignal} signal
     */
    made(document, acts, files, signal) {
        if (this.maker === null) {
            throw new Error('this browser can’t run the program');
        }
        return this.maker.make(document, acts, files, signal);
    }

    /**
     * Appends the trees of a second drawing, moved by so much where that isn't nothing.
     * @param {NamedFile} file
     * @param {string[]} by
     * @returns {Ended}
     */
    importDrawing(file, by) {
        return this.stepOn('Importing ' + file.name, 'edit', async (document, step) => {
            const { name, files } = namedFile(document.files, file);
            const moved = by.some((it) => it !== '0') ? ' ' + by.join(' ') : '';
            /** @type {LinesAct} */
            const act = { why: 'import', lines: ['import ' + name + moved] };
            const left = await this.added(document, act, files, step.signal);
            const answers = left.answers.slice(document.lines.length);
            if (answers.some(isRefused)) {
                this.around.tellRefusal({ document, lines: act.lines, answers, index: 0 });
                return null;
            }
            return { document: left, said: saidOf(act, answers) };
        });
    }

    /** Takes the last act back. @returns {Ended} */
    undo() {
        return this.stepOn('Undo', 'edit', async (document, step) => {
            if (document.last === null) {
                return null;
            }
            const acts = document.acts.slice(0, -1), undone = [...document.undone, document.last];
            const made = await this.made(document, acts, document.files, step.signal);
            return { document: document.with({ acts, undone, made }), said: 'Undone.' };
        });
    }

    /** Does again what was taken back last. @returns {Ended} */
    redo() {
        return this.stepOn('Redo', 'edit', async (document, step) => {
            if (document.undone.length === 0) {
                return null;
            }
            const acts = [...document.acts, document.undone[document.undone.length - 1]];
            const made = await this.made(document, acts, document.files, step.signal);
            return { document: document.with({ acts, undone: document.undone.slice(0, -1), made }), said: 'Redone.' };
        });
    }

    /**
     * Takes a line out of the script. Where lines behind it then do something else that is shown and asked about.
     * @param {number} index
     * @returns {Ended}
     */
    remove(index) {
        const { lines } = /** @type {Document} */ (this.document);
        return this.stepOn('Removing a line', 'edit', async (document, step) => {
            if (document.lines !== lines || index >= lines.length) {
                return null;
            }
            const left = await this.added(document, { why: 'remove', index, line: lines[index] }, document.files,
                step.signal);
            const list = this.around.behind(document, left.made, index);
            const answer = list.length === 0 ? { button: 'Remove the line' } : await this.around.ask({
                title: 'Remove line ' + (index + 1) + '?', said: ['Later lines then do something else:'], list,
                buttons: ['Remove the line', 'Leave it'],
            }, step.signal);
            return answer === null || answer.button !== 'Remove the line' ? null
                : { document: left, said: 'Line ' + (index + 1) + ' was removed. Undo brings it back.' };
        });
    }

    /**
     * Puts a patch file on the drawing as it is; a new script begins behind it.
     * @param {string} name
     * @param {Uint8Array} bytes
     * @returns {Ended}
     */
    applyPatch(name, bytes) {
        return this.stepOn('Applying ' + name, 'edit', async (document, step) => ({
            document: await this.added(document, { why: 'patch', name, bytes }, document.files, step.signal),
            said: name + ' was applied.',
        }));
    }

    /* Asking. */

    /**
     * What lines would be answered behind the script; null where it couldn't be asked, or a step came between.
     * @param {readonly string[]} lines
     * @returns {Promise<(Answer | null)[] | null>}
     */
    async ask(lines) {
        const { document, maker } = this, { signal } = this.asking;
        if (document === null || maker === null) {
            return null;
        }
        try {
            const answers = await maker.ask(document, lines, signal);
            return this.document === document ? answers : null;
        } catch (why) {
            if (!(why instanceof Stopped)) {
                this.around.tellFault(why, document);
            }
            return null;
        }
    }

    stopAsking() {
        this.asking.abort();
        this.asking = new AbortController();
    }

    /**
     * The second drawings of a document with those that lines import, which are asked for; null where one isn't given.
     * @param {Document} document
     * @param {readonly string[]} lines
     * @param {AbortSignal} signal
     * @param {{ name: string, digest: string }[]} known their sums, where these are known
     * @returns {Promise<ReadonlyMap<string, Uint8Array> | null>}
     */
    async filesFor({ files }, lines, signal, known = []) {
        const found = new Map(files);
        for (const name of missingNames(lines, files)) {
            const bytes = await this.fileOf(name, known.find((it) => it.name === name)?.digest, signal);
            if (bytes === null) {
                return null;
            }
            found.set(name, bytes);
        }
        return found;
    }

    /**
     * A second drawing that is asked for, until it is the one with this sum, or none is given.
     * @param {string} name
     * @param {string | undefined} digest
     * @param {AbortSignal} signal
     */
    async fileOf(name, digest, signal) {
        let said = 'The script imports ' + name + ', which the page doesn’t have. Choose the file.';
        for (;;) {
            const answer = await this.around.ask({ title: 'A second drawing is needed', said: [said],
                accept: '.dgn', buttons: ['Leave it'] }, signal);
            if (answer === null || answer.file === null) {
                return null;
            }
            if (digest === undefined || await this.around.digest(answer.file.bytes) === digest) {
                return answer.file.bytes;
            }
            said = answer.file.name + ' isn’t the drawing that was imported as ' + name + '. Choose that one.';
        }
    }
}

/**
 * What is said of lines that were added.
 * @param {LinesAct} act
 * @param {(Answer | null)[]} answers
 */
function saidOf({ why, lines }, answers) {
    const told = answers.filter((it) => it !== null), refused = told.filter(isRefused).length;
    const last = told[told.length - 1];
    if (why === 'typed' || why === 'opened') {
        return told.length + (told.length === 1 ? ' line was run, ' : ' lines were run, ') + refused + ' refused';
    }
    return lines[lines.length - 1] + ': ' + (last ? last.said : '');
}
