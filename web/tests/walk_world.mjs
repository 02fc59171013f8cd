/* What a walk goes through: tabs with the work in them, a person who acts and answers, and a model that tells what each
 * step has to leave. */

import { AssertionError } from 'node:assert';
import { isDeepStrictEqual } from 'node:util';
import { Fault } from '../opening.js';
import { Opener } from '../opener.js';
import { Stopped } from '../queue.js';
import { Saver } from '../saver.js';
import { Work } from '../work.js';
import { foldOf, isClean, modelOf, scriptOf } from './walk_model.mjs';
import { DRAWINGS, PlayedStore, bytes, digestOf, edited, playedProgram, playedTarget, text } from './walk_played.mjs';

/** A tab with the work in it, and the person's questions, of which one is there at a time. */
class Tab {
    constructor(world) {
        Object.assign(this, { world, questions: [], shown: null, confirms: [], asked: new WeakMap(), takenBack: [] });
        const { clock, dice } = world;
        this.around = {
            program: playedProgram(world), store: world.store.of(this), now: () => ++world.now,
            read: async (name, them, signal) => {
                await clock.delay(text(them).length > 1000 ? 900 : 300, signal, () => new Stopped());
                return text(them) === 'broken' ? new Fault('cut', 0) : { name, bytes: them, bodyLength: them.length };
            },
            digest: async (them) => (await clock.delay(100), digestOf(them)),
            ask: (question, signal) => this.ask(question, signal),
            show: (document) => world.put(this, document), busy: () => {}, say: () => {},
            tellFault: (why) => this.fault(why), tellGone: () => world.count('records that had to go'),
            tellNotOpened: () => world.count('files that don’t open'), tellRefusal: () => world.count('refusals'),
            behind: () => (dice.below(2) === 0 ? [] : ['line 2: something else']),
        };
        this.work = new Work(this.around);
        this.opener = new Opener(this.work);
        this.saver = new Saver(this.work, {
            target: async (name) => (await clock.delay(), playedTarget(world, name)),
            confirm: (name, act) => this.confirms.push({ file: world.handed, act }),
        });
    }

    /** What is asked for, by the step that does it. */
    intend(intent, act) {
        const { steps } = this.work.queue, { length } = steps, ended = act();
        if (steps.length > length || (steps.length > 0 && intent.kind === 'open')) {
            this.asked.set(steps[steps.length - 1], { ...intent, of: this.shown && this.shown.original });
        }
        return ended;
    }

    fault(why) {
        const isPlayed = why.message === 'disk' || why.name === 'InvalidStateError' || 'status' in why;
        if (!isPlayed && !(why instanceof Stopped)) {
            this.world.failures.push(why);
        }
        this.world.count(why instanceof Stopped ? 'stops' : 'runs that come to nothing');
    }

    ask(question, signal) {
        return signal.aborted ? Promise.resolve(null) : new Promise((resolve) => {
            const asked = { question, answer: (reply) => {
                if (this.questions.includes(asked)) {
                    this.questions = this.questions.filter((it) => it !== asked);
                    this.replied = reply;
                    resolve(reply);
                }
            } };
            signal.addEventListener('abort', () => asked.answer(null), { once: true });
            this.questions.push(asked);
            this.replied = null;
            this.world.must(this.questions.length === 1, 'one question at a time, since one step runs at a time');
        });
    }
}

export class World {
    constructor(dice, clock) {
        Object.assign(this, { dice, clock, now: 0, told: [], counts: {}, number: 0, at: 0 });
        Object.assign(this, { whole: new Set(), ids: new Map(), failures: [] });
        this.store = new PlayedStore(this);
        this.tabs = [new Tab(this), new Tab(this)];
    }

    get tab() {
        return this.tabs[this.at];
    }

    count(name) {
        this.counts[name] = (this.counts[name] || 0) + 1;
    }

    /** Notes what doesn't hold; a step may catch what is thrown in it. */
    must(holds, what) {
        if (!holds) {
            this.failures.push(new AssertionError({ message: what }));
        }
    }

    line(word) {
        return 'color ' + word + ' ' + ++this.number;
    }

    /* Acts. */

    get acts() {
        const { tab, dice, store } = this, { work, opener } = tab;
        const lines = (why, ...words) => () => {
            const act = { why, lines: words.map((it) => this.line(it)) };
            tab.intend({ kind: 'add', act }, () => work.apply(act));
        };
        return {
            'open A': () => this.open('A'), 'open another': () => this.open(dice.of(Object.keys(DRAWINGS))),
            'edit': lines('edit', 'good'), 'edit of two': lines('edit', 'good', 'good'),
            'refused': lines('edit', 'bad'),
            'half refused': lines('edit', 'good', 'bad'), 'typed': lines('typed', 'good', 'bad'),
            'typed worse': lines('typed', 'worse'),
            'undo': () => tab.intend({ kind: 'undo' }, () => work.undo()),
            'redo': () => tab.intend({ kind: 'redo' }, () => work.redo()),
            'remove': () => this.remove(), 'import': () => this.importOne(), 'typed import': () => this.importTyped(),
            'patch': () => this.patch('p' + ++this.number), 'bad patch': () => this.patch('bad'),
            'save': () => this.save('saveDrawing'), 'save script': () => this.save('saveScript'),
            'confirm': () => this.confirm(), 'go on': () => this.goOn(),
            'throw away': () => tab.intend({ kind: 'throw' }, () => opener.throwAway()),
            'stop': () => work.stop(), 'answer': () => this.answer(), 'wait': () => {},
            'close': () => tab.questions[0]?.answer(null), 'reload': () => this.reload(),
            'other tab': () => { this.at = 1 - this.at; }, 'full': () => { store.isFull = true; },
            'shut': () => { store.isShut = dice.below(8) === 0; }, 'poison': () => this.poison(),
        };
    }

    open(name) {
        const { tab } = this, script = this.dice.below(8) === 0 ? [this.line('page')] : [];
        tab.work.queue.steps.filter(({ isSettled }) => !isSettled).map((step) => tab.asked.get(step))
            .filter((it) => it && it.kind === 'open').forEach((it) => { it.isOvertaken = true; });
        tab.intend({ kind: 'open', name, script }, () => tab.opener.open(name, async () => {
            await this.clock.delay();
            return bytes(DRAWINGS[name]);
        }, script));
    }

    remove() {
        const { tab } = this, lines = tab.work.document === null ? [] : tab.work.document.lines;
        if (lines.length > 0) {
            const index = this.dice.below(lines.length);
            tab.intend({ kind: 'remove', index, lines }, () => tab.work.remove(index));
        }
    }

    importOne() {
        const { tab, dice } = this;
        const file = { name: dice.of(['lib.dgn', 'IN']), bytes: bytes('lib' + dice.below(2)) };
        tab.intend({ kind: 'import', file }, () => tab.work.importDrawing(file, ['0', '0']));
    }

    importTyped() {
        const act = { why: 'typed', lines: ['import far.dgn'] };
        this.tab.intend({ kind: 'add', act }, () => this.tab.work.apply(act));
    }

    patch(name) {
        this.tab.intend({ kind: 'patch', name }, () => this.tab.work.applyPatch(name, bytes(name)));
    }

    /** Saves; what is known to be whole is saved, whatever is done meanwhile. */
    save(how) {
        const { tab } = this;
        if (tab.work.document !== null) {
            const { size } = this.whole;
            tab.saver[how]().then((isSaved) => {
                this.must(isSaved || tab.isGone || this.whole.size === size || !this.told.includes(how),
                    'a whole file is saved');
            });
        }
    }

    confirm() {
        const confirmed = this.tab.confirms.shift();
        if (confirmed !== undefined) {
            this.whole.add(confirmed.file);
            confirmed.act();
        }
    }

    goOn() {
        const { tab } = this, { document, keeper } = tab.work;
        const record = document && [...this.store.records.values()].find((it) => it?.digest === document.original.digest
            && it.id !== keeper.id && isClean(it.acts));
        if (record) {
            const held = structuredClone(record);
            tab.intend({ kind: 'go on', record: held }, () => tab.opener.goOn(held));
        }
    }

    poison() {
        const digest = digestOf(bytes(DRAWINGS.A));
        const front = { shape: 2, digest, name: 'A', size: 1, time: 1e9, undone: [], imports: [], from: null };
        const poisoned = this.dice.of([{ acts: 'x' }, { acts: [{ why: 'edit', lines: ['color good 1\nundo'] }] },
            { acts: [{ why: 'remove', index: -1, line: '' }] }, { shape: 1, acts: [] }]);
        const id = 'poison' + ++this.number;
        this.store.records.set(id, { ...front, id, ...poisoned });
    }

    /** The person presses one of the buttons that are there, or chooses a file. */
    answer() {
        const [asked] = this.tab.questions;
        if (asked === undefined) {
            return;
        }
        const { buttons, accept } = asked.question;
        const button = this.dice.below(2) === 0 ? buttons[0] : this.dice.of(buttons);
        const file = accept !== undefined && this.dice.below(4) > 0
            ? { name: 'far.dgn', bytes: bytes('far' + this.dice.below(2)) } : null;
        this.told.push(file === null ? button : 'a file');
        this.count('answers');
        asked.answer({ button, file, values: {} });
    }

    /** A reload: all that was in the tab is gone, and what ran there ends. */
    reload() {
        this.tab.work.stop();
        this.tab.isGone = true;
        this.tabs[this.at] = new Tab(this);
    }

    /* What has to hold. */

    /** A step has put a document in place. */
    put(tab, document) {
        const former = tab.shown, step = tab.work.queue.running, intent = tab.asked.get(step);
        tab.shown = document;
        tab.takenBack.push(...document.undone);
        if (tab.isGone) {
            return;
        }
        this.must(intent === undefined || intent.kind === 'open' || intent.of === document.original,
            'a step is done on the drawing that it was asked on');
        this.checkLeft(tab, document, former, step, intent);
        this.checkMade(document);
        this.checkKept(tab, document, former);
    }

    /** What each step has to leave. */
    checkLeft(tab, document, former, { name }, intent) {
        const { acts, undone } = document, was = former || { acts: [], undone: [] };
        const is = (wanted, left, what) => this.must(isDeepStrictEqual([acts, undone], [wanted, left]), what);
        const add = (act) => is([...was.acts, act], [], 'an act is added, and nothing can be done again');
        switch (intent && intent.kind) {
            case 'add': add(intent.act); break;
            case 'undo': is(was.acts.slice(0, -1), [...was.undone, ...was.acts.slice(-1)], 'undo'); break;
            case 'redo': is([...was.acts, ...was.undone.slice(-1)], was.undone.slice(0, -1), 'redo'); break;
            case 'remove': add({ why: 'remove', index: intent.index, line: intent.lines[intent.index] }); break;
            case 'import': this.must(acts.length === was.acts.length + 1 && isDeepStrictEqual(
                document.files.get(acts[acts.length - 1].lines[0].split(' ')[1]), intent.file.bytes), 'import'); break;
            case 'patch': add({ why: 'patch', name: intent.name, bytes: bytes(intent.name) }); break;
            case 'throw': is([], [], 'all is thrown away'); break;
            case 'open': this.checkOpened(tab, document, former, intent); break;
            case 'go on': this.checkContinued(document, [intent.record]); break;
            default: this.checkRest(tab, document, was, name);
        }
        this.count('steps');
    }

    checkRest(tab, document, was, name) {
        if (name === 'Looking for kept work') {
            this.checkContinued(document, [...this.store.records.values()]);
        } else if (name === 'Running the script of the page') {
            this.must(isDeepStrictEqual(document.acts, [{ why: 'opened', lines: tab.script }]), 'its script');
        } else {
            const isSame = document.acts === was.acts && document.undone === was.undone;
            this.must(/^(Saving|Noting)/.test(name) && isSame, name);
        }
    }

    checkOpened(tab, document, former, intent) {
        const { original, acts, undone } = document;
        tab.script = intent.script;
        this.count('drawings opened');
        this.must(!intent.isOvertaken, 'a later drawing has been asked for');
        this.must(acts.length === 0 && undone.length === 0, 'nothing was done to it');
        this.must(text(original.bytes) === DRAWINGS[intent.name], 'it is the one that was asked for');
        this.must(original.name !== 'broken' && original.name !== 'odd', 'the program takes it');
        const isAsked = tab.replied && tab.replied.button === 'Open the other drawing';
        this.must(former === null || !this.isInNoFile(former) || isAsked, 'work that is in no file is asked about');
    }

    /** Work was continued: all of it is there, step by step, with the second drawings that it had. */
    checkContinued(document, records) {
        const { acts, undone, files, original } = document;
        this.count('works continued');
        this.must(isClean(acts), 'no poison');
        const hasFiles = ({ imports }) => imports.every(({ name, digest }) => !files.has(name)
            || digestOf(files.get(name)) === digest);
        this.must(records.some((it) => it && it.digest === original.digest && hasFiles(it)
            && isDeepStrictEqual([it.acts, it.undone], [acts, undone])), 'it is what was kept for this drawing');
    }

    /** What is held is what the acts make. */
    checkMade({ original, acts, made, files, lines, answers }) {
        this.must(text(made.bytes) === modelOf(text(original.bytes), acts, files), 'it is what the acts make');
        const { scripts } = foldOf(acts), typed = new Set(acts.filter(({ why }) => why === 'typed' || why === 'opened')
            .flatMap((act) => act.lines));
        this.must(isDeepStrictEqual([...lines], scripts[scripts.length - 1]), 'the script is that of the acts');
        const onBase = edited(text(made.base.bytes), [...lines], files).file;
        this.must(onBase === text(made.bytes), 'the script runs on the drawing that it is shown with');
        this.must(lines.every((line, at) => answers[at].cause === null || typed.has(line)), 'refused edits leave none');
    }

    /** A step that changes what was done is kept before it is told, in a record of its own for each opening. */
    checkKept(tab, document, former) {
        const { keeper } = tab.work, own = this.store.records.get(keeper.id), { acts, undone, original } = document;
        const isOwnScript = acts.length === 1 && acts[0].why === 'opened' && document.saved === acts[0];
        const isChanged = former !== null && former.original === original && former.acts !== acts;
        this.must((this.ids.get(keeper.id) || original) === original, 'each opening has a record of its own');
        this.ids.set(keeper.id, original);
        if (isChanged && !isOwnScript && acts.length + undone.length > 0) {
            this.count(keeper.fault === '' ? 'acts kept' : 'acts that can’t be kept');
            const isKept = isDeepStrictEqual([own?.acts, own?.undone], [acts, undone]);
            this.must(keeper.fault !== '' || isKept, 'it is kept');
            const hasCause = this.told.includes('full') || this.told.includes('shut');
            this.must(keeper.fault === '' || hasCause, 'a fault has a cause');
        }
    }

    /** A record goes: what it has is in a file or another record, a person discarded it, or it is the oldest. */
    removing(tab, id) {
        const record = this.store.records.get(id), step = tab.work.queue.running;
        this.count('records removed');
        if (!record || !isClean(record.acts) || id.startsWith('poison') || tab.isGone) {
            return;
        }
        const isOwn = id === tab.work.keeper.id, { from } = tab.work.keeper;
        if (step.kind === 'save') {
            const drawing = Object.values(DRAWINGS).find((it) => digestOf(bytes(it)) === record.digest);
            const isContinued = from !== null && from.id === id && from.time === record.time;
            this.must(isOwn || isContinued, 'a save removes its own record');
            const { acts, files } = tab.shown;
            const there = new Set([...acts, ...tab.takenBack].map((act) => JSON.stringify(act)));
            this.must(!isOwn || (record.acts.every((act) => there.has(JSON.stringify(act)))
                && this.isInFile(drawing, acts, files)), 'what it has is in a file, or was taken back');
        } else if (!(tab.replied && /iscard|hrow/.test(tab.replied.button))) {
            const all = tab.seen.filter((it) => !it.id.startsWith('poison'));
            const isOlder = ({ id: other, time }) => time < record.time && other !== tab.work.keeper.id
                && !(from !== null && from.id === other) && !all.some((it) => it.from && it.from.id === other);
            this.must(this.told.includes('full') && !isOwn && !all.some(isOlder), 'it is the oldest');
            this.must(from === null || from.id !== id, 'what is continued stays until it is kept');
        }
    }

    isInFile(drawing, acts, files) {
        const { scripts, patches } = foldOf(acts);
        return this.whole.has(modelOf(drawing, acts, files)) || (patches.every((it) => this.whole.has(it))
            && scripts.every((lines) => lines.length === 0 || this.whole.has(scriptOf(lines))));
    }

    /** Whether something that was done is in no file, as the model has it. */
    isInNoFile({ acts, saved }) {
        const { scripts, patches } = foldOf(acts);
        return (patches.length > 0 || scripts.some((lines) => lines.length > 0)) && acts[acts.length - 1] !== saved;
    }

    /** What holds whenever time stands still. */
    check() {
        for (const { work, questions } of this.tabs) {
            const { document, queue } = work, isOpen = document !== null;
            const isWorking = queue.steps.some(({ kind }) => kind === 'edit' || kind === 'save');
            this.must(questions.length <= 1, 'one question');
            this.must(work.losesByLeaving === (isWorking || (isOpen && this.isInNoFile(document))), 'leaving asks');
            if (isOpen && document.hasWork && !this.isInNoFile(document) && document.last.why !== 'opened') {
                const { original, acts, files } = document;
                this.must(this.isInFile(text(original.bytes), acts, files), 'saved is in a file');
            }
        }
        if (this.failures.length > 0) {
            throw this.failures[0];
        }
    }

    /** In the end all questions are closed, and nothing waits. */
    async end() {
        for (let turn = 0; turn < 200 && this.tabs.some(({ work }) => work.isDoing); turn++) {
            await this.clock.pass(Infinity);
            this.tabs.forEach(({ questions }) => questions[0]?.answer(null));
            await this.clock.settle();
        }
        this.tabs.forEach(({ work }) => this.must(work.queue.running === null, 'nothing waits for what never comes'));
        this.check();
    }
}
