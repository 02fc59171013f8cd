/* What becomes of kept work where two tabs have it, second drawings are asked for again, or another drawing is open by
 * then: told act by act, since walks at random seldom come there. */

import assert from 'node:assert/strict';
import { Opener } from '../opener.js';
import { Saver } from '../saver.js';
import { Work } from '../work.js';
import { DRAWINGS, PlayedStore, bytes, digestOf, playedProgram, text } from './walk_played.mjs';

/** A world in which nothing takes time, and what has to hold is asserted at once. */
const world = () => ({ clock: { delay: async () => {} }, must: assert.ok, removing: () => {}, time: 0 });

/** A tab with its work. `replies` are the answers to the next questions: a button, or a file. */
function tabOf(all, store) {
    const tab = { replies: [], asked: [], confirms: [], isWhole: true };
    const around = {
        program: playedProgram(all), store: store.of(tab), now: () => ++all.time,
        read: async (name, them) => ({ name, bytes: them, bodyLength: them.length }),
        digest: async (them) => digestOf(them), show: () => {}, busy: () => {}, say: () => {},
        tellFault: (why) => { throw why; }, tellGone: () => {}, tellNotOpened: () => {}, tellRefusal: () => {},
        behind: () => [],
        ask: async ({ title, said }) => {
            tab.asked.push(title + ': ' + said.join(' '));
            const reply = tab.replies.shift();
            return reply === undefined ? null : { button: '', file: null, values: {}, ...reply };
        },
    };
    tab.work = new Work(around);
    tab.opener = new Opener(tab.work);
    tab.saver = new Saver(tab.work, { target: async (name) => ({ name, put: async () => tab.isWhole }),
        confirm: (name, act) => tab.confirms.push(act) });
    tab.open = (name, ...replies) => {
        tab.replies = replies;
        return tab.opener.open(name, async () => bytes(DRAWINGS[name]));
    };
    tab.edit = (line) => tab.work.apply({ why: 'edit', lines: [line] });
    return tab;
}

const press = (button) => ({ button }), give = (name) => ({ file: { name, bytes: bytes(name) } });
const linesIn = (store) => [...store.records.values()].map(({ acts }) => acts.flatMap(({ lines = [] }) => lines));

/** A second drawing that was imported is asked for until it is that one. */
async function otherFiles() {
    const all = world(), store = new PlayedStore(all), first = tabOf(all, store);
    await first.open('A');
    await first.work.importDrawing({ name: 'lib.dgn', bytes: bytes('lib') }, ['0', '0']);
    const second = tabOf(all, store);
    await second.open('A', press('Continue'), give('other'), give('lib'));
    assert.equal(second.asked.length, 3);
    assert.match(second.asked[2], /isn’t the drawing that was imported/);
    assert.equal(text(second.work.document.files.get('lib.dgn')), 'lib');
    assert.deepEqual(second.work.document.lines, ['import lib.dgn']);
}

/** Work that two tabs have: what one of them saves isn't what the other one goes on with. */
async function twoTabs() {
    const all = world(), store = new PlayedStore(all), first = tabOf(all, store), second = tabOf(all, store);
    await first.open('A');
    await first.edit('color good 1');
    await second.open('A', press('Continue'));
    await second.edit('color good 2');
    await first.edit('color good 3');
    const third = tabOf(all, store);
    await third.open('A');
    assert.deepEqual((await third.work.keeper.list()).kept.map(({ acts }) => acts.length), [2, 2], 'both are listed');
    await second.saver.saveDrawing();
    assert.deepEqual(linesIn(store), [['color good 1', 'color good 3']], 'what the other tab did stays');
    await first.saver.saveDrawing();
    assert.deepEqual(linesIn(store), []);
}

/** Work that was continued and saved is kept no more, nor is what it was continued from. */
async function continuedAndSaved() {
    const all = world(), store = new PlayedStore(all), first = tabOf(all, store), second = tabOf(all, store);
    await first.open('A');
    await first.edit('color good 1');
    await second.open('A', press('Continue'));
    assert.equal((await second.work.keeper.list()).kept.length, 1, 'it is listed once');
    await second.saver.saveDrawing();
    assert.deepEqual(linesIn(store), []);
}

/** Kept work with a patch file takes the place of work with another one. */
async function otherPatches() {
    const all = world(), store = new PlayedStore(all), first = tabOf(all, store), second = tabOf(all, store);
    await first.open('A');
    await first.work.applyPatch('p1', bytes('p1'));
    await second.open('A', press('Not now'));
    await second.work.applyPatch('p2', bytes('p2'));
    second.replies = [press('Continue with the kept work')];
    const [record] = (await second.work.keeper.list()).kept.filter(({ acts }) => acts[0].name === 'p1');
    await second.opener.goOn(record);
    assert.equal(text(second.work.document.made.bytes), 'A|patch p1;');
}

/** A file is said to be there when another drawing is open: that one's work stays unsaved. */
async function confirmedLate() {
    const all = world(), store = new PlayedStore(all), tab = tabOf(all, store);
    tab.isWhole = false;
    await tab.open('A');
    await tab.edit('color good 1');
    await tab.saver.saveDrawing();
    await tab.open('B', press('Open the other drawing'));
    await tab.edit('color good 2');
    await tab.confirms[0]();
    assert.ok(tab.work.losesByLeaving);
    assert.deepEqual(linesIn(store), [['color good 1'], ['color good 2']]);
}

/** A line is taken out only of the script that was seen. */
async function otherScript() {
    const all = world(), store = new PlayedStore(all), tab = tabOf(all, store);
    await tab.open('A');
    await tab.edit('color good 1');
    await tab.edit('color good 2');
    await Promise.all([tab.work.remove(0), tab.work.remove(0)]);
    assert.deepEqual(tab.work.document.lines, ['color good 2'], 'it is taken out once');
}

for (const scene of [otherFiles, twoTabs, continuedAndSaved, otherPatches, confirmedLate, otherScript]) {
    play(scene);
}

/** Plays a scene; what doesn't hold ends the run. */
function play(scene) {
    scene().then(() => console.log(scene.name), (why) => {
        console.error(scene.name, why);
        process.exitCode = 1;
    });
}
