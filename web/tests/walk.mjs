/* Random walks through the work on a drawing, against a model: `node web/tests/walk.mjs [WALKS] [FIRST]`. Program,
 * store, files and the person are played here, each with a delay of its own; what has to hold is asserted after each
 * step, and of whatever is put into the store. A walk is told by its seed. */

import assert from 'node:assert/strict';
import { Clock, Dice } from './walk_clock.mjs';
import { World } from './walk_world.mjs';

const STEPS = 30;

/** What is done more often than the rest. */
const OFTEN = ['edit', 'edit', 'edit of two', 'typed', 'typed import', 'undo', 'save', 'open A', 'open A', 'reload',
    'go on', 'go on', ...new Array(6).fill('answer'), ...new Array(3).fill('wait')];

/** Does something at random in a world. */
function act(world, dice) {
    const { acts } = world;
    const name = dice.of([...Object.keys(acts), ...OFTEN]), run = acts[name];
    world.told.push(name);
    run();
}

/** One walk; what isn't as it has to be is thrown with the acts that led there. */
async function walk(seed) {
    const dice = new Dice(seed), clock = new Clock(dice), world = new World(dice, clock);
    try {
        for (let step = 0; step < STEPS; step++) {
            act(world, dice);
            await clock.pass(dice.below(4) === 0 ? Infinity : dice.below(500));
            world.check();
        }
        await world.end();
    } catch (why) {
        console.error('walk ' + seed + ': ' + world.told.join(', '));
        throw why;
    }
    return world.counts;
}

/** So many walks, from a seed on, and how often each thing came. */
async function walkAll(walks, first) {
    const sums = {};
    for (let seed = first; seed < first + walks; seed++) {
        for (const [name, count] of Object.entries(await walk(seed))) {
            sums[name] = (sums[name] || 0) + count;
        }
    }
    // What hardly ever comes isn't tried.
    for (const [name, count] of Object.entries(sums)) {
        assert.ok(count > walks / 400, name + ' came ' + count + ' times');
    }
    console.log(walks + ' walks: ' + Object.entries(sums).map(([name, count]) => count + ' ' + name).join(', '));
}

walkAll(Number(process.argv[2] || 4000), Number(process.argv[3] || 1));
