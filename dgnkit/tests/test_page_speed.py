"""What the page does for large drawings: it reads them in slices, tells and draws anew what has changed alone, and
compares beside the page. Each is held against the same done from scratch. By Node and in a browser, and left out where
there is none."""

from __future__ import annotations

import json
import random
import subprocess
import sys
import unittest
from typing import Any, List

from app import WithBrowser
from samples import EXAMPLES, TOP, WithProgram, drawings, plan
from test_page_companion import NODE, asked

# The dots of the newest picture once it is of the scene as it is, and whether it was drawn in tiles alone.
DOTS = """
const done = arguments[arguments.length - 1], name = arguments[0];
const look = () => {
    const { stage } = page, { whole } = stage.renderer;
    if (!stage.isWaiting && stage.renderer.making === null && stage.renderer.isFresh(whole)) {
        const { width, height } = whole.canvas;
        window[name] = whole.canvas.getContext('2d').getImageData(0, 0, width, height).data;
        done(whole.isMending);
    } else {
        requestAnimationFrame(look);
    }
};
look();
"""
# How many dots of two pictures differ so much that one sees it.
DIFFERENT = """
const { mended, anew } = window;
let count = 0;
for (let at = 0; at < anew.length; at += 4) {
    const isFaint = mended[at + 3] < 30 && anew[at + 3] < 30;
    count += !isFaint && [0, 1, 2, 3].some((it) => Math.abs(mended[at + it] - anew[at + it]) > 64) ? 1 : 0;
}
return count;
"""
# Shows what is left when a byte of some elements is changed: the colour, or the mark of deletion.
CHANGE = """
const [numbers, place, mask, mode] = arguments, { drawing, scene } = page;
const starts = numbers.map((it) => drawing.offsets[it] + place);
const bytes = Uint8Array.from(starts, (at) => drawing.bytes[at] ^ mask);
scene.mode = mode;
scene.setAfter(drawing.after({ starts, lengths: starts.map(() => 1), bytes, appended: new Uint8Array(0) }));
page.sceneChanged();
"""
# Reads the drawing eight times, and counts how often something else had its turn meanwhile.
READ = """
const done = arguments[arguments.length - 1], { constructor: Drawing, bytes } = page.drawing;
let turns = 0;
const timer = setInterval(() => { turns++; }, 0);
const readAll = async () => {
    let count = 0;
    for (let time = 0; time < 8; time++) {
        ({ count } = await Drawing.read('again', bytes));
    }
    clearInterval(timer);
    done([turns, count]);
};
readAll();
"""
COMPARE = """
const done = arguments[arguments.length - 1], { changesPanel } = page, signal = new AbortController();
const shares = [], tell = (share) => shares.push(share), other = { bytes: Uint8Array.from(arguments[0]) };
const stopped = changesPanel.find(page.drawing, other, tell, signal.signal).catch((why) => why);
signal.abort('stopped');
changesPanel.find(page.drawing, other, tell).then(async (rows) => {
    done([rows.map(({ before, after, words }) => [before, after, words]), shares, await stopped]);
});
"""


def spread(count: int, seed: int) -> bytes:
    """A drawing of lines, shapes, texts and cells, here and there."""
    dice = random.Random(seed)
    made: List[bytes] = []
    for _ in range(count):
        x, y, side = dice.randrange(20000), dice.randrange(20000), dice.choice([10, 200, 3000])
        level, kind = dice.randrange(1, 20), dice.randrange(4)
        if kind == 0:
            made.append(plan.line(level, (x, y), (x + side, y + side // 2)))
        elif kind == 1:
            made.append(plan.path(6, level, [(x, y), (x + side, y), (x + side, y + side), (x, y)]))
        elif kind == 2:
            made.append(plan.text(level, (x, y), b'valve %d' % dice.randrange(10)))
        else:
            member = plan.line(level, (x, y), (x + side, y + side), True)
            made.append(plan.cell(level, 'ABC', (x, y), (x, y), (x + side, y + side), member))
    return drawings.drawing(*made)


def setUpModule() -> None:
    if NODE is None:
        print('what the page does for large drawings is not tested: node is not installed', file=sys.stderr)


@unittest.skipIf(NODE is None, 'node is not installed')
class Anew(WithProgram):
    """The same as from scratch, by Node."""

    def test_states_at_random(self) -> None:
        for seed in ('1', '7'):
            ran = subprocess.run(
                [str(NODE), str(TOP / 'web' / 'tests' / 'incremental.mjs'), seed, '4'],
                stdout=subprocess.PIPE,
                stderr=subprocess.STDOUT,
            )
            self.assertEqual(ran.stdout.decode('utf-8', 'replace'), '160 states\n')

    def test_reading_in_slices(self) -> None:
        path = self.put('large.dgn', spread(30000, 3))
        said = self.answer('reading.mjs', path)
        self.assertEqual([said['isSame'], said['fault'][0], said['why']], [True, 'cut', 'stopped'])

    def test_comparing_very_many(self) -> None:
        count = 200000
        came, changed = self.answer('many.mjs', count)
        self.assertEqual(came, [[1, None, 'deleted', 0], [None, count // 2 + 1, 'added', 0]])
        self.assertEqual(changed, [[None, 1, 'added', 0], [1, 2, 'changed', count - 1]])

    def answer(self, script: str, given: Any) -> Any:
        ran = subprocess.run(
            [str(NODE), str(TOP / 'web' / 'tests' / script)],
            input=json.dumps(given).encode('utf-8'),
            stdout=subprocess.PIPE,
            check=True,
        )
        return json.loads(ran.stdout)


class Seen(WithBrowser):
    """The same in a browser."""

    def test_tiles_are_drawn_as_the_whole_is(self) -> None:
        dice, count = random.Random(6), 3000
        self.page(self.put('spread.dgn', spread(count, 4)))
        mended = 0
        for zoom in (1, 3, 5):
            self.seen.run('page.stage.zoom(arguments[0])', zoom)
            for mode in ('after', 'after', 'both', 'both', 'after', 'before'):
                self.seen.run_slowly(DOTS, 'mended')
                numbers = sorted(dice.sample(range(1, count), dice.choice([1, 2, 9])))
                place, mask = dice.choice([(35, 3), (1, 0x80)])
                self.seen.run(CHANGE, numbers, place, mask, mode)
                mended += self.seen.run_slowly(DOTS, 'mended')
                self.seen.run('page.scene.version++; page.stage.request()')
                self.assertFalse(self.seen.run_slowly(DOTS, 'anew'))
                self.assertLess(self.seen.run(DIFFERENT), 6, (zoom, mode, numbers))
        self.assertGreater(mended, 3)

    def test_many_that_are_chosen_are_lit(self) -> None:
        lines = [plan.line(1, (0, 10 * it), (4000, 10 * it)) for it in range(1500)]
        self.page(self.put('lines.dgn', drawings.drawing(*lines, plan.line(2, (5000, 0), (5000, 15000)))))
        self.seen.run('page.choice.choose(Array.from({ length: 1500 }, (_, at) => at + 1))')
        pen = [int(it, 16) for it in self.seen.run('return page.pens.chosen.slice(1).match(/../g)')]
        for y in (0, 7000, 14000):
            self.assertLess(max(abs(a - b) for a, b in zip(self.dot(2000, y, 'marks'), pen)), 24, y)
        self.assertEqual(self.dot(5000, 7000, 'marks')[3], 0)
        self.seen.run('page.stage.zoom(30)')
        self.assertGreater(self.dot(2500, 7500, 'marks')[3], 100)
        self.seen.run('page.choice.choose([])')
        self.assertEqual(self.dot(2500, 7500, 'marks')[3], 0)

    def test_reading_leaves_the_page_awake(self) -> None:
        self.page(self.put('many.dgn', spread(60000, 5)))
        turns, count = self.seen.run_slowly(READ)
        self.assertGreater(turns, 2)
        self.assertEqual(count, self.seen.run('return page.drawing.count'))

    @unittest.skipIf(NODE is None, 'node is not installed')
    def test_comparing_beside_the_page(self) -> None:
        one, other = str(EXAMPLES / 'plan.dgn'), self.put('other.dgn', (EXAMPLES / 'street.dgn').read_bytes())
        self.page(one)
        rows, shares, why = self.seen.run_slowly(COMPARE, list((EXAMPLES / 'street.dgn').read_bytes()))
        (wanted,) = asked('comparing.mjs', [[one, other]])
        self.assertEqual([it[2] for it in rows][:3], [it[2] for it in wanted][:3])
        self.assertEqual(rows[0], wanted[0])
        self.assertGreater(len(rows), 2)
        self.assertEqual(why, 'stopped')
        self.assertEqual(shares, sorted(shares))
