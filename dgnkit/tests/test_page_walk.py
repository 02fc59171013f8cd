"""The work in the app, walked through at random: 4,000 walks of 30 steps, with the program, the store and the person
played and delayed, against a model, by Node; and 40 walks in Chromium with the program's module, of which what is held
in the end is what the program makes. Each is left out where Node or Chromium isn't there."""

from __future__ import annotations

import base64
import json
import shutil
import subprocess
import unittest
from typing import Any, Dict, List

from app import HAS_PROGRAM, NO_PROGRAM
from samples import EXAMPLES, TOP
from test_page_editing import WithEditor

NODE = shutil.which('node') or shutil.which('nodejs')
ACTS = 14
NAMES = ('plan.dgn', 'street.dgn', 'valve.dgn')

# Delays each call of the program and of the store by up to so many milliseconds, before and after.
DELAY = '''
window.pause = (most) => new Promise((resolve) => setTimeout(resolve, Math.random() * most));
const { program, store } = page.work.around;
for (const [owner, names] of [[program, ['check', 'edit', 'ask']], [store, ['all', 'put', 'remove', 'removeOf']]]) {
    for (const name of names) {
        const real = owner[name].bind(owner);
        owner[name] = async (...words) => {
            await window.pause(20);
            const said = await real(...words);
            await window.pause(20);
            return said;
        };
    }
}
'''

# A walk by a seed through drawings that are given by their names; gives what is open in the end, or null where every
# opening was stopped.
WALK = '''
const [seed, drawings, acts, done] = arguments, { work, opener } = page;
let state = seed;
const below = (count) => {
    state = (Math.imul(state, 1664525) + 1013904223) >>> 0;
    return Math.floor(state / 65536) % count;
};
const line = () => ['move ' + below(16) + ' ' + below(90) + ' 7', 'color ' + below(16) + ' ' + below(256),
    'delete ' + below(16), 'copy ' + below(16) + ' 5 ' + below(90), 'line 3 1 0 0 0,0 50,' + below(90)][below(5)];
const names = Object.keys(drawings);
const open = () => { const name = names[below(names.length)];
    opener.open(name, async () => Uint8Array.from(atob(drawings[name]), (sign) => sign.charCodeAt(0))); };
const answer = () => { const buttons = document.querySelectorAll('#asking-buttons button');
    if (buttons.length > 0) buttons[below(buttons.length)].click(); };
const some = [open, answer, answer, answer, () => work.undo(), () => work.redo(), () => work.stop(),
    () => work.document !== null && work.document.lines.length > 0 && work.remove(below(work.document.lines.length)),
    ...Array(3).fill(() => work.apply({ why: 'edit', lines: [line()] })),
    () => work.apply({ why: 'edit', lines: [line(), line()] }),
    () => work.apply({ why: 'typed', lines: [line(), line()] })];
const walk = async () => {
    open();
    for (let act = 0; act < acts; act++) {
        await window.pause(60);
        some[below(some.length)]();
    }
    while (work.isDoing) {
        await window.pause(30);
        const last = document.querySelector('#asking-buttons button:last-child');
        if (last !== null) last.click();
    }
    const { document: made, keeper } = work, all = await work.around.store.all();
    const record = all.find(({ id }) => id === keeper.id);
    done(made === null ? null : {
        name: made.original.name, acts: made.acts, bytes: btoa(String.fromCharCode(...made.made.bytes)),
        kept: record === undefined ? null : record.acts, shown: page.drawing.name, fault: keeper.fault,
        script: [...document.querySelectorAll('#script code')].map((it) => it.textContent) });
};
walk().catch((why) => done(String(why)));
'''


@unittest.skipIf(NODE is None, 'node is not installed')
class Walks(unittest.TestCase):
    def test_no_walk_loses_a_line(self) -> None:
        self.run_by_node('walk.mjs', '4000')

    def test_kept_work_of_two_tabs(self) -> None:
        self.run_by_node('kept.mjs')

    def run_by_node(self, script: str, *words: str) -> None:
        ran = subprocess.run(
            [str(NODE), str(TOP / 'web' / 'tests' / script), *words],
            stdout=subprocess.PIPE,
            stderr=subprocess.STDOUT,
            text=True,
            check=False,
        )
        self.assertEqual(ran.returncode, 0, ran.stdout)


@unittest.skipUnless(HAS_PROGRAM, NO_PROGRAM)
class InChromium(WithEditor):
    def test_what_is_held_is_what_the_program_makes(self) -> None:
        self.leave()
        self.seen.open(str(self.app))
        self.seen.run(DELAY)
        drawings = {it: base64.b64encode((EXAMPLES / it).read_bytes()).decode('ascii') for it in NAMES}
        lines = 0
        for seed in range(1, 41):
            held = self.seen.run_slowly(WALK, seed, drawings, ACTS)
            if held is None:
                continue
            with self.subTest(seed, acts=json.dumps(held['acts'])):
                script = lines_of(held['acts'])
                lines += len(script)
                made = self.expected(str(EXAMPLES / held['name']), script)[1]
                self.assertEqual(base64.b64decode(held['bytes']), made)
                self.assertEqual((held['shown'], held['script'], held['fault']), (held['name'], script, ''))
                self.assertEqual(held['kept'], held['acts'] if held['acts'] else held['kept'])
        self.assertGreater(lines, 80, 'the walks come to something')


def lines_of(acts: List[Dict[str, Any]]) -> List[str]:
    """The script that acts come to."""
    script: List[str] = []
    for act in acts:
        if act['why'] == 'remove':
            del script[act['index']]
        else:
            script += act['lines']
    return script


if __name__ == '__main__':
    unittest.main()
