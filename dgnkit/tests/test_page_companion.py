"""What the app does as the companion does, by code of its own: mending, and telling what differs. Run by Node, and left
out where there is none."""

from __future__ import annotations

import base64
import json
import random
import re
import shutil
import subprocess
import sys
import unittest
from typing import Any, List, Set

from samples import EXAMPLES, PROGRAM, TOP, Drawing, Script, WithProgram, drawings, plan, with_units
from test_mend_at_random import AtRandom

from dgnkit.drawing.mending import mending_of
from dgnkit.explain.comparing import differences
from dgnkit.explain.refusals import Explainer
from dgnkit.format.tcb import KIND_SAID
from dgnkit.propose.writing import patch_of

NODE = shutil.which('node') or shutil.which('nodejs')


def setUpModule() -> None:
    if NODE is None:
        print('mending and comparing of the page are not tested: node is not installed', file=sys.stderr)


def asked(script: str, rows: List[Any]) -> List[Any]:
    """What one of the scripts of web/tests answers to rows."""
    path = str(TOP / 'web' / 'tests' / script)
    ran = subprocess.run([str(NODE), path], input=json.dumps(rows).encode('utf-8'), stdout=subprocess.PIPE, check=True)
    return list(json.loads(ran.stdout))


@unittest.skipIf(NODE is None, 'node is not installed')
class Mending(AtRandom):
    """The app writes the patch file that `dgnkit mend` writes, and says the same of it."""

    def test_trees_at_random(self) -> None:
        paths = [str(EXAMPLES / ('%s.dgn' % name)) for name in ('plan', 'street', 'town', 'valve')]
        for index in range(150):
            trees = [self.tree(3, self.dice.random() < 0.3) for _ in range(self.dice.randrange(1, 7))]
            if self.dice.random() < 0.2:
                trees = [drawings.locked(it) for it in trees]
            paths.append(self.put('random-%d.dgn' % index, drawings.drawing(*trees)))
        mended = 0
        for path, row in zip(paths, asked('mending.mjs', paths)):
            drawing = Drawing(path, self.program)
            mending = mending_of(drawing)
            mended += len(mending.changes)
            with self.subTest(path):
                patch = patch_of(drawing, mending.changes).to_bytes()
                self.assertEqual(base64.b64decode(row['patch']), patch)
                self.assertEqual(row['mended'], [it.in_words() for it in mending.changes])
                self.assertEqual(row['left'], [[it.element.number, it.why] for it in mending.left])
        self.assertGreater(mended, 100)


@unittest.skipIf(NODE is None, 'node is not installed')
class Explaining(WithProgram):
    """The app says of a refusal what `dgnkit why` says, but for what one can do there."""

    ADVICE = (
        ('`dgnkit mend` writes a patch file that mends it', '‘Mend’ can mend it'),
        ("`dgnkit mend` can't mend it, and says why", '‘Mend’ can’t mend it, and says why'),
        (' (`dgnkit undelete` can)', ''),
        ("n't", 'n’t'),
    )

    def test_refusals_of_every_kind(self) -> None:
        rows: List[Any] = []
        wanted: List[List[str]] = []
        causes: Set[str] = set()
        for index, file in enumerate([*drawings.DRAWINGS.values(), *self.examples()]):
            drawing = Drawing(self.put('why-%d.dgn' % index, file), self.program)
            script = Script()
            for line in self.lines(drawing):
                script.add(line)
            answers = drawing.program.edit(drawing.path, script)
            explainer = Explainer(drawing, script.commands, answers)
            rows.append([drawing.path, [[it.text, said.cause] for it, said in zip(script.commands, answers)]])
            wanted.append([self.as_the_app(explainer.sentence(it)) for it in explainer.refused])
            causes.update(it.cause.split()[0] for it in explainer.refused)
        for (path, lines), said, sentences in zip(rows, asked('refusals.mjs', rows), wanted):
            with self.subTest(path, lines=lines):
                self.assertEqual(said, sentences)
        self.assertGreater(len(causes), 10, causes)

    def test_imports_that_do_not_open(self) -> None:
        """An import of a file that is cut, has a short element, or attribute data that begin where they can't."""
        valve = (EXAMPLES / 'valve.dgn').read_bytes()
        short = valve[:1536] + bytes([1, 3, 7, 0]) + bytes(14)
        ends = valve[:1536] + bytes([1, 3, 24, 0]) + bytes(29) + bytes([8]) + bytes(18)
        drawing = Drawing(self.example('valve.dgn'), self.program)
        script = Script()
        for name, file in (('cut', valve[:1600]), ('short', short), ('ends', ends)):
            script.add('import ' + self.put(name, file))
        answers = self.program.edit(drawing.path, script)
        explainer = Explainer(drawing, script.commands, answers)
        self.assertEqual([it.cause.split()[1] for it in explainer.refused], ['cut', 'short', 'attributes'])
        rows = [[drawing.path, [[it.text, said.cause] for it, said in zip(script.commands, answers)]]]
        self.assertEqual(
            asked('refusals.mjs', rows), [[self.as_the_app(explainer.sentence(it)) for it in explainer.refused]]
        )

    def test_files_that_are_no_drawings(self) -> None:
        """The page recognises what dgnkit does, and says the same of it."""
        said = (TOP / 'web' / 'tcb.js').read_text(encoding='utf-8')
        for kind, words in KIND_SAID.items():
            with self.subTest(kind):
                self.assertIn(words.replace("n't", 'n’t'), said)

    def examples(self) -> List[bytes]:
        return [(EXAMPLES / (name + '.dgn')).read_bytes() for name in ('plan', 'street', 'town', 'valve')]

    def lines(self, drawing: Drawing) -> List[str]:
        """Edits of every element that are refused for some cause, and other lines that are refused."""
        by, more = ' '.join(['1'] * drawing.axes), ' '.join(['1'] * (5 - drawing.axes))
        far = ' '.join(['2147483647'] * drawing.axes)
        made = ['undo', 'select inside', 'fence 0,0 1,1', 'move 1 ' + more, 'color 9999 1']
        for number in range(len(drawing.elements)):
            made += ['move %d %s' % (number, far), 'color %d 1' % number, 'copy %d %s' % (number, by)]
        made += ['delete 2', 'color 2 1', 'color 3 1', 'delete 1', 'delete 1', 'move 1 ' + by]
        return made

    def as_the_app(self, sentence: str) -> str:
        for theirs, ours in self.ADVICE:
            sentence = sentence.replace(theirs, ours)
        return re.sub(r' is locked\. .*', ' is locked', sentence) + '.'


@unittest.skipIf(NODE is None, 'node is not installed')
class Comparing(WithProgram):
    """The app tells what `dgnkit diff` tells."""

    def test_edits_and_other_changes(self) -> None:
        dice = random.Random(12)
        pairs = [[path, self.changed(dice, path, index)] for index, path in enumerate(self.samples() * 4)]
        pairs += [[after, before] for before, after in pairs[:8]]
        pairs.append(self.many(dice))
        told = 0
        for (before, after), rows in zip(pairs, asked('comparing.mjs', pairs)):
            found = differences(Drawing(before, self.program), Drawing(after, self.program))
            wanted = [[it.before, it.after, '; '.join(it.words)] for it in found]
            told += len(wanted)
            with self.subTest(before=before, after=after):
                self.assertEqual(rows, wanted)
        self.assertGreater(told, 100)

    def test_rows_of_few_elements(self) -> None:
        """Elements that are the same many times, put in, taken out and in another order."""
        dice = random.Random(5)
        kinds = [plan.line(1, (it, 0), (it, 9)) for it in range(5)]
        kinds += [plan.path(4, 1, [(it, 0), (it, 9), (it, 5)]) for it in range(3)]
        pairs = []
        for index in range(80):
            before = [dice.choice(kinds) for _ in range(dice.randrange(1, 14))]
            after = list(before) if dice.random() < 0.6 else [dice.choice(kinds) for _ in range(dice.randrange(1, 14))]
            for _ in range(dice.randrange(4)):
                after.insert(dice.randrange(len(after) + 1), after.pop(dice.randrange(len(after))))
                at = dice.randrange(len(after))
                after[at : at + dice.randrange(2)] = dice.sample(kinds, dice.randrange(1, 3))
            names = 'few-%d-a.dgn' % index, 'few-%d-b.dgn' % index
            pairs.append([self.put(it, drawings.drawing(*row)) for it, row in zip(names, (before, after))])
        said: Set[str] = set()
        for (before_name, after_name), rows in zip(pairs, asked('comparing.mjs', pairs)):
            found = differences(Drawing(before_name, self.program), Drawing(after_name, self.program))
            wanted = [[it.before, it.after, '; '.join(it.words)] for it in found]
            said.update(it.words[0] for it in found)
            with self.subTest(before=before_name, after=after_name):
                self.assertEqual(rows, wanted)
        self.assertTrue({'the same, in another order', 'gone', 'appended'} <= said, said)

    def many(self, dice: random.Random) -> List[str]:
        """Two drawings of so many elements that not all pairs are tried: all are moved, some come, some go."""
        places = [(dice.randrange(2, 5), it) for it in range(1100)]
        kept = [it for it in places if dice.random() < 0.99]
        kept[400:400] = [(6, 5000 + it) for it in range(7)]
        rows = [[self.path_of(count, 10 * at + more) for count, at in row] for row, more in ((places, 0), (kept, 3))]
        return [self.put('many-%d.dgn' % it, drawings.drawing(*row)) for it, row in enumerate(rows)]

    def path_of(self, count: int, place: int) -> bytes:
        return plan.path(4, 1, [(place + 7 * it, place) for it in range(count)])

    def samples(self) -> List[str]:
        files = [it for it in drawings.DRAWINGS.values() if not it[1214] & 0x40]
        joined = drawings.drawing(*[file[1536:-2] for file in files])
        solid = with_units(drawings.DRAWINGS['a line of three axes'], 12, 10, ('ft', 'in'), (0, 0, 0))
        made = [self.put('joined.dgn', joined), self.put('solid.dgn', solid)]
        return made + [self.example(name + '.dgn') for name in ('plan', 'street', 'town', 'valve')]

    def changed(self, dice: random.Random, path: str, index: int) -> str:
        """A drawing with edits of the program, elements left out or put between, and single bytes changed."""
        drawing = Drawing(path, self.program)
        by = ' '.join(str(dice.randrange(-50, 50)) for _ in range(drawing.axes))
        numbers = [dice.randrange(len(drawing.elements)) for _ in range(6)]
        lines = ['move %d %s' % (numbers[0], by), 'copy %d %s' % (numbers[1], by), 'delete %d' % numbers[2]]
        lines += ['sym %d %d 3 2' % (numbers[3], dice.randrange(256)), 'move %d %s' % (numbers[4], by)]
        script = self.put('change.txt', ''.join(line + '\n' for line in lines))
        out = self.path('changed-%d.dgn' % index)
        subprocess.run([str(PROGRAM), 'edit', path, script, out], stdout=subprocess.DEVNULL, check=False)
        elements = [it.content for it in Drawing(out, self.program).elements][1:]
        front = bytes(drawing.data[:1536])
        if dice.random() < 0.5 and len(elements) > 1:
            del elements[dice.randrange(len(elements))]
        if dice.random() < 0.5 and drawing.axes == 2:
            elements.insert(dice.randrange(len(elements)), plan.text(3, (5, 6), b'between'))
        for _ in range(dice.choice([0, 1, 2])):
            at = dice.randrange(len(elements))
            made = bytearray(elements[at])
            place = dice.choice([0, 33, 34, 36, 40, 41, 44, len(made) - 1])
            made[place % len(made)] ^= 1
            if self.opens(front, [*elements[:at], bytes(made), *elements[at + 1 :]]):
                elements[at] = bytes(made)
        return self.put('changed-%d.dgn' % index, front + b''.join(elements) + b'\xff\xff')

    def opens(self, front: bytes, elements: List[bytes]) -> bool:
        path = self.put('try.dgn', front + b''.join(elements) + b'\xff\xff')
        return self.program.run('check', path).status == 0


del AtRandom


if __name__ == '__main__':
    unittest.main()
