"""The app's reader of drawings, in JavaScript, beside what the program lists: run by Node, and left out where there is
none."""

from __future__ import annotations

import json
import random
import shutil
import subprocess
import sys
import unittest
from typing import Dict, Iterator, List, Tuple

from samples import EXAMPLES, PROGRAM, TOP, WithProgram, drawings, plan

NODE = shutil.which('node') or shutil.which('nodejs')
LISTING = TOP / 'web' / 'tests' / 'listing.mjs'


def setUpModule() -> None:
    if NODE is None:
        print('the reader of the page is not tested: node is not installed', file=sys.stderr)


def samples() -> Iterator[Tuple[str, bytes]]:
    """Drawings of every kind of nesting and of what isn't read, one behind the other and many in one."""
    yield from drawings.DRAWINGS.items()
    for name in ('plan', 'street', 'town', 'valve'):
        yield name, (EXAMPLES / (name + '.dgn')).read_bytes()
    flat = [file[1536:-2] for file in drawings.DRAWINGS.values() if not file[1214] & 0x40]
    yield 'all of two axes in one', drawings.drawing(*flat)
    nested = drawings.cell(plan.line(2, (0, 0), (9, 9), True), drawings.with_bit_c(drawings.cell(drawings.line(True))))
    yield 'a cell in a cell', drawings.drawing(nested, plan.line(3, (200, 200), (300, 300)))
    inner = drawings.with_bit_c(drawings.deleted(drawings.cell(drawings.line(True))))
    yield 'a deleted cell in a cell', drawings.drawing(drawings.cell(inner, plan.line(5, (1, 1), (2, 2), True)))
    edge = plan.line(1, (2147483600, -2147483648), (2147483647, 0))
    yield 'at the edge of the plane', drawings.drawing(edge, plan.text(2, (-2147483648, 5), b'edge'))
    yield 'no element but the first', drawings.drawing()
    yield 'no end mark', drawings.drawing(drawings.line())[:-2]
    parts = drawings.element(27, 1, 36, member=True) + drawings.element(26, 1, 40, member=True)
    yield 'a B-spline in a cell', drawings.drawing(drawings.cell(parts, drawings.line(True)))
    inside = drawings.with_bit_c(drawings.element(34, 1, 36))
    yield 'a definition in a cell', drawings.drawing(drawings.cell(inside, drawings.line(True)))


@unittest.skipIf(NODE is None, 'node is not installed')
class Reader(WithProgram):
    """Each listing of the reader is the program's, byte for byte."""

    def setUp(self) -> None:
        super().setUp()
        self.asked: List[Tuple[List[str], str, str]] = []

    def expect(self, name: str, wanted: str, listing: str, path: str, out: str = '', levels: str = '') -> None:
        """Expects a listing of the reader; all are asked for at once at the end, so the files have to stay."""
        self.asked.append(([listing, path, out, levels], name, wanted))

    def compare(self) -> None:
        rows = json.dumps([row for row, _, _ in self.asked]).encode('utf-8')
        ran = subprocess.run([str(NODE), str(LISTING)], input=rows, stdout=subprocess.PIPE, check=True)
        for said, (row, name, wanted) in zip(json.loads(ran.stdout), self.asked):
            with self.subTest(name, listing=row[0]):
                self.assertTrue(said == wanted, '%s\nis read, and listed is\n%s' % (said[:2000], wanted[:2000]))

    def program_says(self, path: str, script: str, out: str = '/dev/null') -> str:
        text = self.put('script.txt', script)
        return self.says('edit', path, text, out)

    def says(self, *words: str) -> str:
        ran = subprocess.run([str(PROGRAM), *words], stdout=subprocess.PIPE)
        return ran.stdout.decode('latin-1')

    def expected(self, path: str) -> Dict[str, str]:
        """What the program lists of a drawing: all elements, the tree of each root, what is shown, all linkages."""
        count = int(self.says('check', path).split()[1])
        trees = self.program_says(path, ''.join('tree %d\n' % it for it in range(count)))
        return {
            'elements': self.program_says(path, 'elements\n'),
            'tree': of_roots(trees),
            'show': self.program_says(path, 'show\n'),
            'links': self.program_says(path, ''.join('links %d\n' % it for it in range(count))),
        }

    def test_every_listing_of_every_kind_of_drawing(self) -> None:
        for index, (name, file) in enumerate(samples()):
            path = self.put('read-%d.dgn' % index, file)
            for listing, wanted in self.expected(path).items():
                self.expect(name, wanted, listing, path)
        self.compare()

    def test_what_is_shown_under_levels(self) -> None:
        chance = random.Random(38)
        for index, (name, file) in enumerate(samples()):
            path = self.put('shown-%d.dgn' % index, file)
            levels = [int(chance.random() < 0.6) for _ in range(64)]
            spans = [str(level) for level in range(64) if levels[level]] or ['none']
            said = self.program_says(path, 'levels %s\nshow\n' % ' '.join(spans)).partition('\n')[2]
            self.expect(name, said, 'show', path, levels=''.join(map(str, levels)))
        self.compare()

    def test_what_keeps_a_file_from_opening(self) -> None:
        chance = random.Random(7)
        for index, (name, file) in enumerate(list(samples()) * 8):
            made = bytearray(file)
            for _ in range(chance.choice([0, 1, 3])):
                made[chance.randrange(1536, len(made)) if len(made) > 1540 else 0] = chance.randrange(256)
            cut = chance.choice([len(made), chance.randrange(len(made))])
            path = self.put('fault-%d.dgn' % index, bytes(made[:cut]))
            self.expect(name, self.says('check', path), 'check', path)
        self.compare()

    def test_what_edits_leave_is_read_by_what_has_changed(self) -> None:
        chance = random.Random(5)
        for index, (name, file) in enumerate(samples()):
            path, out = self.put('before-%d.dgn' % index, file), self.path('after-%d.dgn' % index)
            count = int(self.says('check', path).split()[1])
            lines = edits(chance, count, 3 if file[1214] & 0x40 else 2)
            self.program_says(path, ''.join(line + '\n' for line in lines), out)
            for listing, wanted in self.expected(out).items():
                self.expect(name, wanted, listing, path, out)
        self.compare()

    def test_a_generated_drawing(self) -> None:
        path, out = self.path('gen.dgn'), self.path('after.dgn')
        self.says('gen', '3', '20000', path)
        self.program_says(path, 'color 5 3\ncopy 1 70 70\ndelete 9\nmove 17 5 -5\n', out)
        for listing in ('elements', 'show'):
            self.expect('gen', self.program_says(out, listing + '\n'), listing, path, out)
        self.compare()


def of_roots(trees: str) -> str:
    """Of the trees of all elements those of the roots."""
    kept: List[str] = []
    tree: List[str] = []
    for line in trees.splitlines():
        tree.append(line)
        if line.startswith('tree '):
            if tree[0].split()[1] == '0':
                kept += tree
            tree = []
    return ''.join(line + '\n' for line in kept)


def edits(chance: random.Random, count: int, axes: int) -> List[str]:
    """Some edits, of which some are refused."""
    by = ' '.join(['7'] * axes)
    made = ['copy %d %s' % (chance.randrange(count), by) for _ in range(4)]
    made += ['move %d %s' % (chance.randrange(count), by) for _ in range(4)]
    made += ['color %d %d' % (chance.randrange(count), chance.randrange(256)) for _ in range(3)]
    points = tuple(','.join([it] * axes) for it in '48')
    made += ['delete %d' % chance.randrange(count), 'line 9 1 2 3 %s %s' % points]
    chance.shuffle(made)
    return made


if __name__ == '__main__':
    unittest.main()
