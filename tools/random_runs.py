"""Runs of the program with random words, drawings and scripts, the same for the same seed: whole and broken drawings,
of two and three axes, second files, patch files, and scripts of all commands, some of them bad."""

import os
import random
import subprocess
import sys
import tempfile
from typing import Dict, List, NamedTuple, Optional

sys.path.insert(0, os.path.dirname(os.path.abspath(__file__)))

import drawings  # noqa: E402
import make_plan as plan  # noqa: E402

EXAMPLES = os.path.join(os.path.dirname(os.path.dirname(os.path.abspath(__file__))), 'examples')
MODES = ['inside', 'overlap', 'void']


class Run(NamedTuple):
    """The words of a command line, and the files that are there, by name."""

    words: List[str]
    files: Dict[str, bytes]


class Ran(NamedTuple):
    """How a run ended: its exit number, what it said, and the file that it wrote, or none."""

    status: int
    text: bytes
    file: Optional[bytes]


def run_program(program: str, run: Run) -> Ran:
    """Runs the program on these files, in a folder of its own."""
    with tempfile.TemporaryDirectory(prefix='dgnedit-runs-') as folder:
        for name, given in run.files.items():
            with open(os.path.join(folder, name), 'wb') as file:
                file.write(given)
        ended = subprocess.run([program, *run.words], cwd=folder, stdin=subprocess.DEVNULL, stdout=subprocess.PIPE,
                               stderr=subprocess.DEVNULL)
        made = os.path.join(folder, run.words[3]) if len(run.words) == 4 else ''
        content: Optional[bytes] = None
        if os.path.exists(made) and run.words[3] not in run.files:
            with open(made, 'rb') as out:
                content = out.read()
    return Ran(ended.returncode, ended.stdout, content)


def example(name: str) -> bytes:
    with open(os.path.join(EXAMPLES, name), 'rb') as file:
        return file.read()


class Maker:
    """Makes runs, each from the numbers of one generator."""

    def __init__(self, seed: int, program: str) -> None:
        self.at, self.program = random.Random(seed), program
        self.whole = [example(name) for name in ('plan.dgn', 'street.dgn', 'town.dgn', 'valve.dgn')]
        self.whole += list(drawings.DRAWINGS.values())
        generated = [run_program(program, Run(['gen', '7', str(count), 'out'], {})).file for count in (40, 900, 2500)]
        self.whole += [it for it in generated if it] * 3

    def number(self) -> int:
        return self.at.choice([0, 1, 2, 3, self.at.randrange(12), self.at.randrange(60), 4000000000])

    def distance(self) -> int:
        return self.at.choice([0, self.at.randrange(-900, 900), self.at.randrange(-2 ** 31, 2 ** 31), 2 ** 32 - 1])

    def point(self, axes: int) -> str:
        return ','.join(str(self.at.choice([self.at.randrange(-2000, 4000), 2 ** 31 - 1])) for _ in range(axes))

    def axes(self) -> int:
        return self.at.choice([2, 2, 2, 3])

    def along(self) -> str:
        return ' '.join(str(self.distance()) for _ in range(self.axes()))

    def look(self) -> str:
        return ' '.join(self.at.choice(['-', str(self.at.randrange(most))]) for most in (256, 32, 8))

    def corners(self) -> str:
        return ' '.join(self.point(2) for _ in range(self.at.choice([3, 4, 4, 4, 5, 2])))

    def appended(self) -> str:
        axes, style = self.axes(), '%d %d 1 0' % (self.at.randrange(64), self.at.randrange(256))
        kind = self.at.choice(['line', 'string', 'shape', 'text'])
        if kind == 'text':
            return 'text %s 1 0 1000 900 %s %s' % (style, self.point(axes), 'valve 7' * self.at.randrange(1, 30))
        count = {'line': 2, 'string': self.at.randrange(2, 60), 'shape': self.at.randrange(3, 30)}[kind]
        return '%s %s %s' % (kind, style, ' '.join(self.point(axes) for _ in range(count)))

    def line(self) -> str:
        """A line of a script: each command, and now and then one that is bad."""
        n, mode = self.number(), self.at.choice(MODES)
        return self.at.choice([
            'move %d %s' % (n, self.along()), 'copy %d %s' % (n, self.along()), 'color %d %d' % (n, n % 256),
            'sym %d %s' % (n, self.look()), 'delete %d' % n, 'fit %d' % n, 'undo', 'undo', 'audit', 'show', 'elements',
            'refs', 'tree %d' % n, 'links %d' % n, 'levels all', 'levels none', 'levels 0-12 30', 'nofence',
            'fence ' + self.corners(), 'fence -5000,-5000 9000,-5000 9000,9000 -5000,9000', 'select ' + mode,
            'fmove %s %s' % (mode, self.along()), 'fcopy %s %s' % (mode, self.along()),
            'fsym %s %s' % (mode, self.look()), 'fdelete ' + mode, self.appended(), self.appended(), '# a remark', '',
        ])

    def script(self) -> bytes:
        lines = [self.line() for _ in range(self.at.choice([0, 3, 20, 80]))]
        if self.at.random() < 0.3:
            moved = self.at.choice(['', ' ' + self.along()])
            lines.insert(self.at.randrange(len(lines) + 1), 'import second.dgn' + moved)
        if self.at.random() < 0.05:
            lines.append(self.at.choice(['move 1 2', 'color 1 256', 'line', 'levels 7-5', 'text 1 1 1 0 1 0 1 1 0,0']))
        return '\n'.join(lines).encode() + self.at.choice([b'', b'\n'])

    def drawing(self) -> bytes:
        """A drawing, whole or with bytes changed, cut, or more than there should be."""
        made = bytearray(self.at.choice(self.whole))
        kind = self.at.randrange(8)
        if kind == 0:
            for _ in range(self.at.randrange(1, 6)):
                made[self.at.randrange(len(made))] = self.at.randrange(256)
        elif kind == 1:
            del made[self.at.randrange(len(made) + 1):]
        elif kind == 2:
            made += self.at.randbytes(self.at.randrange(600))
        elif kind == 3:
            made = bytearray(drawings.drawing(*[self.at.choice(PIECES) for _ in range(self.at.randrange(40))], axes=2))
        return bytes(made)

    def run(self) -> Run:
        form = self.at.choice(['edit'] * 6 + ['pack', 'apply', 'apply', 'check', 'gen', 'words'])
        files = {'in.dgn': self.drawing(), 'second.dgn': self.drawing(), 'script': self.script()}
        if form == 'check':
            return Run(['check', 'in.dgn'], files)
        if form == 'gen':
            return Run(['gen', str(self.number()), str(self.at.choice([0, 1, 5, 300])), 'out'], files)
        if form == 'words':
            return Run(self.at.choice([[], ['edit', 'in.dgn', 'script'], ['edit', 'in.dgn', 'script', 'in.dgn'],
                                       ['edit', 'in.dgn', 'missing', 'out'], ['check', 'missing'], ['--help'],
                                       ['edit', 'in.dgn', 'script', 'out', 'more'], ['fold', 'a', 'b', 'c']]), files)
        if form == 'apply':
            packed = run_program(self.program, Run(['pack', 'in.dgn', 'script', 'out'], files)).file or b'DGNPAT01'
            files['patch'] = self.changed(packed)
            return Run(['apply', 'in.dgn', 'patch', 'out'], files)
        return Run([form, 'in.dgn', 'script', 'out'], files)

    def changed(self, content: bytes) -> bytes:
        """The same, or with one byte changed, or cut."""
        made = bytearray(content)
        kind = self.at.randrange(4)
        if kind == 0:
            made[self.at.randrange(len(made))] ^= 1 << self.at.randrange(8)
        elif kind == 1:
            del made[self.at.randrange(len(made)):]
        return bytes(made)


PIECES = [
    drawings.line(), drawings.line(True), drawings.cell(drawings.line(True), drawings.ARC), drawings.chain(),
    drawings.locked(drawings.line()), drawings.deleted(drawings.line()), drawings.line_of_small_range(),
    drawings.with_total(drawings.cell(drawings.line(True)), 54), drawings.element(34, 1, 36), drawings.odd_items(),
    drawings.line(properties=drawings.LINKED, data=drawings.LINKAGES), plan.text(1, (7, 8), b'name'),
    bytes([9, 5, 3, 0]) + bytes(6),
]
