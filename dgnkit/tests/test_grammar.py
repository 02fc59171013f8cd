"""What makes a line of a script bad, beside what the program says."""

import random
import unittest
from typing import List

import samples
from dgnkit.errors import BadScript
from dgnkit.program.grammar import FORMS, fault_of

# the bad lines of docs/EDITING.md, and the word that tells why
BAD = {
    'move 1 +5 0': '+5',
    'move 1 05 0': '05',
    'move 1 -0 5': '-0',
    'move 1 5': 'takes 3 to 4 values, not 2',
    'color 1 256': '255',
    'color -1 3': 'an element number',
    'sym 1 3 32 0': '31',
    'delete 1 2': 'takes 1 value, not',
    'line 1 0 0 0 0,0 1,1,1': 'different numbers of coordinates',
    'shape 1 0 0 0 0,0 1,1': '3 to 101 points, not 2',
    'levels': 'at least one level',
    'levels 7-5': 'first is greater',
    'undo 2': 'takes 0 values, not 1',
    'import': 'takes a file name',
    'import lib.dgn 5': 'takes a file name',
    'fit': 'takes 1 value, not',
    'audit 1': 'takes 0 values, not 1',
    'fence': 'at least 1',
    'fence 0,0,0 1,0,0 1,1,0': "isn't a point",
    'fmove outside 1 1': "isn't a mode",
    'Show': 'in lower case',
    'pipe 1': "'pipe' isn't a command",
    '\ufeffshow': 'byte order mark',
    'relevel 1 5': 'dgnkit relevel',
    'string 1 0 0 0%s' % (' 1,1' * 102): '2 to 101 points, not 102',
    'move 1 2.5 0': "'2.5' isn't a displacement",
    'color 1\t3': 'tab',
    'text 1 0 0 0 1 0 9 9 0,0': 'characters',
    'text 1 0 0 0 1 0 9 9 0,0 ': 'characters',
}
GOOD = [
    '',
    '  ',
    '  # a comment',
    'move 1 5 -5',
    ' move  1 5 0 -4294967295 ',
    'sym 1 - - -',
    'sym 4294967295 255 31 7',
    'levels all',
    'levels 3 5-9 63',
    'levels 7-7',
    'text 1 0 0 0 1 0 9 9 0,0 a b ',
    'text 1 0 0 0 1 0 9 9 0,0  ',
    'fence -5,3',
    'string 1 0 0 0 0,0 1,1',
    'select void',
    'fsym void - 3 -',
]
PIECES = [
    '0',
    '1',
    '-1',
    '63',
    '64',
    '255',
    '256',
    '-',
    '0,0',
    '1,2',
    '1,2,3',
    'inside',
    'void',
    '5-9',
    '9-5',
    '+1',
    '01',
    '',
]
PIECES += ['4294967295', '-4294967295', '4294967296', '-0', 'all', 'x', '-5,3', '2147483648,0', '\t']


class Grammar(samples.WithProgram):
    def is_bad(self, lines: List[str]) -> bool:
        try:
            self.program.edit(samples.EXAMPLES / 'valve.dgn', samples.Script(it.encode('utf-8') for it in lines))
        except BadScript:
            return True
        return False

    def test_bad_lines_and_why(self) -> None:
        for line, word in BAD.items():
            self.assertIn(word, fault_of(line.encode()) or '', line)
            self.assertTrue(self.is_bad([line]), line)

    def test_good_lines(self) -> None:
        self.assertEqual([fault_of(it.encode()) for it in GOOD], [None] * len(GOOD))
        self.assertFalse(self.is_bad(GOOD))

    def test_lines_of_random_pieces(self) -> None:
        dice = random.Random(37)
        names = [*FORMS, 'levels', 'text', 'Move']
        good = []
        for _ in range(1500):
            line = ' '.join([dice.choice(names), *(dice.choice(PIECES) for _ in range(dice.randrange(7)))])
            if fault_of(line.encode()) is None:
                good.append(line)
            elif dice.random() < 0.2:
                self.assertTrue(self.is_bad([line]), line)
        self.assertGreater(len(good), 50)
        self.assertFalse(self.is_bad(good))


if __name__ == '__main__':
    unittest.main()
