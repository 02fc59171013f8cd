"""Patch files: the program's are read, those that are written are put on by it, and faults are at its offsets."""

import random
import re
import unittest

import samples
from dgnkit import BadPatch, Entry, Field, Patch
from samples import drawings

# the example of docs/FORMAT.md: `color 1 7` where the element's word of symbology begins at 1570
EXAMPLE = bytes.fromhex('44474E5041543031 01000000 340600000100000000000000 22060000020000 0007'.replace(' ', ''))


class Patches(samples.WithProgram):
    def test_the_example_of_the_format(self) -> None:
        entry = Entry(1588, (Field(1570, b'\0\0', b'\0\x07'),))
        self.assertEqual(Patch.from_bytes(EXAMPLE).entries, [entry])
        self.assertEqual(Patch([entry]).to_bytes(), EXAMPLE)
        line = self.put('in.dgn', drawings.drawing(drawings.line()))
        self.assertEqual(self.program.apply(line, self.put('p', EXAMPLE), self.path('out.dgn')), 1)
        self.assertEqual(samples.Drawing(self.path('out.dgn'), self.program).elements[1].colour, 7)

    def test_what_the_program_packs(self) -> None:
        valve = self.example('valve.dgn')
        script = self.put('s', 'move 3 100 0\ncopy 2 0 50\nsym 6 1 2 3\ndelete 1\n')
        self.program.run('pack', valve, script, self.path('p'))
        packed = (self.folder / 'p').read_bytes()
        patch = Patch.from_bytes(packed)
        self.assertEqual(patch.to_bytes(), packed)
        self.assertEqual([len(it.appended) for it in patch.entries], [0, 196, 0, 0])

    def test_runs_of_bytes_are_fields_of_at_most_four(self) -> None:
        body = bytes(100)
        patch = Patch()
        made = patch.add(100, body, {**{it: 1 for it in range(10, 19)}, 30: 5, 32: 0, 99: 7})
        self.assertTrue(made)
        fields = [(it.place, it.old, it.new) for it in patch.entries[0].fields]
        ones = b'\1' * 4
        self.assertEqual(
            fields,
            [(10, bytes(4), ones), (14, bytes(4), ones), (18, b'\0', b'\1'), (30, b'\0', b'\5'), (99, b'\0', b'\7')],
        )
        self.assertFalse(patch.add(100, body, {3: 0}))
        self.assertEqual(len(patch.entries), 1)

    def offset(self, file: bytes) -> int:
        """The offset of the first bad piece, -1 where there is none."""
        try:
            Patch.from_bytes(file)
        except BadPatch as why:
            return why.offset
        return -1

    def test_faults_are_at_the_offsets_that_the_program_says(self) -> None:
        self.assertEqual([self.offset(it) for it in (EXAMPLE[:32], EXAMPLE + b'\0', b'')], [24, 33, 0])
        self.program.run('pack', self.example('valve.dgn'), self.put('s', 'move 3 9 0\ncopy 2 0 50\n'), self.path('p'))
        packed, dice = (self.folder / 'p').read_bytes(), random.Random(2)
        files = [packed[:it] for it in range(0, len(packed), 7)]
        for _ in range(60):
            made = bytearray(packed)
            made[dice.randrange(min(len(made), 120))] = dice.choice([0, 1, 4, 5, 255])
            files.append(bytes(made))
        offsets = set()
        for file in files:
            ran = self.program.run('apply', self.path('valve.dgn'), self.put('q', file), '/dev/null')
            found = re.fullmatch(r'bad patch at (\d+)', ran.said[0])
            self.assertEqual(self.offset(file), int(found[1]) if found else -1)
            offsets.add(self.offset(file))
        self.assertGreater(len(offsets), 15)


if __name__ == '__main__':
    unittest.main()
