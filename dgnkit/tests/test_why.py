"""`why`: each refusal and each ending in a sentence that names what stands against it."""

import json
import os
import unittest
from typing import List

import samples
from samples import drawings

MEMBER_LOCKED = 'a cell of the line 2, which is locked'


class Why(samples.WithProgram):
    def why(self, file: bytes, *lines: str, status: int = 1) -> List[str]:
        source, script = self.put('in.dgn', file), self.put('s', ''.join(it + '\n' for it in lines))
        told = json.loads(self.said('why', source, script, '--json', status=status))
        return [it['why'] for it in told['refused']]

    def only(self, file: bytes, *lines: str) -> str:
        said = self.why(file, *lines)
        self.assertEqual(len(said), 1)
        return said[0]

    def test_nothing_is_refused(self) -> None:
        self.assertEqual(self.why(drawings.drawing(drawings.line()), 'color 1 3', status=0), [])

    def test_the_line_of_the_script_is_named(self) -> None:
        source = self.example('plan.dgn')
        script = self.put('s', '# a comment\n\ncolor 5 1\ncolor 1 4\nshow\ncolor 99 1\n')
        said = self.said('why', source, script, status=1).split('\n')
        self.assertTrue(said[0].startswith('line 4, color 1 4: shape 1 on level 1 is locked. `dgnkit unlock'), said[0])
        self.assertTrue(
            said[1].startswith('line 6, color 99 1: there is no element 99: the drawing has 0 to 11'), said[1]
        )
        self.assertEqual(said[2], '4 commands, 2 refused')

    def test_out_is_written_where_it_is_named(self) -> None:
        source, script, out = self.example('plan.dgn'), self.put('s', 'color 5 1\ncolor 1 4\n'), self.path('out.dgn')
        self.said('why', source, script, out, status=1)
        self.assertEqual(samples.Drawing(out, self.program).elements[5].colour, 1)

    def test_nothing_is_written_over_what_is_read(self) -> None:
        source, script = self.example('valve.dgn'), self.put('s', 'import %s\n' % self.example('plan.dgn'))
        before = {it.name: it.read_bytes() for it in self.folder.iterdir()}
        for out in (os.path.join(str(self.folder), '.', 'valve.dgn'), script, self.path('plan.dgn')):
            for word in ('why', 'run'):
                status, _, err = self.kit(word, source, script, out)
                self.assertEqual((status, "is an input, and isn't overwritten" in err), (2, True))
        self.assertEqual({it.name: it.read_bytes() for it in self.folder.iterdir()}, before)

    def test_locked_deleted_and_unknown(self) -> None:
        said = self.why(drawings.DRAWINGS[MEMBER_LOCKED], 'move 1 5 5', 'color 2 1')
        self.assertIn('line 2 on level 1, which is in the same tree as element 1, is locked', said[0])
        self.assertTrue(said[1].startswith('line 2 on level 1 is locked.'), said[1])
        valve = (samples.EXAMPLES / 'valve.dgn').read_bytes()
        self.assertIn(
            'cell 2 VLV on level 10, which is in the same tree as element 3, was marked deleted by line 1',
            self.only(valve, 'delete 2', 'color 3 1'),
        )
        gone = drawings.drawing(drawings.deleted(drawings.line()))
        self.assertIn('is marked deleted in the drawing', self.only(gone, 'color 1 1'))

    def test_broken_says_why_and_whether_it_can_be_mended(self) -> None:
        chain = drawings.DRAWINGS['a complex chain of the line 2, with bit C']
        said = self.only(chain, 'color 2 1')
        self.assertIn('broken at complex chain 1 on level 1 (orphan: marked as part of a group (bit C)', said)
        self.assertIn('`dgnkit mend` writes a patch file that mends it', said)
        loose = drawings.DRAWINGS['a cell header whose total counts more than what is behind it']
        said = self.only(loose, 'color 1 1')
        self.assertIn('its total of 54 means 146 bytes', said)
        self.assertIn("can't mend it", said)

    def test_a_stray_orphan_behind_what_can_be_mended_is_not_mended(self) -> None:
        chain = drawings.DRAWINGS['a complex chain of the line 2, with bit C']
        said = self.only(chain[:-2] + drawings.line(True) + b'\xff\xff', 'color 3 1')
        self.assertIn("can't mend it", said)

    def test_causes_of_types(self) -> None:
        arc = drawings.DRAWINGS['a cell of the line 2 and the arc 3']
        self.assertIn('arc 3 on level 1, which is in the same tree as element 1', self.only(arc, 'move 1 5 5'))
        self.assertIn('floating-point numbers', self.only(arc, 'move 1 5 5'))
        self.assertIn('design file header 0 on level 8 is of a type', self.only(arc, 'color 0 1'))

    def test_other_causes(self) -> None:
        line = drawings.drawing(drawings.line())
        self.assertIn('has 2 dimensions, but the command is for 3', self.only(line, 'move 1 5 5 5'))
        self.assertIn('would leave the design plane', self.only(line, 'move 1 2147483600 0'))
        self.assertIn('no accepted edit', self.only(line, 'undo'))
        self.assertIn('no fence is set', self.only(line, 'fmove inside 1 1'))
        self.assertIn('at least 3 corners, and this one has 2', self.only(line, 'fence 0,0 1,1'))
        corners = ' '.join('%d,%d' % (it, it * it) for it in range(257))
        self.assertIn('at most 256 corners, and this one has 257', self.only(line, 'fence ' + corners))

    def test_imports(self) -> None:
        line = drawings.drawing(drawings.line())
        solid = self.put('solid.dgn', drawings.DRAWINGS['a line of three axes'])
        arc = self.put('arc.dgn', drawings.DRAWINGS['a cell of the line 2 and the arc 3'])
        v8 = self.put('v8.dgn', b'\xd0\xcf\x11\xe0' + bytes(600))
        self.assertIn('another number of dimensions', self.only(line, 'import ' + solid))
        self.assertIn("can't be moved (floating)", self.only(line, 'import %s 5 5' % arc))
        self.assertIn('version 8', self.only(line, 'import ' + v8))


class Endings(samples.WithProgram):
    def why(self, *words: str) -> str:
        return self.said('why', *words, status=1)

    def test_a_bad_line(self) -> None:
        said = self.why(self.example('valve.dgn'), self.put('s', 'color 1 3\n\nmove 1 05 0\n'))
        self.assertIn(
            "line 3 of %s is bad, so nothing has run: 'move 1 05 0': '05' isn't a displacement" % self.path('s'), said
        )

    def test_a_file_that_can_not_be_read_is_named(self) -> None:
        valve, script = self.example('valve.dgn'), self.put('s', 'import %s\n' % self.path('none.dgn'))
        self.assertIn("missing.dgn can't be read: no such file", self.why(self.path('missing.dgn'), script))
        self.assertIn("none can't be read: no such file", self.why(valve, self.path('none')))
        self.assertIn("none.dgn can't be read: no such file", self.why(valve, script))

    def test_a_file_that_can_not_be_written(self) -> None:
        valve, script = self.example('valve.dgn'), self.put('s', 'color 1 3\n')
        for out, why in ((self.path('nowhere/out.dgn'), 'there is no folder'), (str(self.folder), 'it is a folder')):
            status, said, err = self.kit('why', valve, script, out)
            self.assertEqual((status, said, err.count('\n'), why in err), (2, '', 1, True), err)

    def test_a_drawing_that_does_not_open(self) -> None:
        script = self.put('s', 'color 1 3\n')
        cut = self.put('cut.dgn', (samples.EXAMPLES / 'valve.dgn').read_bytes()[:1600])
        self.assertIn("doesn't open: the element that begins at byte 1588 reaches past the end", self.why(cut, script))
        self.assertIn('cell library', self.why(self.put('lib', b'\x08\x05\x17\x00' + bytes(600)), script))

    def test_a_file_that_is_too_long(self) -> None:
        long_script = self.put('s', '#' * 1048577)
        self.assertIn('has 1048577 bytes, and the limit is 1048576', self.why(self.example('valve.dgn'), long_script))


class Patches(samples.WithProgram):
    def setUp(self) -> None:
        super().setUp()
        self.valve, self.patch = self.example('valve.dgn'), self.path('p')
        script = self.put('s', 'color 1 7\nmove 3 100 0\n')
        self.assertEqual(self.program.run('pack', self.valve, script, self.patch).status, 0)

    def changed(self, *lines: str) -> str:
        script, out = self.put('t', ''.join(it + '\n' for it in lines)), self.path('other.dgn')
        self.assertEqual(self.program.run('edit', self.valve, script, out).status, 0)
        return out

    def test_one_that_stands(self) -> None:
        self.assertIn('every entry matched', self.said('why', self.valve, self.patch))

    def test_other_bytes(self) -> None:
        said = self.said('why', self.changed('color 1 3'), self.patch, status=1)
        self.assertIn('entry 1 of 2', said)
        # the line begins at 1536, and its weight and style stand at 34
        self.assertIn('at byte 1570 it expects 00 00, but finds 00 03, which is byte 34 of line 1 on level 10', said)

    def test_an_entry_behind_others(self) -> None:
        said = self.said('why', self.changed('move 3 0 7'), self.patch, status=1)
        self.assertIn('entry 2 of 2', said)
        self.assertIn('of cell 2 VLV on level 10 (high corner of the range)', said)

    def test_another_length(self) -> None:
        said = self.said('why', self.changed('copy 1 0 7'), self.patch, status=1)
        self.assertIn('whose elements have 1784 bytes, and here they have 1836, 52 more', said)

    def test_one_that_is_damaged(self) -> None:
        cut = self.put('cut', (self.folder / 'p').read_bytes()[:30])
        self.assertIn('begins at byte 24', self.said('why', self.valve, cut, status=1))


if __name__ == '__main__':
    unittest.main()
