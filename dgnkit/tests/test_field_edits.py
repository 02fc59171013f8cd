"""`relevel`, `retext`, `lock` and `unlock`: the bytes that their patch files change, and what they leave out."""

import unittest
from typing import Dict, List, Tuple

import ogr
import samples
from samples import drawings, plan


class FieldEdits(samples.WithProgram):
    def changed(self, word: str, file: bytes, *more: object) -> Tuple[Dict[int, Tuple[int, int]], str]:
        """The bytes that differ once the patch is put on, and what was said on standard error."""
        source, patch, out = self.put('in.dgn', file), self.path('p'), self.path('out.dgn')
        status, said, err = self.kit(word, source, patch, *more, '--force')
        self.assertEqual(status, 0, said + err)
        self.program.apply(source, patch, out)
        made = (self.folder / 'out.dgn').read_bytes()
        self.assertEqual(len(made), len(file))
        return {place: (a, b) for place, (a, b) in enumerate(zip(file, made)) if a != b}, err

    plan_file = (samples.EXAMPLES / 'plan.dgn').read_bytes()

    def test_relevel(self) -> None:
        offsets = [it.offset for it in self.opened(self.plan_file).elements]
        changed, err = self.changed('relevel', self.plan_file, '--to', 21, '--level', 10, '--members')
        self.assertEqual(changed, {offsets[it]: (10, 21) for it in (5, 6, 9)})
        self.assertIn('not changed: 4 members of chosen headers, on level 11: 7, 8, 10, 11', err)
        # the valves 6 and 9 take their lines along, which are on another level and have bit C
        changed, err = self.changed('relevel', self.plan_file, '--to', 21, '--level', 10)
        lines = {offsets[it]: (128 + 11, 128 + 21) for it in (7, 8, 10, 11)}
        self.assertEqual(changed, {**{offsets[it]: (10, 21) for it in (5, 6, 9)}, **lines})
        self.assertIn('4 members would change with their header, on level 11: 7, 8, 10, 11', err)

    def test_what_belongs_to_a_broken_tree_is_told_to_stay(self) -> None:
        # a parcel as GDAL writes it: its rings, which are on level 0, are no members before it is mended
        file = (samples.EXAMPLES / 'town.dgn').read_bytes()
        changed, err = self.changed('relevel', file, '--to', 21, '--level', 20)
        self.assertEqual(list(changed.values()), [(20, 21)] * 3)
        self.assertIn('in broken trees only the chosen elements would change', err)
        self.assertIn('`dgnkit mend` first', err)

    def test_what_of_a_tree_stays_is_told(self) -> None:
        changed, err = self.changed('relevel', self.plan_file, '--to', 21, '--number', 7)
        self.assertEqual(list(changed.values()), [(139, 149)])
        self.assertIn(
            '7 is a member of cell 6 VLV on level 10, and the rest of its tree stays (--trees changes it too)', err
        )

    def test_bit_c_and_the_reserved_bit_stay(self) -> None:
        line = drawings.line(True)
        file = drawings.drawing(drawings.cell(bytes([line[0] | 0x40]) + line[1:]))
        changed, _ = self.changed('relevel', file, '--to', 63, '--type', 3)
        self.assertEqual(changed, {1536 + 92: (0xC1, 0xFF)})

    def test_what_is_no_element_of_a_level_is_left(self) -> None:
        changed, err = self.changed('relevel', self.plan_file, '--to', 21, '--level', 8)
        self.assertEqual(changed, {})
        self.assertIn('without a level or a lock): 0', err)

    def test_what_is_locked_is_left(self) -> None:
        changed, err = self.changed('relevel', self.plan_file, '--to', 21, '--level', '1-2', '--type', 'shape')
        self.assertEqual((len(changed), 'locked' in err and ': 1' in err), (1, True))

    def test_whole_trees(self) -> None:
        changed, _ = self.changed('relevel', self.plan_file, '--to', 30, '--cell', 'VLV', '--trees')
        self.assertEqual(sorted(changed.values()), [(10, 30)] * 2 + [(139, 158)] * 4)

    def test_retext(self) -> None:
        words = [b'DN 150', b'DN 1500', b'pipe DN 150, DN 150', b'XDN 150']
        file = drawings.drawing(*(plan.text(3, (it, 0), word) for it, word in enumerate(words)))
        changed, err = self.changed('retext', file, 'DN 150', 'DN 200')
        texts = [it.text for it in samples.Drawing(self.path('out.dgn'), self.program).elements[1:]]
        self.assertEqual((texts, err), (['DN 200', 'DN 1500', 'pipe DN 200, DN 200', 'XDN 150'], ''))
        self.assertEqual(len(changed), 6)

    def test_a_shorter_text_leaves_what_stands_behind_its_count(self) -> None:
        changed, _ = self.changed('retext', drawings.drawing(plan.text(3, (0, 0), b'OLD pump')), 'OLD pump', 'pump')
        # the count at 58, and four characters from 60; 'pump' behind them stays
        expected = {58: (8, 4), 60: (79, 112), 61: (76, 117), 62: (68, 109), 63: (32, 112)}
        self.assertEqual(changed, {1536 + place: bytes_ for place, bytes_ in expected.items()})

    def test_a_longer_text_is_told_and_left(self) -> None:
        file = drawings.drawing(plan.text(3, (0, 0), b'DN 50'), plan.text(3, (0, 0), b'DN 50 cm'))
        changed, err = self.changed('retext', file, 'DN 50', 'DN 1000')
        self.assertEqual(changed, {})
        self.assertIn('2 elements (the new text is longer than the old one)', err)
        _, err = self.changed('retext', file, 'DN 50', '', '--number', '1')
        self.assertIn('delete it instead', err)

    def test_three_axes(self) -> None:
        text = plan.display(17, 3, (0, 0), (0, 0), bytes(38) + bytes([4, 0]) + b'a OL')
        changed, _ = self.changed('retext', drawings.drawing(text, axes=3), 'OL', 'NE')
        self.assertEqual(changed, {1536 + 78: (79, 78), 1536 + 79: (76, 69)})

    def test_regular_expressions_and_their_groups(self) -> None:
        file = drawings.drawing(plan.text(3, (0, 0), b'DN 150'), plan.text(3, (0, 0), b'a\\1'))
        self.changed('retext', file, r'DN (\d)50', r'\g<1>0 x', '--regex')
        self.assertEqual(samples.Drawing(self.path('out.dgn'), self.program).elements[1].text, '10 x')
        self.changed('retext', file, 'a', r'\1')
        status, _, err = self.kit('retext', self.path('in.dgn'), self.path('p'), 'D', r'\3', '--regex')
        self.assertEqual((status, err.count('\n')), (2, 1))

    def test_signs_beyond_ascii(self) -> None:
        utf, latin = 'Stra\u00dfe'.encode('utf-8'), 'Stra\u00dfe'.encode('latin-1')
        for old, new in [(utf, 'Stra\u00dfa'.encode('utf-8')), (latin, 'Stra\u00dfa'.encode('latin-1'))]:
            self.changed('retext', drawings.drawing(plan.text(3, (0, 0), old)), 'Stra\u00dfe', 'Stra\u00dfa')
            self.assertEqual(samples.Drawing(self.path('out.dgn'), self.program).elements[1].characters, new)
        # the signs that stay keep their spelling, whatever is asked for
        self.changed('retext', drawings.drawing(plan.text(3, (0, 0), utf + b' 7')), '7', '8', '--encoding', 'latin-1')
        self.assertEqual(samples.Drawing(self.path('out.dgn'), self.program).elements[1].characters, utf + b' 8')
        plain = self.put('plain.dgn', drawings.drawing(plan.text(3, (0, 0), b'Strasse')))
        status, _, err = self.kit('retext', plain, self.path('p'), 'Strasse', 'Stra\u00dfe')
        self.assertEqual((status, '--encoding' in err), (2, True))
        self.said('retext', plain, self.path('q'), 'Strasse', 'Stra\u00dfe', '--encoding', 'latin-1')

    def test_lock_and_unlock(self) -> None:
        line = drawings.line(properties=drawings.LINKED, data=drawings.LINKAGES)
        changed, _ = self.changed('lock', drawings.drawing(line), '--type', 'line')
        self.assertEqual(changed, {1536 + 33: (0x08, 0x09)})
        locked = (self.folder / 'out.dgn').read_bytes()
        changed, _ = self.changed('unlock', locked, '--locked')
        self.assertEqual(changed, {1536 + 33: (0x09, 0x08)})
        changed, err = self.changed('unlock', drawings.drawing(line), '--level', 1)
        self.assertEqual((changed, 'already unlocked' in err), ({}, True))

    def test_broken_trees_may_be_edited_field_by_field(self) -> None:
        file = drawings.DRAWINGS['a complex chain of the line 2, with bit C']
        changed, _ = self.changed('relevel', file, '--to', 7, '--level', 1)
        self.assertEqual(sorted(changed.values()), [(0x81, 0x87), (0x81, 0x87)])

    def test_deleted_members_stay_and_are_told(self) -> None:
        gone = drawings.deleted(drawings.line(True))
        file = drawings.drawing(drawings.cell(drawings.line(True), gone, gone), drawings.deleted(drawings.line()))
        told = 'not changed: 2 members marked deleted: 3, 4\n'
        for more in (['--type', 'cell'], ['--type', 'line', '--trees']):
            changed, err = self.changed('relevel', file, '--to', 7, *more)
            self.assertEqual(sorted(changed.values()), [(1, 7), (0x81, 0x87)])
            self.assertEqual(err.count(told), 1, err)
            changed, err = self.changed('lock', file, *more)
            self.assertEqual((sorted(changed.values()), err.count(told)), ([(0, 1)] * 2, 1))
            locked = (self.folder / 'out.dgn').read_bytes()
            changed, err = self.changed('unlock', locked, *more)
            self.assertEqual((sorted(changed.values()), err.count(told)), ([(1, 0)] * 2, 1))
        # what is chosen by itself is no deleted member of something else
        self.assertNotIn('deleted', self.changed('relevel', file, '--to', 7, '--number', 2)[1])
        self.assertNotIn('deleted', self.changed('relevel', file, '--to', 7, '--number', '3-4', '--deleted')[1])

    def test_undelete_of_a_tree_takes_back_its_deleted_members(self) -> None:
        gone = drawings.deleted(drawings.line(True))
        file = drawings.drawing(drawings.cell(drawings.line(True), gone, gone), drawings.deleted(drawings.line()))
        offsets = [it.offset for it in self.opened(file).elements]
        changed, err = self.changed('undelete', file, '--number', 3, '--trees')
        self.assertEqual(changed, {offsets[it] + 1: (0x83, 3) for it in (3, 4)})
        self.assertIn('2 members would change with their header, on level 1: 3, 4\n', err)
        changed, _ = self.changed('undelete', file, '--number', 3)
        self.assertEqual(list(changed), [offsets[3] + 1])
        changed, err = self.changed('undelete', file, '--trees')
        self.assertEqual(list(changed), [offsets[it] + 1 for it in (3, 4, 5)])

    def test_members_of_a_header_in_a_broken_tree_change_with_it(self) -> None:
        # a long road as GDAL writes it: an orphan, though its own total is right
        file = (samples.EXAMPLES / 'street.dgn').read_bytes()
        changed, err = self.changed('relevel', file, '--to', 21, '--number', 17)
        self.assertEqual(len(changed), 3)
        self.assertIn('in broken trees only the chosen elements and the members below them would change', err)
        changed, err = self.changed('relevel', file, '--to', 21, '--number', 17, '--members')
        self.assertEqual(len(changed), 1)
        self.assertIn('in broken trees only the chosen elements would change', err)

    def test_a_dry_run_says_it_and_writes_nothing(self) -> None:
        source = self.put('in.dgn', self.plan_file)
        said = self.said('relevel', source, self.path('p'), '--to', 21, '--level', 3, '--dry-run')
        self.assertIn("text 4 'HOUSE 7' on level 3: level 3 becomes 21", said)
        self.assertTrue(
            said.rstrip().endswith('dgnkit run %s %s %s' % (source, self.path('p'), self.path('in-out.dgn')))
        )
        self.assertFalse((self.folder / 'p').exists())

    def test_what_can_not_be_done_is_one_line_and_2(self) -> None:
        source = self.put('in.dgn', self.plan_file)
        wrong: List[List[object]] = [
            ['relevel', source, self.path('p'), '--to', 64, '--level', 3],
            ['relevel', source, self.path('p'), '--to', '3-4', '--level', 3],
            ['relevel', source, self.path('p'), '--to', 3],
            ['relevel', source, self.path('p'), '--level', 3],
            ['relevel', source, source, '--to', 4, '--level', 3],
            ['lock', source, self.path('nowhere/p'), '--level', 3],
            ['unlock', source, self.path('p')],
            ['retext', source, self.path('p'), '(', 'x', '--regex'],
            ['retext', source, self.path('p'), '', 'x'],
        ]
        for words in wrong:
            status, out, err = self.kit(*words)
            self.assertEqual((status, err.count('\n')), (2, 1), words)
        self.assertEqual(sorted(it.name for it in self.folder.iterdir()), ['in.dgn'])
        self.assertEqual((self.folder / 'in.dgn').read_bytes(), self.plan_file)


@unittest.skipUnless(samples.OGR, 'GDAL is not installed')
class OfOgr(samples.WithProgram):
    def test_ogr_reads_the_new_level_and_the_new_text(self) -> None:
        source, out = ogr.made(self, ogr.roads() + ogr.labels()), self.path('out.dgn')
        self.said('relevel', source, self.path('p'), '--to', 13, '--level', 12)
        self.program.apply(source, self.path('p'), out)
        said = ''.join(ogr.features_of(self, out))
        self.assertEqual((said.count('Level (Integer) = 13'), said.count('Level (Integer) = 12')), (5, 0))
        self.said('retext', source, self.path('q'), 'DN 150', 'DN 200')
        self.program.apply(source, self.path('q'), out)
        before, after = ogr.features_of(self, source), ogr.features_of(self, out)
        self.assertEqual([it.replace('DN 150', 'DN 200') for it in before], after)
        self.assertNotEqual(before, after)


if __name__ == '__main__':
    unittest.main()
