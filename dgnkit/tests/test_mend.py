"""`mend`: what it mends, byte by byte, what it leaves, and that no byte else changes."""

import unittest
from typing import Dict, List, Tuple

import ogr
import samples
from samples import drawings, plan
from test_health import linked_cell

C_CHAIN = drawings.with_bit_c(drawings.chain()) + drawings.line(True)


def beside(made: bytes) -> bytes:
    """The same elements, the first with a range of which x goes to 900."""
    return made[:16] + plan.range_number(900) + made[20:]


class Mend(samples.WithProgram):
    def mended(self, file: bytes) -> Tuple[Dict[int, Tuple[int, int]], str]:
        """The bytes that differ once the patch is put on, by their places, and what was said on standard error."""
        source, patch, out = self.put('in.dgn', file), self.path('p'), self.path('out.dgn')
        status, _, err = self.kit('mend', source, patch, '--force')
        self.assertEqual(status, 0, err)
        self.program.apply(source, patch, out)
        made = (self.folder / 'out.dgn').read_bytes()
        self.assertEqual(len(made), len(file))
        return {place: (a, b) for place, (a, b) in enumerate(zip(file, made)) if a != b}, err

    def broken(self, name: str = 'out.dgn') -> List[int]:
        return samples.Drawing(self.path(name), self.program).nesting.broken

    def test_bit_c_of_a_chain_at_the_root(self) -> None:
        file = drawings.DRAWINGS['a complex chain of the line 2, with bit C']
        self.assertEqual(self.mended(file), ({1536: (0x81, 0x01)}, ''))
        self.assertEqual(self.broken(), [])

    def test_a_total_without_the_header_s_attribute_data(self) -> None:
        changed, err = self.mended(drawings.drawing(linked_cell(8, 53), drawings.line()))
        self.assertEqual((changed, err, self.broken()), ({1536 + 36: (53, 57)}, '', []))

    def test_a_total_whose_two_bytes_change(self) -> None:
        # the header has 16 bytes of attribute data, which the total leaves out: 8 words
        member = drawings.with_bit_c(plan.path(4, 3, [(it, it) for it in range(44)]))
        total = (92 + len(member) + 52 - 38) // 2
        file = drawings.drawing(linked_cell(16, total, member, drawings.line(True)))
        changed, _ = self.mended(file)
        self.assertLess(total, 256)
        self.assertGreaterEqual(total + 8, 256)
        self.assertEqual(changed, {1572: (total, total + 8 - 256), 1573: (0, 1)})
        self.assertEqual(self.broken(), [])

    def test_both_in_one_header(self) -> None:
        changed, _ = self.mended(drawings.drawing(drawings.with_bit_c(linked_cell(8, 53))))
        self.assertEqual((changed, self.broken()), ({1536: (0x94, 0x14), 1572: (53, 57)}, []))

    def test_rings_that_are_chains_keep_bit_c_within_their_cell(self) -> None:
        total = (92 + len(C_CHAIN) - 38) // 2
        file = drawings.drawing(linked_cell(8, total, C_CHAIN))
        changed, _ = self.mended(file)
        self.assertEqual((changed, self.broken()), ({1572: (total, total + 4)}, []))

    def test_a_lengthened_member_is_left_and_the_next_group_is_not_taken(self) -> None:
        long_member = drawings.line(True, drawings.LINKED, drawings.LINKAGES)
        file = drawings.drawing(linked_cell(8, 53, long_member), beside(C_CHAIN))
        changed, err = self.mended(file)
        chain_at = 1536 + 100 + len(long_member)
        self.assertEqual(changed, {chain_at: (0x81, 0x01)})
        self.assertEqual(self.broken(), [1, 2])
        self.assertIn('not mended: cell 1 ABC on level 20: loose: its total of 53 means 144 bytes', err)
        self.assertIn('not mended: line 2 on level 1: orphan', err)

    def test_a_chain_in_the_range_of_a_loose_cell_may_be_its_member(self) -> None:
        long_member = drawings.line(True, drawings.LINKED, drawings.LINKAGES)
        changed, err = self.mended(drawings.drawing(linked_cell(8, 53, long_member, C_CHAIN)))
        self.assertEqual((changed, self.broken()), ({}, [1, 2, 3]))
        self.assertIn(
            'not mended: complex chain 3 on level 1: orphan whose own members match, but it may belong to', err
        )
        # behind a chain that is none, nothing is a member any more
        changed, _ = self.mended(drawings.drawing(linked_cell(8, 53, long_member), beside(C_CHAIN), C_CHAIN))
        self.assertEqual((list(changed.values()), self.broken()), ([(0x81, 0x01)] * 2, [1, 2]))

    def test_a_cell_with_bit_c_behind_a_loose_one_may_be_its_member(self) -> None:
        inner = drawings.with_bit_c(drawings.cell(drawings.line(True)))
        changed, err = self.mended(drawings.drawing(linked_cell(8, 60), inner))
        self.assertEqual(changed, {})
        self.assertIn('may belong to the loose header 1', err)
        changed, _ = self.mended(drawings.drawing(linked_cell(8, 60), drawings.line(), inner))
        self.assertEqual(list(changed.values()), [(0x81, 0x01)])

    def test_what_is_locked_is_left(self) -> None:
        changed, err = self.mended(
            drawings.drawing(drawings.locked(linked_cell(8, 53, C_CHAIN[:0] + drawings.line(True))))
        )
        self.assertEqual(changed, {})
        self.assertIn('locked', err)

    def test_a_chain_of_more_words_than_a_total_counts(self) -> None:
        string = drawings.with_bit_c(plan.path(4, 3, [(it, it) for it in range(8000)]))
        words = (40 + 3 * len(string) - 38) // 2
        chain = drawings.with_total(drawings.element(12, 12, 40, member=True), words % 65536)
        self.assertGreater(words, 65535)
        changed, err = self.mended(drawings.drawing(chain, string, string, string, C_CHAIN))
        self.assertEqual(list(changed.values()), [(0x81, 0x01)])
        self.assertIn('more than 65535 words', err)

    def test_many_chains_in_a_row(self) -> None:
        # each is an orphan, and all that stands behind it has bit C
        changed, err = self.mended(drawings.drawing(*[C_CHAIN] * 3000))
        self.assertEqual((len(changed), set(changed.values()), err), (3000, {(0x81, 0x01)}, ''))
        self.assertEqual(self.broken(), [])

    def test_a_sound_drawing_gets_an_empty_patch(self) -> None:
        self.assertEqual(self.mended((samples.EXAMPLES / 'plan.dgn').read_bytes()), ({}, ''))

    def test_a_dry_run_writes_nothing(self) -> None:
        source = self.put('in.dgn', drawings.DRAWINGS['a complex chain of the line 2, with bit C'])
        said = self.said('mend', source, self.path('p'), '--dry-run')
        self.assertFalse((self.folder / 'p').exists())
        self.assertIn('complex chain 1 on level 1: member mark (bit C) cleared', said)
        self.assertTrue(
            said.rstrip().endswith('dgnkit run %s %s %s' % (source, self.path('p'), self.path('in-out.dgn')))
        )

    def test_a_drawing_is_never_written_over(self) -> None:
        source = self.put('in.dgn', drawings.DRAWINGS['a complex chain of the line 2, with bit C'])
        status, _, err = self.kit('mend', source, source)
        self.assertEqual((status, err.count('\n')), (2, 1))
        self.assertEqual(
            (self.folder / 'in.dgn').read_bytes(), drawings.DRAWINGS['a complex chain of the line 2, with bit C']
        )


@unittest.skipUnless(samples.OGR, 'GDAL is not installed')
class OfOgr(samples.WithProgram):
    def test_all_trees_are_editable_and_ogr_reads_the_same(self) -> None:
        source = ogr.made(self, ogr.parcels() + ogr.roads() + ogr.labels())
        self.assertGreater(len(samples.Drawing(source, self.program).nesting.broken_roots), 15)
        patch, out = self.path('p'), self.path('out.dgn')
        status, said, err = self.kit('mend', source, patch)
        self.assertEqual((status, err), (0, ''))
        self.program.apply(source, patch, out)
        drawing = samples.Drawing(out, self.program)
        self.assertEqual(drawing.nesting.broken, [])
        before = ogr.features_of(self, source)
        self.assertGreater(len(before), 16)
        self.assertEqual(before, ogr.features_of(self, out))
        script = samples.Script()
        for root in drawing.roots:
            if not drawing.elements[root].is_silent:
                script.move(root, 10, 10)
        answers = self.program.edit(out, script)
        self.assertEqual([it.cause for it in answers if it.is_refused], [])
        self.assertGreater(len(answers), 16)


if __name__ == '__main__':
    unittest.main()
