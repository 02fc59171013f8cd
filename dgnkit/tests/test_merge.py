"""`merge`: units, the displacement from the origins, what is left out, and where the drawings lie."""

import unittest
from typing import List, Tuple

import ogr
import samples
from samples import drawings, plan, with_units

M = ('m', 'cm')


def sheet(origin: Tuple[int, ...], *elements: bytes, units: Tuple[int, int, Tuple[str, str]] = (100, 10, M)) -> bytes:
    return with_units(drawings.drawing(*elements), *units, origin)


class Merge(samples.WithProgram):
    def merged(self, first: bytes, other: bytes) -> Tuple[samples.Drawing, str, str]:
        """The drawing that the script makes, the script, and what was said."""
        a, b, script, out = self.put('a.dgn', first), self.put('b.dgn', other), self.path('s'), self.path('out.dgn')
        status, said, err = self.kit('merge', a, b, '-o', script, '--force')
        self.assertEqual(status, 0, err)
        answers = self.program.edit(a, samples.Script.read(script), out)
        self.assertEqual([it.cause for it in answers], [None] * len(answers))
        return samples.Drawing(out, self.program), (self.folder / 's').read_text(), said + err

    def test_the_origins_give_the_displacement(self) -> None:
        # the same place, 10,20 m, in both: from their origins it is 10000,20000 units of resolution
        first = sheet((-5000, 0, 0), plan.line(1, (5000, 20000), (5000, 20001)))
        other = sheet((1000, -3000, 0), plan.line(2, (11000, 17000), (11000, 17001)))
        drawing, script, said = self.merged(first, other)
        self.assertTrue(script.endswith(' -6000 3000\n'), script)
        self.assertEqual(drawing.elements[2].points, drawing.elements[1].points)
        self.assertIn('they overlap: 10,20 to 10,20.001 m', said)

    def test_without_a_displacement_arcs_are_taken(self) -> None:
        arc = drawings.element(16, 1, 72)
        drawing, script, _ = self.merged(sheet((7, 7, 0), drawings.line()), sheet((7, 7, 0), arc))
        self.assertTrue(script.endswith('b.dgn\n'), script)
        self.assertEqual([it.type for it in drawing.elements], [9, 3, 16])

    def test_units_of_the_same_length_by_other_names(self) -> None:
        other = sheet((0, 0, 0), drawings.line(), units=(1000, 1, ('M', 'mm')))
        self.merged(sheet((0, 0, 0), drawings.line()), other)

    def test_what_does_not_overlap(self) -> None:
        far = sheet((0, 0, 0), plan.line(2, (90000, 0), (90001, 0)))
        self.assertIn("they don't overlap", self.merged(sheet((0, 0, 0), drawings.line()), far)[2])

    def test_broken_and_deleted_trees_are_told(self) -> None:
        chain = drawings.with_bit_c(drawings.chain()) + drawings.line(True)
        other = sheet((0, 0, 0), drawings.line(), chain, drawings.deleted(drawings.line()))
        drawing, _, said = self.merged(sheet((0, 0, 0), drawings.line()), other)
        self.assertEqual(len(drawing.elements), 3)
        self.assertIn('left out: 1 broken tree (2); run `dgnkit mend` first', said)
        self.assertIn('left out: 1 tree marked deleted (4)', said)

    def test_more_than_four_go_to_several_scripts(self) -> None:
        a = self.put('a.dgn', sheet((0, 0, 0), drawings.line()))
        others = [self.put('b%d.dgn' % it, sheet((0, 0, 0), drawings.line())) for it in range(5)]
        said = self.said('merge', a, *others, '-o', self.path('s.txt'))
        self.then(said)
        self.assertEqual(len(samples.Drawing(self.path('a-out.dgn'), self.program).elements), 7)

    def refused(self, first: bytes, other: bytes, name: str = 'b.dgn') -> str:
        a, b, script = self.put('a.dgn', first), self.put(name, other), self.path('s')
        status, _, err = self.kit('merge', a, b, '-o', script)
        self.assertEqual((status, err.count('\n')), (2, 1))
        self.assertFalse((self.folder / 's').exists())
        return err

    def test_other_units_are_refused_by_name(self) -> None:
        metres, feet = sheet((0, 0, 0)), sheet((0, 0, 0), units=(12, 1000, ('ft', 'in')))
        self.assertIn(': 1 ft = 12 in', self.refused(metres, feet))
        self.assertIn('not set (the TCB', self.refused(metres, drawings.drawing()))
        self.assertIn('different units', self.refused(metres, sheet((0, 0, 0), units=(100, 1, M))))
        odd = sheet((0, 0, 0), units=(100, 10, ('qq', 'cm')))
        self.assertIn('1 qq = 100 cm', self.refused(metres, odd))

    def test_other_refusals(self) -> None:
        flat, solid = sheet((0, 0, 0)), drawings.DRAWINGS['a line of three axes']
        self.assertIn('3 dimensions', self.refused(flat, solid))
        arc = sheet((5, 0, 0), drawings.element(16, 1, 72))
        self.assertIn("arc 1 on level 1 can't be (floating)", self.refused(flat, arc))
        self.assertIn('a_b.dgn', self.refused(flat, sheet((0, 0, 0)), 'a b.dgn'))

    def test_a_dry_run_writes_nothing(self) -> None:
        a, b = self.put('a.dgn', sheet((0, 0, 0), drawings.line())), self.put(
            'b.dgn', sheet((0, 0, 0), drawings.line())
        )
        said = self.said('merge', a, b, '-o', self.path('s'), '--dry-run')
        self.assertFalse((self.folder / 's').exists())
        self.assertIn('1 tree would be imported', said)
        self.assertTrue(said.rstrip().endswith('dgnkit run %s %s %s' % (a, self.path('s'), self.path('a-out.dgn'))))


@unittest.skipUnless(samples.OGR, 'GDAL is not installed')
class OfOgr(samples.WithProgram):
    def test_two_sheets_of_other_origins_by_ogr_s_places(self) -> None:
        here, there = ogr.labels(), ogr.parcels() + ogr.roads()
        a = ogr.made(self, here, 'a.dgn')
        b = ogr.made(self, there, 'b.dgn', ORIGIN='-300.5,40,0')
        self.said('mend', b, self.path('p'))
        self.program.apply(b, self.path('p'), self.path('mended.dgn'))
        self.said('merge', a, self.path('mended.dgn'), '-o', self.path('s'))
        self.program.edit(a, samples.Script.read(self.path('s')), self.path('out.dgn'))

        def places(name: str) -> List[str]:
            return [
                line
                for it in ogr.features_of(self, name)
                for line in it.split('\n')
                if line.startswith('  P') or line.startswith('  L')
            ]

        self.assertEqual(places(a) + places(b), places(self.path('out.dgn')))


if __name__ == '__main__':
    unittest.main()
