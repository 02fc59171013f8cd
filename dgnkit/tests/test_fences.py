"""Boxes of `find`: whole trees, as the fence of the program takes them (docs/EDITING.md, Fences)."""

import unittest
from typing import List

import samples
from samples import drawings, plan, with_units

BOX = ['0,0', '100,100']


class Fences(samples.WithProgram):
    def setUp(self) -> None:
        super().setUp()
        apart = plan.cell(
            1, 'ABC', (0, 0), (10, 10), (500, 20), self.part((10, 10), (20, 20)) + self.part((400, 10), (500, 20))
        )
        self.made = drawings.drawing(
            plan.line(1, (10, 10), (90, 90)),  # 1, inside
            plan.line(1, (50, 50), (150, 50)),  # 2, across an edge
            plan.line(1, (10, 10), (10, 100)),  # 3, to an edge and no further
            plan.line(1, (200, 200), (300, 300)),  # 4, outside
            plan.line(1, (-50, 40), (40, -50)),  # 5, past a corner: the bounds meet the box, and the line does not
            apart,  # 6, of the lines 7, inside, and 8, outside
            plan.text(1, (50, 50), b'inside'),  # 9
            plan.path(6, 1, [(-10, -10), (110, -10), (110, 110), (-10, 110), (-10, -10)]),  # 10, around the box
        )
        self.path_of_it = self.put('in.dgn', self.made)

    def part(self, start: plan.Point, end: plan.Point) -> bytes:
        return plan.line(1, start, end, True)

    def numbers(self, *words: str, of: str = '') -> List[int]:
        return [int(it) for it in self.said('find', of or self.path_of_it, '--numbers', *words).split()]

    def test_each_mode_takes_whole_trees(self) -> None:
        self.assertEqual(self.numbers('--inside', *BOX), [1, 9])
        self.assertEqual(self.numbers('--overlap', *BOX), [1, 2, 3, 6, 7, 8, 9])
        self.assertEqual(self.numbers('--crossing', *BOX), [2, 3, 6, 7, 8])
        self.assertEqual(self.numbers('--void', *BOX), [4, 5, 10])
        self.assertEqual(self.numbers('--outside', *BOX), [4, 5, 10])
        self.assertEqual(self.numbers('--inside', *reversed(BOX)), [1, 9])

    def test_other_conditions_hold_of_the_elements_of_these_trees(self) -> None:
        self.assertEqual(self.numbers('--overlap', *BOX, '--type', 'cell'), [6])
        self.assertEqual(self.numbers('--overlap', *BOX, '--type', 'line', '--trees'), [1, 2, 3, 6])

    def test_a_script_has_a_line_for_each_tree(self) -> None:
        said = self.said('find', self.path_of_it, '--crossing', *BOX, '--script', 'delete {n}')
        self.assertEqual(said, 'delete 2\ndelete 3\ndelete 6\n')

    def test_what_is_deleted_is_taken_as_if_it_were_not(self) -> None:
        out = self.path('out.dgn')
        self.program.edit(self.path_of_it, samples.Script().delete(1).delete(6).delete(4), out)
        self.assertEqual(self.numbers('--inside', *BOX, of=out), [9])
        self.assertEqual(self.numbers('--inside', *BOX, '--deleted', of=out), [1])
        self.assertEqual(self.numbers('--crossing', *BOX, '--deleted', of=out), [6, 7, 8])

    def test_places_are_in_master_units(self) -> None:
        path = self.put('m.dgn', with_units(self.made, 10, 1, ('m', 'dm'), (20, 0, 0)))
        # 0 to 100 units of resolution are -2 to 8 m along x, and 0 to 10 m along y
        self.assertEqual(self.numbers('--inside', '-2,0', '8,10', of=path), [1, 9])
        self.assertEqual(self.numbers('--void', '-2,0', '8,10', of=path), [4, 5, 10])

    def test_a_box_beyond_the_design_plane(self) -> None:
        self.assertEqual(
            self.numbers('--inside', '-9999999999,-9999999999', '9999999999,9999999999'), list(range(1, 11))
        )


if __name__ == '__main__':
    unittest.main()
