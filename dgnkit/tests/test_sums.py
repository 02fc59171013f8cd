"""`info --lengths`: sums of arcs, complex shapes, holes and outlines that cross themselves, by numbers worked out by
hand."""

import json
import math
import unittest
from typing import Dict, List, Tuple

import curved
import samples
from samples import drawings, plan


def member(made: bytes, level: int = 0) -> bytes:
    """The same element as a member on a level."""
    return bytes([0x80 | level]) + made[1:]


def hole(made: bytes) -> bytes:
    return made[:33] + bytes([made[33] | 0x80]) + made[34:]


def shape(level: int, *members: bytes) -> bytes:
    """A complex shape over members."""
    size = 40 + sum(map(len, members))
    return drawings.with_total(drawings.element(14, level, 40), (size - 38) // 2) + b''.join(members)


class Sums(samples.WithProgram):
    def sums(self, *elements: bytes) -> Tuple[Dict[str, samples.Json], Dict[str, int]]:
        """The sums by level, and what isn't in them."""
        facts = json.loads(self.said('info', '--lengths', '--json', self.put('in.dgn', drawings.drawing(*elements))))[0]
        return facts['lengths'], facts['not_in_lengths']

    def stadium(self, is_turned: bool) -> List[bytes]:
        """Two sides of 1000 and half a circle of radius 300 at each end, of which one may be drawn the other way."""
        right, _ = curved.arc((1000, 300), (300, 300), -90, 180)
        left, _ = (
            curved.arc((0, 300), (300, 300), 270, -180) if is_turned else curved.arc((0, 300), (300, 300), 90, 180)
        )
        low, high = plan.line(0, (0, 0), (1000, 0)), plan.line(0, (1000, 600), (0, 600))
        return [low, right, high, left]

    def test_sides_that_are_arcs(self) -> None:
        area = 1000 * 600 + math.pi * 300**2
        for is_turned in (False, True):
            for first in range(4):
                sides = self.stadium(is_turned)
                sides = [member(it) for it in [*sides[first:], *sides[:first]]]
                found, left = self.sums(shape(5, *sides))
                with self.subTest(is_turned=is_turned, first=first):
                    self.assertAlmostEqual(found['5']['area'], area, 3)
                    self.assertAlmostEqual(found['5']['length'], 2000 + 2 * math.pi * 300, 3)
                    self.assertEqual((found['5']['lines'], found['5']['shapes'], left), (4, 1, {}))

    def test_a_first_side_that_is_drawn_the_other_way(self) -> None:
        sides = [((1000, 0), (0, 0)), ((1000, 0), (1000, 500)), ((1000, 500), (0, 500)), ((0, 0), (0, 500))]
        found, _ = self.sums(shape(5, *(plan.line(0, *it, True) for it in sides)))
        self.assertEqual(found['5']['area'], 500000)

    def test_a_hole_of_several_sides(self) -> None:
        outer = plan.path(6, 5, [(-500, -500), (2000, -500), (2000, 1500), (-500, 1500)])
        found, _ = self.sums(outer, hole(shape(5, *map(member, self.stadium(False)))))
        self.assertAlmostEqual(found['5']['area'], 2500 * 2000 - 600000 - math.pi * 300**2, 3)

    def test_a_complex_shape_on_level_0_counts_where_its_members_are_seen(self) -> None:
        sides = [member(it, 7) for it in self.stadium(False)]
        found, _ = self.sums(shape(0, *sides))
        self.assertEqual(list(found), ['7'])

    def test_circles_and_ellipses(self) -> None:
        circle, _ = curved.ellipse((50, 60), (200, 200))
        flat, _ = curved.ellipse((50, 60), (400, 100), 30)
        found, left = self.sums(circle)
        self.assertAlmostEqual(found['1']['area'], math.pi * 200**2, 3)
        self.assertAlmostEqual(found['1']['outline'], math.pi * 400, 3)
        found, _ = self.sums(flat, hole(circle))
        self.assertAlmostEqual(found['1']['area'], 0, 3)
        # the outline by the series of Gauss and Kummer
        share = ((400 - 100) / (400 + 100)) ** 2
        sides = [1, 1 / 4, 1 / 64, 1 / 256, 25 / 16384, 49 / 65536, 441 / 1048576, 1089 / 4194304]
        wanted = math.pi * 500 * sum(it * share**power for power, it in enumerate(sides))
        self.assertAlmostEqual(found['1']['outline'], wanted + math.pi * 400, 0)
        self.assertEqual(left, {})

    def test_an_arc_of_space_is_as_long_as_in_space(self) -> None:
        quarter, _ = curved.arc_of_space((0, 0), (1000, 1000), (0, 90), curved.tilted(60))
        path = self.put('in.dgn', drawings.drawing(quarter, axes=3))
        found = json.loads(self.said('info', '--lengths', '--json', path))[0]['lengths']
        self.assertAlmostEqual(found['1']['length'], math.pi / 2 * 1000, 2)

    def test_what_is_not_in_the_sums_is_told(self) -> None:
        tie = plan.path(6, 5, [(0, 0), (1000, 1000), (1000, 0), (0, 1000)])
        curve = plan.path(11, 5, [(it * it, it) for it in range(9)])
        odd = shape(5, *map(member, [plan.line(0, (0, 0), (9, 0)), curve]))
        found, left = self.sums(tie, curve, odd, drawings.element(16, 1, 72))
        self.assertEqual((found['5']['area'], found['5']['shapes']), (0, 2))
        wanted = {
            'areas of shapes that cross themselves': 1,
            'curves': 2,
            'areas of complex shapes with sides of another kind': 1,
            'arcs and ellipses with other fields than their ranges tell': 1,
        }
        self.assertEqual(left, wanted)
        said = self.said('info', '--lengths', self.path('in.dgn'))
        self.assertIn('  not in the sums: arcs and ellipses', said)
        self.assertIn('areas of shapes that cross themselves: 1', said)

    def test_an_outline_that_goes_to_a_hole_and_back_crosses_nothing(self) -> None:
        hole_way = [(200, 200), (200, 800), (800, 800), (800, 200), (200, 200)]
        way = [(0, 0), (1000, 0), (1000, 1000), (0, 1000), (0, 0), *hole_way, (0, 0)]
        found, left = self.sums(plan.path(6, 5, way))
        self.assertEqual((found['5']['area'], left), (1000**2 - 600**2, {}))

    def test_an_outline_of_very_many_sides_beside_each_other_ends_soon(self) -> None:
        sides = [plan.path(4, 0, [(it % 7, 9 * it), (100000 - it % 5, 9 * it + 4)] * 25) for it in range(60)]
        found, left = self.sums(shape(5, *map(member, sides)))
        self.assertEqual(found['5']['shapes'], 1)
        self.assertEqual(list(left.values()), [1])


if __name__ == '__main__':
    unittest.main()
