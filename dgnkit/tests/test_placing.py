"""Where elements are, as well-known binary, with holes and with what is marked deleted."""

import struct
import unittest
from argparse import Namespace
from typing import Dict, List

import samples
from dgnkit.commands.health import facts_of, findings_of
from dgnkit.drawing.drawing import Drawing
from dgnkit.drawing.placing import Placed, Placing
from dgnkit.drawing.spelling import Wkb
from samples import drawings, plan

HOLE = 0x8000
SQUARE = [(0, 0), (9, 0), (9, 9), (0, 9), (0, 0)]
SMALL = [(3, 3), (5, 3), (5, 5), (3, 3)]


def shape(points: List[tuple[int, int]], is_hole: bool) -> bytes:
    """A shape on level 1 that is a member of a cell."""
    corners = (0, 0), (9, 9)
    behind = struct.pack('<H', len(points)) + b''.join(plan.long(x) + plan.long(y) for x, y in points)
    return plan.display(6, 1, *corners, behind, True, HOLE if is_hole else 0)


class Places(samples.WithProgram):
    def placed(self, file: bytes, **more: bool) -> Dict[int, Placed]:
        drawing = self.opened(file)
        self.wkb = Wkb(drawing.units, drawing.axes, False)
        return {it.element.number: it for it in Placing(drawing, self.wkb, **more).all()}

    def test_a_line_as_well_known_binary(self) -> None:
        line = self.placed(drawings.drawing(drawings.line()))[1]
        assert isinstance(line.coordinates, bytes)
        made = self.wkb.whole(line.kind, line.coordinates)
        self.assertEqual(made, b'\1' + struct.pack('<II4d', 2, 2, 0, 0, 100, 50))
        solid = self.placed(drawings.DRAWINGS['a line of three axes'])[1]
        assert isinstance(solid.coordinates, bytes)
        made = self.wkb.whole(solid.kind, solid.coordinates)
        self.assertEqual(made, b'\1' + struct.pack('<II6d', 1002, 2, 0, 0, 0, 100, 50, 25))

    def test_a_cell_of_an_area_and_its_holes(self) -> None:
        cell = drawings.cell(shape(SQUARE, False), shape(SMALL, True), shape(SMALL, True))
        made = self.placed(drawings.drawing(cell, drawings.line()), has_holes=True)
        self.assertEqual({it: (made[it].kind, made[it].last) for it in made}, {1: ('Polygon', 4), 5: ('LineString', 5)})
        assert isinstance(made[1].coordinates, bytes)
        self.assertEqual(struct.unpack_from('<II', made[1].coordinates), (3, 5))
        self.assertEqual(made[1].look.number, 2)
        self.assertEqual(list(self.placed(drawings.drawing(cell))), [1, 2, 3, 4])

    def test_a_cell_of_other_things_is_no_area(self) -> None:
        square, hole = shape(SQUARE, False), shape(SMALL, True)
        for members in (
            [square],
            [hole, square],
            [square, square],
            [square, hole, square],
            [square, hole, drawings.line(True)],
            [square, drawings.deleted(hole)],
            [square, shape([(1, 1), (1, 1), (1, 1), (1, 1)], True)],
        ):
            made = self.placed(drawings.drawing(drawings.cell(*members)), has_holes=True)
            self.assertEqual(made[1].kind, 'Point', members)

    def test_what_is_marked_deleted(self) -> None:
        file = drawings.drawing(drawings.deleted(drawings.line()), drawings.line())
        self.assertEqual(list(self.placed(file)), [2])
        self.assertEqual(list(self.placed(file, has_deleted=True)), [1, 2])


class Findings(samples.WithProgram):
    def test_each_finding_by_itself(self) -> None:
        name = self.example('street.dgn')
        facts, scale = facts_of(name, self.program, Namespace(frame=None, units='auto'))
        found = findings_of(facts, scale)
        lines = self.said('health', '-v', name, status=1).split('\n')[1:-1]
        self.assertEqual(sorted('  ' + line for _, _, line in found), sorted(lines))
        # the broken trees that examples/make_street.py makes, and what the program's audit finds
        self.assertEqual([numbers for kind, numbers, _ in found if kind == 'broken'], [[17], [20], [21], [22]])
        audit = [[it.number] for it in Drawing(name, self.program).findings]
        self.assertEqual([numbers for kind, numbers, _ in found if kind == 'audit'], audit)

    def test_a_sound_drawing(self) -> None:
        name = self.example('plan.dgn')
        drawing = Drawing(name, self.program)
        facts, scale = facts_of(drawing.path, self.program, Namespace(frame=None, units='auto'))
        self.assertEqual(findings_of(facts, scale), [])


if __name__ == '__main__':
    unittest.main()
