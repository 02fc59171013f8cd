"""Points in the app: what the pointer snaps to, points that are typed, lengths and areas, and the keys of the fields.
What must come is found from the places of the elements, not from what the app or the program says."""

from __future__ import annotations

import math
import unittest
from fractions import Fraction
from typing import List, Sequence, Tuple

import curved
from samples import EXAMPLES, drawings, plan, with_units
from test_page_editing import WithEditor

ALT = '\ue00a'
Place = Tuple[float, float]

# Elements by their numbers: two lines that cross aslant, a line string, a shape, an ellipse, a text, a cell, an arc of
# a quarter whose centre lies outside of it, and a curve.
SLANTED = ((0, -1500), (3000, -2500)), ((500, -2600), (1500, -1400))
STRING = [(2000, 1000), (2600, 1600), (3300, 1000)]
SHAPE = [(0, 2000), (800, 2000), (800, 2600), (0, 2600), (0, 2000)]
ELLIPSE, TEXT, CELL, ARC = (3000, 2500), (2000, 2300), (200, 1200), (-800, 0)
CURVE = [(0, 0), (100, 0), (200, 200), (600, 500), (1000, 200), (1400, 0), (1500, 0), (1600, 0)]


def crossing(one: Sequence[Sequence[int]], other: Sequence[Sequence[int]]) -> Tuple[int, int]:
    """Where two lines cross, to the nearest whole units."""
    (ax, ay), (bx, by) = one
    (cx, cy), (dx, dy) = other
    area = (bx - ax) * (dy - cy) - (by - ay) * (dx - cx)
    share = Fraction((cx - ax) * (dy - cy) - (cy - ay) * (dx - cx), area)
    return math.floor(ax + share * (bx - ax) + Fraction(1, 2)), math.floor(ay + share * (by - ay) + Fraction(1, 2))


def sheet() -> bytes:
    ellipse, _ = curved.ellipse(ELLIPSE, (400, 250), 30)
    arc, _ = curved.arc(ARC, (900, 900), 0, 60)
    return bytes(
        drawings.drawing(
            plan.line(1, *SLANTED[0]),
            plan.line(1, *SLANTED[1]),
            plan.path(4, 1, STRING),
            plan.path(6, 1, SHAPE),
            ellipse,
            plan.text(1, TEXT, b'HERE'),
            plan.valve(1, *CELL, 60),
            arc,
            curved.curve(CURVE),
        )
    )


class WithPoints(WithEditor):
    """A test that sets points."""

    def near(self, place: Place, right: int = 4, down: int = -3) -> Tuple[float, float]:
        """A place of the screen some pixels beside one of the drawing."""
        left, top = self.screen(*place)
        return left + right, top + down

    def see(self, x: float, y: float, scale: float) -> None:
        self.seen.run(
            'Object.assign(page.view, { x: arguments[0], y: arguments[1], scale: arguments[2] });'
            'page.stage.moved();',
            x,
            y,
            scale,
        )
        self.seen.settle()

    def hint(self) -> str:
        self.seen.settle()
        return self.seen.text('#hint')

    def last_line(self, count: int) -> str:
        self.seen.wait('page.work.document.lines.length === %d' % count)
        return str(self.script_lines()[-1])

    def enter(self, *typed: str) -> None:
        """Types in the field for points, and presses Enter after each."""
        for text in typed:
            self.seen.type('#coordinate', text)
            self.seen.key('Enter')
            self.seen.settle()

    def beside(self) -> str:
        """What is said beside the field."""
        return self.seen.text('#coordinate-said')

    def has_focus(self, name: str) -> bool:
        return bool(self.seen.run('return document.activeElement.id === arguments[0]', name))


class Snapping(WithPoints):
    """The pointer snaps to what is there, and the line that is drawn has just that place."""

    WANTED: List[Tuple[Place, str]] = [
        ((0, -1500), 'end of line 1'),
        ((500, -2600), 'end of line 2'),
        (crossing(*SLANTED), 'crossing of line 1 and line 2'),
        ((1500, -2000), 'middle of line 1'),
        ((2600, 1600), 'vertex of line string 3'),
        ((2000, 1000), 'end of line string 3'),
        ((2300, 1300), 'middle of line string 3'),
        ((800, 2600), 'vertex of shape 4'),
        ((0, 2300), 'middle of shape 4'),
        (ELLIPSE, 'centre of ellipse 5'),
        (TEXT, 'origin of text 6'),
        ((600, 500), 'vertex of curve 11'),
        ((200, 200), 'end of curve 11'),
    ]

    def assert_snaps(self, place: Place, said: str) -> None:
        """Some pixels beside a place the pointer snaps to it, and the line that is drawn from there begins there."""
        with self.subTest(place=place):
            self.seen.hover(self.near(place))
            self.assertIn(said, self.hint())
            self.seen.drag(self.near(place))
            self.enter('@5000,70')
            x, y = (round(it) for it in place)
            self.assertEqual(self.last_line(1), 'line 1 0 0 0 %d,%d %d,%d' % (x, y, x + 5000, y + 70))
            self.do('#undo')

    def test_each_kind_where_all_is_seen(self) -> None:
        self.open(self.put('sheet.dgn', sheet()))
        self.tool('line')
        for place, said in self.WANTED:
            self.assert_snaps(place, said)

    def test_each_kind_where_it_is_seen_large(self) -> None:
        self.open(self.put('sheet.dgn', sheet()))
        self.tool('line')
        for place, said in self.WANTED:
            self.see(*place, 5)
            self.assert_snaps(place, said)

    def test_a_place_on_a_line_only_where_there_is_nothing_better(self) -> None:
        self.open(
            self.put('one.dgn', drawings.drawing(plan.line(1, (0, 0), (4000, 0)), plan.line(1, (0, 9), (0, 3000))))
        )
        self.tool('line')
        self.see(1000, 0, 0.5)
        self.seen.hover(self.near((1000, 0), 0, -6))
        self.assertIn('on line 1', self.hint())
        self.seen.drag(self.near((1000, 0), 0, -6))
        self.enter('@1,1')
        self.assertEqual(self.last_line(1), 'line 1 0 0 0 1000,0 1001,1')
        self.see(1990, 0, 0.5)
        self.seen.hover(self.near((1992, 0), 0, -3))
        self.assertIn('middle of line 1', self.hint())
        self.see(3990, 0, 0.5)
        self.seen.hover(self.near((3985, 0), 0, 0))
        self.assertIn('end of line 1', self.hint())

    def test_the_centre_of_an_arc_that_the_pointer_was_at(self) -> None:
        self.open(self.put('sheet.dgn', sheet()))
        self.tool('line')
        self.seen.hover(self.near(ARC))
        self.assertNotIn('centre', self.hint())
        angle = math.radians(35)
        self.seen.hover(self.screen(ARC[0] + 900 * math.cos(angle), ARC[1] + 900 * math.sin(angle)))
        self.assertIn('on arc 10', self.hint())
        self.seen.hover(self.near(ARC))
        self.assertIn('centre of arc 10', self.hint())
        self.seen.drag(self.near(ARC))
        self.enter('@10,0')
        self.assertEqual(self.last_line(1), 'line 1 0 0 0 -800,0 -790,0')

    def test_a_place_on_an_arc_lies_on_it(self) -> None:
        self.open(self.put('sheet.dgn', sheet()))
        self.tool('line')
        angle = math.radians(47)
        self.seen.drag(self.near((ARC[0] + 900 * math.cos(angle), ARC[1] + 900 * math.sin(angle)), 2, 2))
        self.enter('@10,0')
        x, y = (int(it) for it in self.last_line(1).split()[5].split(','))
        self.assertAlmostEqual(math.hypot(x - ARC[0], y - ARC[1]), 900, delta=0.75)

    def test_the_origin_of_a_cell(self) -> None:
        cell = plan.cell(1, 'VLV', (700, 300), (0, 0), (100, 100), plan.line(1, (0, 0), (100, 100), True))
        self.open(self.put('cell.dgn', drawings.drawing(cell)))
        self.tool('line')
        self.see(700, 300, 1)
        self.seen.hover(self.near((700, 300)))
        self.assertIn('origin of cell 1', self.hint())
        self.seen.drag(self.near((700, 300)))
        self.enter('@-1,-2')
        self.assertEqual(self.last_line(1), 'line 1 0 0 0 700,300 699,298')

    def test_what_is_hidden_is_not_snapped_to(self) -> None:
        self.open(
            self.put('two.dgn', drawings.drawing(plan.line(1, (0, 0), (900, 0)), plan.line(2, (0, 500), (900, 500))))
        )
        self.tool('line')
        self.seen.hover(self.near((900, 500)))
        self.assertIn('end of line 2', self.hint())
        self.do('#level-2')
        self.seen.hover(self.near((900, 500), 3))
        self.assertNotIn('end of', self.hint())

    def test_it_is_switched_off_by_the_button_the_key_and_alt(self) -> None:
        self.open(self.put('one.dgn', drawings.drawing(plan.line(1, (0, 0), (4000, 0)))))
        self.tool('line')
        self.seen.hover(self.near((0, 0)))
        self.assertIn('end of line 1', self.hint())
        self.focus()
        self.seen._ask(
            '/actions', {'actions': [{'type': 'key', 'id': 'keys', 'actions': [{'type': 'keyDown', 'value': ALT}]}]}
        )
        self.assertNotIn('end of', self.hint())
        self.seen._ask(
            '/actions', {'actions': [{'type': 'key', 'id': 'keys', 'actions': [{'type': 'keyUp', 'value': ALT}]}]}
        )
        self.assertIn('end of line 1', self.hint())
        self.seen.key('s')
        self.assertNotIn('end of', self.hint())
        self.assertEqual(self.seen.run("return document.getElementById('snap').getAttribute('aria-pressed')"), 'false')
        self.do('#snap')
        self.seen.hover(self.near((0, 0), 2, 2))
        self.assertIn('end of line 1', self.hint())

    def test_the_mark_is_seen(self) -> None:
        self.open(
            self.put('one.dgn', drawings.drawing(plan.line(1, (0, 0), (4000, 0)), plan.line(1, (0, 900), (9, 900))))
        )
        self.tool('measure')
        corners = "return [...page.stage.overlay.context.getImageData(%d, %d, 1, 1).data]"
        left, top = self.seen.run('return [page.view.toScreenX(0), page.view.toScreenY(0)]')
        self.seen.hover(self.near((0, 0)))
        self.seen.settle()
        self.assertGreater(self.seen.run(corners % (round(left) - 6, round(top) - 3))[3], 60, 'a square at an end')
        self.seen.hover(self.near((0, 0), 90, 90))
        self.seen.settle()
        self.assertEqual(self.seen.run(corners % (round(left) - 6, round(top) - 3))[3], 0)

    def test_what_is_dragged_goes_from_the_snapped_start_to_the_snapped_end(self) -> None:
        made = self.put('sheet.dgn', sheet())
        self.open(made)
        self.click_at(2300, 1300)
        for word, wanted in (('move', 'move 3 %d %d'), ('copy', 'copy 3 %d %d')):
            self.do('#drag-' + word)
            self.seen.drag(self.near((2000, 1000)), self.screen(1500, 1500), self.near((800, 2600)))
            self.seen.settle()
            self.assertEqual(self.last_line(1), wanted % (800 - 2000, 2600 - 1000))
            self.do('#undo')

    def test_what_is_moved_does_not_snap_to_itself(self) -> None:
        self.open(self.put('sheet.dgn', sheet()))
        self.see(0, -1500, 0.5)
        for word, wanted in (('copy', [0, 0]), ('move', [12, -16])):
            self.click_at(*SLANTED[0][0])
            self.do('#drag-' + word)
            (left, top), away = self.near(SLANTED[0][0]), self.screen(60, -1400)
            self.seen.drag((left, top), away, self.near(SLANTED[0][0], 6, 8))
            self.seen.settle()
            made = [int(it) for it in self.last_line(1).split()[2:]]
            self.assertLess(max(abs(is_ - was) for is_, was in zip(made, wanted)), 3, (word, made))
            self.do('#undo')

    def test_a_drag_that_is_given_up_moves_nothing(self) -> None:
        self.open(self.put('sheet.dgn', sheet()))
        self.click_at(*SLANTED[0][0])
        self.do('#drag-move')
        self.seen.drag(self.screen(0, -1500), self.screen(300, -1400), self.screen(900, -1300), key='Escape')
        self.seen.settle()
        self.assertEqual(self.script_lines(), [])
        self.assertEqual(self.seen.run('return page.tools.tool'), 'choose')

    def test_a_fence_and_a_measure_snap(self) -> None:
        self.open(self.put('sheet.dgn', sheet()))
        self.tool('measure')
        self.seen.drag(self.near((0, 2000)))
        self.seen.hover(self.near((800, 2600)))
        self.assertIn('1000.0 units', self.hint())
        self.tool('fence')
        for corner in SHAPE[:-1]:
            self.seen.drag(self.near(corner))
        self.assertEqual(self.seen.run('return page.tools.points'), [list(it) for it in SHAPE[:-1]])
        self.seen.hover(self.near(SHAPE[0], 2, 2))
        self.assertIn('closes it', self.hint())
        self.seen.drag(self.near(SHAPE[0], 2, 2))
        self.seen.wait('page.tools.fence.isKnown')
        self.assertEqual(self.seen.run('return page.tools.fence.corners'), [list(it) for it in SHAPE[:-1]])

    def test_three_axes_keep_the_z_of_what_is_snapped_to(self) -> None:
        self.open(self.put('solid.dgn', drawings.DRAWINGS['a line of three axes']))
        self.tool('line')
        self.seen.drag(self.near((100, 50)))
        self.enter('@7,0')
        self.assertEqual(self.last_line(1), 'line 1 0 0 0 100,50,25 107,50,25')
        self.enter('1,2,3', '@1,1,-9')
        self.assertEqual(self.last_line(2), 'line 1 0 0 0 1,2,3 2,3,-6')

    def test_a_drag_of_three_axes_goes_up_where_both_ends_have_a_z(self) -> None:
        made = drawings.drawing(drawings.line_of_three_axes(), axes=3)
        self.open(self.put('solid.dgn', made))
        self.see(50, 25, 5)
        self.click_at(50, 25)
        self.do('#drag-copy')
        self.seen.drag(self.near((0, 0)), self.screen(70, 10), self.near((100, 50)))
        self.seen.settle()
        self.assertEqual(self.last_line(1), 'copy 1 100 50 25')
        self.click_at(50, 25)
        self.do('#drag-copy')
        left, top = self.near((0, 0))
        self.seen.drag((left, top), (left + 100, top), self.screen(60, -20))
        self.seen.settle()
        self.assertEqual(self.last_line(2), 'copy 1 60 -20 0')

    def test_a_finger_sets_a_point_and_two_zoom(self) -> None:
        self.open(self.put('sheet.dgn', sheet()))
        self.tool('string')
        place = self.near((2600, 1600), 9, 9)
        self.seen.pinch((place, place))
        self.seen.settle()
        self.assertEqual(self.seen.run('return page.tools.points'), [[2600, 1600]])
        self.assertIn('Set at the vertex of line string 3', self.seen.text('#said'))
        scale = self.seen.run('return page.view.scale')
        left, top = self.screen(1500, 0)
        self.seen.pinch(((left - 40, top), (left - 90, top)), ((left + 40, top), (left + 90, top)))
        self.seen.settle()
        self.assertGreater(self.seen.run('return page.view.scale'), 1.5 * scale)
        x = self.seen.run('return page.view.x')
        left, top = self.screen(1500, 0)
        self.seen.pinch(((left, top), (left + 60, top)))
        self.seen.settle()
        self.assertLess(self.seen.run('return page.view.x'), x, 'one finger pans')
        self.assertEqual(self.seen.run('return page.tools.points'), [[2600, 1600]])

    def test_what_has_just_been_drawn_is_snapped_to(self) -> None:
        self.open(self.put('one.dgn', drawings.drawing(plan.line(1, (0, 0), (4000, 0)))))
        self.tool('line')
        self.enter('100,900', '3000,700')
        self.last_line(1)
        self.seen.hover(self.near((3000, 700)))
        self.assertIn('end of line 2', self.hint())
        self.assertIn('3000,700', self.seen.text('#place'))
        self.do('#undo')
        self.seen.hover(self.near((3000, 700), 3))
        self.assertNotIn('end of', self.hint())

    def test_by_keys_alone(self) -> None:
        self.open(self.put('one.dgn', drawings.drawing(plan.line(1, (0, 0), (4000, 0)))))
        self.tool('line')
        self.see(3, 3, 1)
        self.focus()
        self.seen.key(' ')
        self.assertIn('end of line 1', self.seen.text('#said'))
        self.enter('@5,6')
        self.assertEqual(self.last_line(1), 'line 1 0 0 0 0,0 5,6')


class Typed(WithPoints):
    """Points by their coordinates."""

    def units(self, origin: Tuple[int, int, int] = (0, 0, 0)) -> str:
        file = with_units((EXAMPLES / 'valve.dgn').read_bytes(), 100, 1, ('m', 'cm'), origin)
        return self.put('units.dgn', file)

    def test_absolute_relative_and_polar_in_master_units(self) -> None:
        made = self.units((500, -300, 0))
        self.open(made)
        self.tool('string')
        # 1.5 m and 2 m from the origin of 500,-300; 2.505 m are 250.5 units, which is rounded up
        self.enter('1.5,2', '@1,-0.5', '@2<90', '@2.505,0', '@1.41421356<-45', '10,20u', '@3,4u')
        self.assertTrue(self.has_focus('coordinate'))
        self.enter('')
        wanted = ['650,-100', '750,-150', '750,50', '1001,50', '1101,-50', '10,20', '13,24']
        self.assertEqual(self.last_line(1), 'string 1 0 0 0 ' + ' '.join(wanted))
        self.assertTrue(self.has_focus('coordinate'))
        self.enter('0,0', '1;2,5', '')
        self.assertEqual(self.last_line(2), 'string 1 0 0 0 500,-300 600,-50')
        self.compare(made, self.script_lines())

    def test_units_of_resolution_where_there_are_no_master_units(self) -> None:
        made = self.example('plan.dgn')
        self.open(made)
        self.tool('line')
        self.enter('-5,7', '@100<30')
        # 100 · cos 30° = 86.60, 100 · sin 30° = 50
        self.assertEqual(self.last_line(1), 'line 1 0 0 0 -5,7 82,57')
        self.enter('0,0', '@1.5,2')
        self.assertIn('whole numbers', self.beside())
        self.enter('@15,2')
        self.assertEqual(self.last_line(2), 'line 1 0 0 0 0,0 15,2')
        self.compare(made, self.script_lines())

    def test_what_is_no_point_is_told_and_stays(self) -> None:
        self.open(self.units())
        self.tool('string')
        for text, said in (
            ('@1,1', 'there is none yet'),
            ('@5<30', 'there is none yet'),
            ('5<30', 'count from the point before'),
            ('1', 'x,y'),
            ('1,2,3', 'x,y'),
            ('a,b', 'isn’t a position'),
            ('1.5,2u', 'whole numbers'),
            ('1e3,0', 'isn’t a position'),
            ('99999999999999999999,0', 'too far'),
        ):
            with self.subTest(text):
                self.enter(text)
                self.assertIn(said, self.beside())
                self.assertEqual(self.seen.run("return document.getElementById('coordinate').value"), text)
                self.assertEqual(self.seen.run('return page.tools.points.length'), 0)
        self.enter('1,1', '@3<x')
        self.assertIn('isn’t a length and an angle', self.beside())
        self.enter('@0,0')
        self.assertIn('where the point before is', self.beside())
        self.assertEqual(self.seen.run('return page.tools.points'), [[100, 100]])
        self.seen.type('#coordinate', '2')
        self.assertEqual(self.beside(), '', 'what is typed anew is not yet wrong')

    def test_the_program_refuses_and_points_stay(self) -> None:
        self.open(self.example('plan.dgn'))
        self.tool('line')
        self.enter('0,0', '4000000000,0')
        self.notice()
        self.assertEqual(self.seen.run('return page.tools.points.length'), 2)
        self.enter('5,5')
        self.assertIn('All its points are set', self.beside())
        self.seen.type('#coordinate', '')
        self.seen.key('Backspace')
        self.enter('5,5')
        self.assertEqual(self.last_line(1), 'line 1 0 0 0 0,0 5,5')

    def test_a_drag_and_a_copy_by_what_is_typed(self) -> None:
        made = self.units((500, -300, 0))
        self.open(made)
        self.click_at(490, 10)
        for typed, wanted in (('1.25,-2', '125 -200'), ('@3,4u', '3 4'), ('2<270', '0 -200')):
            self.do('#drag-copy')
            self.enter(typed)
            self.assertTrue(self.has_focus('marks'))
            self.assertEqual(self.last_line(1), 'copy 2 ' + wanted)
            self.do('#undo')
        self.do('#drag-move')
        self.enter('x')
        self.assertIn('x,y', self.beside())
        self.enter('0.01,0')
        self.assertEqual(self.last_line(1), 'move 2 1 0')

    def test_a_fence_a_shape_and_a_text(self) -> None:
        made = self.example('plan.dgn')
        self.open(made)
        self.tool('shape')
        self.enter('5000,0', '@100,0', '@0,100', '')
        self.assertEqual(self.last_line(1), 'shape 1 0 0 0 5000,0 5100,0 5100,100 5000,0')
        self.tool('text')
        self.enter('5000,500')
        self.assertIn('Type the text first', self.notice())
        self.seen.type('#make-words', 'HERE')
        self.seen.key('Enter')
        self.assertTrue(self.last_line(2).endswith(' 5000,500 HERE'))
        self.enter('5000,700')
        self.assertTrue(self.last_line(3).endswith(' 5000,700 HERE'))
        self.tool('fence')
        self.enter('700,800', '2700,800', '2700,2300', '700,2300', '')
        self.seen.wait('page.tools.fence.isKnown')
        self.assertEqual(
            self.seen.run('return page.tools.fence.corners'), [[700, 800], [2700, 800], [2700, 2300], [700, 2300]]
        )
        self.assertTrue(self.has_focus('marks'))

    def test_keys_to_and_from_the_field(self) -> None:
        self.open(self.example('plan.dgn'))
        self.assertFalse(self.seen.run("return document.getElementById('coordinates').checkVisibility()"))
        self.focus()
        self.seen.key('m', 'Tab')
        self.assertTrue(self.has_focus('coordinate'))
        self.seen.key(*'10,10', 'Enter', 'Escape')
        self.assertTrue(self.has_focus('marks'))
        self.assertEqual(self.seen.run('return page.tools.points'), [[10, 10]])
        self.seen.key('@', *'3,4')
        self.assertEqual(self.seen.run("return document.getElementById('coordinate').value"), '@3,4')
        self.assertIn('5.0 units', self.hint(), 'what is typed is shown before it is set')
        self.seen.key('Enter', 'Backspace')
        self.assertEqual(self.seen.run('return page.tools.points'), [[10, 10]])
        self.seen.key('Escape', 'Escape', 'Escape')
        self.assertEqual(self.seen.run('return page.tools.tool'), 'choose')


class Measured(WithPoints):
    """Lengths, directions and areas."""

    def test_an_area_by_a_click_on_the_first_corner_and_by_enter(self) -> None:
        file = with_units(drawings.drawing(plan.line(1, (0, 0), (900, 0))), 100, 1, ('m', 'cm'), (0, 0, 0))
        self.open(self.put('units.dgn', file))
        self.tool('measure')
        self.enter('0,0', '3,0')
        said = self.hint()
        self.assertIn('3.00 m', said)
        self.enter('@0,4')
        said = self.hint()
        for part in ('4.00 m', 'dx 0.00 m', 'dy 4.00 m', 'angle 90°', 'in total 7.00 m'):
            self.assertIn(part, said)
        self.enter('')
        self.assertIn('area 6.0000 m² = 60000.0 square units, perimeter 12.00 m', self.hint())
        self.enter('1,1', '2,1', '2,2', '1,2')
        self.focus()
        self.seen.drag(self.near((100, 100), 2, 2))
        self.assertIn('area 1.0000 m² = 10000.0 square units, perimeter 4.00 m', self.hint())

    def test_an_area_where_there_are_no_master_units(self) -> None:
        self.open(self.put('one.dgn', drawings.drawing(plan.line(1, (0, 0), (900, 0)))))
        self.tool('measure')
        # an L of 3 x 3 without 2 x 2, gone around with the clock, far away from 0
        base = 2000000000
        corners = [(0, 0), (0, 3), (1, 3), (1, 1), (3, 1), (3, 0)]
        self.enter(*['%d,%d' % (base + x, base + y) for x, y in corners], '')
        self.assertIn('area 5.0 square units, perimeter 12.0 units', self.hint())

    def test_two_points_are_no_area(self) -> None:
        self.open(self.put('one.dgn', drawings.drawing(plan.line(1, (0, 0), (900, 0)))))
        self.tool('measure')
        self.enter('0,0', '30,40', '')
        self.assertNotIn('area', self.hint())
        self.assertIn('50.0 units', self.hint())
        self.assertIn('angle 53.13°', self.hint())


class Sizes(WithPoints):
    """What the panel says of an element's length and area."""

    def facts(self, number: int) -> str:
        self.seen.type('#search-field', str(number))
        self.seen.key('Enter')
        self.seen.settle()
        return self.seen.text('#element')

    def test_shapes_and_line_strings(self) -> None:
        made = drawings.drawing(
            plan.path(6, 1, SHAPE),
            plan.path(4, 1, [(0, 0), (300, 400), (300, 500)]),
            plan.path(4, 1, [(0, 0), (300, 0), (300, 400), (0, 0)]),
            plan.line(1, (0, 0), (500, 1200)),
            plan.path(6, 1, [(0, 0), (300, 0), (300, 400)]),
        )
        self.open(self.put('units.dgn', with_units(made, 100, 1, ('m', 'cm'), (0, 0, 0))))
        said = self.facts(1)
        self.assertIn('28.00 m = 2800.0 units', said)
        self.assertIn('48.0000 m² = 480000.0 square units', said)
        said = self.facts(2)
        self.assertIn('6.00 m = 600.0 units', said)
        self.assertIn('not closed', said)
        said = self.facts(3)
        self.assertIn('12.00 m = 1200.0 units', said)
        self.assertIn('6.0000 m² = 60000.0 square units', said)
        said = self.facts(4)
        self.assertIn('13.00 m = 1300.0 units', said)
        self.assertNotIn('area', said)
        self.assertIn('not closed', self.facts(5), 'its last point is not its first')

    def chain(self, kind: int, *members: bytes) -> bytes:
        """A complex chain or shape over members, whose total counts it and them."""
        size = 40 + sum(len(it) for it in members)
        header = drawings.with_total(drawings.element(kind, 1, 40), (size - 38) // 2)
        return header + b''.join(members)

    def test_chains(self) -> None:
        one, two, three = (0, 0), (300, 0), (300, 400)
        sides = [plan.line(1, *it, True) for it in ((one, two), (two, three), (three, one), (three, (0, 10)))]
        arc, _ = curved.arc((0, 0), (50, 50), 0, 90)
        made = [
            self.chain(12, sides[0], sides[1]),
            self.chain(14, *sides[:3]),
            self.chain(12, sides[0], sides[1], sides[3]),
            self.chain(12, sides[0], drawings.with_bit_c(arc)),
        ]
        self.open(self.put('chains.dgn', drawings.drawing(*made)))
        said = self.facts(1)
        self.assertIn('700.0 units', said)
        self.assertIn('not closed', said)
        said = self.facts(4)
        self.assertIn('1200.0 units', said)
        self.assertIn('60000.0 square units', said)
        self.assertIn('not closed', self.facts(8))
        self.assertIn('aren’t straight', self.facts(12))


class Keys(WithPoints):
    """Enter, Delete and Escape where they are expected."""

    def test_enter_in_a_field_does_its_edit(self) -> None:
        made = self.example('plan.dgn')
        self.open(made)
        self.seen.type('#by-x', '7')
        self.seen.key('Enter')
        self.seen.settle()
        self.assertEqual(self.script_lines(), [], 'nothing is chosen')
        self.click_at(980, 520)
        self.seen.type('#by-y', '9')
        self.seen.key('Enter')
        self.seen.settle()
        self.seen.type('#new-weight', '3')
        self.seen.key('Enter')
        self.compare(made, ['move 6 7 9', 'sym 6 - 3 -'])

    def test_delete_after_a_search(self) -> None:
        made = self.example('plan.dgn')
        self.open(made)
        self.seen.key('/', *'vlv', 'Enter')
        self.seen.settle()
        self.assertTrue(self.has_focus('marks'))
        self.assertEqual(self.number(), 'element 6')
        self.seen.key('Enter')
        self.assertEqual(self.number(), 'element 9')
        self.seen.key('Enter')
        self.assertEqual(self.number(), 'element 6')
        self.seen.key('Delete')
        self.seen.settle()
        self.seen.key('Enter', 'Escape')
        self.assertEqual(self.number(), 'element 9', 'Escape ends the search alone')
        self.seen.key('Escape')
        self.assertEqual(self.number(), 'element')
        self.compare(made, ['delete 6'])

    def test_escape_closes_menus_and_lists(self) -> None:
        self.open(self.example('plan.dgn'))
        self.click_at(980, 520)
        self.do('#more summary')
        self.seen.key('Tab', 'Escape')
        self.assertFalse(self.seen.run("return document.getElementById('more').open"))
        self.assertTrue(self.seen.run("return document.activeElement.matches('#more summary')"))
        self.seen.type('#search-field', 'vlv')
        self.seen.key('ArrowDown', 'Escape')
        self.assertFalse(self.seen.run("return document.getElementById('search-list').checkVisibility()"))
        self.assertEqual(self.number(), 'element 6', 'the choice stays')

    def test_what_is_touched_is_large_enough(self) -> None:
        self.open(self.example('plan.dgn'))
        self.seen.command('Emulation.setTouchEmulationEnabled', enabled=True, maxTouchPoints=2)
        self.addCleanup(self.seen.command, 'Emulation.setTouchEmulationEnabled', enabled=False)
        self.assertTrue(self.seen.run("return matchMedia('(pointer: coarse)').matches"))
        self.click_at(980, 520)
        self.tool('line')
        small = self.seen.run(
            "return [...document.querySelectorAll('button, input, select, summary, .levels label, .check')]"
            ".filter((it) => it.checkVisibility() && it.type !== 'checkbox' && !it.matches('.hidden'))"
            '.map((it) => [it.id || it.textContent, it.getBoundingClientRect()])'
            '.filter(([, box]) => box.width < 40 || box.height < 40).map(([name]) => name)'
        )
        self.assertEqual(small, [])


if __name__ == '__main__':
    unittest.main()
