"""Where the app draws elements, held against GDAL's reading of them. Where GDAL reads an element otherwise than the
format defines it, its case says how and why, and the picture is held against the definition. Skipped where there is no
browser or no ogr2ogr."""

from __future__ import annotations

import math
import random
import unittest
from typing import List

import curved
from app import HAS_PROGRAM, NO_PROGRAM
from held import Case, WithGdal, in_rows, say_what_is_missing
from pictures import Line, Picture, Point
from samples import drawings, plan


def setUpModule() -> None:
    say_what_is_missing()


class Paths(WithGdal):
    """Every type lies where GDAL reads it."""

    def test_lines_strings_and_shapes(self) -> None:
        string = [(1100, 0), (1300, 900), (1500, 100), (1900, 800)]
        shape = [(2100, 0), (2900, 200), (2500, 900), (2100, 0)]
        open_, why = [(3100, 0), (3900, 100), (3500, 800)], 'a shape is closed, and GDAL leaves such a ring open'
        self.hold(
            [
                Case('line', plan.line(1, (0, 0), (900, 700))),
                Case('level line', plan.line(1, (0, 800), (900, 800))),
                Case('line string', plan.path(4, 1, string)),
                Case('shape', plan.path(6, 1, shape)),
                Case('shape without its first point again', plan.path(6, 1, open_), why, [[*open_, open_[0]]]),
            ]
        )

    def test_curves(self) -> None:
        wave = [(-200, 0), (-100, 50), *[(300 * it, 300 * (it % 2)) for it in range(8)], (2200, 350), (2300, 300)]
        twice = [(0, 1000), (50, 1000), (100, 1000), (400, 1400), (400, 1400), (900, 1000), (950, 900), (990, 900)]
        straight = [(1200 + 100 * it, 1000 + 20 * it) for it in range(9)]
        few = [(0, 2000), (200, 2400), (500, 2000), (800, 2400)]
        why = 'it has too few points for a piece: its points are joined, and GDAL has it at 0,0 alone'
        self.hold(
            [
                Case('curve', curved.curve(wave)),
                Case('curve through a place twice', curved.curve(twice)),
                Case('straight curve', curved.curve(straight)),
                Case('curve of four points', curved.curve(few), why, [few]),
            ]
        )

    def test_a_curve_of_three_axes(self) -> None:
        points = [(0, 0, 0), (100, 0, 0), (200, 0, 0), (600, 400, 900), (900, 0, 0), (1400, 300, 0), (1500, 300, 0)]
        points.append((1600, 300, 0))
        flat = [(x, y) for x, y, _ in points]
        body = len(points).to_bytes(2, 'little') + curved.longs(*(it for point in points for it in point))
        why = 'GDAL measures a chord in x and y alone'
        self.hold([Case('curve of space', curved.element(11, flat, body, axes=3), why, [curved.akima(points)])], axes=3)

    def test_arcs_and_ellipses(self) -> None:
        cases, index = [], 0
        for start, sweep, angle in (
            (0, 90, 0),
            (30, 200, 0),
            (30, -200, 0),
            (350, 20, 45),
            (0, 0, 30),
            (123.4567, 271.25, 200.5),
            (10, -359, 270),
        ):
            x, y = in_rows(1000, 4, index)
            made, line = curved.arc((x, y), (400, 250), start, sweep or 360, angle)
            if sweep == 0:
                made = made[:40] + bytes(4) + made[44:]
            cases.append(Case('arc from %s by %s, turned by %s' % (start, sweep, angle), made))
            index += 1
        for axes, angle in (((400, 400), 0), ((400, 100), 0), ((400, 100), 60), ((90.5, 410.25), 12.25)):
            made, line = curved.ellipse(in_rows(1000, 4, index), axes, angle)
            cases.append(Case('ellipse of %s, turned by %s' % (axes, angle), made))
            index += 1
        self.hold(cases)

    def test_arcs_and_ellipses_of_three_axes(self) -> None:
        why = 'GDAL leaves the quaternion of an element out'
        turns = {
            'turned by 40': curved.turned(40),
            'turned by 200': curved.turned(200),
            'tilted by 60': curved.tilted(60),
            'turned by 30 and tilted by 50': curved.times(curved.turned(30), curved.tilted(50)),
            'tilted by 50 and turned by 70': curved.times(curved.tilted(50), curved.turned(70)),
            'seen from below': curved.tilted(180),
        }
        cases, index = [], 0
        for around in ((20, 250), (20, -100), None):
            made, _ = curved.arc_of_space(in_rows(1000, 4, index), (400, 200), around, curved.turned(0))
            cases.append(Case('as it lies, %s' % (around,), made))
            index += 1
        for name, quaternion in turns.items():
            around = (10, 200) if index % 2 else None
            made, line = curved.arc_of_space(in_rows(1000, 4, index), (400, 200), around, quaternion)
            if around is None and name == 'seen from below':
                continue
            cases.append(Case(name, made, why, [line]))
            index += 1
        self.hold(cases, axes=3)

    def test_splines(self) -> None:
        why = 'GDAL reads the poles of a B-spline as a line string, and leaves the rest out'
        cases = []
        four = [(0, 0), (200, 800), (600, -300), (900, 500)]
        line = curved.spline_line(four, 4, [0] * 4 + [1] * 4)
        cases.append(Case('four poles', curved.spline(four, 4, line), why, [line]))
        seven = [(1200, 0), (1300, 600), (1500, 100), (1700, 700), (1800, 0), (2000, 500), (2100, 0)]
        line = curved.spline_line(seven, 4, [0] * 4 + [0.25, 0.5, 0.75] + [1] * 4)
        cases.append(Case('seven poles, even knots', curved.spline(seven, 4, line), why, [line]))
        moved = [(x, y - 1000) for x, y in seven]
        line = curved.spline_line(moved, 3, [0] * 3 + [0.1, 0.1, 0.6, 0.9] + [1] * 3)
        made = curved.spline(moved, 3, line, knots=[0.1, 0.1, 0.6, 0.9])
        cases.append(Case('uneven knots', made, why, [line]))
        ring = [(0, -1000), (600, -900), (800, -400), (300, -200), (-100, -500)]
        turns = [it / 5 for it in range(-3, 9)]
        line = curved.spline_line([*ring, *ring[:3]], 4, turns)
        cases.append(Case('closed', curved.spline(ring, 4, line, closed=True), why, [line]))
        corner = [(3000, 0), (3000, 800), (2200, 800)]
        quarter = curved.arc_line((2200, 0), (800, 800), 0, 90, lambda it: it)
        made = curved.spline(corner, 3, quarter, weights=[1, math.sqrt(0.5), 1])
        cases.append(Case('a quarter of a circle by weights', made, why, [quarter]))
        self.hold(cases)

    def test_a_spline_of_order_2(self) -> None:
        """It goes along its poles, so it lies where GDAL has them."""
        poles = [(2300, -1000), (2500, -600), (2900, -900)]
        picture, read = self.show(curved.spline(poles, 2, poles))
        self.assertEqual(read[2].lines, [poles])
        self.assertEqual(picture.missing(read[2].lines), [])
        self.assertEqual(picture.astray(read[2].lines), [])

    def test_a_surface(self) -> None:
        # of order 2 both ways, so its lines are straight: edges, and those that part it in two and in four
        rows = [[(0, 0), (2000, 200)], [(100, 1000), (1800, 1400)]]
        (low_left, low_right), (high_left, high_right) = rows
        lines: List[Line] = [
            [between(low_left, high_left, it / 2), between(low_right, high_right, it / 2)] for it in range(3)
        ]
        lines += [[between(low_left, low_right, it / 4), between(high_left, high_right, it / 4)] for it in range(5)]
        why = 'GDAL reads each row of poles of a surface as a line string'
        picture, read = self.show(curved.surface(rows, (2, 2), (4, 2)))
        self.assertEqual([it.lines for it in read.values()], [[row] for row in rows], why)
        self.assertEqual(picture.missing(lines), [])
        self.assertEqual(picture.astray(lines), [])

    def test_members_of_cells_and_chains(self) -> None:
        cell = drawings.cell(plan.line(2, (0, 0), (900, 700), True), plan.line(2, (0, 700), (900, 0), True))
        sides = [((1200, 0), (1900, 0)), ((1900, 0), (1900, 700)), ((1900, 700), (1200, 0))]
        members = b''.join(plan.line(1, *side, member=True) for side in sides)
        chain = drawings.with_total(drawings.element(12, 1, 40), (40 + len(members) - 38) // 2)
        picture, read = self.show(cell, chain + members)
        lines = [line for it in read.values() for line in it.lines]
        lines = [line for line in lines if len(line) > 1]
        self.assertGreaterEqual(len(lines), 3)
        self.assertEqual(picture.missing(lines), [])
        origin = [[(-20, 0), (20, 0)], [(0, -20), (0, 20)]]
        self.assertEqual(picture.astray([*lines, *origin]), [])

    def test_every_class_of_properties(self) -> None:
        made = [curved.looking(plan.line(1, (0, 100 * it), (1000, 100 * it)), kind=it) for it in range(16)]
        self.hold([Case('class %d' % index, it) for index, it in enumerate(made)])

    def test_what_is_not_trusted_is_its_range(self) -> None:
        """Fields that can't be are drawn as a dashed box, on which all dots lie."""
        good, line = curved.arc((500, 500), (400, 300), 0, 90)
        spline = curved.spline([(0, 0), (100, 100), (200, 0)], 3, [(100, 100), (900, 900)])
        nothing = curved.element(27, [(100, 100), (900, 900)], bytes(10))
        hostile = {
            'another range': good[:4] + plan.display(3, 1, (100, 100), (900, 900), b'')[4:28] + good[28:],
            'an axis beyond all': curved.element(15, [(100, 100), (900, 900)], b'\xff' * 36),
            'poles out of its range': spline,
            'a header alone': nothing,
            'order 17': spline[:40] + b'\xff' + spline[41:],
            'more poles than there are': spline[:42] + b'\xff\xff' + spline[44:],
            'more knots than there are': spline[:44] + b'\xff\xff' + spline[46:],
            'no poles': spline[:42] + b'\0\0' + spline[44:],
        }
        sides = [[(100, 100), (900, 100), (900, 900), (100, 900), (100, 100)]]
        for name, made in hostile.items():
            with self.subTest(name):
                picture, _ = self.show(made)
                self.assertEqual(picture.astray(sides), [])
                self.assertGreater(len(picture.missing(sides)), 100, 'it has gaps')
                self.assertGreater(sum(1 for _ in picture.marked()), 200)

    def test_fields_at_random(self) -> None:
        """Whatever stands in the fields of what is curved, the page draws the rest, and complains of nothing."""
        chance = random.Random(11)
        for axes in (2, 3):
            odd = b''.join(curved.at_random(chance, axes) for _ in range(1500))
            picture = self.draw(odd, axes=axes)
            self.assertGreater(sum(1 for _ in picture.marked()), 200)
            self.seen.run('page.view.scale *= 1000; page.stage.moved()')
            self.seen.settle()
            self.click_at(*self.seen.run('return [page.view.x, page.view.y]'))

    def test_what_is_drawn_is_picked(self) -> None:
        wave = [(-200, 0), (-100, 50), *[(300 * it, 300 * (it % 2)) for it in range(8)], (2200, 350), (2300, 300)]
        four = [(0, 1000), (200, 1800), (600, 700), (900, 1500)]
        line = curved.spline_line(four, 4, [0] * 4 + [1] * 4)
        arc, round_ = curved.arc((1500, 1300), (400, 250), 30, 200, 20)
        _, read = self.show(curved.curve(wave), curved.spline(four, 4, line), arc)
        for number, path in ((1, read[1].lines[0]), (2, line), (4, round_)):
            x, y = path[len(path) // 3]
            self.click_at(x, y)
            self.assertEqual(self.number(), 'element %d' % number)
            self.seen.key('Escape')
        self.click_at(200, 1790)
        self.assertEqual(self.number(), 'element', 'a pole is no place of the curve')


@unittest.skipUnless(HAS_PROGRAM, NO_PROGRAM)
class Edited(WithGdal):
    """What an edit leaves is drawn by its own points, too."""

    def test_curved_elements_after_edits(self) -> None:
        four = [(0, 0), (200, 800), (600, -300), (900, 500)]
        line = curved.spline_line(four, 4, [0] * 4 + [1] * 4)
        arc, round_ = curved.arc((1500, 300), (400, 250), 30, 200, 20)
        wave = [(-200, 1000), (-100, 1050), *[(300 * it, 1000 + 300 * (it % 2)) for it in range(8)]]
        wave += [(2200, 1350), (2300, 1300)]
        _, read = self.show(curved.spline(four, 4, line), arc, curved.curve(wave))
        lines = ['delete 1', 'color 3 3', 'copy 4 0 600']
        answers = self.seen.run_slowly(
            "page.work.apply({ why: 'edit', lines: arguments[0] }).then(arguments[1])", lines
        )
        self.assertTrue(answers, 'all of them are done')
        moved = [(x, y + 600) for x, y in read[4].lines[0]]
        paths = [line, round_, read[4].lines[0], moved]
        self.seen.run("document.getElementById('mode-after').click()")
        self.seen.click('#show-deleted')
        self.seen.click('#fit')
        picture = Picture(self.seen)
        self.assertEqual(picture.missing(paths, least=25), [], 'what is marked deleted is faint')
        self.assertEqual(picture.astray(paths), [])
        x, y = line[len(line) // 3]
        self.click_at(x, y)
        self.assertEqual(self.number(), 'element 1')


class Fitting(WithGdal):
    """Nothing of a drawing lies under what floats above it, once all of it is shown."""

    def test_nothing_lies_under_the_tools_and_the_scale(self) -> None:
        square = [(0, 0), (1000, 0), (1000, 1000), (0, 1000), (0, 0)]
        wide = [(0, 0), (9000, 0), (9000, 300), (0, 300), (0, 0)]
        high = [(0, 0), (200, 0), (200, 9000), (0, 9000), (0, 0)]
        arc, _ = curved.arc((0, 0), (1000, 1000), 20, 300)
        pole = [(0, 0), (10, 0), (100, 0), (900, 500), (100, 1000), (10, 1000), (0, 1000)]
        words = curved.text((0, 0), 'Ägypten'.encode('latin-1'), 300, 500)
        heavy = [curved.looking(plan.path(6, 1, it), 0, 31) for it in (square, wide, high)]
        for made in (*heavy, arc, curved.curve(pole), words):
            self.show(made)
            self.seen.key('0')
            picture = Picture(self.seen)
            self.assertGreater(sum(1 for _ in picture.marked()), 50)
            for css in ('#tools', '.scale'):
                left, top, right, bottom = self.seen.run(
                    'const box = document.querySelector(arguments[0]).getBoundingClientRect();'
                    "const { left, top } = document.getElementById('stage').getBoundingClientRect();"
                    'return [box.left - left, box.top - top, box.right - left, box.bottom - top]',
                    css,
                )
                under = [(x, y) for x, y in picture.marked(1) if left <= x <= right and top <= y <= bottom]
                self.assertEqual(under, [], css)


def between(one: Point, other: Point, share: float) -> Point:
    """A place between two."""
    return (one[0] + (other[0] - one[0]) * share, one[1] + (other[1] - one[1]) * share)


if __name__ == '__main__':
    unittest.main()
