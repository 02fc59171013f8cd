"""How the app draws elements, held against GDAL's style of them: colours, weights, styles, fills, and texts with their
size, angle and justification. Skipped where there is no browser or no ogr2ogr."""

from __future__ import annotations

import math
import unittest
from typing import List, Sequence, Tuple

import curved
from held import Reading, WithGdal, in_rows, say_what_is_missing
from pictures import Picture, Point
from samples import drawings, plan


def setUpModule() -> None:
    say_what_is_missing()


# Each style in the order of the format: OGR's name of its pen, and its dashes as `dashed` has them: solid, dotted,
# medium dashed, long dashed, dot-dashed, short dashed, dash double-dot, long and short.
PENS = ('ogr-pen-0', 'ogr-pen-5', 'ogr-pen-2', 'ogr-pen-4', 'ogr-pen-6', 'ogr-pen-3', 'ogr-pen-7', '')
DASHES = ('', '.', '-', '_', '-.', 's', '-..', '_s')
OWN_PEN = 'p:"10px 5px 4px 5px"'  # OGR has no name for the last one


class Looks(WithGdal):
    """Every element looks as GDAL says that it does."""

    def level_lines(self, looks: Sequence[Tuple[int, int, int]], apart: int = 10) -> List[bytes]:
        """Level lines one below the other, each with a colour, a weight and a style."""
        made = [plan.line(1, (0, -apart * it), (1000, -apart * it)) for it in range(len(looks))]
        return [curved.looking(line, *look) for line, look in zip(made, looks)]

    def test_every_colour(self) -> None:
        """On one of the two grounds each colour is that of GDAL, to the bit; on the other it may be made lighter or
        darker."""
        seen: List[List[str]] = [[] for _ in range(256)]
        for first in range(0, 256, 64):
            picture, read = self.show(*self.level_lines([(it, 4, 0) for it in range(first, first + 64)]))
            for _ in range(2):
                for it in range(64):
                    seen[first + it].append(picture.colour(500, -10 * it))
                self.seen.click('#ground')
                picture = Picture(self.seen)
            for it in range(64):
                self.assertIn(read[1 + it].styled('c'), seen[first + it], 'colour %d' % (first + it))

    def test_a_table_of_colours(self) -> None:
        table = bytes([9, 9, 9]) + bytes([200, 90, 10]) + bytes([10, 140, 30]) * 254
        behind = bytes(2) + table
        own = bytes([1, 5]) + ((36 + len(behind) - 4) // 2).to_bytes(2, 'little') + bytes(32) + behind
        picture, read = self.show(own, *self.level_lines([(0, 4, 0), (7, 4, 0)], 100))
        self.assertEqual([read[it].styled('c') for it in (2, 3)], ['#c85a0a', '#0a8c1e'])
        self.assertEqual([picture.colour(500, it) for it in (0, -100)], ['#c85a0a', '#0a8c1e'])

    def test_every_weight(self) -> None:
        """A line of weight 0 is one dot wide, and of a greater one as wide as docs/PAGE.md says."""
        for first in (0, 16):
            picture, read = self.show(*self.level_lines([(0, first + it, 0) for it in range(16)], 100))
            for it in range(16):
                with self.subTest(weight=first + it):
                    self.assert_weight(first + it, read[1 + it], picture.across(500, -100 * it, 14))

    def assert_weight(self, weight: int, read: Reading, alphas: List[int]) -> None:
        self.assertEqual(int((read.styled('w') or '%dpx' % weight)[:-2]), weight)
        if weight == 0:
            self.assertEqual([it for it in alphas if it > 0], [255])
        else:
            self.assertAlmostEqual(sum(alphas) / 255, 1 + 0.6 * weight, delta=0.3)

    def test_weight_0_where_a_pixel_has_two_dots(self) -> None:
        self.seen.command(
            'Emulation.setDeviceMetricsOverride', width=1280, height=800, deviceScaleFactor=2, mobile=False
        )
        try:
            upright = plan.line(1, (500, -300), (500, 300))
            picture, _ = self.show(upright, *self.level_lines([(0, 0, 0)]), plan.line(1, (0, -300), (250, -50)))
            self.assertEqual(picture.ratio, 2)
            self.assertEqual([it for it in picture.across(100, 0) if it > 0], [255])
            left, top = (math.floor(it) for it in picture.place(500, 100))
            self.assertEqual([it for it in range(-9, 10) if picture.alpha(left + it, top) > 0], [0])
            slanted = sum(picture.across(125, -175)) / 255
            self.assertTrue(0.9 < slanted < 1.1 * math.sqrt(2), 'a dot across, from above at 45 degrees: %f' % slanted)
        finally:
            self.seen.command('Emulation.clearDeviceMetricsOverride')

    def test_every_style(self) -> None:
        picture, read = self.show(*self.level_lines([(0, 0, it) for it in range(8)], 100))
        for style, (pen, dashes) in enumerate(zip(PENS, DASHES)):
            with self.subTest(style=style):
                self.assertIn(pen or OWN_PEN, read[1 + style].style)
                lengths = runs(picture.along((0, -100 * style), (1000, -100 * style)))
                self.assertEqual(dashed(lengths), dashes)

    def test_fills(self) -> None:
        """A shape or an ellipse is filled where it has the linkage for it, with the colour of that, and its outline has
        the colour of its own."""
        square = [(0, 0), (900, 0), (900, 900), (0, 900), (0, 0)]
        shapes = [plan.path(6, 1, [(x + 1200 * it, y) for x, y in square]) for it in range(3)]
        ellipses = [curved.ellipse((450 + 1200 * it, -800), (450, 300), 20)[0] for it in range(2)]
        line = curved.filled(plan.path(4, 1, [(x + 2400, y - 1200) for x, y in square[:4]]), 4)
        made = [curved.filled(shapes[0], 3), shapes[1], curved.filled(shapes[2], 2)]
        made += [curved.filled(ellipses[0], 5), ellipses[1], line]
        picture, read = self.show(*(curved.looking(it, 1, 3) for it in made))
        self.assertEqual([read[it].styled('fc') for it in (1, 2, 3)], ['#ff0000', '', '#00ff00'])
        inside = [picture.at(*(round(it) for it in picture.place(*place))) for place in MIDDLES]
        self.assertEqual(inside[0], (255, 0, 0, 255))
        self.assertEqual(inside[1], (0, 0, 0, 0), 'a shape without the linkage is hollow')
        self.assertEqual(inside[3], (255, 0, 255, 255), 'GDAL has no brush for ellipses, the format gives them one')
        self.assertEqual(inside[4], (0, 0, 0, 0))
        self.assertEqual(inside[5], (0, 0, 0, 0), 'a line string has no area')
        self.assertEqual([read[it].styled('fc') for it in (4, 5, 6)], ['', '', ''])
        self.assertEqual(picture.colour(0, 450), read[1].styled('c'), 'the outline lies above the fill')
        painted = picture.boxes((-60, -60), (960, 960))
        self.assertGreater(len(painted), 0.97 * (900 * picture.scale) ** 2, 'it is filled to its edges')
        self.assertLess(max(x for x, _ in painted), 900 + 3 / picture.scale)

    def test_holes_of_a_fill(self) -> None:
        """Shapes that are marked as holes behind a filled one in its cell; one that isn't marked is no hole."""
        square = [(0, 0), (900, 0), (900, 900), (0, 900), (0, 0)]
        hole = [(100, 100), (400, 100), (400, 800), (100, 800), (100, 100)]
        other = [(x + 400, y) for x, y in hole]
        members = [curved.filled(plan.path(6, 1, square), 3), plan.path(6, 1, hole, 0x8000), plan.path(6, 1, other)]
        self.show(drawings.cell(*(drawings.with_bit_c(it) for it in members)), plan.line(1, (-100, -100), (1000, -100)))
        picture = Picture(self.seen)
        for place, dots in (((50, 450), (255, 0, 0, 255)), ((250, 450), (0, 0, 0, 0)), ((650, 450), (255, 0, 0, 255))):
            self.assertEqual(picture.at(*(round(it) for it in picture.place(*place))), dots)
        self.click_at(250, 450)
        self.assertEqual(self.number(), 'element', 'nothing is drawn in the hole')
        self.click_at(50, 450)
        self.assertEqual(self.number(), 'element 1')

    def test_a_fill_far_beyond_the_screen(self) -> None:
        wide = 2000000000
        shape = plan.path(6, 1, [(-wide, -wide), (wide, -wide), (wide, 0), (0, wide), (-wide, wide), (-wide, -wide)])
        self.show(curved.looking(curved.filled(shape, 3), 1, 3))
        self.seen.run('page.view.scale = 2; page.view.x = 1e9; page.view.y = 1e9; page.stage.moved()')
        picture = Picture(self.seen)
        self.assertEqual(picture.at(*(round(it) for it in picture.place(1e9 - 60, 1e9 - 60))), (255, 0, 0, 255))
        self.assertEqual(picture.at(*(round(it) for it in picture.place(1e9 + 60, 1e9 + 60))), (0, 0, 0, 0))

    def test_the_inside_of_a_fill_is_picked_and_a_line_above_it_too(self) -> None:
        square = [(0, 0), (900, 0), (900, 900), (0, 900), (0, 0)]
        hollow = plan.path(6, 1, [(x + 1200, y) for x, y in square])
        self.show(curved.filled(plan.path(6, 1, square), 3), plan.line(1, (100, 300), (800, 300)), hollow)
        for place, number in (((450, 600), 'element 1'), ((450, 301), 'element 2'), ((1650, 450), 'element')):
            self.click_at(*place)
            self.assertEqual(self.number(), number)
            self.seen.key('Escape')


MIDDLES = ((450, 450), (1650, 450), (2850, 450), (450, -800), (1650, -800), (2850, -750))


def runs(dots: Sequence[bool]) -> List[int]:
    """How long what is seen is, and then what isn't, in turn, without the pieces that an end cuts."""
    made: List[int] = []
    was = not dots[0]
    for it in dots:
        if it == was:
            made[-1] += 1
        else:
            made.append(1)
            was = it
    return made if len(made) == 1 else made[:-1] if dots[0] else made[1:-1]


def dashed(lengths: Sequence[int]) -> str:
    """A style by its dashes: `.` of up to 2 dots, `s` of up to 5, `-` of up to 11, else `_`; or nothing where there is
    no gap. It is the shortest row that comes back."""
    if len(lengths) == 1:
        return ''
    signs = ''.join('.' if it <= 2 else 's' if it <= 5 else '-' if it <= 11 else '_' for it in lengths[::2])
    periods = [signs[:it] for it in range(1, 4) if all(sign == signs[at % it] for at, sign in enumerate(signs))]
    return periods[0] if periods else signs


class Texts(WithGdal):
    """A text has the size, the angle and the place that GDAL reads, whatever its justification: the origin that is
    stored is always its lower left."""

    def frame(self, picture: Picture, origin: Point, angle: float, reach: float) -> Tuple[float, float, float, float]:
        """From where to where a text goes along its angle, and across, from its origin."""
        x, y = origin
        dots = picture.boxes((x - reach, y - reach), (x + reach, y + reach))
        cosine, sine = math.cos(math.radians(angle)), math.sin(math.radians(angle))
        along = [(a - x) * cosine + (b - y) * sine for a, b in dots]
        up = [(b - y) * cosine - (a - x) * sine for a, b in dots]
        return min(along), min(up), max(along), max(up)

    def assert_frame(self, found: Sequence[float], wanted: Sequence[float], near: float) -> None:
        for it, other in zip(found, wanted):
            self.assertAlmostEqual(it, other, delta=near, msg='%s and %s' % (found, wanted))

    def test_every_angle(self) -> None:
        angles = [float(it) for it in range(0, 360, 30)] + [17.5]
        places = [in_rows(1500, 4, it) for it in range(len(angles))]
        made = [curved.text(place, b'HHH', 150, 210, angle) for place, angle in zip(places, angles)]
        picture, read = self.show(*made)
        for index, (place, angle) in enumerate(zip(places, angles)):
            with self.subTest(angle=angle):
                one = read[index + 1]
                self.assertEqual(one.lines, [[place]])
                self.assertEqual(one.size, 210)
                self.assertAlmostEqual(float(one.styled('a') or 0), angle, delta=0.5)
                found = self.frame(picture, place, float(one.styled('a') or 0) if angle != 17.5 else angle, 700)
                self.assert_frame(found, (10, 0, 440, one.size), 25)

    def test_every_justification(self) -> None:
        places = [in_rows(1000, 4, it) for it in range(15)]
        made = [curved.text(place, b'HH', 200, 300, 0, it) for it, place in enumerate(places)]
        picture, read = self.show(*made)
        for number, place in enumerate(places, 1):
            self.assertEqual(read[number].lines, [[place]])
            self.assert_frame(self.frame(picture, place, 0, 450), (10, 0, 390, 300), 25)

    def test_every_size(self) -> None:
        sizes = [(21, 60), (60, 60), (150, 60), (51, 210), (210, 210), (99, 420)]
        places = [in_rows(2000, 3, it) for it in range(len(sizes))]
        made = [curved.text(place, b'HHHH', *size) for place, size in zip(places, sizes)]
        picture, read = self.show(*made)
        for number, (place, (wide, high)) in enumerate(zip(places, sizes), 1):
            with self.subTest(size=(wide, high)):
                self.assertEqual(read[number].size, high)
                self.assert_frame(self.frame(picture, place, 0, 900), (0, 0, 4 * wide, high), 8 + 0.15 * wide)

    def test_mirrored(self) -> None:
        """An L has its stem at its origin, and its foot goes where its width says, at the side its height says."""
        signs = [(1, 1), (-1, 1), (1, -1), (-1, -1)]
        places = [in_rows(1500, 2, it) for it in range(8)]
        made = [curved.text(place, b'L', 400 * wide, 510 * high) for place, (wide, high) in zip(places, signs)]
        made += [curved.text(place, b'L', 400 * wide, 510 * high, 90) for place, (wide, high) in zip(places[4:], signs)]
        picture, read = self.show(*made)
        for index, (place, (wide, high)) in enumerate(zip(places, signs * 2)):
            with self.subTest(wide=wide, high=high, angle=90 if index > 3 else 0):
                self.assertEqual(read[index + 1].size, 510 * high)
                angle = 90 if index > 3 else 0
                low_along, low_up, high_along, high_up = self.frame(picture, place, angle, 600)
                self.assertGreater(high_along if wide > 0 else -low_along, 300)
                self.assertLess(-low_along if wide > 0 else high_along, 20)
                self.assertAlmostEqual(high_up if high > 0 else -low_up, 510, delta=20)
                self.assertLess(-low_up if high > 0 else high_up, 20)
                turn = curved.by_angle(angle)
                foot, corner = turn((300 * wide, 25 * high)), turn((300 * wide, 450 * high))
                self.assertTrue(self.is_seen(picture, place, foot))
                self.assertFalse(self.is_seen(picture, place, corner), 'an L is empty there')
                self.click_at(place[0] + foot[0], place[1] + foot[1])
                self.assertEqual(self.number(), 'element %d' % (index + 1))
                self.seen.key('Escape')

    def test_three_axes(self) -> None:
        """Seen along z, a text is turned by its quaternion, lower where it is tilted, and mirrored from below; GDAL
        leaves the quaternion of a text out."""
        turns = [(curved.turned(it), float(it), 210.0) for it in (0, 40, 200)]
        turns += [(curved.tilted(60), 0, 105), (curved.tilted(180), 0, -210)]
        turns.append((curved.times(curved.tilted(60), curved.turned(30)), 30, 105))
        places = [in_rows(1500, 3, it) for it in range(len(turns))]
        made = [
            curved.text_of_space(place, b'HHH', 150, 210, quaternion)
            for place, (quaternion, _, _) in zip(places, turns)
        ]
        picture, read = self.show(*made, axes=3)
        for index, (place, (_, angle, high)) in enumerate(zip(places, turns)):
            with self.subTest(angle=angle, high=high):
                self.assertEqual(read[index + 1].lines, [[place]])
                self.assertEqual((read[index + 1].size, read[index + 1].styled('a')), (210, ''))
                wanted = (10, min(high, 0), 440, max(high, 0))
                self.assert_frame(self.frame(picture, place, angle, 700), wanted, 25)

    def is_seen(self, picture: Picture, place: Point, offset: Point) -> bool:
        x, y = place[0] + offset[0], place[1] + offset[1]
        return any(picture.boxes((x - 20, y - 20), (x + 20, y + 20)))


if __name__ == '__main__':
    unittest.main()
