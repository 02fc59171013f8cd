"""Polygons: the conditions of `find` by three and more corners or by a shape of the drawing, and `clip`."""

import unittest
from typing import List

import samples
from samples import drawings, plan, with_units

TRIANGLE = [(0, 0), (100, 0), (0, 100)]
CORNERS = ['0,0', '100,0', '0,100']
INSIDE, BOXED = plan.line(1, (10, 10), (20, 20)), plan.line(1, (60, 60), (70, 70))
ACROSS, FAR = plan.line(1, (40, 40), (70, 70)), plan.line(1, (200, 200), (210, 210))
SHAPE = plan.path(6, 2, [*TRIANGLE, TRIANGLE[0]])


def complex_shape(*members: bytes) -> bytes:
    """A complex shape over members."""
    made = b''.join(drawings.with_bit_c(it) for it in members)
    return drawings.with_total(drawings.element(14, 2, 40), (40 + len(made) - 38) // 2) + made


def deleted(path: str) -> List[int]:
    return samples.Drawing(path).elements.deleted()


class Polygons(samples.WithProgram):
    def setUp(self) -> None:
        super().setUp()
        self.drawing = self.put('in.dgn', drawings.drawing(INSIDE, BOXED, ACROSS, FAR))

    def numbers(self, *words: object, of: str = '') -> List[int]:
        return [int(it) for it in self.said('find', *words, of or self.drawing, '--numbers').split()]

    def refusal(self, *words: object) -> str:
        status, out, err = self.kit(*words)
        self.assertEqual((status, out), (2, ''))
        return err

    def test_three_corners_are_a_polygon_and_two_a_box(self) -> None:
        self.assertEqual(self.numbers('--inside', '0,0', '100,100'), [1, 2, 3])
        self.assertEqual(self.numbers('--inside', *CORNERS), [1])
        self.assertEqual(self.numbers('--overlap', *CORNERS), [1, 3])
        self.assertEqual(self.numbers('--crossing', *CORNERS), [3])
        self.assertEqual(self.numbers('--void', *CORNERS), [2, 4])
        self.assertEqual(self.numbers('--outside', *CORNERS, '--inside', '0,0', '100,100'), [2])
        self.assertEqual(self.numbers('--inside', '-5,-5', '-5,300', '300,-5'), [1, 2, 3])

    def test_each_time_that_it_is_given_it_is_another_polygon(self) -> None:
        self.assertEqual(self.numbers('--inside', *CORNERS, '--inside', '190,190', '220,220'), [1, 4])
        err = self.kit('find', self.drawing, '--inside', '900,900', '910,900', '900,910')[2]
        self.assertIn('nothing matches --inside 900,900 910,900 900,910\n', err)

    def test_corners_that_are_no_polygon(self) -> None:
        find = 'find', self.drawing
        self.assertIn('give two corners X,Y of a box', self.refusal(*find, '--inside', '0,0'))
        self.assertIn("'here' isn't a position", self.refusal(*find, '--inside', 'here', 'there'))
        few = self.refusal(*find, '--inside', '0,0', '5,5', '0,0')
        self.assertEqual(few, 'dgnkit: a polygon needs 3 different corners, and here are 2\n')
        many = [*('%d,0' % it for it in range(256)), '0,400']
        said = self.refusal(*find, '--overlap', *many)
        self.assertEqual(said, 'dgnkit: a polygon has at most 256 corners, and here are 257\n')
        self.assertEqual(self.numbers('--overlap', *many[1:]), [1, 2, 3])

    def test_a_shape_of_the_drawing(self) -> None:
        path = self.put('shape.dgn', drawings.drawing(INSIDE, BOXED, ACROSS, FAR, SHAPE))
        self.assertEqual(self.numbers('--inside-element', '5', of=path), [1])
        self.assertEqual(self.numbers('--void-element', '5', of=path), [2, 4])
        self.assertEqual(self.numbers('--crossing-element', '5', of=path), [3, 5])
        err = self.kit('find', path, '--inside-element', '5', '--level', '9')[2]
        self.assertIn('nothing matches --level 9 --inside-element 5', err)
        self.assertIn("line 1 on level 1 isn't a closed shape", self.refusal('find', path, '--inside-element', '1'))
        self.assertIn('from 0 to 5', self.refusal('find', path, '--inside-element', '6'))
        gone = self.put('gone.dgn', drawings.drawing(INSIDE, drawings.deleted(SHAPE)))
        self.assertIn('shape 2 on level 2 is marked deleted', self.refusal('find', gone, '--inside-element', '2'))

    def test_a_complex_shape_of_straight_sides(self) -> None:
        sides = [plan.line(1, (0, 0), (100, 0)), plan.path(4, 1, [(100, 0), (0, 100), (0, 0)])]
        path = self.put('sides.dgn', drawings.drawing(INSIDE, BOXED, ACROSS, FAR, complex_shape(*sides)))
        self.assertEqual(self.numbers('--overlap-element', '5', '--type', 'line', '--level', '1', of=path), [1, 3, 6])
        self.assertEqual(self.numbers('--void-element', '5', of=path), [2, 4])
        curved = drawings.drawing(complex_shape(sides[0], drawings.element(16, 1, 72)))
        said = self.refusal('find', self.put('arc.dgn', curved), '--inside-element', '1')
        self.assertIn("complex shape 1 on level 2 has a side that isn't straight, arc 3", said)
        apart = drawings.drawing(complex_shape(sides[0], plan.line(1, (90, 0), (0, 100))))
        said = self.refusal('find', self.put('apart.dgn', apart), '--inside-element', '1')
        self.assertIn("has sides that don't meet, at line 3", said)
        loose = self.put('loose.dgn', drawings.drawing(drawings.with_total(complex_shape(*sides), 7)))
        self.assertIn('is broken', self.refusal('find', loose, '--inside-element', '1'))


class Clip(samples.WithProgram):
    def setUp(self) -> None:
        super().setUp()
        self.drawing = self.put('in.dgn', drawings.drawing(INSIDE, BOXED, ACROSS, FAR, SHAPE))

    def clipped(self, *words: object, of: str = '') -> List[int]:
        """What is marked deleted once the script has run."""
        said = self.said('clip', of or self.drawing, *words, '-o', self.path('s.txt'), '--force')
        return deleted(self.then(said))

    def test_outside_and_inside(self) -> None:
        self.assertEqual(self.clipped(*CORNERS), [2, 4])
        self.assertEqual(samples.Script.read(self.path('s.txt')).text, b'fence 0,0 100,0 0,100\nfdelete void\n')
        self.assertEqual(self.clipped(*CORNERS, '--outside'), [2, 4])
        self.assertEqual(self.clipped(*CORNERS, '--inside'), [1])
        self.assertEqual(self.clipped('-5,-5', '150,150'), [4])
        self.assertEqual(self.clipped('--element', '5', '--inside'), [1])

    def test_what_crosses_stays_and_is_said(self) -> None:
        _, out, err = self.kit('clip', self.drawing, '--element', '5')
        self.assertEqual(out, 'fence 0,0 100,0 0,100\nfdelete void\n')
        self.assertIn('1 tree that crosses or touches the edge stays: 3\n', err)
        err = self.kit('clip', self.drawing, *CORNERS)[2]
        self.assertIn('2 trees that cross or touch the edge stay: 3, 5\n', err)

    def test_what_the_program_refuses_is_left_out(self) -> None:
        path = self.put('locked.dgn', drawings.drawing(INSIDE, BOXED, drawings.locked(FAR)))
        status, out, err = self.kit('clip', path, *CORNERS)
        self.assertEqual((status, out), (0, 'delete 2\n'))
        self.assertIn('left out: 1 element (locked', err)
        broken = drawings.with_total(drawings.cell(plan.line(1, (500, 500), (510, 510), True)), 7)
        path = self.put('broken.dgn', drawings.drawing(INSIDE, BOXED, broken))
        status, out, err = self.kit('clip', path, *CORNERS)
        self.assertEqual((status, out), (0, 'delete 2\n'))
        self.assertIn('in a broken tree', err)

    def test_a_dry_run_says_what_is_deleted(self) -> None:
        out = self.said('clip', self.drawing, *CORNERS, '--dry-run', '-o', self.path('never'))
        self.assertEqual(out.split('\n')[0], 'line 2 on level 1: marked deleted')
        self.assertEqual(out.split('\n')[1], 'line 4 on level 1: marked deleted')
        self.assertIn('nothing is written', out)

    def test_master_units(self) -> None:
        metric = self.put('m.dgn', with_units(drawings.drawing(INSIDE, FAR), 10, 10, ('m', 'cm'), (0, 0, 0)))
        self.assertEqual(self.clipped('0,0', '1,0', '0,1', of=metric), [2])
        self.assertEqual(self.clipped('0,0', '1,0', '0,1', '--units', 'resolution', of=metric), [1, 2])

    def test_corners_or_an_element(self) -> None:
        wrong: List[List[str]] = [[], ['1,1'], [*CORNERS, '--element', '5'], ['--element', '1'], ['0,0', '9,9', 'x']]
        for words in wrong:
            status, out, err = self.kit('clip', self.drawing, *words)
            self.assertEqual((status, out, err.count('\n')), (2, '', 1), err)
        err = self.kit('clip', self.drawing, '300,300', '310,310', '--inside')[2]
        self.assertIn('nothing is deleted\n', err)


if __name__ == '__main__':
    unittest.main()
