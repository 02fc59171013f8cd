"""`draw` and `text`: lines, shapes and texts from a table or a place, and the patch file behind the script."""

import unittest
from typing import List

import ogr
import samples
from samples import drawings, with_units

METRIC = (100, 10, ('m', 'cm'), (-5000, 7000, 0))


class Draw(samples.WithProgram):
    def made(self, words: List[object], status: int = 0) -> samples.Drawing:
        """The drawing that the script and the patch file make."""
        said = self.said(*words, '-o', self.path('s.txt'), '--force', status=status)
        return samples.Drawing(self.then(said), self.program)

    def sheet(self, axes: int = 2) -> str:
        return self.put(
            'in.dgn', with_units(drawings.drawing(drawings.line() if axes == 2 else b'', axes=axes), *METRIC)
        )

    def table(self, text: str) -> str:
        return self.put('t.csv', text)

    def refused(self, table: str, word: str, *more: object) -> None:
        status, out, err = self.kit('draw', self.sheet(), self.table(table), *more, '-o', self.path('s.txt'))
        self.assertEqual((status, out, err.count('\n')), (2, '', 1), err)
        self.assertIn(word, err)
        self.assertFalse((self.folder / 's.txt').exists())

    def test_lines_and_line_strings(self) -> None:
        rows = 'element,x,y,level,color,weight,style\nA,1,2,7,3,4,5\nA,2,2.5,,,,\nB,0,0,8,0,0,0\nB,1,0,,,,\nB,1,1,,,,\n'
        drawing = self.made(['draw', self.sheet(), self.table(rows)])
        line, string = drawing.elements[2:]
        # x metres are at 1000 x - 5000 units of resolution, y metres at 1000 y + 7000
        self.assertEqual((line.type, line.points), (3, [(-4000, 9000), (-3000, 9500)]))
        self.assertEqual((line.level, line.colour, line.weight, line.style), (7, 3, 4, 5))
        self.assertEqual((string.type, string.level), (4, 8))
        self.assertEqual(string.points, [(-5000, 7000), (-4000, 7000), (-4000, 8000)])

    def test_a_polygon_is_closed(self) -> None:
        rows = 'Easting;Northing\n0;0\n1,5;0\n1,5;2\n'
        drawing = self.made(['draw', self.sheet(), self.table(rows), '--as', 'shape', '--level', 6, '--color', 2])
        shape = drawing.elements[2]
        corners = [(-5000, 7000), (-3500, 7000), (-3500, 9000), (-5000, 7000)]
        self.assertEqual((shape.type, shape.level, shape.colour, shape.points), (6, 6, 2, corners))

    def test_a_long_line_is_cut_where_that_is_asked_for(self) -> None:
        rows = 'x,y\n' + ''.join('%d,0\n' % it for it in range(250))
        self.refused(rows, 'has 250 points, and a line string has at most 101: --cut')
        self.refused(rows, "it can't be cut", '--as', 'shape', '--cut')
        drawing = self.made(['draw', self.sheet(), self.table(rows), '--cut'])
        pieces = [it.points for it in drawing.elements[2:]]
        self.assertEqual([len(it) for it in pieces], [101, 101, 50])
        self.assertEqual([a[-1] for a in pieces[:-1]], [b[0] for b in pieces[1:]])
        self.assertEqual(pieces[2][-1], (249 * 1000 - 5000, 7000))

    def test_texts_have_a_height_an_angle_and_a_range(self) -> None:
        rows = 'x,y,text,height,angle\n1,2,DN 150,3,0\n1,2,AB,0.6,90\n'
        drawing = self.made(['draw', self.sheet(), self.table(rows), '--level', 40])
        level, turned = drawing.elements[2:]
        self.assertEqual((level.text, level.level, level.points), ('DN 150', 40, [(-4000, 9000)]))
        # 3 m are 3000 units of resolution, which is the multiplier 3000 * 1000/6
        self.assertEqual((level.multipliers, level.text_angle), ((500000, 500000), 0))
        # six signs, each 3000 wide and 3000 high
        self.assertEqual(level.range, ((-4000, 9000), (14000, 12000)))
        # two signs of 600, turned by a quarter: to the left by the height, and up by the width
        self.assertEqual((turned.multipliers, turned.text_angle), ((100000, 100000), 90))
        self.assertEqual(turned.range, ((-4600, 9000), (-4000, 10200)))
        self.assertEqual(
            self.said('find', drawing.path, '--inside', '-10,-10', '50,50', '--type', 'text', '--numbers'), '2\n3\n'
        )
        self.assertEqual(self.said('find', drawing.path, '--near', '15,4', '--within', '0.1', '--numbers'), '2\n')

    def test_one_text(self) -> None:
        drawing = self.made(['text', self.sheet(), '1,2', 'PUMP 7', '--height', '2.5', '--level', 3])
        text = drawing.elements[2]
        self.assertEqual((text.text, text.level, text.points), ('PUMP 7', 3, [(-4000, 9000)]))
        self.assertEqual(text.multipliers[1], 416667)  # 2500 * 1000/6, to the nearest

    def test_what_is_found_is_drawn_with_its_lettering(self) -> None:
        for axes in (2, 3):
            place = ','.join(['1', '2', '0'][:axes])
            words = ['text', self.sheet(axes), place, 'AB', '--level', 5, '--color', 3, '--weight', 2, '--height', 2]
            words += ['--font', 9, '--justification', 7, '--angle', 30]
            lettered = self.then(self.said(*words, '-o', self.path('s.txt'), '--force'))
            table = self.put('t.csv', self.said('find', lettered, '--type', 'text', '--csv'))
            again = self.then(self.said('draw', lettered, table, '-o', self.path('s.txt'), '--force'))
            texts = [it for it in samples.Drawing(again, self.program).elements if it.type == 17]
            self.assertEqual((texts[0].font, texts[0].justification), (9, 7))
            self.assertEqual([it.content for it in texts], [texts[0].content] * 2)

    def test_three_axes(self) -> None:
        rows = 'x,y,z,text,height\n1,2,3,AB,6\n'
        drawing = self.made(['draw', self.sheet(3), self.table(rows), '--angle', 90])
        text = drawing.elements[1]
        self.assertEqual((text.points, round(text.text_angle or 0, 6)), ([(-4000, 9000, 3000)], 90))
        self.assertEqual(text.range, ((-10000, 9000, 3000), (-4000, 21000, 3000)))

    def test_signs_beyond_ascii(self) -> None:
        rows = 'x,y,text,height\n1,2,Stra\u00dfe,1\n'
        self.refused(rows, '--encoding')
        drawing = self.made(['draw', self.sheet(), self.table(rows), '--encoding', 'latin-1'])
        self.assertEqual(drawing.elements[2].characters, b'Stra\xdfe')

    def test_a_dry_run_and_a_script_on_standard_output(self) -> None:
        words = ['draw', self.sheet(), self.table('x,y,text,height\n1,2,AB,6\n')]
        said = self.said(*words, '--dry-run', '-o', self.path('s.txt'))
        self.assertIn("row 2: a text 'AB', 6 m high on level 1, starting at 1,2 m", said)
        self.assertEqual(sorted(it.name for it in self.folder.iterdir()), ['in.dgn', 't.csv'])
        status, out, err = self.kit(*words)
        self.assertEqual((status, out), (0, 'text 1 0 0 0 1 0 1000000 1000000 -4000,9000 AB\n'))
        self.assertIn('their ranges are points', err)

    def test_what_can_not_be_drawn(self) -> None:
        for rows, word in [
            ('x,y\n1,2\n', 'the only point of its line'),
            ('x,y,text\n1,2,AB\n', 'no height'),
            ('x,y,text,height\n1,2,AB,0\n', "can't be 0 m high"),
            ('x,y,level\n1,2,64\n2,3,1\n', "row 2: '64' isn't a valid level"),
            ('x,y,text,height,font\n1,2,AB,1,256\n', "row 2: '256' isn't a valid font"),
            ('x,y,kind\n1,2,arc\n', "'arc' is not one of"),
            ('a,b\n1,2\n', 'no columns x and y'),
            ('x,y\n', 'no rows below its heading'),
            ('7,1,2\n8,1,2\n', 'in a first row, such as x,y'),
            ('x,y\n1,2\n3,4,5\n', 'row 3: it has 3 fields, but the first row has 2'),
            ('x,y\n1,2\n99999999,4\n', "isn't on the design plane"),
            ('x,y,text,height\n1,2,%s,1\n' % ('A' * 256), 'at most 255'),
        ]:
            self.refused(rows, word)


@unittest.skipUnless(samples.OGR, 'GDAL is not installed')
class OfOgr(samples.WithProgram):
    def test_ogr_reads_the_height_the_angle_and_the_place(self) -> None:
        source = ogr.made(self, ogr.labels())
        said = self.said('text', source, '12.5,3', 'DN 200', '--height', 6, '--angle', 30, '-o', self.path('s.txt'))
        made = next(it for it in ogr.features_of(self, self.then(said)) if 'DN 200' in it)
        self.assertRegex(made, r'POINT \(12\.5 3(\.0)?\)')
        self.assertIn('s:6g,f:WORKING,a:30)', made)


if __name__ == '__main__':
    unittest.main()
