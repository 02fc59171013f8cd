"""What is drawn on the map is appended to the drawing, byte for byte as dgnkit does it."""

import unittest
from pathlib import Path
from typing import Any, List

import plugin
from plugin import samples
from samples import drawings


class Draws(plugin.InQgis):
    def setUp(self) -> None:
        super().setUp()
        self.town, self.out = self.example('town.dgn'), self.path('out.dgn')
        self.open(self.town)

    def draw(self, name: str, **parameters: Any) -> bytes:
        """What is drawn into the drawing that is open."""
        made = self.run_algorithm(name, OUTPUT=self.out, **parameters)
        self.assertEqual((made['ACCEPTED'], self.groups()), (1, ['out.dgn']))
        return Path(self.out).read_bytes()

    def by_dgnkit(self, *words: str, steps: List[str]) -> bytes:
        """What dgnkit makes of its own command."""
        self.said(*words, '-o', self.path('s.txt'))
        self.said('run', self.town, *(self.path(it) for it in steps), self.path('same.dgn'))
        return Path(self.path('same.dgn')).read_bytes()

    def places(self, *rows: str) -> str:
        """A table of places."""
        return self.put('places.csv', '\n'.join(['x,y', *rows]) + '\n')

    def test_a_line(self) -> None:
        made = self.draw(
            'draw', GEOMETRY='LineString (1010 2020, 1030.5 2040, 1060 2020)', LEVEL=7, COLOUR=3, WEIGHT=2, STYLE=1
        )
        looks = ['--level', '7', '--color', '3', '--weight', '2', '--style', '1']
        table = self.places('1010,2020', '1030.5,2040', '1060,2020')
        self.assertEqual(made, self.by_dgnkit('draw', self.town, table, *looks, steps=['s.txt']))
        line = next(self.layer('out 7 lines').getFeatures())
        self.assertEqual(line.geometry().asWkt(3), 'MultiLineString ((1010 2020, 1030.5 2040, 1060 2020))')

    def test_an_area(self) -> None:
        made = self.draw('draw', GEOMETRY='MultiPolygon (((1010 2020, 1030 2040, 1060 2020, 1010 2020)))')
        table = self.places('1010,2020', '1030,2040', '1060,2020')
        self.assertEqual(made, self.by_dgnkit('draw', self.town, table, '--as', 'shape', steps=['s.txt']))
        self.assertEqual(self.layer('out 1 areas').featureCount(), 1)

    def test_a_text(self) -> None:
        made = self.draw('text', PLACE='1010,2020', TEXT='Grün', HEIGHT=2.5, ANGLE=30, LEVEL=7, ENCODING=1)
        words = ['text', self.town, '1010,2020', 'Grün', '--height', '2.5', '--angle', '30', '--level', '7']
        self.assertEqual(made, self.by_dgnkit(*words, '--encoding', 'utf-8', steps=['s.txt', 's.patch']))
        text = next(self.layer('out 7 texts').getFeatures())
        self.assertEqual((text['text'], round(text['height'], 3), round(text['angle'])), ('Grün', 2.5, 30))

    def test_what_can_not_be_drawn(self) -> None:
        hole = 'Polygon ((0 0, 9 0, 9 9, 0 0), (2 1, 3 1, 3 2, 2 1))'
        for geometry, why in (
            ('Point (1 2)', 'a line needs at least 2'),
            (hole, 'It has a hole'),
            ('MultiLineString ((0 0, 1 1), (2 2, 3 3))', 'It has several parts'),
            ('LineString EMPTY', 'There is no line and no area to draw'),
            ('LineString (0 0, 1e9 0)', "isn't on the design plane"),
        ):
            self.assertIn(why, self.fails('draw', GEOMETRY=geometry, OUTPUT=self.out))
        self.assertIn('beyond ASCII', self.fails('text', PLACE='1,2', TEXT='ü', HEIGHT=1, OUTPUT=self.out))
        self.project.clear()
        self.assertIn('No drawing is named', self.fails('draw', GEOMETRY='LineString (0 0, 1 1)', OUTPUT=self.out))
        self.assertFalse(Path(self.out).exists())

    def test_three_axes(self) -> None:
        solid = self.put('solid.dgn', drawings.DRAWINGS['a line of three axes'])
        self.run_algorithm('draw', DRAWING=solid, GEOMETRY='LineString (1 2, 3 4)', OUTPUT=self.out)
        self.assertEqual(samples.Drawing(self.out, self.program).elements[-1].points, [(1, 2, 0), (3, 4, 0)])


if __name__ == '__main__':
    unittest.main()
