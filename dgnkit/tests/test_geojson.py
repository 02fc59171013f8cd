"""`geojson` and `script`: out to QGIS and back, each feature with its element's number."""

import json
import re
import unittest
from typing import Dict

import ogr
import samples
from samples import drawings, plan, with_units


class GeoJson(samples.WithProgram):
    def features(self, file: bytes, *more: str) -> Dict[int, samples.Json]:
        made = json.loads(self.said('geojson', self.put('in.dgn', file), *more))
        self.assertEqual((made['type'], made['crs']), ('FeatureCollection', None))
        return {it['properties']['number']: it for it in made['features']}

    def test_the_plan(self) -> None:
        made = self.features((samples.EXAMPLES / 'plan.dgn').read_bytes())
        self.assertEqual(sorted(made), list(range(1, 12)))
        self.assertEqual(
            made[1]['geometry'],
            {'type': 'Polygon', 'coordinates': [[[0, 0], [4000, 0], [4000, 3000], [0, 3000], [0, 0]]]},
        )
        self.assertEqual(made[5]['geometry']['type'], 'LineString')
        self.assertEqual(made[6]['geometry'], {'type': 'Point', 'coordinates': [1000, 500]})
        pipe, valve, part, text = (made[it]['properties'] for it in (5, 6, 7, 4))
        self.assertEqual((pipe['type'], pipe['type_name'], pipe['level'], pipe['colour']), (4, 'line string', 10, 0))
        self.assertEqual((valve['cell'], valve['root'], part['root'], part['depth']), ('VLV', 6, 6, 1))
        # the text's multipliers are 20000, of which each is 6 thousandths of a unit of resolution
        self.assertEqual((text['text'], text['height'], text['angle']), ('HOUSE 7', 120, 0))
        self.assertEqual((made[1]['properties']['locked'], pipe['locked']), (True, False))

    def test_a_text_that_is_turned_in_three_axes(self) -> None:
        # a turn of 90 degrees against the clock: the cosine and the sine of minus half of it
        half = 1518500249
        turn = b''.join(map(plan.long, (half, 0, 0, -half)))
        behind = (
            bytes([1, 0]) + plan.long(1000) * 2 + turn + b''.join(map(plan.long, (1, 2, 3))) + bytes([2, 0]) + b'ab'
        )
        made = self.features(drawings.drawing(plan.display(17, 3, (0, 0), (0, 0), behind), axes=3))[1]
        self.assertEqual((made['properties']['angle'], made['geometry']['coordinates']), (90, [1, 2, 3]))

    def test_master_units_and_units_of_resolution(self) -> None:
        file = with_units(drawings.drawing(plan.line(1, (1500, 0), (2500, -250))), 100, 10, ('m', 'cm'), (500, 0, 0))
        self.assertEqual(self.features(file)[1]['geometry']['coordinates'], [[1.0, 0.0], [2.0, -0.25]])
        self.assertEqual(
            self.features(file, '--units', 'resolution')[1]['geometry']['coordinates'], [[1500, 0], [2500, -250]]
        )
        solid = self.features(drawings.DRAWINGS['a line of three axes'])
        self.assertEqual(solid[1]['geometry']['coordinates'], [[0, 0, 0], [100, 50, 25]])

    def test_what_is_known_by_its_range_alone(self) -> None:
        made = self.features(drawings.drawing(drawings.element(16, 1, 72)))
        self.assertEqual(made[1]['properties']['by_range'], True)
        self.assertEqual(made[1]['geometry']['coordinates'], [[[0, 0], [100, 0], [100, 50], [0, 50], [0, 0]]])

    def test_a_range_of_three_axes(self) -> None:
        made = self.features(drawings.drawing(drawings.element(16, 1, 100), axes=3))
        ring = [[0, 0, 0], [100, 0, 0], [100, 50, 0], [0, 50, 0], [0, 0, 0]]
        self.assertEqual(made[1]['geometry']['coordinates'], [ring])

    def test_the_members_of_a_chain_are_one_feature(self) -> None:
        legs = [plan.line(0, (0, 0), (5, 0), True), plan.line(0, (5, 0), (5, 9), True)]
        header = drawings.with_total(drawings.element(12, 12, 40), (40 + 104 - 38) // 2)
        made = self.features(drawings.drawing(header, *legs, drawings.line()))
        self.assertEqual(sorted(made), [1, 4])
        lines = {'type': 'MultiLineString', 'coordinates': [[[0, 0], [5, 0]], [[5, 0], [5, 9]]]}
        self.assertEqual(made[1]['geometry'], lines)
        self.assertEqual(sorted(self.features(drawings.drawing(header, *legs), '--members')), [1, 2, 3])

    def test_the_members_of_a_complex_shape_are_one_outline(self) -> None:
        legs = [plan.line(0, (0, 0), (5, 0), True), plan.line(0, (5, 0), (5, 9), True)]
        header = drawings.with_total(drawings.element(14, 12, 40), (40 + 104 - 38) // 2)
        ring = self.features(drawings.drawing(header, *legs))[1]['geometry']
        self.assertEqual(ring, {'type': 'Polygon', 'coordinates': [[[0, 0], [5, 0], [5, 9], [0, 0]]]})
        apart = [legs[0], plan.line(0, (6, 0), (5, 9), True)]
        lines = self.features(drawings.drawing(header, *apart))[1]['geometry']
        self.assertEqual(lines, {'type': 'MultiLineString', 'coordinates': [[[0, 0], [5, 0]], [[6, 0], [5, 9]]]})

    def test_what_is_deleted_or_empty_is_no_feature(self) -> None:
        made = self.features(drawings.drawing(drawings.deleted(drawings.line()), drawings.element(4, 1, 38)))
        self.assertEqual(made, {})

    def test_a_hostile_text_is_a_text(self) -> None:
        made = self.features(drawings.drawing(plan.text(3, (0, 0), b'"}\n<script>\xff')))
        self.assertEqual(made[1]['properties']['text'], '"}\n<script>\xff')


class Scripts(samples.WithProgram):
    def script(self, name: str, content: str, *words: str) -> str:
        return self.said('script', '--numbers', self.put(name, content), *words)

    def test_numbers_of_a_csv_and_of_geojson(self) -> None:
        self.assertEqual(
            self.script('n.csv', 'number,level\n5,10\n7,11\n5,10\n', 'color {n} 3'), 'color 5 3\ncolor 7 3\n'
        )
        self.assertEqual(self.script('n.csv', '5\n7\n', 'color {n} 3'), 'color 5 3\ncolor 7 3\n')
        self.assertEqual(self.script('n.csv', 'root;x\n6;1\n', 'delete {n}', '--field', 'root'), 'delete 6\n')
        features = [{'type': 'Feature', 'properties': {'number': it, 'root': 6}, 'geometry': None} for it in (5, 7)]
        text = json.dumps({'type': 'FeatureCollection', 'features': features})
        self.assertEqual(self.script('n.geojson', text, 'color {n} 3'), 'color 5 3\ncolor 7 3\n')
        self.assertEqual(self.script('n.geojson', text, 'color {n} 3', '--field', 'root'), 'color 6 3\n')

    def test_with_the_drawing_what_it_refuses_is_left_out(self) -> None:
        words = ['move {n} 1 1', '--drawing', self.example('plan.dgn')]
        self.assertEqual(self.script('n.csv', '1\n6\n7\n5\n', *words), 'move 5 1 1\nmove 6 1 1\n')

    def test_a_dry_run(self) -> None:
        said = self.script('n.csv', '5\n', 'color {n} 3', '--drawing', self.example('plan.dgn'), '--dry-run')
        self.assertIn('line string 5 on level 10: colour 3', said)
        self.assertIn('element 5: color 5 3', self.script('n.csv', '5\n', 'color {n} 3', '--dry-run'))

    def test_what_can_not_be_read(self) -> None:
        for content, words, why in [
            ('number\n5\nx\n', ['color {n} 3'], "row 3: 'x' isn't an element number"),
            ('level\n5\n', ['color {n} 3'], "there is no column 'number'"),
            ('5\n', ['color {n} red'], "'red' isn't a colour"),
            ('5\n', ['color 5 3'], '{n}'),
            ('6\n7\n', ['move {n} 5 5'], 'would be edited twice'),
            ('5\n99\n', ['color {n} 3', '--drawing', self.example('plan.dgn')], 'but not 99'),
            ('{"features": 3}', ['color {n} 3'], "isn't a GeoJSON"),
            ('{"features": [{"properties": {"number": "a"}}]}', ['color {n} 3'], 'feature 1'),
        ]:
            status, out, err = self.kit('script', '--numbers', self.put('n', content), *words)
            self.assertEqual((status, out, err.count('\n')), (2, '', 1), content)
            self.assertIn(why, err)


@unittest.skipUnless(samples.OGR, 'GDAL is not installed')
class OfOgr(samples.WithProgram):
    def places(self, name: str) -> Dict[int, str]:
        """The geometry of each feature by its number, with its coordinates to six places."""
        made = {}
        for feature in ogr.features_of(self, name):
            number = re.match(r'OGRFeature\(\w+\):(\d+)', feature)
            geometry = re.search(r'^  ((?:MULTI)?(?:POINT|LINESTRING|POLYGON)[^\n]*)', feature, re.M)
            if number and geometry:
                made[int(number[1])] = re.sub(r'-?\d+(\.\d+)?', lambda it: '%.6f' % float(it[0]), geometry[1])
        return made

    def test_coordinates_are_those_of_ogr(self) -> None:
        source = ogr.made(self, ogr.parcels() + ogr.roads() + ogr.labels())
        self.said('mend', source, self.path('p'))
        self.program.apply(source, self.path('p'), self.path('mended.dgn'))
        self.said('geojson', self.path('mended.dgn'), '-o', self.path('made.geojson'))
        wanted, found = self.places(self.path('mended.dgn')), self.places(self.path('made.geojson'))
        self.assertGreater(len(wanted), 16)
        drawing = samples.Drawing(self.path('mended.dgn'), self.program)
        cells = {it.number for it in drawing.elements if it.type == 2}
        self.assertEqual(
            {it: found[it] for it in found if it not in cells}, {it: wanted[it] for it in wanted if it not in cells}
        )

    def test_heights_and_angles_of_texts_are_those_of_ogr(self) -> None:
        text = bytearray(plan.text(3, (10, 20), b'HOUSE 7'))
        text[42:50] = plan.long(10000) + plan.long(30 * 360000)
        path = self.put('in.dgn', with_units(drawings.drawing(bytes(text)), 10, 1, ('m', 'dm'), (0, 0, 0)))
        self.assertIn('s:6g,f:WORKING,a:30)', ''.join(ogr.features_of(self, path)))
        made = json.loads(self.said('geojson', path))['features'][0]['properties']
        self.assertEqual((made['height'], made['angle']), (6, 30))

    def test_a_selection_comes_back(self) -> None:
        source = ogr.made(self, ogr.roads() + ogr.labels())
        self.said('geojson', source, '-o', self.path('all.geojson'))
        chosen = self.path('chosen.geojson')
        self.ogr(
            'ogr2ogr', '-f', 'GeoJSON', '-where', "level = 30 AND text LIKE '%OLD'", chosen, self.path('all.geojson')
        )
        said = self.said('script', '--numbers', chosen, 'delete {n}', '--drawing', source)
        texts = [it.number for it in samples.Drawing(source, self.program).elements if it.text == 'the OLD']
        self.assertEqual(said, ''.join('delete %d\n' % it for it in texts))
        self.assertEqual(len(texts), 1)


if __name__ == '__main__':
    unittest.main()
