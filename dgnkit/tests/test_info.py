"""`info`: units, places in master units, and what is counted."""

import json
import struct
import unittest

import samples
from samples import drawings, plan, with_units

ORIGIN = -2147483600


def metric(*elements: bytes, axes: int = 2) -> bytes:
    """A drawing in metres of 100 centimetres, each of one unit of resolution, from a far corner of the plane on."""
    return with_units(drawings.drawing(*elements, axes=axes), 100, 1, ('m', 'cm'), (ORIGIN, ORIGIN, 0))


class Info(samples.WithProgram):
    def facts(self, file: bytes) -> samples.Json:
        facts: samples.Json = json.loads(self.said('info', '--json', self.put('in.dgn', file)))[0]
        return facts

    def test_units_and_places_of_a_drawing_in_metres(self) -> None:
        facts = self.facts(metric(plan.line(12, (ORIGIN + 100, ORIGIN), (ORIGIN + 350, ORIGIN + 725))))
        self.assertEqual(facts['units']['master_metres'], 1.0)
        self.assertEqual((facts['units']['subunits_in_master'], facts['units']['resolution_in_subunit']), (100, 1))
        self.assertEqual(facts['origin'], [ORIGIN, ORIGIN])
        self.assertEqual((facts['extent']['low'], facts['extent']['high']), ([1.0, 0.0], [3.5, 7.25]))
        self.assertEqual(facts['extent']['high_resolution'], [ORIGIN + 350, ORIGIN + 725])

    def test_words(self) -> None:
        path = self.put('in.dgn', metric(plan.line(12, (ORIGIN + 100, ORIGIN), (ORIGIN + 350, ORIGIN + 725))))
        said = self.said('info', path)
        self.assertIn('1 m = 100 cm, 1 cm = 1 unit of resolution; 1 unit of resolution = 0.01 m', said)
        self.assertIn('1,0 to 3.5,7.25 m (', said)
        self.assertIn('2 dimensions', said)

    def test_feet_have_metres_and_odd_names_have_none(self) -> None:
        feet = with_units(drawings.drawing(), 12, 1000, ('FT', 'IN'), (0, 0, 0))
        self.assertEqual(self.facts(feet)['units']['master_metres'], 0.3048)
        odd = with_units(drawings.drawing(), 10, 10, ('MU', 'SU'), (0, 0, 0))
        self.assertIsNone(self.facts(odd)['units']['master_metres'])
        self.assertIn("it isn't known how long 1 MU is", self.said('info', self.put('odd.dgn', odd)))

    def test_a_bare_tcb_has_no_units(self) -> None:
        facts = self.facts(drawings.drawing(plan.line(1, (3, 4), (5, 6))))
        self.assertEqual((facts['units']['known'], facts['extent']['low'], facts['plane'][0]), (False, None, None))
        self.assertEqual(facts['extent']['low_resolution'], [3, 4])

    def test_three_axes(self) -> None:
        facts = self.facts(drawings.DRAWINGS['a line of three axes'])
        self.assertEqual((facts['dimension'], facts['extent']['high_resolution']), (3, [100, 50, 25]))

    def test_the_extent_is_what_is_drawn(self) -> None:
        # a range that is too small counts by what it should be, and what is deleted doesn't count
        small = drawings.cell(drawings.line_of_small_range())
        gone = drawings.deleted(plan.line(1, (-9000, 0), (9000, 0)))
        facts = self.facts(drawings.drawing(small, gone, drawings.element(4, 1, 38)))
        self.assertEqual((facts['extent']['low_resolution'], facts['extent']['high_resolution']), ([0, 0], [100, 50]))
        self.assertEqual((facts['elements'], facts['deleted']), (5, 1))
        self.assertIsNone(self.facts(drawings.drawing(gone))['extent'])

    def test_levels_and_types(self) -> None:
        facts = self.facts((samples.EXAMPLES / 'plan.dgn').read_bytes())
        self.assertEqual(facts['levels']['10'], {'line string': 1, 'cell': 2})
        self.assertEqual((facts['elements'], facts['locked']), (12, 1))

    def test_the_fonts_of_texts(self) -> None:
        texts = [bytearray(plan.text(3, (it, 0), b'AB')) for it in range(5)]
        for text, font in zip(texts, (3, 1, 3, 127, 7)):
            text[36] = font
        file = metric(*map(bytes, texts[:4]), drawings.deleted(bytes(texts[4])))
        path = self.put('in.dgn', file)
        self.assertTrue(self.said('info', '--fonts', path).endswith('font  texts\n     1  1\n     3  2\n   127  1\n'))
        self.assertEqual(
            json.loads(self.said('info', '--fonts', '--json', path))[0]['fonts'], {'1': 1, '3': 2, '127': 1}
        )
        self.assertEqual(
            self.said('info', '--fonts', '--csv', path),
            'file,font,texts\n%s,1,1\n%s,3,2\n%s,127,1\n' % (path, path, path),
        )
        self.assertEqual(self.facts(file)['fonts'], None)
        self.assertEqual(self.kit('info', '--fonts', '--lengths', '--csv', path)[0], 2)

    def test_a_table_of_colours(self) -> None:
        table = bytes([1, 5]) + struct.pack('<H', 401) + bytes(32) + bytes(2) + bytes(range(256)) * 3
        colours = self.opened(drawings.drawing(table)).colours
        assert colours is not None
        self.assertEqual((colours[255], colours[0], colours[84]), ((0, 1, 2), (3, 4, 5), (255, 0, 1)))

    def test_files_that_are_no_drawings_are_told_by_name(self) -> None:
        for front, word in [
            (b'\xd0\xcf\x11\xe0', 'version 8'),
            (b'\x08\x05\x17\x00', 'cell library'),
            (b'abc', 'not a design file'),
        ]:
            status, out, err = self.kit('info', self.put('odd', front + bytes(2000)))
            self.assertEqual((status, out, err.count('\n')), (2, '', 1))
            self.assertIn(word, err)

    def test_a_drawing_that_does_not_open(self) -> None:
        whole = (samples.EXAMPLES / 'valve.dgn').read_bytes()
        for length, offset in [(1600, 1588), (900, 0)]:
            status, _, err = self.kit('info', self.put('cut.dgn', whole[:length]))
            self.assertEqual(status, 2)
            self.assertIn('begins at byte %d reaches past' % offset, err)

    def test_others_are_told_where_one_is_missing(self) -> None:
        status, out, err = self.kit('info', self.path('missing.dgn'), self.example('valve.dgn'))
        self.assertEqual(status, 2)
        self.assertIn('missing.dgn: no such file', err)
        self.assertIn('valve.dgn: design file', out)


class Ogr(samples.WithProgram):
    @unittest.skipUnless(samples.OGR, 'GDAL is not installed')
    def test_places_are_those_of_ogr(self) -> None:
        road = {'type': 'LineString', 'coordinates': [[1.25, -3.5], [120.75, 88.125]]}
        feature = {'type': 'Feature', 'properties': {'Level': 5}, 'geometry': road}
        source = self.put('in.geojson', json.dumps({'type': 'FeatureCollection', 'features': [feature]}))
        made = self.path('in.dgn')
        units = ['MASTER_UNIT_NAME=m', 'SUB_UNIT_NAME=mm', 'SUB_UNITS_PER_MASTER_UNIT=1000', 'UOR_PER_SUB_UNIT=8']
        options = [it for unit in [*units, 'ORIGIN=-500,100,0'] for it in ('-dsco', unit)]
        self.ogr('ogr2ogr', '-f', 'DGN', *options, made, source)
        facts = json.loads(self.said('info', '--json', made))[0]
        self.assertEqual((facts['units']['master'], facts['units']['sub']), ('m', 'mm'))
        self.assertEqual((facts['extent']['low'], facts['extent']['high']), ([1.25, -3.5], [120.75, 88.125]))
        self.assertIn(
            'Extent: (1.250000, -3.500000) - (120.750000, 88.125000)', self.ogr('ogrinfo', '-so', '-al', made)
        )


if __name__ == '__main__':
    unittest.main()
