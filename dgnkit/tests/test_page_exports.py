"""The app in a real browser: the drawing as a picture, as GeoJSON, and on a sheet of paper by a scale."""

from __future__ import annotations

import json
import struct
import unittest
import xml.etree.ElementTree as ElementTree
from pathlib import Path
from typing import Dict, List

from app import HOSTILE, IS_ASKED, WithBrowser
from samples import EXAMPLES, drawings, plan, with_units

SVG = '{http://www.w3.org/2000/svg}'
# A millimetre on paper in pixels of 96 to the inch.
MILLIMETRE = 96 / 25.4


class Exports(WithBrowser):
    def asked_for(self, menu: str, button: str, **fields: str) -> None:
        """Does what stands in the menu, with these fields of its question."""
        self.seen.run("document.getElementById('more').open = true")
        self.seen.click('#' + menu)
        self.seen.wait(IS_ASKED)
        for name, value in fields.items():
            self.seen.run("document.getElementById('asked-' + arguments[0]).value = arguments[1]", name, value)
        self.dialog(button)

    def metres(self) -> str:
        """A drawing of 100 units to the metre: a line of 10 m, a text that is markup, and a shape of 4 m by 2 m."""
        text = plan.text(3, (0, 500), HOSTILE.encode('ascii'))
        shape = plan.path(6, 5, [(0, 0), (400, 0), (400, 200), (0, 200), (0, 0)])
        file = drawings.drawing(plan.line(2, (0, 1000), (1000, 1000)), text, shape)
        return self.put('metres.dgn', with_units(file, 100, 1, ('m', 'cm'), (0, 0, 0)))

    def test_svg_by_a_scale_is_as_long_as_on_paper(self) -> None:
        self.page(self.metres())
        self.asked_for(
            'export', 'Export', format='SVG picture', part='all that is shown', scale='500', frame='no frame'
        )
        root = ElementTree.fromstring(Path(self.saved_file('metres.svg')).read_text(encoding='utf-8'))
        lines = [self.corners(it.get('d', '')) for it in root.findall(SVG + 'path')]
        wide = [max(x for x, _ in it) - min(x for x, _ in it) for it in lines]
        # 10 m are 20 mm by 1 : 500
        self.assertTrue(any(abs(it - 20 * MILLIMETRE) < 0.05 for it in wide), wide)
        self.assertEqual([it.text for it in root.findall(SVG + 'text')], [HOSTILE])
        self.assertEqual({it.tag for it in root.iter()}, {SVG + 'svg', SVG + 'path', SVG + 'rect', SVG + 'text'})

    def corners(self, path: str) -> List[List[float]]:
        return [[float(it) for it in part.split()] for part in path.replace('Z', '').replace('L', 'M').split('M')[1:]]

    def test_a_frame_has_the_name_and_the_scale(self) -> None:
        self.page(self.metres())
        self.asked_for('export', 'Export', format='SVG picture', part='all that is shown', scale='250')
        root = ElementTree.fromstring(Path(self.saved_file('metres.svg')).read_text(encoding='utf-8'))
        self.assertIn('metres.dgn   1 : 250', [it.text for it in root.findall(SVG + 'text')])

    def test_png_is_a_picture_of_its_size(self) -> None:
        file = drawings.drawing(plan.path(6, 5, [(0, 0), (1000, 0), (1000, 500), (0, 500), (0, 0)]))
        self.page(self.put('room.dgn', with_units(file, 100, 1, ('m', 'cm'), (0, 0, 0))))
        self.asked_for(
            'export', 'Export', format='PNG picture', part='all that is shown', scale='100', frame='no frame'
        )
        picture = Path(self.saved_file('room.png')).read_bytes()
        self.assertEqual(picture[:8], b'\x89PNG\r\n\x1a\n')
        width, height = struct.unpack('>II', picture[16:24])
        # 10 m by 5 m are 100 mm by 50 mm by 1 : 100, in two dots to a pixel
        self.assertAlmostEqual(width, 2 * 100 * MILLIMETRE, delta=2)
        self.assertAlmostEqual(height, 2 * 50 * MILLIMETRE, delta=2)

    def test_what_is_no_scale_or_too_large_is_told(self) -> None:
        self.page(self.metres())
        self.asked_for('export', 'Export', format='PNG picture', scale='much')
        self.assertIn('A scale is a number', self.notice())
        self.asked_for('export', 'Export', format='PNG picture', part='all that is shown', scale='0.5')
        self.assertIn('more than a browser draws', self.notice())

    def test_geojson_is_in_master_units(self) -> None:
        self.page(self.metres())
        self.asked_for('export', 'Export', format='GeoJSON')
        found = json.loads(Path(self.saved_file('metres.geojson')).read_text(encoding='utf-8'))
        by_number: Dict[int, Dict[str, object]] = {it['properties']['number']: it for it in found['features']}
        self.assertEqual(by_number[1]['geometry'], {'type': 'LineString', 'coordinates': [[0, 10], [10, 10]]})
        self.assertEqual(by_number[2]['geometry'], {'type': 'Point', 'coordinates': [0, 5]})
        properties = by_number[2]['properties']
        assert isinstance(properties, dict)
        self.assertEqual((properties['text'], properties['level']), (HOSTILE, 3))
        ring = [[0, 0], [4, 0], [4, 2], [0, 2], [0, 0]]
        self.assertEqual(by_number[3]['geometry'], {'type': 'Polygon', 'coordinates': [ring]})

    def test_it_is_printed_on_a_sheet_by_a_scale(self) -> None:
        self.page(self.metres())
        self.seen.run(
            "window.print = () => { const svg = document.querySelector('#paper svg');"
            ' window.printed = [svg.getAttribute("width"), svg.getAttribute("height"),'
            '   document.adoptedStyleSheets[0].cssRules[0].cssText,'
            '   [...svg.querySelectorAll("text")].map((it) => it.textContent)]; }'
        )
        self.asked_for('print', 'Print', sheet='A3', way='across', scale='200')
        width, height, rule, texts = self.seen.wait('window.printed')
        self.assertEqual((width, height), ('420mm', '297mm'))
        self.assertIn('420mm 297mm', rule)
        self.assertIn('metres.dgn   1 : 200', texts)
        self.seen.wait("document.getElementById('paper').hidden")

    def test_a_drawing_without_units_has_no_scale(self) -> None:
        self.page(str(EXAMPLES / 'plan.dgn'))
        self.seen.run("document.getElementById('more').open = true")
        self.seen.click('#export')
        self.seen.wait(IS_ASKED)
        self.assertFalse(self.seen.run("return document.getElementById('asked-scale') !== null"))
        self.dialog('Cancel')


if __name__ == '__main__':
    unittest.main()
