"""The views of drawings of three axes in a real browser, Top, Front and Right: where everything is seen, pointed at,
measured and exported."""

from __future__ import annotations

import json
import math
import re
import unittest
import xml.etree.ElementTree as ElementTree
from pathlib import Path
from typing import List

import curved
from app import IS_ASKED
from pictures import Line, Picture
from samples import OGR, drawings, plan, with_units
from solids import LINE, MEMBER, RADIUS, WithHouse, flat, house, lines_in, path, text


class Views(WithHouse):
    def test_each_element_lies_where_its_numbers_say(self) -> None:
        self.house()
        for view in ('Front', 'Right', 'Top'):
            with self.subTest(view):
                picture, lines = self.show(view), lines_in(view)
                self.assertEqual(picture.missing(lines[:-1])[:5], [], 'places that no dot is near to')
                x, y = flat(MEMBER, view)[0]
                pixel = 5 / picture.scale
                cross: List[Line] = [[(x - pixel, y), (x + pixel, y)], [(x, y - pixel), (x, y + pixel)]]
                self.assertEqual(picture.astray([*lines, *cross])[:5], [], 'dots that are near to no line')
                self.assertGreater(len(picture.missing(lines[-1:])), 3, 'the box of a range has gaps')

    def test_a_text_is_turned_by_its_quaternion_and_a_line_where_it_lies_edge_on(self) -> None:
        lying = text((0, 1000, 100), b'HHHH', 100, 140, curved.turned(0))
        upright = text((1200, 0, 700), b'HHHH', 100, 140, curved.tilted(90))
        self.open(self.put('texts.dgn', drawings.drawing(lying, upright, axes=3)))
        for view, lines, letters in (
            ('Front', [[(0, 100), (400, 100)]], (1200, 700)),
            ('Top', [[(1200, 0), (1600, 0)]], (0, 1000)),
        ):
            with self.subTest(view):
                picture, (x, y) = self.show(view), letters
                self.assertEqual(picture.missing(lines)[:5], [])
                found = [picture.drawn(*dot) for dot in picture.marked()]
                signs = [it for it in found if x - 3 <= it[0] <= x + 403 and y - 3 <= it[1] <= y + 143]
                others = [it for it in picture.astray(lines) if it not in signs]
                self.assertEqual(others[:5], [])
                self.assertLess(min(it[1] for it in signs), y + 4, 'they stand on the base')
                self.assertGreater(max(it[1] for it in signs), y + 136, 'and are as high as the text')
        picture = self.show('Right')
        # both are seen from their ends: one by its height along y, the other by its height along z
        lines = [[(1000, 100), (1140, 100)], [(0, 700), (0, 840)]]
        self.assertEqual(picture.missing(lines)[:5], [])
        self.assertEqual(picture.astray(lines)[:5], [])

    def test_what_is_pointed_at_is_picked_and_named_by_the_axes_that_are_seen(self) -> None:
        self.house()
        self.show('Front')
        self.click_at(500, 300)
        self.assertEqual(self.number(), 'element 1')
        names, (x, z) = self.place_said()
        self.assertEqual(names, 'x,z')
        self.assertLess(abs(x - 500) + abs(z - 300), 20)
        self.click_at(2000 + RADIUS * math.cos(1), 300 + RADIUS * math.sin(1))
        self.assertEqual(self.number(), 'element 3')
        self.show('Right')
        self.click_at(300, 900)
        self.assertEqual(self.number(), 'element 4')
        self.assertEqual(self.place_said()[0], 'y,z')

    def test_each_view_keeps_its_place_and_the_drawing_is_not_read_again(self) -> None:
        self.house()
        self.seen.run('const { records } = page.scene; window.was = [page.drawing, records.coordinates, records.box]')
        self.seen.run('page.view.zoom(3, 100, 100); page.stage.moved()')
        place = self.seen.run('return [page.view.x, page.view.y, page.view.scale]')
        self.show('Front')
        left, top = self.screen(0, -200)
        right, bottom = self.screen(5400, 900)
        box = self.seen.run(
            "const box = document.getElementById('marks').getBoundingClientRect();"
            'return [box.left, box.top, box.right, box.bottom]'
        )
        self.assertTrue(box[0] < left < right < box[2] and box[1] < bottom < top < box[3], 'all is seen at first')
        self.show('Top')
        self.assertEqual(self.seen.run('return [page.view.x, page.view.y, page.view.scale]'), place)
        same = 'return [page.drawing, records.coordinates, records.box].every((it, at) => it === was[at])'
        self.assertTrue(self.seen.run('const { records } = page.scene; ' + same))

    def test_keys_take_the_views(self) -> None:
        self.house()
        self.seen.run("document.getElementById('marks').focus()")
        for key, name in (('2', 'Front'), ('3', 'Right'), ('1', 'Top')):
            self.seen.key(key)
            self.seen.settle()
            self.assertEqual(self.chosen(), name)
            self.assertEqual(self.seen.text('#said'), 'View: ' + name)

    def test_a_drawing_of_two_axes_has_no_views(self) -> None:
        self.house()
        self.assertEqual(self.seen.text('#views'), 'Top\nFront\nRight')
        self.show('Front')
        self.open(self.put('flat.dgn', drawings.drawing(plan.line(1, (0, 0), (100, 50)))))
        self.assertTrue(self.seen.run("return document.getElementById('views-row').hidden"))
        self.seen.run("document.getElementById('marks').focus()")
        self.seen.key('2')
        self.click_at(50, 25)
        self.assertEqual(self.number(), 'element 1')
        self.assertNotIn('x', self.seen.text('#place'))

    def test_another_drawing_is_shown_from_above(self) -> None:
        self.house()
        self.show('Right')
        self.choose(self.put('other.dgn', drawings.drawing(path(3, LINE), axes=3)))
        picture = Picture(self.seen)
        self.assertEqual(picture.missing([flat(LINE, 'Top')])[:5], [])
        self.assertEqual(self.chosen(), 'Top')

    def test_measured_and_snapped_by_the_axes_that_are_seen(self) -> None:
        self.house()
        self.show('Front')
        self.do('#tools [data-tool="measure"]')
        self.seen.drag(self.screen(1, 1))
        left, top = self.screen(1000, 600)
        self.seen.hover((left + 5, top - 4))
        self.assertIn('dx 1000, dz 600', self.seen.text('#hint'))
        self.assertIn('end of line 1', self.seen.text('#hint'))
        self.assertEqual(self.place_said(), ('x,y,z', [1000, 400, 600]))
        self.seen.type('#coordinate', '@0,-600')
        self.seen.key('Enter')
        self.assertEqual(self.seen.run('return page.tools.points'), [[0, 0], [0, -600]])

    def test_positions_in_master_units_count_from_the_origin_of_their_axes(self) -> None:
        self.open(self.put('house.dgn', with_units(house(), 100, 1, ('m', 'cm'), (1000, 2000, -300))))
        self.show('Front')
        self.seen.hover(self.screen(500, 300))
        self.seen.settle()
        said = re.split(r'[ ,]+', self.seen.text('#place').split('=')[1].strip())
        self.assertLess(abs(float(said[0]) + 5) + abs(float(said[1]) - 6), 0.2, said)
        self.seen.type('#search-field', '-5,6')
        self.seen.wait("document.querySelectorAll('#search-list li').length > 1")
        self.assertIn('1 line', self.seen.text('#search-list li:nth-child(2)'))
        self.seen.key('Enter')
        self.seen.settle()
        self.assertEqual(self.seen.run('return page.place'), [500, 300])
        self.do('#tools [data-tool="measure"]')
        self.seen.type('#coordinate', '-5,6')
        self.seen.key('Enter')
        self.assertEqual(self.seen.run('return page.tools.points'), [[500, 300]])
        self.show('Right')
        self.assertEqual(self.seen.run('return [page.place, page.tools.points]'), [None, []])
        self.seen.type('#coordinate', '-18;5,5')
        self.seen.key('Enter')
        self.assertEqual(self.seen.run('return page.tools.points'), [[200, 250]])

    def test_a_picture_has_the_view_and_geojson_has_not(self) -> None:
        self.house()
        above = self.exported('GeoJSON', 'house.geojson')
        self.show('Front')
        self.assertEqual(json.loads(self.exported('GeoJSON', 'house.geojson')), json.loads(above))
        root = ElementTree.fromstring(self.exported('SVG picture', 'house.svg'))
        svg = '{http://www.w3.org/2000/svg}'
        self.assertEqual([it.text for it in root.findall(svg + 'text')], ['house.dgn   Front'])
        ways = [it.get('d', '') for it in root.findall(svg + 'path')]
        corners = [[float(it) for it in part.split()] for way in ways for part in way.replace('L', 'M').split('M')[1:]]
        wide, high = (max(axis) - min(axis) for axis in zip(*corners))
        # the cross at the cell's origin reaches 3.5 pixels beyond its line
        self.assertAlmostEqual(wide / (high - 3.5), 5400 / 1100, delta=0.02)

    def test_a_picture_that_is_being_made_keeps_its_view(self) -> None:
        lines = b''.join(path(3, [(it, 0, it % 7), (it + 5, 9, it % 7)]) for it in range(21000))
        self.open(self.put('many.dgn', drawings.drawing(lines, axes=3)))
        said = self.seen.run_slowly(
            "const done = arguments[0], { exports } = page, front = document.querySelector('[data-view=Front]');"
            "const made = exports.svgOf(exports.pictureSheet({ part: 'all that is shown', frame: '', scale: '' }));"
            'front.click(); const { name } = page.scene.orientation; made.then(() => done(name));'
        )
        self.assertEqual(said, 'Top')
        self.assertIn('picture', self.seen.text('#said'))
        self.show('Front')
        self.assertEqual(self.chosen(), 'Front')

    def exported(self, kind: str, name: str) -> str:
        self.seen.run("document.getElementById('more').open = true")
        self.seen.click('#export')
        self.seen.wait(IS_ASKED)
        for field, value in (('format', kind), ('part', 'all that is shown')):
            self.seen.run("document.getElementById('asked-' + arguments[0]).value = arguments[1]", field, value)
        self.dialog('Export')
        return Path(self.saved_file(name)).read_text(encoding='utf-8')

    @unittest.skipUnless(OGR, 'ogr2ogr is not installed')
    def test_the_front_is_where_gdal_has_x_and_z(self) -> None:
        path_to = self.house()
        said = json.loads(self.ogr('ogr2ogr', '-f', 'GeoJSON', '/vsistdout/', path_to))
        every = [it['geometry']['coordinates'] for it in said['features'] if it['geometry']['type'] == 'LineString']
        lines = [[(point[0], point[2]) for point in it] for it in every if len(it) in (2, 4)]
        self.assertGreaterEqual(len(lines), 3)
        self.assertEqual(self.show('Front').missing(lines)[:5], [])


if __name__ == '__main__':
    unittest.main()
