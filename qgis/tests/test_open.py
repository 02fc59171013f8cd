"""Opening: the layers hold what OGR reads of the same drawing, by level and by geometry."""

import json
import math
import re
import unittest
from collections import Counter
from typing import Any, Dict, List, Sequence, Tuple
from unittest import mock

import plugin
from plugin import ogr, samples
from qgis.core import (
    QgsCoordinateReferenceSystem,
    QgsExpression,
    QgsExpressionContext,
    QgsGeometry,
    QgsMapRendererSequentialJob,
    QgsMapSettings,
    QgsPointXY,
    QgsRectangle,
    QgsVectorLayer,
    QgsWkbTypes,
)
from qgis.PyQt.QtCore import QSize
from qgis.PyQt.QtGui import QImage
from samples import drawings, plan, with_units

import curved
import pictures

LINKED = 0x800  # of the properties
KINDS = ('texts', 'points', 'lines', 'areas', 'ranges')


class WithLayers(plugin.InQgis):
    """A test that reads what was written."""

    def features(self, results: samples.Json, kind: str) -> Dict[int, samples.Json]:
        """The features of a table by their numbers: their fields, and their geometry as text."""
        layer = QgsVectorLayer(results[kind.upper()], kind, 'ogr')
        self.assertTrue(layer.isValid())
        names = layer.fields().names()
        made = {}
        for it in layer.getFeatures():
            facts = {name: plugin.plain(it[name]) for name in names}
            made[facts['number']] = {**facts, 'wkt': it.geometry().asWkt(6).replace(' Z (', 'Z (')}
        self.assertEqual(len(made), layer.featureCount())
        return made


class Opened(WithLayers):
    """What is opened, and how it looks."""

    def test_the_plan(self) -> None:
        made = self.open(self.example('plan.dgn'))
        lines, areas, points, texts = (self.features(made, it) for it in ('lines', 'areas', 'points', 'texts'))
        # examples/make_plan.py: a border, a house with its door and its name, a pipe and two valves of two lines
        self.assertEqual(areas[1]['wkt'], 'Polygon ((0 0, 4000 0, 4000 3000, 0 3000, 0 0))')
        self.assertEqual((areas[1]['locked'], lines[5]['locked']), (True, False))
        pipe = [lines[5][it] for it in ('type_name', 'level', 'colour', 'weight', 'style', 'root', 'broken')]
        self.assertEqual(pipe, ['line string', 10, 0, 0, 0, 5, False])
        self.assertEqual((points[6]['cell'], points[6]['wkt']), ('VLV', 'Point (1000 500)'))
        self.assertEqual((lines[7]['root'], lines[7]['depth']), (6, 1))
        # the text's multipliers are 20000, of which each is 6 thousandths of a unit of resolution
        self.assertEqual([texts[4][it] for it in ('text', 'height', 'angle')], ['HOUSE 7', 120, 0])
        counts = {it: made[it.upper() + '_COUNT'] for it in KINDS}
        self.assertEqual(counts, {it: len(self.features(made, it)) for it in KINDS})
        self.assertEqual(sum(counts.values()), 11)

    def test_a_group_for_the_drawing_and_one_for_each_level(self) -> None:
        self.open(self.example('plan.dgn'))
        self.assertEqual(self.groups(), ['plan.dgn'])
        group = self.project.layerTreeRoot().findGroup('plan.dgn')
        levels = Counter(it.level for it in samples.Drawing(self.path('plan.dgn'), self.program).items)
        self.assertEqual([it.name() for it in group.children()], ['level %d' % it for it in sorted(levels)])
        names = {it.name(): [layer.name() for layer in it.findLayers()] for it in group.children()}
        self.assertEqual(names['level 10'], ['plan 10 points', 'plan 10 lines'])
        found = self.layer('plan 10 lines').getFeatures()
        self.assertEqual({it['level'] for it in found}, {10})
        for level, count in levels.items():
            layers = group.findGroup('level %d' % level).findLayers()
            self.assertEqual(sum(it.layer().featureCount() for it in layers), count)

    def test_master_units_and_units_of_resolution(self) -> None:
        file = with_units(drawings.drawing(plan.line(1, (1500, 0), (2500, -250))), 100, 10, ('m', 'cm'), (500, 0, 0))
        path = self.put('in.dgn', file)
        self.assertEqual(self.features(self.open(path), 'lines')[1]['wkt'], 'MultiLineString ((1 0, 2 -0.25))')
        self.project.clear()
        made = self.open(path, UNITS=2)
        self.assertEqual(self.features(made, 'lines')[1]['wkt'], 'MultiLineString ((1500 0, 2500 -250))')

    def test_the_system_of_coordinates_is_the_one_that_is_chosen(self) -> None:
        path = self.example('town.dgn')
        self.open(path, CRS=QgsCoordinateReferenceSystem('EPSG:25832'))
        self.assertEqual({it.crs().authid() for it in self.project.mapLayers().values()}, {'EPSG:25832'})
        self.assertEqual(self.project.crs().authid(), 'EPSG:25832')
        self.project.clear()
        self.open(path)
        self.assertEqual({it.crs().isValid() for it in self.project.mapLayers().values()}, {False})
        self.assertFalse(self.project.crs().isValid())

    def test_three_axes(self) -> None:
        arc = bytearray(drawings.element(16, 1, 100))
        made = self.open(self.put('in.dgn', drawings.drawing(drawings.line_of_three_axes(), bytes(arc), axes=3)))
        self.assertEqual(self.features(made, 'lines')[1]['wkt'], 'MultiLineStringZ ((0 0 0, 100 50 25))')
        self.assertEqual(
            self.features(made, 'ranges')[2]['wkt'], 'PolygonZ ((0 0 0, 100 0 0, 100 50 0, 0 50 0, 0 0 0))'
        )

    def test_what_is_known_by_its_range_alone(self) -> None:
        made = self.open(self.put('in.dgn', drawings.drawing(drawings.element(16, 1, 72), drawings.line())))
        self.assertEqual(list(self.features(made, 'ranges')), [1])
        self.assertEqual(list(self.features(made, 'lines')), [2])
        self.assertEqual(self.features(made, 'ranges')[1]['wkt'], 'Polygon ((0 0, 100 0, 100 50, 0 50, 0 0))')

    def test_what_is_deleted_is_opened_where_it_is_wished(self) -> None:
        path = self.put('in.dgn', drawings.drawing(drawings.deleted(drawings.line()), drawings.line()))
        self.assertEqual(list(self.features(self.open(path), 'lines')), [2])
        self.project.clear()
        lines = self.features(self.open(path, DELETED=True), 'lines')
        self.assertEqual({it: lines[it]['deleted'] for it in lines}, {1: True, 2: False})

    def test_a_hostile_text_is_a_text(self) -> None:
        path = self.put('in.dgn', drawings.drawing(plan.text(3, (0, 0), b'"}\n<script>\xff\0|x')))
        text = self.features(self.open(path), 'texts')[1]['text']
        self.assertEqual(text, '"}\n<script>\xff\\x00|x')

    def test_why_a_tree_is_broken(self) -> None:
        made = self.open(self.example('town.dgn'))
        lines, said = self.features(made, 'lines'), self.said('health', '-v', self.path('town.dgn'), status=1)
        self.assertTrue(lines[15]['broken'])
        self.assertIn('complex chain 15 on level 12: ' + lines[15]['why'], said)
        self.assertEqual((lines[12]['broken'], lines[12]['why']), (False, None))
        areas = self.features(made, 'areas')
        self.assertTrue(areas[36]['broken'], 'a ring whose cell is loose')

    def test_an_area_with_a_hole_is_one_area(self) -> None:
        self.example('town.dgn')
        path = self.mended(self.path('town.dgn'))
        made = self.open(path)
        areas = self.features(made, 'areas')
        town = json.loads((samples.EXAMPLES / 'town.geojson').read_text())
        wanted = [it for it in town['features'] if it['geometry']['type'] == 'Polygon']
        holes = [it for it in wanted if len(it['geometry']['coordinates']) > 1]
        self.assertEqual(len(holes), 3)
        # by their area, which is right only where the hole is taken off
        found = sorted(round(QgsGeometry.fromWkt(it['wkt']).area(), 3) for it in areas.values())
        self.assertEqual(found, sorted(round(area_of(it['geometry']['coordinates']), 3) for it in wanted))
        self.assertEqual(sorted((it, areas[it]['last']) for it in areas if areas[it]['type'] == 2), CELLS)
        self.assertEqual([it for it in self.features(made, 'points') if it in dict(CELLS)], [])
        self.project.clear()
        apart = self.features(self.open(path, HOLES=False), 'areas')
        self.assertEqual(len(apart), len(areas) + 3)

    def test_labels_have_the_size_and_the_angle_of_the_text(self) -> None:
        wanted = [(0, 10), (30, 10), (90, 20), (-45, 10)]
        texts = [bytearray(plan.text(3, (100 * it, 0), b'H')) for it in range(4)]
        for text, (angle, height) in zip(texts, wanted):
            multiplier = round(height / 0.006)
            text[38:50] = plan.long(multiplier) * 2 + plan.long(angle * 360000)
        self.open(self.put('in.dgn', drawings.drawing(*map(bytes, texts))))
        settings = QgsMapSettings()
        settings.setLayers(self.project.layerTreeRoot().layerOrder())
        settings.setOutputSize(QSize(1000, 400))
        settings.setExtent(QgsRectangle(-100, -100, 400, 100))  # two pixels a unit
        job = QgsMapRendererSequentialJob(settings)
        job.start()
        job.waitForFinished()
        labels = sorted(job.takeLabelingResults().allLabels(), key=lambda it: int(it.featureId))
        self.assertEqual(len(labels), 4)
        for index, (label, (angle, height)) in enumerate(zip(labels, wanted)):
            turn = math.radians(angle)
            start, end = label.cornerPoints[:2]
            self.assertAlmostEqual((end.y() - start.y()) / start.distance(end), math.sin(turn), places=6)
            self.assertAlmostEqual((end.x() - start.x()) / start.distance(end), math.cos(turn), places=6)
            # a capital letter is about 0.72 of the size of its font
            self.assertAlmostEqual(label.labelFont.pixelSize(), height * 2 / 0.72, delta=1)
            # the box of the label stands under its base line by what hangs below that, at right angles to it
            corner = label.cornerPoints[0]
            x, y = corner.x() - 100 * index, corner.y()
            self.assertAlmostEqual(x * math.cos(turn) + y * math.sin(turn), 0, delta=0.1)
            self.assertLess(-x * math.sin(turn) + y * math.cos(turn), 0)

    def test_styles_are_those_of_the_drawing(self) -> None:
        elements = [bytearray(plan.line(1, (0, 10 * it), (100, 10 * it))) for it in range(3)]
        for it, (look, colour) in zip(elements, [(0, 3), (4 << 3 | 2, 0), (31 << 3 | 2, 1)]):
            it[34], it[35] = look, colour
        self.open(self.put('in.dgn', drawings.drawing(*map(bytes, elements))))
        categories = self.layer('in 1 lines').renderer().categories()
        labels = ['colour 0, medium dashed (1)', 'colour 1, medium dashed (1)', 'colour 3 (1)']
        self.assertEqual([it.label() for it in categories], labels)
        pens = [it.symbol().symbolLayer(0) for it in categories]
        self.assertEqual([it.useCustomDashPattern() for it in pens], [True, True, False])
        # white is drawn black
        self.assertEqual([it.color().name() for it in pens], ['#000000', '#0000ff', '#ff0000'])
        image = self.drawn(QgsRectangle(-50, -50, 150, 50))
        for line in range(3):
            dark = [it for it in range(100, 300) if image.pixelColor(it, 100 - 20 * line).lightness() < 250]
            self.assertGreater(len(dark), 50, 'line %d is drawn' % line)
        self.assertEqual(
            [it['rgb'] for it in self.layer('in 1 lines').getFeatures()], ['#ff0000', '#ffffff', '#0000ff']
        )

    def test_a_legend_of_too_many_colours_is_one_of_styles(self) -> None:
        for count, labels in ((40, ['colour %d (2)' % it for it in range(40)]), (60, ['solid (120)'])):
            self.project.clear()
            lines = [bytearray(plan.line(1, (0, 10 * it), (100, 10 * it))) for it in range(2 * count)]
            for number, it in enumerate(lines):
                it[34], it[35] = 0, number // 2
            self.open(self.put('in.dgn', drawings.drawing(*map(bytes, lines))))
            self.assertEqual([it.label() for it in self.layer('in 1 lines').renderer().categories()], labels)

    def test_links_to_a_database_and_graphic_groups(self) -> None:
        linked = bytearray(drawings.line(properties=LINKED, data=bytes([0, 0, 5, 0, 0x39, 0x30, 0, 0])))
        linked[28:30] = (258).to_bytes(2, 'little')
        lines = self.features(self.open(self.put('in.dgn', drawings.drawing(bytes(linked), drawings.line()))), 'lines')
        names = ('entity', 'mslink', 'graphic_group')
        self.assertEqual([[lines[it][name] for name in names] for it in (1, 2)], [[5, 12345, 258], [None] * 3])

    def test_fills(self) -> None:
        square = [(0, 0), (100, 0), (100, 100), (0, 100), (0, 0)]
        beside = [(x + 200, y) for x, y in square]
        plain, filled = plan.path(6, 1, square), curved.filled(plan.path(6, 1, beside), 3)
        self.open(self.put('in.dgn', drawings.drawing(plain, filled)))
        self.assertEqual([it['fill'] for it in self.features_of('in 1 areas')], [None, '#ff0000'])
        image = self.drawn(QgsRectangle(-50, -50, 350, 150))
        self.assertEqual([image.pixelColor(it, 200).name() for it in (200, 600)], ['#ffffff', '#ff0000'])

    def features_of(self, name: str) -> List[Dict[str, Any]]:
        """The fields of the features of a layer."""
        layer = self.layer(name)
        names = layer.fields().names()
        return [{key: plugin.plain(it[key]) for key in names} for it in layer.getFeatures()]

    def drawn(self, extent: QgsRectangle) -> QImage:
        """The map of a part of the drawing, two pixels a unit."""
        settings = QgsMapSettings()
        settings.setLayers(self.project.layerTreeRoot().layerOrder())
        settings.setOutputSize(QSize(int(2 * extent.width()), int(2 * extent.height())))
        settings.setExtent(extent)
        job = QgsMapRendererSequentialJob(settings)
        job.start()
        job.waitForFinished()
        return job.renderedImage()

    def test_fields_have_names_and_features_map_tips(self) -> None:
        self.open(self.example('plan.dgn'))
        layer = self.layer('plan 10 lines')
        self.assertEqual(
            [it for index, it in enumerate(layer.fields().names()) if not layer.attributeAlias(index)], ['fid']
        )
        context = QgsExpressionContext()
        context.setFeature(next(it for it in layer.getFeatures() if it['number'] == 5))
        tip = QgsExpression.replaceExpressionText(layer.mapTipTemplate(), context)
        self.assertIn('<b>line string 5</b>', tip)
        self.assertIn('level 10, colour 0', tip)

    def test_layers_can_not_be_edited_themselves(self) -> None:
        self.open(self.example('plan.dgn'))
        self.assertEqual({it.startEditing() for it in self.project.mapLayers().values()}, {False})

    def test_a_drawing_of_nothing(self) -> None:
        made = self.open(self.put('in.dgn', drawings.drawing()))
        self.assertEqual([made[it.upper() + '_COUNT'] for it in KINDS], [0] * 5)
        self.assertEqual((self.groups(), self.layer_names()), (['in.dgn'], []))

    def test_names_with_blanks_and_other_letters(self) -> None:
        path = self.put('Plan Süd 1, "alt".dgn', (samples.EXAMPLES / 'plan.dgn').read_bytes())
        made = self.run_algorithm('open', DRAWING=path, OUTPUT=self.path('Ebenen Süd.gpkg'))
        self.assertEqual(made['LINES_COUNT'], 6)
        self.assertEqual(self.layer('Plan Süd 1, "alt" 11 lines').featureCount(), 4)

    def test_progress_and_cancelling(self) -> None:
        path = self.gen(7, 20000)
        self.open(path)
        self.assertGreater(len({int(it) for it in self.feedback.shares}), 5)
        self.assertEqual(sorted(self.feedback.shares), self.feedback.shares)
        self.project.clear()
        self.feedback = plugin.Feedback('The layers are written')
        made = self.run_algorithm('open', DRAWING=path, OUTPUT=self.path('stopped.gpkg'))
        self.assertEqual((made, self.groups()), ({}, []))
        self.assertFalse(any(it.name.startswith('stopped') for it in self.folder.iterdir()))


METRES = ('m', 'dm'), (0, 0, 0)
ROUND = (
    curved.arc((1000, 1000), (500, 300), 10, 200, 15),
    curved.arc((0, 0), (700, 700), 80, -30),
    curved.ellipse((3000, 1000), (500, 300), 20),
)
CURVE = curved.curve([(0, 0), (100, 0), (1000, 500), (2000, 0), (2500, 800), (3000, 0), (3100, 0)])
CELLS = [(35, 37), (38, 40), (41, 43)]  # the cells of examples/town.dgn with two rings, by their first and last element


def area_of(rings: List[List[List[float]]]) -> float:
    """The area of a polygon, its holes taken off."""
    areas = [abs(sum(a[0] * b[1] - b[0] * a[1] for a, b in zip(ring, ring[1:]))) / 2 for ring in rings]
    return areas[0] - sum(areas[1:])


@unittest.skipUnless(samples.OGR, 'GDAL is not installed')
class AsOgr(WithLayers):
    """Against OGR's own reading of the same drawing."""

    def wanted(self, drawing: str) -> Dict[int, str]:
        """The geometry of each feature of OGR by its number."""
        made = {}
        for feature in ogr.features_of(self, drawing):
            number = re.match(r'OGRFeature\(\w+\):(\d+)', feature)
            geometry = re.search(r'^  ((?:MULTI)?(?:POINT|LINESTRING|POLYGON)[^\n]*)', feature, re.M)
            if number and geometry:
                made[int(number[1])] = QgsGeometry.fromWkt(geometry[1]).asWkt(6)
        return made

    def found(self, results: samples.Json) -> Dict[int, str]:
        """The same of the layers, without the origins of cells, which OGR doesn't read."""
        made = {}
        for kind in KINDS:
            for number, it in self.features(results, kind).items():
                if it['type'] != 2:
                    geometry = QgsGeometry.fromWkt(it['wkt'])
                    if QgsWkbTypes.isMultiType(geometry.wkbType()) and geometry.constGet().numGeometries() == 1:
                        geometry.convertToSingleType()
                    made[number] = geometry.asWkt(6)
        return made

    def ask_same(self, drawing: str) -> int:
        found = self.found(self.open(drawing, HOLES=False))
        wanted = self.wanted(drawing)
        cells = {it.number for it in samples.Drawing(drawing, self.program).elements if it.type == 2}
        wanted = {it: wanted[it] for it in wanted if it not in cells}
        self.assertEqual(found, wanted)
        self.project.clear()
        return len(found)

    def test_of_what_ogr_writes(self) -> None:
        source = ogr.made(self, ogr.parcels() + ogr.roads() + ogr.labels())
        self.assertGreater(self.ask_same(self.mended(source)), 16)

    def test_of_the_examples(self) -> None:
        for name in ('plan.dgn', 'valve.dgn'):
            self.assertGreater(self.ask_same(self.example(name)), 2)
        self.example('town.dgn')
        self.assertGreater(self.ask_same(self.mended(self.path('town.dgn'))), 19)

    def test_of_arcs_ellipses_and_curves(self) -> None:
        path = self.put('plane.dgn', with_units(drawings.drawing(*(it for it, _ in ROUND), CURVE), 10, 10, *METRES))
        self.assertEqual(self.ask_same(path), len(ROUND) + 1)

    def ask_near(self, path: str, arcs: Sequence[Tuple[bytes, List[pictures.Point]]], **more: Any) -> None:
        """Asks that arcs lie where their definition says, in master units or in those of resolution."""
        self.project.clear()
        lines = self.features(self.open(path, **more), 'lines')
        unit = 1 if more else 100
        for number, (_, line) in enumerate(arcs, 1):
            true = QgsGeometry.fromPolylineXY([QgsPointXY(x / unit, y / unit) for x, y in line])
            found = QgsGeometry.fromWkt(lines[number]['wkt'])
            self.assertLess(found.hausdorffDistanceDensify(true, 0.5) * unit, 3, number)

    def test_arcs_and_ellipses_lie_where_they_are_defined_with_ogr_and_without(self) -> None:
        around = [math.cos(0.3), 0, 0, math.sin(0.3)]
        solid = [curved.arc_of_space((500, 100), (300, 200), it, around) for it in ((10, 250), None)]
        for name, arcs, axes in (('plane', ROUND, 2), ('space', solid, 3)):
            file = drawings.drawing(*(it for it, _ in arcs), axes=axes)
            path = self.put(name + '.dgn', with_units(file, 10, 10, *METRES))
            self.ask_near(path, arcs)
            self.ask_near(path, arcs, UNITS=2)
            with mock.patch('dgnedit.strokes.opened', lambda path: None):
                self.ask_near(path, arcs)
                self.ask_near(path, arcs, UNITS=2)

    def test_of_what_gen_makes(self) -> None:
        self.assertGreater(self.ask_same(self.gen(7, 3000)), 2000)


if __name__ == '__main__':
    unittest.main()
