"""Files and selections beside the drawing: what is never replaced, what is left where something fails, and that only
what is seen is edited."""

import os
import re
import shutil
import sqlite3
import unittest
from contextlib import closing
from pathlib import Path
from unittest import mock

import plugin
from dgnedit.algorithms.open_drawing import seen_extent
from dgnedit.layers import drawing_layers
from dgnedit.opening import write_layers
from dgnedit.rows import Wishes
from qgis.core import QgsCoordinateReferenceSystem

SOURCES = Path(plugin.__file__).resolve().parents[1] / 'dgnedit'
SCOPED = re.compile(r'\b(?:Qgs?\w*|Qt|QVariant|QMetaType)\.[A-Z]\w*')  # the first scope of a name of QGIS or Qt
CLASSES = {'QgsVectorLayer.LayerOptions', 'Qgis.QGIS_VERSION_INT'}
GONE = ('setMinimal(', 'QgsWkbTypes.Polygon', 'QVariant.Int', 'QVariant.String')


class Files(plugin.InQgis):
    def setUp(self) -> None:
        super().setUp()
        self.town, self.package = self.example('town.dgn'), self.path('layers.gpkg')

    def foreign(self) -> bytes:
        """The bytes of a database of another program in the place of the GeoPackage."""
        with closing(sqlite3.connect(self.package)) as base:
            base.execute('CREATE TABLE survey (place TEXT)')
            base.execute("INSERT INTO survey VALUES ('north gate')")
            base.commit()
        return Path(self.package).read_bytes()

    def test_a_database_of_another_program_stays(self) -> None:
        kept = self.foreign()
        for may_replace in (False, True):
            said = self.fails('open', DRAWING=self.town, OUTPUT=self.package, OVERWRITE=may_replace)
            self.assertIn("wasn't written by this plugin, so it isn't replaced", said)
            self.assertEqual(Path(self.package).read_bytes(), kept)

    def test_its_own_geopackage_is_replaced_only_where_that_is_allowed(self) -> None:
        self.open(self.town)
        self.project.clear()
        kept = Path(self.package).read_bytes()
        valve = self.example('valve.dgn')
        self.assertIn('already exists', self.fails('open', DRAWING=valve, OUTPUT=self.package))
        self.assertEqual(Path(self.package).read_bytes(), kept)
        self.open(valve, OUTPUT=self.package, OVERWRITE=True)
        self.assertEqual(self.groups(), ['valve.dgn'])

    def test_what_was_there_stays_where_the_opening_is_cancelled_or_fails(self) -> None:
        self.open(self.town)
        self.project.clear()
        kept = Path(self.package).read_bytes()
        self.feedback = plugin.Feedback('The layers are written')
        self.open(self.example('valve.dgn'), OUTPUT=self.package, OVERWRITE=True)
        self.assertIn('Stopped: nothing was written.', self.feedback.lines)
        self.assertEqual(Path(self.package).read_bytes(), kept)
        self.feedback = plugin.Feedback()

        def make_indexes(*words: object) -> None:
            raise RuntimeError('the disk is full')

        with mock.patch('dgnedit.package.make_indexes', make_indexes):
            self.fails('open', DRAWING=self.example('valve.dgn'), OUTPUT=self.package, OVERWRITE=True)
        self.assertEqual(Path(self.package).read_bytes(), kept)
        self.assertEqual([it for it in os.listdir(self.folder) if it.startswith('.dgnedit-')], [])

    def test_a_geopackage_that_a_program_has_open_stays(self) -> None:
        self.open(self.town)
        self.project.clear()
        with closing(sqlite3.connect(self.package, isolation_level=None)) as base:
            base.execute('BEGIN EXCLUSIVE')
            words = {'DRAWING': self.example('valve.dgn'), 'OUTPUT': self.package, 'OVERWRITE': True}
            self.assertIn('is open in another program', self.fails('open', **words))

    def test_an_opening_that_fails_midway_leaves_no_group(self) -> None:
        turns = iter([True])

        def dress(*words: object) -> None:
            if not next(turns, False):
                raise AttributeError('OverPoint')

        with mock.patch('dgnedit.layers.dress', dress):
            self.open(self.town)
        self.assertEqual((self.groups(), self.layer_names()), ([], []))
        self.assertTrue(any('OverPoint' in it for it in self.feedback.errors), self.feedback.errors)

    def test_a_selection_in_layers_whose_file_was_written_anew_is_not_edited(self) -> None:
        self.open(self.example('plan.dgn'))
        self.select('plan 10 lines', '"number" = 5')
        valve = plugin.samples.Drawing(self.example('valve.dgn'), self.program)
        write_layers(valve, self.package, Wishes(), lambda share: None)  # as another project does
        said = self.fails('delete', OUTPUT=self.path('out.dgn'))
        self.assertIn('has been written anew, so it may show other elements', said)
        self.assertFalse(os.path.exists(self.path('out.dgn')))

    def test_the_map_goes_to_the_layers_in_its_own_system(self) -> None:
        system = QgsCoordinateReferenceSystem('EPSG:25832')
        self.open(self.town, CRS=system)
        layers = [it for it in self.project.mapLayers().values()]
        own = seen_extent(layers, system, self.project)
        self.assertEqual((own.xMinimum(), own.yMinimum()), (1000.0, 2000.0))
        seen = seen_extent(layers, QgsCoordinateReferenceSystem('EPSG:4326'), self.project)
        # 1000 m east and 2000 m north of the zone's origin, which is 4.5 degrees west of its middle, on the equator
        self.assertAlmostEqual(seen.xMinimum(), 4.52, 1)
        self.assertAlmostEqual(seen.yMinimum(), 0.018, 3)
        self.assertEqual(seen_extent(layers, QgsCoordinateReferenceSystem(), self.project), own)

    def test_files_that_are_there_stay_unless_they_may_be_replaced(self) -> None:
        out = self.put('out.dgn', b'kept')
        words = {'DRAWING': self.town, 'NUMBERS': '12', 'COLOUR': 3, 'OUTPUT': out}
        self.assertIn('already exists', self.fails('look', **words))
        self.assertEqual(Path(out).read_bytes(), b'kept')
        self.run_algorithm('look', **words, OVERWRITE=True)
        self.assertNotEqual(Path(out).read_bytes(), b'kept')

    def test_two_files_of_one_name_and_a_drawing_that_is_open(self) -> None:
        words = {'DRAWING': self.town, 'NUMBERS': '12', 'COLOUR': 3}
        one = self.path('one')
        for more in ({'OUTPUT': one, 'PATCH': one}, {'OUTPUT': self.path('o'), 'SCRIPT': one, 'PATCH': one}):
            self.assertIn('each need a name of their own', self.fails('look', **words, **more))
        self.assertFalse(os.path.exists(one))
        valve = self.example('valve.dgn')
        self.open(valve)
        self.assertIn('is open in this project', self.fails('look', **words, OUTPUT=valve, OVERWRITE=True))


class Projects(plugin.InQgis):
    """A project that is saved, and moved with its drawing."""

    def setUp(self) -> None:
        super().setUp()
        self.here, self.there = (Path(self.path(it)) for it in ('here', 'there'))
        self.here.mkdir()

    def saved(self, drawing: str) -> str:
        """Opens a drawing in a project and saves that; its file is given as text."""
        self.open(drawing, OUTPUT=str(self.here / 'layers.gpkg'))
        project = str(self.here / 'project.qgs')
        self.assertTrue(self.project.write(project))
        self.assertEqual({it.customProperty('dgnedit/drawing') for it in drawing_layers(self.project)}, {drawing})
        return Path(project).read_text(encoding='utf-8')

    def test_its_drawing_is_found_where_both_were_moved(self) -> None:
        drawing = str(shutil.copy(self.example('town.dgn'), self.here))
        said = self.saved(drawing)
        self.assertNotIn(drawing, said)
        self.project.clear()
        self.here.rename(self.there)
        self.assertTrue(self.project.read(str(self.there / 'project.qgs')))
        self.assertFalse(self.project.isDirty())
        self.select('town 12 lines', '"number" = 12')
        self.run_algorithm('look', COLOUR=9, OUTPUT=str(self.there / 'new.dgn'))
        self.assertEqual(self.groups(), ['new.dgn'])
        changes = self.changes(str(self.there / 'town.dgn'), str(self.there / 'new.dgn'))
        self.assertEqual([name for name, _ in changes], ['line string 12'])

    def test_a_drawing_elsewhere_is_named_whole(self) -> None:
        drawing = self.example('town.dgn')
        self.assertIn('value="%s"' % drawing, self.saved(drawing))

    def test_a_project_that_is_saved_in_another_place_too(self) -> None:
        drawing = str(shutil.copy(self.example('town.dgn'), self.here))
        self.saved(drawing)
        self.there.mkdir()
        self.assertTrue(self.project.write(str(self.there / 'project.qgs')))
        self.project.clear()
        self.assertTrue(self.project.read(str(self.there / 'project.qgs')))
        self.assertEqual({it.customProperty('dgnedit/drawing') for it in drawing_layers(self.project)}, {drawing})


class Sources(unittest.TestCase):
    """The sources name only what each QGIS from 3.22 on has."""

    def test_names_are_scoped(self) -> None:
        for path in sorted(SOURCES.rglob('*.py')):
            text = path.read_text(encoding='utf-8')
            for found in SCOPED.finditer(text):
                is_scope = text[found.end() : found.end() + 1] == '.'
                self.assertTrue(is_scope or found[0] in CLASSES, '%s: %s' % (path.name, found[0]))
            for word in GONE:
                self.assertNotIn(word + ',' if word[-1] != '(' else word, text, path.name)


if __name__ == '__main__':
    unittest.main()
