"""An edit is shown in the layers that are there: they show what opening the new drawing anew would show, look as they
did, and know which drawing they are of; or they stay those of the old drawing."""

import os
import random
import re
import sqlite3
import unittest
from collections import Counter
from contextlib import closing, contextmanager
from pathlib import Path
from typing import Any, Dict, Iterator, List, Tuple
from unittest import mock

import plugin
from dgnedit.layers import drawing_layers, place_of, wishes_of
from dgnedit.opening import KINDS, write_layers
from dgnedit.package import Filling, digest_in
from dgnedit.styles import symbol_of
from dgnkit.errors import Mistake
from plugin import samples
from qgis.core import QgsSingleSymbolRenderer, QgsVectorLayer
from samples import drawings, plan

Shown = Dict[int, Tuple[Any, ...]]
MAGENTA = '#ff00ff'  # colour 5 of the usual table
TURNS = 6  # so many edits follow each other


def shown(layer: QgsVectorLayer) -> Shown:
    """What a layer shows, by the numbers of its features."""
    return {it.id(): (*map(plugin.plain, it.attributes()), bytes(it.geometry().asWkb())) for it in layer.getFeatures()}


def tables(package: str) -> Dict[str, List[Tuple[Any, ...]]]:
    """All rows of a GeoPackage, and of its indexes of places."""
    with closing(sqlite3.connect(package)) as base:
        names = [*KINDS, *('rtree_%s_geom' % it for it in KINDS)]
        return {it: sorted(base.execute('SELECT * FROM "%s"' % it)) for it in names}


class Renewals(plugin.InQgis):
    def setUp(self) -> None:
        super().setUp()
        self.count = 0

    def begin(self, drawing: str, **more: Any) -> None:
        """Opens a drawing, whose GeoPackage is kept in mind."""
        self.drawing, self.package = drawing, self.path('layers.gpkg')
        self.run_algorithm('open', DRAWING=drawing, OUTPUT=self.package, **more)

    def town(self) -> str:
        """The example town, without broken trees."""
        self.example('town.dgn')
        return self.mended(self.path('town.dgn'))

    def edit(self, name: str, **parameters: Any) -> Dict[str, Any]:
        """Edits the drawing that is shown, which the new one becomes."""
        self.count += 1
        new = self.path('edited-%d.dgn' % self.count)
        made = self.run_algorithm(name, **{'DRAWING': self.drawing, 'OUTPUT': new, **parameters})
        self.drawing = new
        return made

    def layers(self) -> List[QgsVectorLayer]:
        return list(drawing_layers(self.project))

    def ask_as_opened_anew(self, said: object) -> None:
        """Asks that the tables and the layers are those of the drawing, as if it were opened anew."""
        fresh = self.path('fresh.gpkg')
        written = write_layers(samples.Drawing(self.drawing, self.program), fresh, wishes_of(self.layers()[0]), len_of)
        self.assertEqual(tables(self.package), tables(fresh), said)
        there = {place_of(it): it for it in self.layers()}
        self.assertEqual(len(there), len(self.layers()))
        self.assertLessEqual(set(written.looks), set(there), said)
        for place, layer in there.items():
            source = '%s|layername=%s|subset="level" = %d' % (fresh, place[1], place[0])
            same = QgsVectorLayer(source, 'fresh', 'ogr')
            self.assertEqual(shown(layer), shown(same), (said, place))
            self.assertEqual(layer.featureCount(), same.featureCount(), (said, place))
            self.assertTrue(layer.extent() == same.extent() or not same.featureCount(), (said, place))
            if place[1] != 'texts':
                self.ask_legend(layer, (said, place))
        digest = digest_in(self.package)
        self.assertEqual({it.customProperty('dgnedit/digest') for it in self.layers()}, {digest})
        self.assertEqual(digest, written.digest)
        self.assertEqual({it.customProperty('dgnedit/drawing') for it in self.layers()}, {self.drawing})
        self.assertEqual(self.groups(), [Path(self.drawing).name])
        os.remove(fresh)

    def ask_legend(self, layer: QgsVectorLayer, said: object) -> None:
        """Asks that the legend of a layer says how many of its features have which colour, and that all are drawn."""
        there = Counter(it['colour'] for it in layer.getFeatures())
        legend: Counter[int] = Counter()
        for label in (it.label() for it in layer.renderer().categories()):
            colour, count = re.fullmatch(r'colour (\d+)(?:, [a-z -]+)? \((\d+)\)', label).groups()  # type: ignore
            legend[int(colour)] += int(count)
        self.assertEqual(+legend, there, said)
        categories = [it.value() for it in layer.renderer().categories()]
        looks = {8 * it['colour'] + it['style'] for it in layer.getFeatures()}
        self.assertLessEqual(looks if place_of(layer)[1] in ('lines', 'areas') else set(there), set(categories), said)
        self.assertEqual(len(set(categories)), len(categories), said)

    def edits(self, chance: random.Random, count: int) -> Dict[str, Dict[str, Any]]:
        """One of each edit, of a drawing with so many elements."""
        few = chance.sample(range(1, count), min(chance.choice((1, 2, 5)), count - 1))
        chosen: Dict[str, Any] = {'NUMBERS': ','.join(map(str, few)), 'TREES': chance.random() < 0.7}
        every = {'NUMBERS': '1-%d' % (count - 1)}
        shift = {'DX': chance.choice((0.5, 3, 2000)), 'DY': chance.choice((0, -7, 100)), **chosen}
        line = 'line %d 3 2 1 0,0 5000,%d' % (chance.choice((1, 63)), chance.randint(1, 9000))
        return {
            'move': shift,
            'copy': shift,
            'look': {**chosen, 'COLOUR': chance.randint(0, 255), 'STYLE': chance.randint(0, 7)},
            'delete': chosen,
            'undelete': every,
            'relevel': {**chosen, 'LEVEL': chance.randint(1, 63)},
            'retext': {**every, 'NEW': chance.choice('abc')},
            'lock': chosen,
            'unlock': chosen,
            'mend': {},
            'script': {'LINES': '%s\ndelete %d' % (line, few[0])},
        }

    def ask_at_random(self, drawing: str, seed: int, **more: Any) -> None:
        """Asks it after each of many edits, one behind the other."""
        chance = random.Random(seed)
        self.begin(drawing, **more)
        done: List[object] = []
        while len(done) < TURNS:
            count = len(samples.Drawing(self.drawing, self.program).elements)
            name, parameters = chance.choice(list(self.edits(chance, count).items()))
            done.append((name, parameters))
            self.edit(name, **parameters)
            self.ask_as_opened_anew((drawing, seed, done))
        self.project.clear()
        os.remove(self.package)

    def test_layers_are_as_if_the_drawing_were_opened_anew(self) -> None:
        names = [self.example(it) for it in ('plan.dgn', 'street.dgn', 'town.dgn', 'valve.dgn')]
        for seed, name in enumerate([*names, self.gen(7, 60, 'many.dgn')]):
            more = {'MEMBERS': True, 'DELETED': True, 'HOLES': False} if seed % 2 else {}
            self.ask_at_random(name, seed, **more)

    def test_what_a_user_has_made_of_the_layers_stays(self) -> None:
        self.begin(self.town())
        root = self.project.layerTreeRoot()
        hidden, other, kept = (self.layer(it) for it in ('mended 12 lines', 'mended 20 areas', 'mended 10 points'))
        root.findLayer(hidden.id()).setItemVisibilityChecked(False)
        other.setRenderer(QgsSingleSymbolRenderer(symbol_of('areas', 3)))
        kept.setName('my valves')
        pipes = hidden.renderer().clone()
        pipes.updateCategoryLabel(0, 'pipes')
        hidden.setRenderer(pipes)
        self.edit('look', NUMBERS='1-53', COLOUR=5, STYLE=2)
        self.assertEqual(self.groups(), ['edited-1.dgn'])
        names = ['edited-1 12 lines', 'edited-1 20 areas', 'my valves']
        self.assertEqual([it.name() for it in (hidden, other, kept)], names)
        self.assertFalse(root.findLayer(hidden.id()).itemVisibilityChecked())
        self.assertIsInstance(other.renderer(), QgsSingleSymbolRenderer)
        labels = {it.label() for it in hidden.renderer().categories()}
        self.assertIn('pipes', labels)
        self.assertIn('colour 5, medium dashed (%d)' % hidden.featureCount(), labels)
        self.assertEqual({it['style'] for it in hidden.getFeatures()}, {2})

    def test_a_new_level_has_a_layer_where_it_belongs(self) -> None:
        self.begin(self.example('town.dgn'))
        before = self.levels()
        self.edit('relevel', NUMBERS='12', LEVEL=13)
        self.assertEqual(self.levels(), sorted([*before, 13]))
        self.assertEqual([it['number'] for it in self.layer('edited-1 13 lines').getFeatures()], [12])

    def levels(self) -> List[int]:
        """The groups of levels, from above."""
        group = self.project.layerTreeRoot().children()[0]
        return [int(it.name().split()[1]) for it in group.children()]

    def test_the_selection_stays_and_goes_to_another_level(self) -> None:
        self.begin(self.town())
        self.select('mended 12 lines', '"number" in (12, 13)')
        self.select('mended 20 areas', '"number" = 38')
        self.edit('relevel', LEVEL=13, DRAWING=None)
        numbers = {it.name(): [row['number'] for row in it.selectedFeatures()] for it in self.layers()}
        wanted = {'edited-1 13 lines': [12, 13], 'edited-1 13 areas': [38]}
        self.assertEqual({name: it for name, it in numbers.items() if it}, wanted)

    def test_many_edits_leave_one_geopackage_and_as_many_layers(self) -> None:
        self.begin(self.put('levels.dgn', drawings.drawing(*(plan.line(it, (0, 0), (9, it)) for it in range(1, 64)))))
        folder = Path(os.environ['TMPDIR'])
        packages = len(list(folder.rglob('*.gpkg')))
        for turn in range(3):
            self.edit('look', NUMBERS=str(turn + 1), COLOUR=7)
        self.assertEqual(len(self.layers()), 63)
        self.assertEqual(len(list(folder.rglob('*.gpkg'))), packages)

    def test_a_drawing_that_is_open_twice(self) -> None:
        self.begin(self.town())
        self.run_algorithm('open', DRAWING=self.drawing, OUTPUT=self.path('other.gpkg'), MEMBERS=True)
        self.edit('look', NUMBERS='15', COLOUR=7)
        self.assertEqual(self.groups(), ['edited-1.dgn'] * 2)
        for name, count in ((self.package, 1), (self.path('other.gpkg'), 10)):
            found = [row for row in tables(name)['lines'] if row[9] == 7]
            self.assertEqual(len(found), count, name)


class Hindered(plugin.InQgis):
    """Where the layers can't become those of the new drawing, it is opened beside them; where that turns out too late,
    they stay."""

    def setUp(self) -> None:
        super().setUp()
        self.town, self.package = self.example('town.dgn'), self.path('layers.gpkg')
        self.open(self.town)
        self.before = tables(self.package), digest_in(self.package)

    def edit(self) -> None:
        self.run_algorithm('look', DRAWING=self.town, NUMBERS='12', COLOUR=5, OUTPUT=self.path('new.dgn'))

    def ask_beside(self, why: str) -> None:
        """Asks that the new drawing is opened beside the old one, whose layers are as they were, and that this is
        said."""
        self.edit()
        self.assertEqual(len(self.feedback.warnings), 1, self.feedback.warnings)
        self.assertIn("can't become those of the new drawing, which is opened beside it: ", self.feedback.warnings[0])
        self.assertIn(why, self.feedback.warnings[0])
        self.assertEqual(self.groups(), ['new.dgn', 'town.dgn'])
        self.assertEqual((tables(self.package), digest_in(self.package)), self.before)
        self.assertEqual(
            {it['rgb'] for it in self.layer('new 12 lines').getFeatures() if it['number'] == 12}, {MAGENTA}
        )
        drawings = {str(it.customProperty('dgnedit/drawing')) for it in drawing_layers(self.project)}
        self.assertEqual(drawings, {self.town, self.path('new.dgn')})

    def test_a_layer_that_is_being_edited(self) -> None:
        layer = self.layer('town 12 lines')
        layer.setReadOnly(False)
        self.assertTrue(layer.startEditing())
        self.ask_beside('one of its layers is being edited')
        layer.rollBack()

    def test_a_file_that_another_program_keeps(self) -> None:
        with closing(sqlite3.connect(self.package, isolation_level=None)) as base, patience(0.1):
            base.execute('BEGIN EXCLUSIVE')
            self.edit()
            base.execute('ROLLBACK')
        self.assertIn('database is locked', self.feedback.warnings[0])
        self.assertEqual(self.groups(), ['new.dgn', 'town.dgn'])

    def test_a_geopackage_of_other_columns(self) -> None:
        with closing(sqlite3.connect(self.package, isolation_level=None)) as base:
            base.execute('ALTER TABLE points ADD COLUMN more TEXT')
        self.before = tables(self.package), digest_in(self.package)
        self.ask_beside('another version of this plugin')

    def test_rows_that_can_not_be_written(self) -> None:
        turns, flush = iter([True]), Filling.flush

        def failing(filling: Filling, table: str) -> None:
            if next(turns, False):
                raise Mistake('the disk is full')
            flush(filling, table)

        with mock.patch('dgnedit.package.Filling.flush', failing):
            self.ask_beside('the disk is full')

    def test_layers_stay_those_of_the_old_drawing_where_the_last_step_fails(self) -> None:
        with closing(sqlite3.connect(self.package, isolation_level=None)) as base, patience(0.1):
            rows = base.execute('SELECT * FROM lines')
            rows.fetchone()  # which keeps others from writing, once they come to that
            self.edit()
            rows.close()
        self.assertIn('The layers still show %s: ' % self.town, self.feedback.errors[0])
        self.assertIn('open %s' % self.path('new.dgn'), self.feedback.errors[0])
        self.assertTrue(os.path.exists(self.path('new.dgn')))
        self.assertEqual(self.groups(), ['town.dgn'])
        self.assertEqual((tables(self.package), digest_in(self.package)), self.before)
        self.assertEqual({it.customProperty('dgnedit/drawing') for it in drawing_layers(self.project)}, {self.town})
        # and they can be edited, as the layers of a drawing that nothing has happened to
        self.select('town 12 lines', '"number" = 12')
        self.run_algorithm('look', COLOUR=5, OUTPUT=self.path('again.dgn'))
        self.assertEqual(self.groups(), ['again.dgn'])

    def test_layers_that_are_saved_are_beside_the_old_ones(self) -> None:
        saved = self.path('saved.gpkg')
        words: Dict[str, Any] = {'DRAWING': self.town, 'NUMBERS': '12', 'COLOUR': 5, 'OUTPUT': self.path('new.dgn')}
        self.run_algorithm('look', **words, LAYERS_FILE=saved)
        self.assertEqual(self.groups(), ['new.dgn', 'town.dgn'])
        self.assertEqual((tables(self.package), digest_in(self.package)), self.before)
        self.assertEqual(self.layer('new 12 lines').source().split('|')[0], saved)
        said = self.fails('look', **{**words, 'OUTPUT': self.path('more.dgn')}, LAYERS_FILE=saved, OVERWRITE=True)
        self.assertIn('holds layers of this project', said)


@contextmanager
def patience(seconds: float) -> Iterator[None]:
    """Another program is waited for only so long."""
    with mock.patch('dgnedit.update.PATIENCE', seconds):
        yield


def len_of(share: float) -> None:
    """Nobody is told how far it is."""


if __name__ == '__main__':
    unittest.main()
