"""Every algorithm by qgis_process, without a window."""

import json
import os
import unittest
from pathlib import Path
from typing import Any, Dict, List, Set, Tuple
from unittest import mock

import plugin
from dgnedit.algorithms import ALGORITHMS
from plugin import samples
from process import COMMAND, Profile
from qgis.core import QgsVectorLayer


@unittest.skipUnless(COMMAND, 'qgis_process is not installed')
class ByProcess(samples.WithProgram):
    ran: Set[str] = set()  # the algorithms that were run
    profile: Profile

    @classmethod
    def setUpClass(cls) -> None:
        super().setUpClass()
        cls.profile = Profile(Path(plugin.HOME) / 'process', plugin.TOP / 'qgis' / 'dgnedit', samples.PROGRAM)

    def setUp(self) -> None:
        super().setUp()
        self.town, self.out = self.example('town.dgn'), self.path('new.dgn')
        self.before = Path(self.town).read_bytes()

    def tearDown(self) -> None:
        self.assertEqual(Path(self.town).read_bytes(), self.before)

    def done(self, name: str, **parameters: Any) -> Dict[str, str]:
        """The results of an algorithm."""
        self.ran.add(name)
        status, results, said = self.profile.run(name, **parameters)
        self.assertEqual(status, 0, said)
        return results

    def edited(self, name: str, **parameters: Any) -> Tuple[Dict[str, str], List[Tuple[int, Dict[str, Any]]]]:
        """The results of an edit, and what it changed, as dgnkit says it: elements, and their changes."""
        results = self.done(name, DRAWING=self.town, OUTPUT=self.out, OVERWRITE='true', **parameters)
        self.assertEqual(results['OUTPUT'], self.out)
        found = json.loads(self.said('diff', '--json', self.town, self.out, status=1))['elements']
        return results, [(it['after'], it['changes']) for it in found]

    def count(self, source: str) -> int:
        layer = QgsVectorLayer(source, 'it', 'ogr')
        self.assertTrue(layer.isValid(), source)
        return int(layer.featureCount())

    def test_all_algorithms_have_help(self) -> None:
        status, said, _ = self.profile.said('list')
        self.assertEqual(status, 0)
        names = sorted(it.NAME for it in ALGORITHMS)
        listed = [line.split('\t')[1] for line in said.split('\n') if line.startswith('\tdgnedit:')]
        self.assertEqual(listed, ['dgnedit:' + it for it in names])
        for algorithm in ALGORITHMS:
            made = algorithm()
            made.initAlgorithm()
            self.assertGreater(len(made.shortHelpString()), 100, algorithm)
            self.assertTrue(made.shortDescription().endswith('.'), algorithm)
            page = made.shortHelpString().split('\n')
            self.assertTrue(algorithm.CHANGES.endswith('.') and algorithm.CHANGES in page, algorithm)
            for it in made.parameterDefinitions():
                self.assertTrue(it.help().endswith('.'), (algorithm, it.name()))
                self.assertIn('<b>%s</b>: %s' % (it.description(), it.help()), page)
            for it in (it for it in made.outputDefinitions() if made.parameterDefinition(it.name()) is None):
                self.assertIn('<b>%s</b>: %s' % (it.name(), it.description()), page)

    def test_help_is_where_the_metadata_say(self) -> None:
        cases = (
            '',
            'repository=https://example.org/r',
            'homepage=https://example.org/h\nrepository=https://example.org/r',
        )
        wanted = ('', 'https://example.org/r', 'https://example.org/h')
        for said, address in zip(cases, wanted):
            self.put('metadata.txt', '[general]\nabout=100% of it\n' + said)
            with mock.patch('dgnedit.algorithms.pages.PLUGIN', self.folder):
                self.assertEqual(ALGORITHMS[0]().helpUrl(), address)

    def test_open(self) -> None:
        made = self.done('open', DRAWING=self.town, OUTPUT=self.path('town.gpkg'), CRS='EPSG:25832')
        counts = {it: self.count(made[it]) for it in ('LINES', 'AREAS', 'POINTS', 'TEXTS', 'RANGES')}
        self.assertEqual(counts, {it: int(made[it + '_COUNT']) for it in counts})
        self.assertEqual(QgsVectorLayer(made['LINES'], 'it', 'ogr').crs().authid(), 'EPSG:25832')

    def test_check_mend_and_compare(self) -> None:
        made = self.done('check', DRAWING=self.town, OUTPUT=self.path('findings.gpkg'))
        self.assertEqual(self.count(made['OUTPUT']), int(made['COUNT']))
        self.assertEqual(made['COUNT'], '11')
        made, changes = self.edited('mend', TABLE=self.path('mended.gpkg'), PATCH=self.path('m.patch'))
        self.assertEqual((made['BEFORE'], made['AFTER'], self.count(made['TABLE'])), ('11', '0', 5))
        # two roads whose bit C is cleared, and three parcels with another total
        self.assertEqual([list(it) for _, it in changes], [['bit_c']] * 2 + [['total']] * 3)
        made = self.done('compare', FIRST=self.town, SECOND=self.out, OUTPUT=self.path('changes.gpkg'))
        self.assertEqual((made['COUNT'], self.count(made['OUTPUT'])), ('5', 5))

    def test_find(self) -> None:
        made = self.done('find', DRAWING=self.town, LEVEL='5,30', OUTPUT=self.path('found.gpkg'))
        self.assertEqual((made['NUMBERS'], self.count(made['OUTPUT'])), ('44-45', 2))
        made, changes = self.edited('look', TABLE=made['OUTPUT'], COLOUR=3)
        self.assertEqual((made['ACCEPTED'], [number for number, _ in changes]), ('2', [44, 45]))

    def test_commands(self) -> None:
        cases: List[Tuple[str, Dict[str, Any], int, str]] = [
            ('move', {'DX': 2.5, 'DY': -1}, 44, 'moved'),
            ('copy', {'DX': 2.5}, 54, 'appended'),
            ('look', {'WEIGHT': 4}, 44, 'looks'),
            ('delete', {}, 44, 'deleted'),
        ]
        for name, more, number, change in cases:
            saved = {'SCRIPT': self.path('s.txt'), 'PATCH': self.path('p.patch')}
            made, changes = self.edited(name, NUMBERS=44, **more, **saved)
            self.assertEqual([(it, list(facts)) for it, facts in changes], [(number, [change])])
            if name == 'move':
                self.assertEqual(changes[0][1]['moved']['resolution'], [2500, -1000])
            self.assertEqual((made['ACCEPTED'], made['REFUSED_COUNT']), ('1', '0'))
            self.assertTrue(Path(made['SCRIPT']).read_text().endswith('\n'))
            patched = self.path('patched-%s.dgn' % name)
            self.done('patch', DRAWING=self.town, PATCH=made['PATCH'], OUTPUT=patched)
            self.assertEqual(Path(patched).read_bytes(), Path(self.out).read_bytes())
        self.done('script', DRAWING=self.town, SCRIPT=self.path('s.txt'), OUTPUT=self.path('scripted.dgn'))
        self.assertEqual(Path(self.path('scripted.dgn')).read_bytes(), Path(self.out).read_bytes())

    def test_fields(self) -> None:
        cases: List[Tuple[str, Dict[str, Any], Dict[str, Any]]] = [
            ('relevel', {'LEVEL': 6}, {'level': [40, 6]}),
            ('retext', {'NEW': 'DN 99'}, {'text': ['DN 150', 'DN 99']}),
            ('lock', {}, {'locked': True}),
        ]
        for name, more, wanted in cases:
            _, changes = self.edited(name, NUMBERS=46, **more)
            self.assertEqual(changes, [(46, wanted)])
        self.done('unlock', DRAWING=self.out, NUMBERS=46, OUTPUT=self.path('unlocked.dgn'))
        self.assertEqual(Path(self.path('unlocked.dgn')).read_bytes(), self.before)
        self.program.edit(self.town, samples.Script().delete(46), self.path('deleted.dgn'))
        self.done('undelete', DRAWING=self.path('deleted.dgn'), NUMBERS=46, OUTPUT=self.path('back.dgn'))
        self.assertEqual(Path(self.path('back.dgn')).read_bytes(), self.before)

    def test_draw(self) -> None:
        cases: List[Tuple[str, Dict[str, Any]]] = [
            ('draw', {'GEOMETRY': 'LineString (1010 2020, 1030 2040)'}),
            ('text', {'PLACE': '1010,2020', 'TEXT': 'north gate', 'HEIGHT': 2.5}),
        ]
        for name, more in cases:
            made, changes = self.edited(name, LEVEL=7, **more)
            self.assertEqual((made['ACCEPTED'], changes), ('1', [(54, {'appended': True})]))

    def test_what_is_refused_is_a_table(self) -> None:
        made, _ = self.edited('look', NUMBERS='15,44', COLOUR=3, REFUSED=self.path('refused.gpkg'))
        self.assertEqual((made['ACCEPTED'], made['REFUSED_COUNT'], self.count(made['REFUSED'])), ('1', '1', 1))

    def test_mistakes_are_sentences_and_nothing_is_written(self) -> None:
        cut = self.put('cut.dgn', self.before[:2000])
        there = sorted(os.listdir(self.folder))
        cases: List[Tuple[str, Dict[str, Any], str]] = [
            ('open', {'DRAWING': cut, 'OUTPUT': self.path('x.gpkg')}, 'cut.dgn'),
            ('look', {'DRAWING': self.town, 'COLOUR': 3, 'OUTPUT': self.out}, 'Nothing is selected'),
            ('lock', {'DRAWING': self.town, 'NUMBERS': 99, 'OUTPUT': self.out}, '0 to 53'),
            ('move', {'DRAWING': self.town, 'NUMBERS': 4, 'OUTPUT': self.town}, self.town),
        ]
        for name, more, words in cases:
            status, _, said = self.profile.run(name, **more)
            self.assertEqual(status, 1, said)
            self.assertIn(words, said)
            self.assertNotIn('Traceback', said)
        self.assertEqual(sorted(os.listdir(self.folder)), there)

    @classmethod
    def tearDownClass(cls) -> None:
        left = {it.NAME for it in ALGORITHMS} - cls.ran
        assert not left or not samples.PROGRAM, 'not run by qgis_process: %s' % left


if __name__ == '__main__':
    unittest.main()
