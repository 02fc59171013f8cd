"""What is said in QGIS names the plugin's commands and parameters, and not the command line; and what can be said to
it: texts with umlauts, distances, tables."""

import re
import unittest
from pathlib import Path
from typing import Any, Dict, List

import plugin
from dgnedit.wording import here
from plugin import samples
from qgis.core import QgsFeature, QgsProcessingParameterFeatureSource, QgsVectorLayer
from samples import drawings, plan

SOURCES = plugin.TOP / 'dgnkit' / 'src' / 'dgnkit'
OF_THE_PLUGIN = re.compile('`dgnkit (?:mend|lock|unlock|undelete|relevel|retext)')
LINE = plan.line(1, (0, 0), (1000, 1000))


class Words(plugin.InQgis):
    def setUp(self) -> None:
        super().setUp()
        self.out = self.path('out.dgn')

    def refused(self, name: str, **parameters: Any) -> List[str]:
        """Why an edit was refused, each with the command."""
        made = self.run_algorithm(name, OUTPUT=self.out, REFUSED='memory:', OVERWRITE=True, OPEN=False, **parameters)
        return ['%s: %s' % it for it in self.rows(made['REFUSED'], 'command', 'why')]

    def test_what_is_refused_names_the_commands_of_the_menu(self) -> None:
        street = self.example('street.dgn')
        # examples/make_street.py: 9 is locked, and 18 is an orphan
        said = self.refused('look', DRAWING=street, NUMBERS='9,18', COLOUR=3, TREES=False)
        self.assertEqual([it.split(': ')[0] for it in said], ['Colour, weight and style'] * 2)
        self.assertIn('"Unlock" unlocks it', said[0])
        self.assertIn('"Mend a drawing"', said[1])
        said += self.refused('relevel', DRAWING=street, NUMBERS='9', LEVEL=3)
        self.assertIn('locked; "Unlock" unlocks', said[2])
        said += self.feedback.warnings
        self.assertEqual([it for it in said if 'dgnkit' in it or '--' in it], [])

    def test_each_command_of_dgnkit_that_the_plugin_has_is_named_as_here(self) -> None:
        for path in sorted(it for it in SOURCES.rglob('*.py') if 'commands' not in it.parts):
            for line in path.read_text(encoding='utf-8').split('\n'):
                self.assertNotRegex(here(line), OF_THE_PLUGIN, path)

    def test_parameters_that_are_missing_are_named_as_in_the_dialogue(self) -> None:
        said = self.fails('find', DRAWING=self.example('town.dgn'), WITHIN=5)
        self.assertIn('"Within this distance"', said)
        self.assertNotIn('--', said)
        titles = {it.description() for it in plugin.PROVIDER.algorithm('find').parameterDefinitions()}
        self.assertLessEqual(set(re.findall('"(.*?)"', said)), titles)

    def test_umlauts(self) -> None:
        words: Dict[str, Any] = {'OUTPUT': self.out, 'NUMBERS': '1', 'NEW': 'Grün', 'OVERWRITE': True, 'OPEN': False}
        plain = self.put('plain.dgn', drawings.drawing(plan.text(3, (0, 0), b'DN 150'), LINE))
        said = self.fails('retext', DRAWING=plain, **words)
        self.assertIn('name their encoding with "Encoding of characters beyond ASCII"', said)
        titles = [it.description() for it in plugin.PROVIDER.algorithm('retext').parameterDefinitions()]
        self.assertIn('Encoding of characters beyond ASCII', titles)
        other = plan.text(3, (0, 0), b'Stra\xdfe')
        mixed = self.put('mixed.dgn', drawings.drawing(plan.text(3, (0, 0), b'DN 150'), other, LINE))
        for drawing, encoding, bytes_there in (
            (plain, 1, 'Grün'.encode('utf-8')),
            (plain, 2, 'Grün'.encode('latin-1')),
            (mixed, 0, 'Grün'.encode('latin-1')),
            (mixed, 1, 'Grün'.encode('utf-8')),
        ):
            self.run_algorithm('retext', DRAWING=drawing, ENCODING=encoding, **words)
            self.assertEqual(samples.Drawing(self.out, self.program).elements[1].characters, bytes_there)

    def test_distances_that_are_none(self) -> None:
        town = self.example('town.dgn')
        words = {'DRAWING': town, 'NUMBERS': '12', 'OUTPUT': self.out}
        self.assertIn('Nothing would be moved: give a distance', self.fails('move', DX=0, DY=0, **words))
        self.assertIn('The copy would lie where it was copied', self.fails('copy', **words))
        for name in ('move', 'copy'):
            self.assertIn('nothing smaller than 0.001 m', self.fails(name, DX=0.0004, **words))
        self.assertFalse(Path(self.out).exists())
        self.run_algorithm('move', DX=2, DY=0.0001, **words)
        self.assertIn('taken as 0', ' '.join(self.feedback.warnings))

    def test_tables_without_places(self) -> None:
        town = self.example('town.dgn')
        layer = QgsVectorLayer('NoGeometry?field=number:integer', 'numbers', 'memory')
        row = QgsFeature(layer.fields())
        row.setAttributes([12])
        layer.dataProvider().addFeatures([row])
        self.project.addMapLayer(layer)
        parameter = plugin.PROVIDER.algorithm('look').parameterDefinition('TABLE')
        self.assertIsInstance(parameter, QgsProcessingParameterFeatureSource)
        self.assertTrue(parameter.checkValueIsAcceptable(layer.id()))
        self.assertEqual(parameter.dataTypes(), [5])  # tables, with places or without
        comma = self.put('comma.csv', 'name,number\npipe,12\n')
        semicolon = self.put('semicolon.csv', '\ufeffnumber;name\r\n12;"pipe"\r\n')
        tables: List[Dict[str, Any]] = [{'TABLE': it} for it in (layer, comma, semicolon)]
        tables += [{'FILE': it} for it in (comma, semicolon, self.put('list.csv', '12\n'))]
        for index, table in enumerate(tables):
            out = self.path('out-%d.dgn' % index)
            self.run_algorithm('look', DRAWING=town, COLOUR=9, OUTPUT=out, OPEN=False, **table)
            self.assertEqual([name for name, _ in self.changes(town, out)], ['line string 12'], table)
        said = self.fails('look', DRAWING=town, COLOUR=9, OUTPUT=self.out, FILE=self.put('other.csv', 'name\npipe\n'))
        self.assertIn("there is no column 'number'", said)


if __name__ == '__main__':
    unittest.main()
