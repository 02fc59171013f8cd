"""Find, check, mend and compare; scripts and patch files."""

import json
import re
import unittest
from pathlib import Path
from typing import Any, Dict, List, Tuple

import plugin
from dgnedit.wording import here
from plugin import ogr, samples
from qgis.core import (
    QgsCoordinateReferenceSystem,
    QgsPointXY,
    QgsProcessingContext,
    QgsProcessingModelAlgorithm,
    QgsProcessingModelChildAlgorithm,
    QgsProcessingModelChildParameterSource,
    QgsProcessingModelOutput,
    QgsRectangle,
)
from samples import drawings


class Finds(plugin.InQgis):
    def setUp(self) -> None:
        super().setUp()
        self.town = self.example('town.dgn')

    def numbers(self, *words: str) -> str:
        """What dgnkit finds by these conditions."""
        return ','.join(sorted(self.said('find', self.town, '--numbers', *words).split(), key=int))

    def found(self, **parameters: Any) -> str:
        made = self.run_algorithm('find', DRAWING=self.town, OUTPUT='memory:', **parameters)
        rows = [number for number, in self.rows(made['OUTPUT'], 'number')]
        self.assertEqual((made['COUNT'], rows), (len(rows), expanded(made['NUMBERS'])))
        return ','.join(map(str, rows))

    def test_conditions_are_those_of_dgnkit(self) -> None:
        box, corners = QgsRectangle(1135, 2075, 1160, 2095), ['1135,2075', '1160,2095']
        cases: List[Tuple[Dict[str, Any], List[str]]] = [
            ({'LEVEL': '12'}, ['--level', '12']),
            ({'LEVEL': '>20'}, ['--level', '>20']),
            ({'TYPE': 'text', 'TEXT': 'OLD'}, ['--type', 'text', '--text', 'OLD']),
            ({'TEXT': 'old', 'IGNORE_CASE': True}, ['--text', 'old', '--ignore-case']),
            ({'PATTERN': '^DN'}, ['--pattern', '^DN']),
            ({'CELL': 'V*'}, ['--cell', 'V*']),
            ({'COLOUR': '1-5', 'WEIGHT': '<5'}, ['--color', '1-5', '--weight', '<5']),
            ({'SIZE': '>0.5'}, ['--size', '>0.5']),
            ({'NUMBER': '3-5,9'}, ['--number', '3-5,9']),
            ({'BROKEN': True, 'TREES': True}, ['--broken', '--trees']),
            ({'BOX': box}, ['--inside', *corners]),
            ({'BOX': box, 'BOX_MODE': 1}, ['--overlap', *corners]),
            ({'BOX': box, 'BOX_MODE': 2}, ['--crossing', *corners]),
            ({'BOX': box, 'BOX_MODE': 3}, ['--void', *corners]),
            ({'NEAR': '1049.5,2032', 'WITHIN': 5}, ['--near', '1049.5,2032', '--within', '5']),
            ({'NEAR': '1049.5,2032', 'NEAREST': 2}, ['--near', '1049.5,2032', '--nearest', '2']),
        ]
        for parameters, words in cases:
            self.assertEqual(self.found(**parameters), self.numbers(*words), parameters)

    def test_what_is_found_is_selected(self) -> None:
        self.open(self.town)
        self.found(LEVEL='5,30')
        self.assertEqual(self.selected(), {'town 5 areas': [44], 'town 30 lines': [45]})
        self.found(TEXT='OLD', METHOD=1)
        self.assertEqual(self.selected(), {'town 5 areas': [44], 'town 30 lines': [45], 'town 41 texts': [49]})
        self.found(TEXT='DN')
        self.assertEqual(self.selected(), {'town 40 texts': [46, 47]})
        self.found(LEVEL='12', METHOD=2)
        self.assertEqual(self.selected(), {'town 40 texts': [46, 47]})

    def test_a_member_of_a_chain_selects_the_chain(self) -> None:
        self.town = self.mended(self.town)
        self.open(self.town)
        self.found(NUMBER='18')
        self.assertEqual(self.selected(), {'mended 12 lines': [15]})
        self.found(NUMBER='37')
        self.assertEqual(self.selected(), {'mended 20 areas': [35]})

    def test_a_selection_is_edited(self) -> None:
        self.open(self.town)
        self.found(LEVEL='5,30')
        made = self.run_algorithm('look', COLOUR=4, OUTPUT=self.path('new.dgn'))
        self.assertEqual(made['ACCEPTED'], 2)

    def test_in_a_model(self) -> None:
        model = QgsProcessingModelAlgorithm('recolour', 'tests')
        value, output = QgsProcessingModelChildParameterSource.fromStaticValue, QgsProcessingModelOutput('new', 'new')
        output.setChildOutputName('OUTPUT')
        for name, parameters in [
            ('find', {'LEVEL': value('5,30'), 'METHOD': value(2)}),
            ('look', {'COLOUR': value(4), 'OPEN': value(False)}),
        ]:
            child = QgsProcessingModelChildAlgorithm('dgnedit:' + name)
            child.setChildId(name)
            for key, source in {'DRAWING': value(self.town), **parameters}.items():
                child.addParameterSources(key, [source])
            if name == 'look':
                source = QgsProcessingModelChildParameterSource.fromChildOutput('find', 'OUTPUT')
                child.addParameterSources('TABLE', [source])
                child.setModelOutputs({'new': output})
            model.addChildAlgorithm(child)
        out = self.path('new.dgn')
        context = QgsProcessingContext()
        name = model.outputDefinitions()[0].name()  # the child's name in front of it, or nothing
        results, is_done = model.run({name: out}, context, self.feedback)
        self.assertTrue(is_done, self.feedback.warnings)
        self.assertEqual(results[name], out)
        self.assertEqual([it for it, _ in self.changes(self.town, out)], ['shape 44', 'line string 45'])

    def test_nothing_is_found(self) -> None:
        self.assertEqual(self.found(LEVEL='33'), '')
        _, _, said = self.kit('find', self.town, '--level', '33')
        self.assertEqual(self.feedback.warnings[0], said.split('\n')[-2])

    def test_conditions_that_can_not_be_read(self) -> None:
        for parameters, words in [
            ({'LEVEL': '99'}, ['--level', '99']),
            ({'TYPE': 'blob'}, ['--type', 'blob']),
            ({'PATTERN': '('}, ['--pattern', '(']),
            ({'NEAR': '1,2'}, ['--near', '1,2']),
        ]:
            said = self.fails('find', DRAWING=self.town, **parameters)
            self.assertEqual(said, here(self.sentence('find', self.town, *words)))

    def selected(self) -> samples.Json:
        layers = self.project.mapLayers().values()
        found = {it.name(): sorted(row['number'] for row in it.getSelectedFeatures()) for it in layers}
        return {name: numbers for name, numbers in found.items() if numbers}


def expanded(text: str) -> list[int]:
    """The numbers of a text as 3-5,9."""
    spans = [[int(it) for it in piece.split('-')] for piece in text.split(',')] if text else []
    return [number for span in spans for number in range(span[0], span[-1] + 1)]


class Checks(plugin.InQgis):
    def test_units_of_resolution(self) -> None:
        path = self.example('town.dgn')
        boxes = []
        for units in (0, 2):
            made = self.run_algorithm('check', DRAWING=path, UNITS=units, OUTPUT='memory:')
            boxes.append(self.table(made['OUTPUT'])[0].geometry().boundingBox().width())
        self.assertAlmostEqual(boxes[1] / boxes[0], 1000, places=3)

    def test_findings_are_those_of_dgnkit(self) -> None:
        for name in ('town.dgn', 'street.dgn', 'plan.dgn'):
            path = self.example(name)
            made = self.run_algorithm('check', DRAWING=path, OUTPUT='memory:')
            status, said, _ = self.kit('health', '-v', path)
            wanted = sorted(it.strip() for it in said.split('\n')[1:-1])
            self.assertEqual(sorted(it for it, in self.rows(made['OUTPUT'], 'finding')), wanted)
            self.assertEqual((made['COUNT'], bool(made['COUNT'])), (len(wanted), status == 1))

    def test_each_finding_has_a_box_around_its_element(self) -> None:
        path = self.example('town.dgn')
        made = self.run_algorithm('check', DRAWING=path, OUTPUT='memory:')
        drawing = samples.Drawing(path, self.program)
        for row in self.table(made['OUTPUT']):
            low, high = drawing.elements[row['number']].range or ((), ())
            corners = [drawing.units.to_master(it) for it in (low, high)]
            box = row.geometry().boundingBox()
            self.assertTrue(box.contains(QgsRectangle(*corners[0][:2], *corners[1][:2])), row['number'])
            self.assertLess(box.width() - (corners[1][0] - corners[0][0]), 2)

    def test_what_is_there_more_than_once_and_a_missing_end(self) -> None:
        two = drawings.drawing(drawings.line(), drawings.line())
        made = self.run_algorithm('check', DRAWING=self.put('two.dgn', two[:-2]), OUTPUT='memory:')
        rows = self.rows(made['OUTPUT'], 'number', 'root', 'kind')
        self.assertEqual(rows, [(1, 1, 'duplicate'), (None, None, 'no end mark')])


class Mends(plugin.InQgis):
    @unittest.skipUnless(samples.OGR, 'GDAL is not installed')
    def test_what_gdal_wrote(self) -> None:
        source = ogr.made(self, ogr.parcels() + ogr.roads() + ogr.labels())
        before = ogr.features_of(self, source)
        made = self.run_algorithm(
            'mend', DRAWING=source, OUTPUT=self.path('new.dgn'), TABLE='memory:', PATCH=self.path('new.patch')
        )
        self.assertGreater(made['BEFORE'], 10)
        self.assertEqual(made['AFTER'], 0)
        self.assertEqual(self.said('health', self.path('new.dgn')).split(' (')[0], self.path('new.dgn') + ': ok')
        self.assertEqual([bare(it) for it in ogr.features_of(self, self.path('new.dgn'))], [bare(it) for it in before])
        self.said('mend', source, self.path('dgnkit.patch'))
        self.assertEqual(Path(self.path('new.patch')).read_bytes(), Path(self.path('dgnkit.patch')).read_bytes())
        becomes = {it for it, in self.rows(made['TABLE'], 'becomes')}
        self.assertEqual(becomes, {'mended'})
        self.assertEqual(self.groups(), ['new.dgn'])

    def test_what_is_left_has_its_reason(self) -> None:
        header = drawings.with_total(drawings.element(12, 12, 40), 999)
        path = self.put('in.dgn', drawings.drawing(header, drawings.line(True)))
        made = self.run_algorithm('mend', DRAWING=path, OUTPUT=self.path('new.dgn'), TABLE='memory:')
        rows = self.rows(made['TABLE'], 'number', 'becomes', 'why')
        self.assertEqual([row[:2] for row in rows], [(1, 'left'), (2, 'left')])
        left = json.loads(self.said('mend', path, '--dry-run', '--json'))['left']
        self.assertEqual([{'element': row[0], 'why': row[2]} for row in rows], left)
        self.assertEqual(Path(self.path('new.dgn')).read_bytes(), Path(path).read_bytes())


def bare(feature: str) -> str:
    """A feature of ogrinfo without the name of its layer."""
    return re.sub(r'^OGRFeature\(\w+\)', '', feature)


class Compares(plugin.InQgis):
    def test_changes_are_those_of_dgnkit(self) -> None:
        first, second = self.example('plan.dgn'), self.path('second.dgn')
        script = samples.Script().move(6, 1000, 75).color(5, 1).delete(4).copy(2, 10, 10)
        self.program.edit(first, script, second)
        made = self.run_algorithm('compare', FIRST=first, SECOND=second, OUTPUT='memory:')
        rows = self.rows(made['OUTPUT'], 'is', 'words')
        wanted = self.said('diff', first, second, status=1).split('\n')[:-2]
        self.assertEqual(['%s: %s' % it for it in rows], wanted)
        places = self.rows(made['OUTPUT'], 'before', 'after', 'changes')
        self.assertEqual(places[0], (4, 4, 'deleted'))
        self.assertEqual(places[-1], (None, 12, 'appended'))
        moved = next(it for it in self.table(made['OUTPUT']) if it['before'] == 6)
        self.assertTrue(moved.geometry().contains(QgsPointXY(2000, 575)))

    def test_the_same_drawing(self) -> None:
        path = self.example('plan.dgn')
        made = self.run_algorithm('compare', FIRST=path, SECOND=path, OUTPUT='memory:')
        self.assertEqual((made['COUNT'], self.table(made['OUTPUT'])), (0, []))

    def test_the_table_has_the_system_of_the_layers(self) -> None:
        path = self.example('town.dgn')
        self.open(path, CRS=QgsCoordinateReferenceSystem('EPSG:25832'))
        made = self.run_algorithm('compare', FIRST=self.example('plan.dgn'), SECOND=path, OUTPUT='memory:')
        self.assertEqual(made['OUTPUT'].crs().authid(), 'EPSG:25832')


class Scripts(plugin.InQgis):
    def test_a_script_of_a_file(self) -> None:
        drawing, script = self.example('plan.dgn'), self.example('plan.txt')
        made = self.run_algorithm('script', DRAWING=drawing, SCRIPT=script, OUTPUT=self.path('new.dgn'))
        self.program.edit(drawing, samples.Script.read(script), self.path('wanted.dgn'))
        self.assertEqual(Path(self.path('new.dgn')).read_bytes(), Path(self.path('wanted.dgn')).read_bytes())
        self.assertEqual((made['ACCEPTED'], made['REFUSED_COUNT']), (5, 0))
        self.assertEqual(self.groups(), ['new.dgn'])

    def test_lines_of_which_some_are_refused(self) -> None:
        made = self.run_algorithm(
            'script',
            DRAWING=self.example('plan.dgn'),
            LINES='# the border is locked\ncolor 1 4\ncolor 99 1\ncolor 5 2\ntree 6',
            OUTPUT=self.path('new.dgn'),
            REFUSED='memory:',
        )
        rows = self.rows(made['REFUSED'], 'number', 'command', 'why')
        self.assertEqual([row[:2] for row in rows], [(1, 'line 2: color 1 4'), (99, 'line 3: color 99 1')])
        self.assertIn('locked', rows[0][2])
        self.assertIn('element 99', rows[1][2])
        self.assertIn('6 0 2 10 group live', self.feedback.lines)

    def test_a_bad_line_is_a_sentence(self) -> None:
        said = self.fails(
            'script', DRAWING=self.example('town.dgn'), LINES='color 1 2\nmove 2 2.5 0', OUTPUT=self.path('new.dgn')
        )
        self.assertIn('line 2 of lines.txt', said)
        self.assertIn('2500', said)  # what 2.5 m are in units of resolution
        self.assertFalse(Path(self.path('new.dgn')).exists())

    def test_a_patch_file(self) -> None:
        drawing, patch = self.example('plan.dgn'), self.path('p.patch')
        ran = self.program.run('pack', drawing, self.example('plan.txt'), patch)
        self.assertEqual(ran.status, 0)
        made = self.run_algorithm('patch', DRAWING=drawing, PATCH=patch, OUTPUT=self.path('new.dgn'))
        self.assertEqual(made['ACCEPTED'], 4)  # the four edits of the script, whose fence is none
        self.program.apply(drawing, patch, self.path('wanted.dgn'))
        self.assertEqual(Path(self.path('new.dgn')).read_bytes(), Path(self.path('wanted.dgn')).read_bytes())
        said = self.fails('patch', DRAWING=self.path('new.dgn'), PATCH=patch, OUTPUT=self.path('again.dgn'))
        self.assertEqual(said, self.sentence('run', self.path('new.dgn'), patch, self.path('again.dgn')))
        self.assertFalse(Path(self.path('again.dgn')).exists())


if __name__ == '__main__':
    unittest.main()
