"""Edits of what is selected: the new drawing, its layers, and what was refused."""

import os
import unittest
from pathlib import Path
from typing import Any, Dict, List, Tuple

import plugin
from plugin import samples
from qgis.core import QgsGeometry
from samples import drawings, plan


class Edits(plugin.InQgis):
    def setUp(self) -> None:
        super().setUp()
        self.example('town.dgn')
        self.town = self.mended(self.path('town.dgn'))
        self.out, self.count = self.path('new.dgn'), 0

    def edit(self, name: str, **parameters: Any) -> Dict[str, Any]:
        """Runs an edit, asks that the old drawing is as it was, and gives the results."""
        old = Path(self.town).read_bytes()
        self.count += 1
        self.out = self.path('new-%d.dgn' % self.count if self.count > 1 else 'new.dgn')
        made = self.run_algorithm(name, **{'OUTPUT': self.out, 'REFUSED': self.path('refused.gpkg'), **parameters})
        self.assertEqual(Path(self.town).read_bytes(), old)
        return made

    def changed(self) -> List[str]:
        """The elements that differ between the old drawing and the new one."""
        return [name for name, _ in self.changes(self.town, self.out)]

    def facts(self) -> List[Dict[str, Any]]:
        """How each of them differs."""
        return [facts for _, facts in self.changes(self.town, self.out)]

    def geometries(self, layer: str) -> Dict[int, QgsGeometry]:
        return {it['number']: it.geometry() for it in self.layer(layer).getFeatures()}

    def test_a_parcel_is_moved_with_its_hole(self) -> None:
        self.open(self.town)
        before = self.geometries('mended 20 areas')
        self.select('mended 20 areas', '"number" = 35')
        made = self.edit('move', DX=2.5, DY=-1)
        self.assertEqual((made['ACCEPTED'], made['REFUSED_COUNT']), (1, 0))
        self.assertEqual(self.groups(), ['new.dgn'])
        after = self.geometries('new 20 areas')
        self.assertEqual(sorted(after), sorted(before))
        for number, geometry in before.items():
            if number == 35:
                geometry.translate(2.5, -1)
            self.assertEqual(after[number].asWkt(6), geometry.asWkt(6), number)
        self.assertEqual(len(after[35].asPolygon()), 2)
        self.assertEqual(self.changed(), ['cell 35', 'shape 36', 'shape 37'])

    def test_a_road_is_recoloured_whole(self) -> None:
        self.open(self.town)
        self.select('mended 12 lines', '"number" = 15')
        made = self.edit('look', COLOUR=3, WEIGHT=7, SCRIPT=self.path('s.txt'), PATCH=self.path('p.patch'))
        self.assertEqual(made['ACCEPTED'], 1)
        road = next(it for it in self.layer('new 12 lines').getFeatures() if it['number'] == 15)
        self.assertEqual((road['rgb'], road['weight']), ('#ff0000', 7))
        # the chain and its nine members, and nothing else
        self.assertEqual(len(self.changed()), 10)
        self.assertEqual(Path(made['SCRIPT']).read_text(), 'sym 15 3 7 -\n')
        self.program.apply(self.town, made['PATCH'], self.path('patched.dgn'))
        self.assertEqual(Path(self.path('patched.dgn')).read_bytes(), Path(self.out).read_bytes())

    def test_what_is_refused_is_a_table_and_the_rest_is_done(self) -> None:
        self.town = self.example('street.dgn')
        self.open(self.town)
        self.select('street 12 lines', '"level" = 12')
        chosen = sorted(it['number'] for it in self.layer('street 12 lines').getSelectedFeatures())
        made = self.edit('look', COLOUR=5, SCRIPT=self.path('s.txt'))
        rows = self.rows(made['REFUSED'], 'number', 'root', 'command', 'why')
        # examples/make_street.py: 9 is locked, and 17 is a chain with bit C, whose members 18 and 19 are orphans
        self.assertIn(9, chosen)
        self.assertEqual([row[0] for row in rows if row[0] != 9], [it for it in chosen if it in (17, 18, 19)])
        locked = next(row for row in rows if row[0] == 9)
        self.assertEqual(locked[:2], (9, 9))
        self.assertIn('line string 9 on level 12', locked[3])
        self.assertEqual(made['REFUSED_COUNT'], len(rows))
        self.assertEqual(made['ACCEPTED'] + len(rows), len(chosen))
        boxes = [it.geometry() for it in self.table(made['REFUSED'])]
        self.assertTrue(all(not it.isEmpty() for it in boxes))
        script = Path(made['SCRIPT']).read_text().split('\n')[:-1]
        self.assertEqual(script, ['sym %d 5 - -' % it for it in chosen if it not in [row[0] for row in rows]])

    def test_whole_trees_or_not(self) -> None:
        # the valve of examples/make_town: a cell of two lines
        self.open(self.town)
        self.edit('look', COLOUR=4, NUMBERS='52', OPEN=False)
        self.assertEqual(self.changed(), ['cell 51 VLV', 'line 52', 'line 53'])
        self.edit('look', COLOUR=4, NUMBERS='52', TREES=False, OPEN=False)
        self.assertEqual(self.changed(), ['line 52'])
        self.edit('look', COLOUR=4, NUMBERS='51-53', TREES=False, OPEN=False)
        self.assertEqual(len(self.changed()), 3)

    def test_a_member_that_is_moved_with_its_header_is_moved_once(self) -> None:
        self.edit('move', DRAWING=self.town, NUMBERS='51,52', DX=1, TREES=False)
        self.assertEqual([it['moved']['resolution'] for it in self.facts()], [[1000, 0]] * 3)

    def test_copy_and_delete(self) -> None:
        self.edit('copy', DRAWING=self.town, NUMBERS='44', DX=20, DY=-5)
        self.assertEqual(self.changes(self.town, self.out), [('shape 54', {'appended': True})])
        made = samples.Drawing(self.out, self.program)
        shift = [b - a for a, b in zip(made.elements[44].points[0], made.elements[54].points[0])]
        self.assertEqual(shift, [20000, -5000])
        self.edit('delete', DRAWING=self.town, NUMBERS='44')
        self.assertEqual(self.changes(self.town, self.out), [('shape 44', {'deleted': True})])

    def test_temporary_files(self) -> None:
        names = {it: 'TEMPORARY_OUTPUT' for it in ('OUTPUT', 'SCRIPT', 'PATCH')}
        made = self.edit('look', DRAWING=self.town, NUMBERS='44', COLOUR=2, **names)
        self.assertEqual(Path(made['SCRIPT']).read_text(), 'sym 44 2 - -\n')
        self.program.apply(self.town, made['PATCH'], self.path('patched.dgn'))
        self.assertEqual(Path(self.path('patched.dgn')).read_bytes(), Path(made['OUTPUT']).read_bytes())

    def test_style(self) -> None:
        self.edit('look', DRAWING=self.town, NUMBERS='45', STYLE=0)
        self.edit('look', DRAWING=self.town, NUMBERS='45', STYLE=3)
        self.assertEqual(samples.Drawing(self.out, self.program).elements[45].style, 3)
        self.assertEqual(self.changes(self.town, self.out), [('line string 45', {'looks': {'style': [0, 3]}})])

    def test_another_level_of_a_whole_tree(self) -> None:
        self.open(self.town)
        self.select('mended 20 areas', '"number" = 35')
        made = self.edit('relevel', LEVEL=21, PATCH=self.path('p.patch'))
        self.assertEqual(made['ACCEPTED'], 3)
        self.assertEqual(sorted(self.geometries('new 21 areas')), [35])
        self.assertEqual([it['level'] for it in self.facts()], [[20, 21], [0, 21], [0, 21]])
        self.program.apply(self.town, made['PATCH'], self.path('patched.dgn'))
        self.assertEqual(Path(self.path('patched.dgn')).read_bytes(), Path(self.out).read_bytes())

    def test_lock_and_unlock(self) -> None:
        self.edit('lock', DRAWING=self.town, NUMBERS='44-45')
        self.assertEqual(self.facts(), [{'locked': True}] * 2)
        locked, self.out = self.out, self.path('again.dgn')
        made = self.run_algorithm('lock', DRAWING=locked, NUMBERS='43-45', OUTPUT=self.out, REFUSED='memory:')
        self.assertEqual(made['ACCEPTED'], 3)  # the parcel 41 with its rings 42 and 43
        refused = self.rows(made['REFUSED'], 'number', 'why')
        self.assertEqual([(number, 'locked' in why) for number, why in refused], [(44, True), (45, True)])
        unlocked = self.path('unlocked.dgn')
        self.run_algorithm('unlock', DRAWING=locked, NUMBERS='44-45', OUTPUT=unlocked)
        self.assertEqual(Path(unlocked).read_bytes(), Path(self.town).read_bytes())

    def test_texts(self) -> None:
        self.open(self.town)
        self.select('mended 40 texts', "\"text\" = 'DN 150'")
        self.edit('retext', OLD='150', NEW='200')
        self.assertEqual([it['text'] for it in self.facts()], [['DN 150', 'DN 200']] * 2)
        self.assertEqual({it['text'] for it in self.layer('new 40 texts').getFeatures()}, {'DN 200'})
        self.edit('retext', NUMBERS='46', DRAWING=self.town, NEW='\\1 x')
        self.assertEqual([it['text'] for it in self.facts()], [['DN 150', '\\1 x']])
        self.edit('retext', NUMBERS='46', DRAWING=self.town, OLD='(\\d)50', NEW='\\g<1>60', REGEX=True)
        self.assertEqual([it['text'] for it in self.facts()], [['DN 150', 'DN 160']])
        made = self.edit('retext', NUMBERS='46', DRAWING=self.town, NEW='longer than it was')
        self.assertEqual((made['ACCEPTED'], made['REFUSED_COUNT']), (0, 1))
        self.assertEqual(Path(self.out).read_bytes(), Path(self.town).read_bytes())

    def test_take_a_deletion_back(self) -> None:
        self.edit('delete', DRAWING=self.town, NUMBERS='51')
        made = self.run_algorithm('undelete', DRAWING=self.out, NUMBERS='51', OUTPUT=self.path('back.dgn'))
        self.assertEqual(made['ACCEPTED'], 3)
        self.assertEqual(Path(self.path('back.dgn')).read_bytes(), Path(self.town).read_bytes())

    def test_a_table_of_numbers(self) -> None:
        found = self.run_algorithm('find', DRAWING=self.town, LEVEL='5,30', OUTPUT='memory:')
        made = self.edit('look', DRAWING=self.town, TABLE=found['OUTPUT'], COLOUR=2)
        self.assertEqual(made['ACCEPTED'], 2)
        self.assertEqual(self.changed(), ['shape 44', 'line string 45'])

    def test_only_what_is_selected_in_layers_that_are_named(self) -> None:
        self.open(self.town)
        self.select('mended 12 lines', '"number" = 12')
        self.select('mended 30 lines', '"number" = 45')
        self.edit('look', COLOUR=2, LAYERS=[self.layer('mended 30 lines')])
        self.assertEqual(self.changed(), ['line string 45'])

    def test_three_axes_and_units_of_resolution(self) -> None:
        self.town = self.put('solid.dgn', drawings.DRAWINGS['a line of three axes'])
        self.edit('move', DRAWING=self.town, NUMBERS='1', DX=3, DY=4, DZ=5)
        points = samples.Drawing(self.out, self.program).elements[1].points
        self.assertEqual(points, [(3, 4, 5), (103, 54, 30)])

    def test_layers_in_units_of_resolution_are_moved_by_such(self) -> None:
        self.open(self.town, UNITS=2)
        self.select('mended 5 areas', '"number" = 44')
        self.edit('move', DX=2500)
        self.assertEqual([it['moved']['resolution'] for it in self.facts()], [[2500, 0]])

    def test_a_script_longer_than_the_program_reads(self) -> None:
        count = 70000
        self.town = self.put('many.dgn', drawings.drawing(*[plan.line(1, (0, 0), (9, 9))] * count))
        numbers = '1-%d' % count
        made = self.edit('look', DRAWING=self.town, NUMBERS=numbers, COLOUR=200, PATCH=self.path('p'), OPEN=False)
        self.assertEqual((made['ACCEPTED'], made['REFUSED_COUNT']), (count, 0))
        self.program.apply(self.town, made['PATCH'], self.path('patched.dgn'))
        self.assertEqual(Path(self.path('patched.dgn')).read_bytes(), Path(self.out).read_bytes())
        colours = {it.colour for it in samples.Drawing(self.out, self.program).elements[1:]}
        self.assertEqual(colours, {200})


class Mistakes(plugin.InQgis):
    """What can't be done is a sentence, and nothing is written."""

    def setUp(self) -> None:
        super().setUp()
        self.town, self.out = self.example('town.dgn'), self.path('new.dgn')

    def refuses(self, words: str, name: str, **parameters: Any) -> None:
        before = sorted(os.listdir(self.folder))
        layers = self.layer_names()
        said = self.fails(name, **{'OUTPUT': self.out, **parameters})
        self.assertIn(words, said)
        self.assertNotIn('Traceback', said)
        self.assertEqual(len(said.strip().split('\n')), 1, said)
        self.assertEqual(sorted(os.listdir(self.folder)), before)
        self.assertEqual(self.layer_names(), layers)

    def test_a_selection_of_another_drawing(self) -> None:
        self.open(self.town)
        other = self.example('plan.dgn')
        self.select('town 12 lines', '"number" = 12')
        self.refuses('town.dgn, not from %s' % other, 'look', DRAWING=other, COLOUR=3)
        table = self.run_algorithm('find', DRAWING=self.town, LEVEL='12', METHOD=2, OUTPUT='memory:')['OUTPUT']
        self.refuses("The table isn't of", 'look', DRAWING=other, COLOUR=3, TABLE=table)

    def test_selections_of_two_drawings(self) -> None:
        self.open(self.town)
        self.run_algorithm('open', DRAWING=self.example('plan.dgn'), OUTPUT=self.path('plan.gpkg'))
        self.select('town 12 lines', '"number" = 12')
        self.select('plan 10 lines', '"number" = 5')
        self.refuses('several drawings', 'look', COLOUR=3)

    def test_a_drawing_that_was_changed_since_it_was_opened(self) -> None:
        self.open(self.town)
        self.select('town 12 lines', '"number" = 12')
        self.program.edit(self.town, samples.Script().color(12, 9), self.path('changed.dgn'))
        Path(self.path('changed.dgn')).replace(self.town)
        self.refuses('was changed since this layer was opened from it: open it again', 'look', COLOUR=3)

    def test_nothing_is_selected(self) -> None:
        self.refuses('Nothing is selected', 'look', DRAWING=self.town, COLOUR=3)
        self.refuses('Nothing is selected and no drawing is named', 'look', COLOUR=3)
        self.refuses('town.dgn has elements 0 to 53', 'look', DRAWING=self.town, NUMBERS='99', COLOUR=3)
        self.refuses("'x'", 'look', DRAWING=self.town, NUMBERS='x', COLOUR=3)

    def test_the_drawing_is_never_written(self) -> None:
        before = Path(self.town).read_bytes()
        words = {'DRAWING': self.town, 'NUMBERS': '12'}
        is_read = self.sentence('run', self.town, self.put('s.txt', 'color 12 3\n'), self.town)
        self.refuses(is_read, 'look', COLOUR=3, **{**words, 'OUTPUT': self.town})
        self.refuses(is_read, 'lock', **{**words, 'OUTPUT': self.town})
        self.refuses(is_read, 'look', COLOUR=3, PATCH=self.town, **words)
        self.refuses(is_read, 'lock', PATCH=self.town, **words)
        self.refuses("wasn't written by this plugin", 'open', **{**words, 'OUTPUT': self.town})
        self.refuses('is a folder', 'look', COLOUR=3, **{**words, 'OUTPUT': str(self.folder)})
        self.assertEqual(Path(self.town).read_bytes(), before)

    def test_files_that_can_not_be_written(self) -> None:
        nowhere = self.path('none/new')
        no_folder = self.sentence('run', self.town, self.put('s.txt', 'color 12 3\n'), nowhere + '.dgn')
        self.refuses(no_folder, 'look', DRAWING=self.town, NUMBERS='12', COLOUR=3, OUTPUT=nowhere + '.dgn')
        self.refuses("can't be written", 'open', DRAWING=self.town, OUTPUT=nowhere + '.gpkg')
        words = {'DRAWING': self.town, 'NUMBERS': '12', 'PATCH': nowhere}
        self.refuses('no such file or directory', 'look', COLOUR=3, **words)
        self.refuses('no such file or directory', 'lock', **words)

    def test_a_geopackage_whose_layers_are_open(self) -> None:
        self.open(self.town)
        package = Path(self.path('layers.gpkg')).read_bytes()
        self.refuses('holds layers of this project', 'open', DRAWING=self.town, OUTPUT=self.path('layers.gpkg'))
        self.assertEqual(Path(self.path('layers.gpkg')).read_bytes(), package)

    def test_a_broken_drawing(self) -> None:
        cut = self.put('cut.dgn', Path(self.town).read_bytes()[:2000])
        library = self.put('library.dgn', b'\x08\x05\x17\x00' + bytes(600))
        cases: List[Tuple[str, Dict[str, Any]]] = [
            ('open', {}),
            ('check', {}),
            ('mend', {}),
            ('find', {'LEVEL': '1'}),
            ('look', {'NUMBERS': '1', 'COLOUR': 3}),
            ('lock', {'NUMBERS': '1'}),
            ('script', {'LINES': 'color 1 2'}),
        ]
        for name, more in cases:
            self.refuses('cut.dgn', name, DRAWING=cut, **more)
            self.refuses('cell library', name, DRAWING=library, **more)
            self.refuses('no such file', name, DRAWING=self.path('missing.dgn'), **more)
        self.refuses('cut.dgn', 'compare', FIRST=self.town, SECOND=cut)

    def test_a_missing_program(self) -> None:
        kept, path = os.environ.pop('DGNEDIT'), os.environ['PATH']
        said = 'Install it, and name its file in that setting'
        os.environ['PATH'] = '/nowhere'
        try:
            self.refuses(said, 'open', DRAWING=self.town)
            self.refuses(said, 'look', DRAWING=self.town, NUMBERS='1', COLOUR=1)
            os.environ['DGNEDIT'] = self.path('none')
            self.refuses('$DGNEDIT names', 'open', DRAWING=self.town)
        finally:
            os.environ.update(DGNEDIT=kept, PATH=path)

    def test_parameters_that_do_not_go_together(self) -> None:
        words = {'DRAWING': self.town, 'NUMBERS': '12'}
        self.refuses('Give a colour, a weight or a style', 'look', **words)
        self.refuses('two dimensions', 'move', DZ=1, **words)
        self.refuses('Name a script', 'script', DRAWING=self.town)
        self.refuses("isn't a patch file", 'patch', DRAWING=self.town, PATCH=self.put('x.txt', 'color 1 2\n'))

    def test_it_is_cancelled(self) -> None:
        self.feedback = plugin.Feedback('The drawing is edited')
        made = self.run_algorithm('look', DRAWING=self.town, NUMBERS='12', COLOUR=3, OUTPUT=self.out)
        self.assertEqual((made, os.path.exists(self.out), self.groups()), ({}, False, []))
        self.feedback = plugin.Feedback('The layers of the new drawing')
        made = self.run_algorithm('look', DRAWING=self.town, NUMBERS='12', COLOUR=3, OUTPUT=self.out)
        self.assertEqual((made['OUTPUT'], os.path.exists(self.out), self.groups()), (self.out, True, []))
        self.assertIn('Stopped: the new drawing is written', self.feedback.warnings[0])


if __name__ == '__main__':
    unittest.main()
