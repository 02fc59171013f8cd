"""Jobs of a survey office, each from its files to the result, on a drawing that ogr2ogr wrote. What dgnkit says
is to be run next is run as it is said."""

import csv
import io
import json
import re
import unittest
from pathlib import Path
from typing import Dict

import samples
from samples import drawings, plan

PIPE, BUILDING, VALVE = 45, 44, 51
LONG_ROADS, PARCELS = (15, 25), (35, 38, 41)


class OnTheTown(samples.WithProgram):
    """The drawing with its trees mended, and what a job makes of it."""

    def setUp(self) -> None:
        super().setUp()
        self.raw = self.example('town.dgn')
        self.then(self.said('mend', self.raw, self.path('mend.patch')))
        (self.folder / 'town-out.dgn').rename(self.folder / 'sheet.dgn')
        self.town = self.path('sheet.dgn')

    def result(self) -> samples.Drawing:
        return samples.Drawing(self.path('sheet-out.dgn'), self.program)

    def changes(self) -> Dict[int, samples.Json]:
        """What became of each element that differs, by its number."""
        _, said, _ = self.kit('diff', self.town, self.path('sheet-out.dgn'), '--json')
        return {
            it['before'] if it['before'] is not None else it['after']: it['changes']
            for it in json.loads(said)['elements']
        }


class Jobs(OnTheTown):
    def test_recolour_all_of_level_12(self) -> None:
        self.then(self.said('find', self.town, '--level', 12, '--script', 'color {n} 5', '-o', self.path('s')))
        drawing = self.result()
        roads = [12, 13, 14, *drawing.nesting.part(15), *drawing.nesting.part(25)]
        self.assertEqual(sorted(self.changes()), roads)
        self.assertEqual({drawing.elements[it].colour for it in roads}, {5})

    def test_move_a_building_by_2_5_m(self) -> None:
        words = ['--inside', '1135,2075', '1160,2095', '--type', 'shape', '--script', 'move {n} {2.5} 0']
        self.then(self.said('find', self.town, *words, '-o', self.path('s')))
        moved = {'moved': {'resolution': [2500, 0], 'master': [2.5, 0.0], 'metres': [2.5, 0.0]}}
        self.assertEqual(self.changes(), {BUILDING: moved})

    def test_which_number_has_the_pipe_near_a_place(self) -> None:
        self.assertEqual(self.said('find', self.town, '--near', '1100,2031', '--within', 5, '--numbers'), '%d\n' % PIPE)

    def test_delete_all_texts_with_old(self) -> None:
        self.then(self.said('find', self.town, '--text', 'OLD', '--script', 'delete {n}', '-o', self.path('s')))
        self.assertEqual(self.changes(), {49: {'deleted': True}})
        self.assertEqual(self.result().elements[49].text, 'OLD MILL')

    def test_change_dn_150_to_dn_200(self) -> None:
        self.then(self.said('retext', self.town, self.path('p'), 'DN 150', 'DN 200'))
        self.assertEqual(self.changes(), {it: {'text': ['DN 150', 'DN 200']} for it in (46, 47)})

    def test_level_30_to_level_31(self) -> None:
        self.then(self.said('relevel', self.town, self.path('p'), '--to', 31, '--level', 30))
        self.assertEqual(self.changes(), {PIPE: {'level': [30, 31]}})

    def test_edit_a_parcel_that_ogr2ogr_wrote(self) -> None:
        raw = samples.Drawing(self.raw, self.program).nesting
        self.assertTrue({*LONG_ROADS, *PARCELS} <= raw.broken_roots)
        self.then(self.said('find', self.town, '--level', 20, '--script', 'move {n} {10} {-1}', '-o', self.path('s')))
        found = self.changes()
        self.assertEqual(sorted(found), [it for root in PARCELS for it in range(root, root + 3)])
        self.assertEqual({tuple(it['moved']['resolution']) for it in found.values()}, {(10000, -1000)})

    def test_delete_outside_a_rectangle(self) -> None:
        words = ['--outside', '1015,2000', '1200,2055', '--trees', '--script', 'delete {n}']
        self.then(self.said('find', self.town, *words, '-o', self.path('s')))
        left = [it.number for it in self.result().items]
        self.assertEqual(left, [12, PIPE, 46, 47, 50, VALVE, 52, 53])

    def test_a_cell_at_twenty_places(self) -> None:
        places = [(1000 + 10 * it, 2030 + it / 4) for it in range(20)]
        rows = self.put('places.csv', 'x,y\n' + ''.join('%s,%s\n' % it for it in places))
        self.then(self.said('place', self.town, 'VLV', rows, '-o', self.path('s')))
        drawing = self.result()
        cells = [it for it in drawing.elements if it.cell_name == 'VLV'][1:]
        self.assertEqual([drawing.units.to_master(it.points[0]) for it in cells], places)

    def test_say_what_changed_to_a_colleague(self) -> None:
        self.then(self.said('find', self.town, '--number', PIPE, '--script', 'sym {n} 3 - 1', '-o', self.path('s')))
        said = self.said('diff', self.town, self.path('sheet-out.dgn'), status=1)
        self.assertIn('line string 45 on level 30: colour 1 (blue, #0000ff) to 3 (red, #ff0000), style 0 to 1', said)

    def test_a_patch_is_refused_on_another_drawing(self) -> None:
        self.said('relevel', self.town, self.path('p'), '--to', 31, '--level', 30)
        self.program.edit(self.town, samples.Script().copy(PIPE, 5, 5), self.path('longer.dgn'))
        said = self.said('why', self.path('longer.dgn'), self.path('p'), status=1)
        self.assertIn('elements have 16620 bytes', said)
        self.then(self.said('relevel', self.town, self.path('q'), '--to', 9, '--level', 30))
        said = self.said('why', self.path('sheet-out.dgn'), self.path('p'), status=1)
        self.assertIn('byte 0 of line string 45 on level 9 (level and bit C)', said)

    def test_undo_the_third_of_ten_edits(self) -> None:
        lines = ['color %d 7' % it for it in (12, 13, 14, 44, 45, 46, 47, 48, 49, 50)]
        self.put('nine', ''.join(it + '\n' for it in lines[:2] + lines[3:]))
        self.program.run('edit', self.town, self.path('nine'), self.path('sheet-out.dgn'))
        self.assertEqual(sorted(self.changes()), [12, 13, 44, 45, 46, 47, 48, 49, 50])

    def test_many_drawings_which_are_damaged_and_one_script_on_all(self) -> None:
        good = [self.gen(it, 100, 'good-%d.dgn' % it) for it in range(20)]
        whole = (self.folder / 'good-1.dgn').read_bytes()
        # 512 bytes of zeros in the midst, up to where a line begins and so opens again
        lines = b''.join(plan.line(5, (1, 2), (300, 400)) for _ in range(40))
        zeroed = bytearray(drawings.drawing(lines))
        zeroed[1536 + 52 * 22 - 512 : 1536 + 52 * 22] = bytes(512)
        bad = {
            'zeroed.dgn': bytes(zeroed),
            'cut-between.dgn': whole[:1690]
            if whole[1536 + 1] == 3
            else whole[: samples.Drawing(good[1]).elements[3].offset],
            'cut-within.dgn': whole[:1700],
        }
        paths = [self.put(name, content) for name, content in bad.items()]
        _, said, _ = self.kit('health', *good, *paths)
        self.assertEqual(said.count(': ok ('), 20)
        found = {it.split('/')[-1].split(" doesn't")[0].split(':')[0]: it for it in said.rstrip().split('\n')[20:]}
        self.assertEqual(sorted(found), sorted(bad))
        self.assertIn('of type 0', found['zeroed.dgn'])
        self.assertIn('no end mark', found['cut-between.dgn'])
        self.assertIn('reaches past the end of the file', found['cut-within.dgn'])
        script = self.put('s', 'color 1 3\n')
        _, said, _ = self.kit('each', script, *good, *paths, '--into', self.path('done'), '--json')
        told = json.loads(said)
        self.assertEqual([it['status'] for it in told[:20]], [0] * 20)
        self.assertEqual(len(list((self.folder / 'done').glob('good-*.dgn'))), 20)
        self.assertFalse((self.folder / 'done' / 'cut-within.dgn').exists())

    def test_mend_ranges_and_say_what_changed(self) -> None:
        self.program.edit(self.town, samples.Script().move(52, 9000, 0).move(52, -9000, 0), self.path('wide.dgn'))
        said = self.said('find', self.path('wide.dgn'), '--wrong-range', '--script', 'fit {n}', '-o', self.path('s'))
        self.then(said)
        said = self.said('diff', self.path('wide.dgn'), self.path('wide-out.dgn'), status=1)
        self.assertIn('cell 51 VLV on level 10: range changed from', said)
        self.assertEqual((self.folder / 'wide-out.dgn').read_bytes(), (self.folder / 'sheet.dgn').read_bytes())

    def test_merge_two_sheets(self) -> None:
        origin = tuple(int(it) + 250 for it in samples.Drawing(self.town, self.program).units.origin)
        there = samples.with_units((self.folder / 'sheet.dgn').read_bytes(), 100, 10, ('m', 'cm'), origin)
        other = self.put('there.dgn', there)
        status, said, err = self.kit('merge', self.town, other, '-o', self.path('s'))
        self.assertEqual((status, err), (0, ''))
        self.assertIn('moved 0.25 m west and 0.25 m south', said)
        self.then(said)
        drawing = self.result()
        self.assertEqual(len(drawing.elements), 54 + 42)
        pipes = [it.points[0] for it in drawing.elements if it.level == 30]
        self.assertEqual((pipes[1][0] - pipes[0][0], pipes[1][1] - pipes[0][1]), (-250, -250))
        _, _, err = self.kit('merge', self.town, self.raw, '-o', self.path('s'))
        self.assertIn('11 broken trees', err)

    def test_understand_a_refusal_and_an_ending(self) -> None:
        said = self.said('why', self.raw, self.put('s', 'color 35 2\n'), status=1)
        self.assertIn('121 would match, counting its own 32 bytes', said)
        self.assertIn('`dgnkit mend` writes a patch file that mends it', said)
        said = self.said('why', self.raw, self.put('s', 'import %s\n' % self.path('none.dgn')), status=1)
        self.assertTrue(re.search("none\\.dgn can't be read: no such file", said))


class MoreJobs(OnTheTown):
    """Thirteen more, each of at most three commands."""

    def test_give_a_cell_another_name(self) -> None:
        self.then(self.said('rename', self.town, self.path('p'), 'VLV', 'PUMP'))
        self.assertEqual(self.changes(), {VALVE: {'name': ['VLV', 'PUMP']}})

    def test_rotate_is_said_to_be_none_of_it(self) -> None:
        said = self.said('why', self.town, self.put('s', 'rotate 45 30\n'), status=1)
        self.assertIn("'rotate' isn't a command: dgnedit and dgnkit can't rotate elements", said)

    def test_copy_by_a_fence(self) -> None:
        words = ['--inside', '1135,2075', '1160,2095', '--script', 'copy {n} {20} {-5}']
        self.then(self.said('find', self.town, *words, '-o', self.path('s')))
        old, new = self.result().elements[BUILDING], self.result().elements[54]
        self.assertEqual(new.points, [(x + 20000, y - 5000) for x, y in old.points])

    def test_red_and_heavy(self) -> None:
        words = ['--color', '1', '--weight', '>1', '--script', 'sym {n} 3 5 -']
        self.then(self.said('find', self.town, *words, '-o', self.path('s')))
        self.assertEqual(self.changes(), {PIPE: {'recoloured': {'colour': [1, 3], 'weight': [2, 5]}}})

    def test_a_text_with_a_height(self) -> None:
        self.then(self.said('text', self.town, '1100,2040', 'DN 200', '--height', '1.5', '-o', self.path('s')))
        text = self.result().elements[54]
        self.assertEqual((text.text, text.text_size), ('DN 200', (1500.0, 1500.0)))
        self.assertEqual(text.range, ((100000, 40000), (109000, 41500)))

    def test_texts_to_a_table(self) -> None:
        said = self.said('find', self.town, '--type', 'text', '--csv')
        rows = {it['number']: it for it in csv.DictReader(io.StringIO(said))}
        self.assertEqual([rows['49'][it] for it in ('text', 'level', 'x', 'y')], ['OLD MILL', '41', '1145', '2095'])

    def test_the_numbers_of_a_table_to_a_level(self) -> None:
        table = self.put('done.csv', 'remark;number\nseen;44\nseen;45\n')
        self.then(self.said('relevel', self.town, self.path('p'), '--to', 61, '--numbers', table))
        self.assertEqual(self.changes(), {BUILDING: {'level': [5, 61]}, PIPE: {'level': [30, 61]}})

    def test_lock_a_selection(self) -> None:
        self.said('geojson', self.town, '-o', self.path('all.geojson'))
        all_of_it = json.loads((self.folder / 'all.geojson').read_text())
        all_of_it['features'] = [it for it in all_of_it['features'] if it['properties']['level'] == 20]
        chosen = self.put('chosen.geojson', json.dumps(all_of_it))
        self.then(self.said('lock', self.town, self.path('p'), '--numbers', chosen))
        self.assertEqual(sorted(self.changes()), [it for root in PARCELS for it in range(root, root + 3)])

    def test_elements_that_are_there_twice(self) -> None:
        self.program.edit(self.town, samples.Script().copy(PIPE, 0, 0), self.path('twice.dgn'))
        said = self.said('health', '-v', self.path('twice.dgn'), status=1)
        self.assertIn('line string 45 on level 30 is there 2 times: 45 and 54', said)

    def test_what_is_outside_of_a_frame(self) -> None:
        said = json.loads(self.said('health', '--json', self.town, '--frame', '1000,2000', '1200,2055', status=1))
        # the roads of level 12 reach the frame's edges or beyond, and so does the pipe
        self.assertIn('shape 44 on level 5', said[0]['outside'])
        self.assertNotIn('cell 51 VLV on level 10', said[0]['outside'])

    def test_lengths_by_level(self) -> None:
        facts = json.loads(self.said('info', '--lengths', '--json', self.town))[0]['lengths']
        # three parcels of 30 m by 30 m with a hole of 10 m by 10 m, and a building of 15 m by 12 m
        self.assertEqual((facts['20']['area'], facts['5']['area'], facts['5']['outline']), (2400, 180, 54))

    def test_a_polygon_of_a_table(self) -> None:
        table = self.put('plot.csv', 'x,y\n1020,2020\n1080,2020\n1080,2050\n1020,2050\n')
        self.then(self.said('draw', self.town, table, '--as', 'shape', '--level', 6, '-o', self.path('s')))
        drawing = self.result()
        shape = drawing.elements[54]
        corners = [(1020.0, 2020.0), (1080.0, 2020.0), (1080.0, 2050.0), (1020.0, 2050.0), (1020.0, 2020.0)]
        self.assertEqual((shape.type, shape.level), (6, 6))
        self.assertEqual([drawing.units.to_master(it) for it in shape.points], corners)

    def test_take_a_deletion_back(self) -> None:
        self.program.edit(self.town, samples.Script().delete(49).delete(VALVE), self.path('gone.dgn'))
        out = self.then(self.said('undelete', self.path('gone.dgn'), self.path('p'), '--level', '1-63'))
        self.assertEqual(Path(out).read_bytes(), (self.folder / 'sheet.dgn').read_bytes())


if __name__ == '__main__':
    unittest.main()
