"""`find`: each condition by itself, on drawings of which one sees what meets it; and the scripts that it writes."""

import contextlib
import gc
import json
import os
import tracemalloc
import unittest
from typing import List, Tuple
from unittest import mock

import ogr
import samples
from samples import drawings, plan, with_units
from test_info import ORIGIN, metric

READ = 'dgnkit.drawing.drawing.read_drawing'


class Find(samples.WithProgram):
    def setUp(self) -> None:
        super().setUp()
        self.plan = self.example('plan.dgn')

    def numbers(self, *words: object, of: str = '') -> List[int]:
        return [int(it) for it in self.said('find', of or self.plan, '--numbers', *words).split()]

    def test_levels_types_and_looks(self) -> None:
        self.assertEqual(self.numbers('--level', '10'), [5, 6, 9])
        self.assertEqual(self.numbers('--level', '2-3,11'), [2, 3, 4, 7, 8, 10, 11])
        self.assertEqual(self.numbers('--type', 'shape'), [1, 2])
        self.assertEqual(self.numbers('--type', '3,text', '--level', '1-5'), [3, 4])
        lines = [plan.line(1, (it, 0), (it, 9)) for it in range(4)]
        looks = [(0, 0, 0), (7, 0, 0), (7, 3, 0), (7, 3, 5)]
        made = b''.join(it[:34] + bytes([w << 3 | s, c]) + it[36:] for it, (c, w, s) in zip(lines, looks))
        path = self.put('looks.dgn', drawings.drawing(made))
        self.assertEqual(self.numbers('--color', '7', of=path), [2, 3, 4])
        self.assertEqual(self.numbers('--colour', '7', '--weight', '3', of=path), [3, 4])
        self.assertEqual(self.numbers('--style', '1-7', of=path), [4])

    def test_a_word_is_not_found_in_the_midst_of_another(self) -> None:
        words = [
            b'OLD pump',
            b'GOLDEN',
            b'the OLD',
            b'OLDER',
            b'old',
            'Stra\u00dfe'.encode('utf-8'),
            b'Stra\xdfe',
            b'A.OLD-B',
        ]
        path = self.put('texts.dgn', drawings.drawing(*(plan.text(3, (it, 0), word) for it, word in enumerate(words))))
        self.assertEqual(self.numbers('--text', 'OLD', of=path), [1, 3, 8])
        self.assertEqual(self.numbers('--text', 'OLD', '--ignore-case', of=path), [1, 3, 5, 8])
        self.assertEqual(self.numbers('--pattern', 'OLD', of=path), [1, 2, 3, 4, 8])
        self.assertEqual(self.numbers('--pattern', '^OLD$|e$', of=path), [6, 7])
        self.assertEqual(self.numbers('--text', 'Stra\u00dfe', of=path), [6, 7])

    def test_cells_by_name(self) -> None:
        self.assertEqual(self.numbers('--cell', 'VLV'), [6, 9])
        self.assertEqual(self.numbers('--cell', 'v*'), [6, 9])
        self.assertEqual(self.numbers('--cell', 'VL'), [])

    def test_a_condition_that_is_given_twice_is_met_by_any(self) -> None:
        words = [plan.text(3, (100 * it, 0), word) for it, word in enumerate([b'OLD', b'NEW', b'ODD'])]
        path = self.put('texts.dgn', drawings.drawing(*words, plan.line(3, (900, 0), (990, 9))))
        self.assertEqual(self.numbers('--text', 'OLD', '--text', 'ODD', of=path), [1, 3])
        self.assertEqual(self.numbers('--pattern', '^N', '--pattern', 'D$', of=path), [1, 2, 3])
        self.assertEqual(self.numbers('--text', 'OLD', '--text', 'NEW', '--pattern', 'E', of=path), [2])
        self.assertEqual(self.numbers('--cell', 'VLV', '--cell', 'x*'), [6, 9])
        boxes = ['--inside', '-5,-5', '50,50'], ['--inside', '895,-5', '1000,50']
        self.assertEqual(self.numbers(*boxes[0], of=path), [1])
        self.assertEqual(self.numbers(*boxes[0], *boxes[1], of=path), [1, 4])
        self.assertEqual(self.numbers('--overlap', '-5,-5', '50,50', '--overlap', '95,-5', '150,50', of=path), [1, 2])
        _, _, err = self.kit(
            'find', path, '--text', 'A', '--text', 'B', '--inside', '1,1', '2,2', '--inside', '3,3', '4,4'
        )
        self.assertIn('nothing matches --text A --text B --inside 1,1 2,2 --inside 3,3 4,4', err)
        self.assertIn('nothing matches --text A\n', self.kit('find', path, '--numbers', '--text', 'A')[2])

    def test_little_is_kept_of_each_row(self) -> None:
        few, many = 2000, 8000
        for form in ('--units=auto', '--csv', '--json'):
            self.peak(form, few)  # what is loaded and kept by the first run doesn't count
            more = self.peak(form, many) - self.peak(form, few)
            self.assertLess(more / (many - few), 200, form)  # bytes

    def peak(self, form: str, count: int) -> int:
        """The most bytes that are kept at once while so many lines are found."""
        file = drawings.drawing(plan.line(1, (0, 0), (9, 9)) * count)
        path = self.put('many.dgn', file)
        gc.collect()
        tracemalloc.start()
        with open(os.devnull, 'w') as nowhere, contextlib.redirect_stdout(nowhere):
            with contextlib.redirect_stderr(nowhere), mock.patch(READ, lambda _: file):
                self.assertEqual(samples.cli.main(['find', path, form]), 0)
        made = tracemalloc.get_traced_memory()[1]
        tracemalloc.stop()
        return made

    def test_columns_are_as_wide_as_what_is_found(self) -> None:
        said = self.said('find', self.plan, '--number', '3-6')
        self.assertEqual(
            said.split('\n'),
            [
                'number  root  type         level  colour   weight  style  state  text or cell',
                '     3     3  line             2  0 white       0      0',
                '     4     4  text             3  0 white       0      0         HOUSE 7',
                '     5     5  line string     10  0 white       0      0',
                '     6     6  cell            10  0 white       0      0         VLV',
                '',
            ],
        )

    def test_duplicates(self) -> None:
        line, text = plan.line(1, (0, 0), (9, 9)), plan.text(3, (5, 5), b'AB')
        coloured = line[:35] + bytes([7]) + line[36:]
        wide = text[:4] + plan.text(3, (6, 6), b'AB')[4:28] + text[28:]
        others = [plan.line(2, (0, 0), (9, 9)), plan.line(1, (0, 0), (9, 8)), plan.text(3, (5, 5), b'AC')]
        valve = plan.valve(10, 500, 0, 20)
        made = drawings.drawing(line, text, coloured, wide, *others, valve, valve, drawings.deleted(line))
        path = self.put('twice.dgn', made)
        self.assertEqual(self.numbers('--duplicates', of=path), [3, 4, 11])
        self.assertEqual(self.numbers('--duplicates', '--level', '1', of=path), [3])
        numbers = self.put('again.txt', self.said('find', path, '--duplicates', '--numbers'))
        said = self.said('script', '--numbers', numbers, 'delete {n}', '--drawing', path)
        self.assertEqual(said, 'delete 3\ndelete 4\ndelete 11\n')

    def test_deleted_locked_and_broken(self) -> None:
        self.assertEqual(self.numbers('--locked'), [1])
        chain = drawings.DRAWINGS['a complex chain of the line 2, with bit C']
        path = self.put('chain.dgn', chain[:-2] + drawings.line() + b'\xff\xff')
        self.assertEqual(self.numbers('--broken', of=path), [1, 2])
        out = self.path('out.dgn')
        self.program.edit(self.plan, samples.Script().delete(6).delete(3), out)
        self.assertEqual(self.numbers('--deleted', of=out), [3, 6, 7, 8])
        self.assertEqual(self.numbers('--level', '10', of=out), [5, 9])

    def test_what_stands_below_a_deleted_header_is_deleted(self) -> None:
        header = drawings.cell(drawings.line(True))
        path = self.put('in.dgn', drawings.drawing(drawings.deleted(header[:92]) + header[92:]))
        self.assertEqual(self.numbers('--type', 'line', of=path), [])
        self.assertEqual(self.numbers('--deleted', of=path), [1, 2])

    def test_near_in_units_of_resolution_and_in_master_units(self) -> None:
        # a line along x; 3,4 from its end is a distance of 5
        line = plan.line(1, (ORIGIN, ORIGIN), (ORIGIN + 1000, ORIGIN))
        path = self.put('in.dgn', metric(line))
        at = '%d,%d' % (ORIGIN + 1003, ORIGIN + 4)
        self.assertEqual(self.numbers('--near', at, '--within', 5, '--units', 'resolution', of=path), [1])
        self.assertEqual(self.numbers('--near', at, '--within', 4.99, '--units', 'resolution', of=path), [])
        self.assertEqual(self.numbers('--near', '10.03,0.04', '--within', '0.05', of=path), [1])
        self.assertEqual(self.numbers('--near', '10.03,0.04', '--within', '0.0499', of=path), [])
        self.assertEqual(self.numbers('--near', '5,2.5', '--within', '2.5', of=path), [1])
        self.assertEqual(self.numbers('--near', '11,0', '--within', '0.99', of=path), [])

    def test_the_nearest_comes_first_with_its_distance(self) -> None:
        said = json.loads(
            self.said('find', self.plan, '--near', '0,500', '--within', '1000', '--type', '4,6', '--json')
        )
        self.assertEqual([it['number'] for it in said], [1, 5, 2])
        self.assertEqual([round(it['distance'], 3) for it in said], [0, 99.504, 894.427])

    def test_the_last_side_of_a_shape_counts_and_that_of_a_string_does_not(self) -> None:
        corners = [(0, 0), (100, 0), (100, 100), (0, 100)]
        path = self.put('in.dgn', drawings.drawing(plan.path(6, 1, corners), plan.path(4, 1, corners)))
        self.assertEqual(self.numbers('--near', '0,50', '--within', '3', of=path), [1])

    def test_boxes(self) -> None:
        box = ['900,400', '1100,600']
        self.assertEqual(self.numbers('--inside', *box), [6, 7, 8])
        self.assertEqual(self.numbers('--inside', *reversed(box)), [6, 7, 8])
        self.assertEqual(self.numbers('--overlap', *box), [5, 6, 7, 8])
        self.assertEqual(self.numbers('--outside', *box), [1, 2, 3, 4, 9, 10, 11])
        # the plot's border runs around the box, and no line of it comes in
        self.assertEqual(self.numbers('--overlap', '100,100', '200,200'), [])

    def test_a_line_across_a_corner_of_the_box(self) -> None:
        # their bounds meet, but the first passes the corner by
        lines = plan.line(1, (0, 15), (15, 0)), plan.line(1, (0, 8), (8, 0))
        path = self.put('in.dgn', drawings.drawing(*lines))
        self.assertEqual(self.numbers('--overlap', '8,8', '20,20', of=path), [])
        self.assertEqual(self.numbers('--overlap', '7,7', '20,20', of=path), [1])
        self.assertEqual(self.numbers('--outside', '7,7', '20,20', of=path), [2])

    def test_a_range_that_is_too_small_does_not_hide_an_element(self) -> None:
        path = self.put('in.dgn', drawings.DRAWINGS['a cell of a line whose range is too small'])
        self.assertEqual(self.numbers('--near', '100,50', '--within', '1', of=path), [1, 2])
        self.assertEqual(self.numbers('--inside', '0,0', '20,20', of=path), [])

    def test_what_is_deleted_is_found_by_its_points(self) -> None:
        small = drawings.deleted(
            plan.line(1, (0, 0), (100, 50))[:4]
            + plan.line(1, (0, 0), (10, 10))[4:36]
            + plan.line(1, (0, 0), (100, 50))[36:]
        )
        path = self.put('in.dgn', drawings.drawing(small))
        self.assertEqual(self.numbers('--deleted', '--near', '100,50', '--within', '1', of=path), [1])

    def test_trees(self) -> None:
        self.assertEqual(self.numbers('--level', '11', '--trees'), [6, 9])
        self.assertEqual(self.numbers('--level', '10', '--trees'), [5, 6, 9])
        self.assertEqual(self.numbers('--outside', '900,400', '990,600', '--trees'), [1, 2, 3, 4, 9])

    def test_a_table_and_json(self) -> None:
        said = self.said('find', self.plan, '--level', '3')
        self.assertEqual(said.split('\n')[1].split(), ['4', '4', 'text', '3', '0', 'white', '0', '0', 'HOUSE', '7'])
        row = json.loads(self.said('find', self.plan, '--cell', 'VLV', '--json'))[0]
        self.assertEqual(
            (row['number'], row['root'], row['cell'], row['range']), (6, 6, 'VLV', [[920, 420], [1080, 580]])
        )

    def test_json_has_the_place_and_the_lettering(self) -> None:
        text = bytearray(plan.text(3, (ORIGIN + 150, ORIGIN + 700), b'AB'))
        text[36:38], text[46:50] = bytes([3, 7]), plan.long(30 * 360000)
        path = self.put('in.dgn', metric(bytes(text), plan.line(3, (ORIGIN + 100, ORIGIN), (ORIGIN + 150, ORIGIN))))
        lettered, line = json.loads(self.said('find', path, '--level', '3', '--json'))
        self.assertEqual([lettered[it] for it in ('x', 'y', 'angle', 'font', 'justification')], [1.5, 7, 30, 3, 7])
        self.assertEqual((line['x'], line['y'], line['height'], line['font']), (1, 0, None, None))
        said = self.said('find', path, '--type', 'text', '--csv').split('\n')
        row = dict(zip(said[0].split(','), said[1].split(',')))
        self.assertEqual([row[it] for it in ('x', 'y', 'angle', 'font', 'justification')], ['1.5', '7', '30', '3', '7'])
        self.assertEqual(float(row['height']), lettered['height'])

    def test_three_axes(self) -> None:
        path = self.put('in.dgn', drawings.DRAWINGS['a line of three axes'])
        self.assertEqual(self.numbers('--near', '100,50', '--within', '1', of=path), [1])

    def test_what_can_not_be_read_is_one_line_and_2(self) -> None:
        wrong = [
            ['--level', '64'],
            ['--level', 'x'],
            ['--level', '9-3'],
            ['--type', 'pipe'],
            ['--color', '256'],
            ['--pattern', '('],
            ['--near', '1', '--within', '2'],
            ['--near', '1,x', '--within', '2'],
            ['--near', '1,1'],
            ['--near', '9999999999,1', '--within', '2'],
            ['--within', '1'],
            ['--inside', '1,1', '2'],
            ['--units', 'master'],
            ['--script', 'color 3'],
            ['--script', 'color {n} red'],
            ['--script', '# {n}'],
            ['-o', 'x'],
        ]
        for words in wrong:
            status, out, err = self.kit(
                'find', self.plan, *(words if '--level' in words else ['--level', '1-63', *words])
            )
            self.assertEqual((status, out, err.count('\n')), (2, '', 1), words)
        self.assertEqual(sorted(it.name for it in self.folder.iterdir()), ['plan.dgn'])


class Scripts(samples.WithProgram):
    def script(self, path: str, *words: str) -> Tuple[str, str]:
        status, out, err = self.kit('find', path, *words)
        self.assertEqual(status, 0, err)
        return out, err

    def test_a_line_for_each_and_what_is_left_out(self) -> None:
        made = drawings.drawing(drawings.line(), drawings.locked(drawings.line()), drawings.element(16, 1, 72))
        path = self.put('in.dgn', made + b'')
        out, err = self.script(path, '--level', '1', '--script', 'move {n} 5 5')
        self.assertEqual(out, 'move 1 5 5\n')
        self.assertIn('left out: 1 element (locked, or its header or a member is', err)
        self.assertIn('or with such a member): 3', err)
        out, _ = self.script(path, '--level', '1', '--script', 'sym {n} 3 2 -')
        self.assertEqual(out, 'sym 1 3 2 -\nsym 3 3 2 -\n')

    def test_members_of_a_chosen_header_are_moved_once(self) -> None:
        valve = self.example('valve.dgn')
        out, _ = self.script(valve, '--inside', '400,-100', '600,100', '--script', 'move {n} 0 7')
        self.assertEqual(out, 'move 2 0 7\n')
        out, err = self.script(valve, '--inside', '400,-100', '600,100', '--members', '--script', 'move {n} 0 7')
        self.assertEqual(out, 'move 2 0 7\n')
        self.assertIn('a member of another one that is chosen', err)

    def test_a_chosen_member_takes_its_whole_tree_along_unless_members_are_asked_for(self) -> None:
        valve = self.example('valve.dgn')
        out, err = self.script(valve, '--level', '11', '--script', 'move {n} 0 7')
        self.assertEqual(out, 'move 2 0 7\n')
        self.assertIn('3 and 4 are members of cell 2 VLV on level 10, and the whole tree is edited', err)
        out, err = self.script(valve, '--number', '3', '--members', '--script', 'move {n} 0 7')
        self.assertEqual(out, 'move 3 0 7\n')
        self.assertIn('3 is a member of cell 2 VLV on level 10, and the rest of its tree stays', err)

    def test_what_goes_along_is_told(self) -> None:
        out, err = self.script(self.example('valve.dgn'), '--level', '10', '--script', 'color {n} 3')
        self.assertEqual(out, 'color 1 3\ncolor 2 3\n')
        self.assertIn('2 members would change with their headers', err)
        self.assertIn('3, 4', err)

    def test_a_dry_run_says_it_in_words(self) -> None:
        path = self.put(
            'in.dgn', with_units(drawings.drawing(plan.line(1, (0, 0), (50, 0))), 100, 1, ('m', 'cm'), (0, 0, 0))
        )
        out, _ = self.script(path, '--level', '1', '--script', 'move {n} 250 0', '-o', self.path('s'), '--dry-run')
        self.assertIn('line 1 on level 1: moved 2.5 m east (250,0 units of resolution)', out)
        self.assertTrue(out.rstrip().endswith('dgnkit run %s %s %s' % (path, self.path('s'), self.path('in-out.dgn'))))
        self.assertFalse((self.folder / 's').exists())

    def test_lengths_in_master_units(self) -> None:
        path = self.put('in.dgn', with_units(drawings.drawing(drawings.line()), 100, 10, ('m', 'cm'), (0, 0, 0)))
        out, _ = self.script(path, '--level', '1', '--script', 'move {n} {2.5} {-0.0004}')
        self.assertEqual(out, 'move 1 2500 0\n')
        bare = self.put('bare.dgn', drawings.drawing(drawings.line()))
        status, _, err = self.kit('find', bare, '--level', '1', '--script', 'move {n} {2.5} 0')
        self.assertEqual((status, 'master units' in err), (2, True))

    def test_wrong_ranges_are_fitted(self) -> None:
        path = self.put('in.dgn', drawings.DRAWINGS['a cell of a line whose range is too small'])
        self.assertEqual(self.script(path, '--wrong-range', '--script', 'fit {n}')[0], 'fit 1\n')

    def test_as_many_files_as_the_limit_of_a_script_wants(self) -> None:
        path = self.gen(1, 100000)
        words = ['--type', '3,4,6', '--members', '--script', 'sym {n} 1 2 3', '-o', self.path('s.txt')]
        out, _ = self.script(path, *words)
        names = sorted(it.name for it in self.folder.glob('s*.txt'))
        self.assertEqual(names, ['s-1.txt', 's-2.txt'])
        sizes = [it.stat().st_size for it in self.folder.glob('s*.txt')]
        self.assertLessEqual(max(sizes), 1048576)
        self.then(out)
        changed = samples.Drawing(self.path('gen-out.dgn'), self.program)
        wanted = [it for it in changed.elements if it.type in (3, 4, 6)]
        self.assertEqual({(it.colour, it.weight, it.style) for it in wanted}, {(1, 2, 3)})
        others = [it for it in changed.elements if it.type in (2, 17)]
        self.assertNotIn((1, 2, 3), {(it.colour, it.weight, it.style) for it in others})


@unittest.skipUnless(samples.OGR, 'GDAL is not installed')
class OfOgr(samples.WithProgram):
    def test_chains_and_texts(self) -> None:
        path = ogr.made(self, ogr.roads() + ogr.labels())
        numbers = [int(it) for it in self.said('find', path, '--level', '12', '--numbers').split()]
        self.assertEqual(len(numbers), 5)
        near = json.loads(self.said('find', path, '--near', '50,311', '--within', '1.5', '--type', '4', '--json'))
        self.assertEqual([round(it['distance'], 6) for it in near], [1.0])
        texts = json.loads(self.said('find', path, '--text', 'OLD', '--json'))
        self.assertEqual([it['text'] for it in texts], ['OLD pump', 'the OLD'])


if __name__ == '__main__':
    unittest.main()
