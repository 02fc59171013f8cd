"""What an office asks for besides: runs in sentences, names and deletions taken back, numbers of a list, sizes, sums by
level, duplicates, frames, and differences as a script."""

import csv
import io
import json
import os
import unittest
from typing import Dict, List

import samples
from samples import drawings, plan, with_units

METRIC = (100, 10, ('m', 'cm'), (0, 0, 0))


class Runs(samples.WithProgram):
    def test_scripts_and_patch_files_one_behind_the_other(self) -> None:
        valve, out = self.example('valve.dgn'), self.path('out.dgn')
        first, second = self.put('one', 'color 1 3\ntree 2\n'), self.put('two', 'color 9 3\ncopy 1 0 5\n')
        self.said('relevel', valve, self.path('p'), '--to', 21, '--number', 1)
        said = self.said('run', valve, first, self.path('p'), second, out, status=1)
        made = samples.Drawing(out, self.program)
        self.assertEqual([(it.colour, it.level) for it in (made.elements[1], made.elements[5])], [(3, 21), (3, 21)])
        self.assertIn('2 0 2 10 group live\n3 1 3 11 leaf live\n', said)
        self.assertIn('line 1, color 9 3: there is no element 9: the drawing has 0 to 4', said)
        self.assertIn('two: 2 commands, 1 refused', said)
        self.assertIn('out.dgn: written, %d bytes' % (self.folder / 'out.dgn').stat().st_size, said)
        self.assertEqual(self.said('run', valve, first, '/dev/null').count('\n'), 4)
        said = self.said('run', valve, self.put('none', '# nothing\n'), out, '--force')
        self.assertIn('none: 0 commands, 0 refused', said)

    def test_the_range_of_an_appended_text_is_told(self) -> None:
        valve, script = self.example('valve.dgn'), self.put('s', 'text 1 0 0 0 1 0 900 900 5,5 AB\n')
        err = self.kit('run', valve, script, self.path('o.dgn'))[2]
        self.assertIn('1 appended text has only a point for a range', err)
        said = self.said('text', valve, '5,5', 'AB', '--height', '60', '-o', self.path('t'))
        self.assertEqual(self.kit(*said.rstrip().split('next: dgnkit ')[1].split())[2], '')

    def test_a_link_stays_one(self) -> None:
        valve = self.example('valve.dgn')
        (self.folder / 'disk').mkdir()
        os.symlink('disk/there.dgn', self.path('out.dgn'))
        for colour in (3, 5):
            self.said('run', valve, self.put('s', 'color 1 %d\n' % colour), self.path('out.dgn'), '--force')
            self.assertTrue(os.path.islink(self.path('out.dgn')))
            made = samples.Drawing(self.path('disk/there.dgn'), self.program)
            self.assertEqual(made.elements[1].colour, colour)

    def test_each_ending_is_a_sentence_and_nothing_is_written(self) -> None:
        valve, out = self.example('valve.dgn'), self.path('out.dgn')
        good, bad = self.put('good', 'color 1 3\n'), self.put('bad', 'color 1 red\n')
        self.program.run('pack', valve, good, self.path('p'))
        other = self.put('other.dgn', drawings.drawing(drawings.line()))
        cases: List[List[object]] = [
            [valve, good, bad, out, "'red' isn't a colour: give a whole number from 0 to 255"],
            [self.path('none'), good, out, "can't be read: no such file"],
            [valve, self.path('none'), out, "can't be read: no such file"],
            [valve, good, self.path('nowhere/out.dgn'), 'there is no folder'],
            [valve, good, str(self.folder), 'it is a folder'],
            [other, self.path('p'), out, "doesn't match"],
            [valve, self.put('long', '#' * 1048577), out, 'and the limit is 1048576'],
            [valve, self.put('import', 'import none.dgn\n'), out, "none.dgn can't be read"],
        ]
        for *words, why in cases:
            status, said, err = self.kit('run', *words)
            self.assertEqual((status, said, err.count('\n')), (2, '', 1), err)
            self.assertIn(str(why), err)
            self.assertFalse(os.path.exists(out))
        self.assertEqual([it for it in self.folder.iterdir() if it.name.startswith('.')], [])

    def test_a_number_with_a_point_is_said_in_units_of_resolution(self) -> None:
        metric = (100, 10, ('m', 'cm'), (-1000, 500, 0))
        path = self.put('in.dgn', with_units(drawings.drawing(drawings.line()), *metric))
        for line, word in [
            ('move 1 2.5 0', '2.5 m is 2500 here'),
            ('line 1 0 0 0 1.5,2 3,4', '1.5,2 m is 500,2500 here'),
            ('text 1 0 0 0 1 0 2.5 2.5 0,0 AB', 'a text of 2.5 m has the multiplier 416667'),
        ]:
            self.assertIn(word, self.said('why', path, self.put('s', line + '\n'), status=1))

    def test_lists_as_csv(self) -> None:
        valve, script = self.example('valve.dgn'), self.put('s', 'color 9 3\ncolor 1 3\n')
        broken = self.put('b.dgn', drawings.DRAWINGS['a complex chain of the line 2, with bit C'])

        def rows(*words: object, status: int = 0) -> List[Dict[str, str]]:
            return list(csv.DictReader(io.StringIO(self.said(*words, '--csv', status=status))))

        self.assertEqual([it['level'] for it in rows('info', valve)], ['8', '10', '11'])
        self.assertEqual([it['broken_trees'] for it in rows('health', valve, broken, status=1)], ['0', '1'])
        self.assertEqual([it['cause'] for it in rows('why', valve, script, status=1)], ['unknown 9'])
        self.assertEqual([it['step'] for it in rows('run', valve, script, self.path('o.dgn'), status=1)], [script])
        self.assertEqual([it['after'] for it in rows('diff', valve, self.path('o.dgn'), status=1)], ['1'])
        self.assertEqual([it['becomes'] for it in rows('mend', broken, '--dry-run')], ['mended'])
        self.assertEqual(
            [it['status'] for it in rows('each', script, valve, '--into', self.path('n'), status=1)], ['1']
        )

    def test_the_next_name_is_none_that_is_there(self) -> None:
        valve = self.example('valve.dgn')
        names = []
        for colour in (3, 5, 7):
            script = self.path('s%d' % colour)
            said = self.said('find', valve, '--number', 1, '--script', 'color {n} %d' % colour, '-o', script)
            names.append(os.path.basename(self.then(said)))
        self.assertEqual(names, ['valve-out.dgn', 'valve-out-2.dgn', 'valve-out-3.dgn'])
        colours = [samples.Drawing(self.path(it), self.program).elements[1].colour for it in names]
        self.assertEqual(colours, [3, 5, 7])

    def test_two_runs_into_one_folder(self) -> None:
        # the other run has written its drawing once this one looks for what is there
        valve, script = self.example('valve.dgn'), self.put('s', 'color 1 3\n')
        text = '#!/bin/sh\ncp %s %s/valve.dgn\nexec %s "$@"\n'
        slow = self.put('slow', text % (self.example('plan.dgn'), self.path('into'), samples.PROGRAM))
        os.chmod(slow, 0o755)
        kept = os.environ['DGNEDIT']
        self.addCleanup(os.environ.__setitem__, 'DGNEDIT', kept)
        os.environ['DGNEDIT'] = slow
        status, out, _ = self.kit('each', script, valve, '--into', self.path('into'))
        self.assertEqual((status, 'already exists' in out), (1, True))
        self.assertEqual((self.folder / 'into/valve.dgn').read_bytes(), (samples.EXAMPLES / 'plan.dgn').read_bytes())

    def test_each_says_what_a_file_of_another_kind_is(self) -> None:
        v8 = self.put('v8.dgn', b'\xd0\xcf\x11\xe0' + bytes(3000))
        _, out, _ = self.kit('each', self.put('s', 'color 1 3\n'), v8, '--into', self.path('into'), '--csv')
        self.assertIn('version 8', list(csv.DictReader(io.StringIO(out)))[0]['ending'])


class Fields(samples.WithProgram):
    def patched(self, file: bytes, word: str, *more: object) -> bytes:
        """What a patch file makes of a drawing."""
        source = self.put('in.dgn', file)
        self.kit_err = self.kit(word, source, self.path('p'), *more, '--force')[2]
        self.program.apply(source, self.path('p'), self.path('out.dgn'))
        return (self.folder / 'out.dgn').read_bytes()

    def test_a_cell_gets_another_name(self) -> None:
        file = (samples.EXAMPLES / 'valve.dgn').read_bytes()
        made = self.patched(file, 'rename', 'vlv', 'Ab7$')
        # A is 1, B 2 and 7 is 37; $ is 27: 1*1600 + 2*40 + 37 and 27*1600, at byte 38 of the cell, which begins at 1588
        self.assertEqual(made[1588 + 38 : 1588 + 42], (1717).to_bytes(2, 'little') + (43200).to_bytes(2, 'little'))
        self.assertEqual(made[: 1588 + 38] + made[1588 + 42 :], file[: 1588 + 38] + file[1588 + 42 :])
        for name in ('TOOLONG', '', 'A_B', 'STRA\u00dfE'):
            status, _, err = self.kit('rename', self.path('in.dgn'), self.path('q'), 'VLV', name)
            self.assertEqual((status, "isn't a cell name" in err), (2, True))
        _, _, err = self.kit('rename', self.path('in.dgn'), self.path('q'), 'PUMP', 'X')
        self.assertIn('the cells are VLV', err)
        _, _, err = self.kit('retext', self.path('in.dgn'), self.path('q'), 'VLV', 'X')
        self.assertIn('use `dgnkit rename`', err)

    def test_deletions_are_taken_back(self) -> None:
        file = (samples.EXAMPLES / 'plan.dgn').read_bytes()
        source = self.put('whole.dgn', file)
        self.program.edit(source, samples.Script().delete(6).delete(3).delete(10), self.path('gone.dgn'))
        gone = (self.folder / 'gone.dgn').read_bytes()
        part = self.patched(gone, 'undelete', '--number', 6)
        self.assertEqual(samples.Drawing(self.path('out.dgn'), self.program).elements.deleted(), [3, 10])
        self.assertEqual(self.patched(part, 'undelete', '--number', '3,10'), file)
        self.assertEqual(self.patched(gone, 'undelete', '--level', '1-63'), file)
        # a member is not shown without its header
        self.patched(gone, 'undelete', '--number', 7)
        self.assertEqual(samples.Drawing(self.path('out.dgn'), self.program).elements.deleted(), [3, 8, 10])
        self.assertEqual(
            self.patched(gone, 'undelete', '--overlap', '900,400', '1100,600')[: len(file)].count(b'\x83'), 2
        )

    def test_what_is_locked_stays_deleted(self) -> None:
        file = drawings.drawing(drawings.deleted(drawings.locked(drawings.line())))
        self.assertEqual(self.patched(file, 'undelete', '--number', 1), file)
        self.assertIn('(locked;', self.kit_err)

    kit_err = ''


class Finds(samples.WithProgram):
    def numbers(self, path: str, *words: object) -> List[int]:
        return [int(it) for it in self.said('find', path, *words, '--numbers').split()]

    def test_comparisons(self) -> None:
        lines = [plan.line(it, (it, 0), (it, 9)) for it in range(1, 6)]
        looks = b''.join(it[:34] + bytes([at << 3, 10 * at]) + it[36:] for at, it in enumerate(lines, 1))
        path = self.put('in.dgn', drawings.drawing(looks))
        self.assertEqual(self.numbers(path, '--weight', '>3'), [4, 5])
        self.assertEqual(self.numbers(path, '--weight', '>=3'), [3, 4, 5])
        self.assertEqual(self.numbers(path, '--type', 'line', '--level', '<3'), [1, 2])
        self.assertEqual(self.numbers(path, '--color', '<=20,50'), [1, 2, 5])
        self.assertEqual(self.numbers(path, '--style', '>0'), [])
        for wrong in ('>', '>x', '=>3', '>300'):
            self.assertEqual(self.kit('find', path, '--weight', wrong)[0], 2, wrong)

    def test_the_size_of_texts(self) -> None:
        texts = [bytearray(plan.text(3, (it, 0), b'ab')) for it in range(3)]
        for text, height in zip(texts, (600, 2500, 6000)):
            text[42:46] = plan.long(round(height * 1000 / 6))
        path = self.put('in.dgn', with_units(drawings.drawing(*map(bytes, texts)), *METRIC))
        self.assertEqual(self.numbers(path, '--size', '2.5'), [2])
        self.assertEqual(self.numbers(path, '--size', '>2.5'), [3])
        self.assertEqual(self.numbers(path, '--size', '<=2.5'), [1, 2])
        self.assertEqual(self.numbers(path, '--size', '0.6', '--size', '6'), [1, 3])
        self.assertEqual(self.numbers(path, '--size', '2,5'), [2])
        self.assertEqual(self.numbers(path, '--size', '2500', '--units', 'resolution'), [2])

    def test_the_nearest(self) -> None:
        path = self.put('in.dgn', drawings.drawing(*[plan.line(1, (it, 0), (it, 9)) for it in (50, 10, 30, 20)]))
        self.assertEqual(self.numbers(path, '--near', '12,5', '--nearest', 2), [2, 4])
        self.assertEqual(self.numbers(path, '--near', '12,5', '--nearest', 9), [2, 4, 3, 1])
        self.assertEqual(self.numbers(path, '--near', '12,5', '--nearest', 9, '--within', 8), [2, 4])
        self.assertEqual(self.kit('find', path, '--nearest', 2)[0], 2)

    def test_numbers_of_a_list(self) -> None:
        path = self.example('plan.dgn')
        self.assertEqual(self.numbers(path, '--number', '3-9'), [3, 4, 5, 6, 7, 8, 9])
        said = self.said('find', path, '--numbers', self.put('n', 'number\n5\n3\n5\n'), '--json')
        self.assertEqual([it['number'] for it in json.loads(said)], [3, 5])
        said = self.said('find', path, '--numbers', self.put('n', '7\n5\n'), '--script', 'color {n} 3')
        self.assertEqual(said, 'color 5 3\ncolor 6 3\n')
        said = self.said(
            'lock', path, self.path('p'), '--numbers', self.put('g', 'id\n5\n'), '--field', 'id', '--dry-run'
        )
        self.assertIn('line string 5 on level 10: locked', said)
        status, _, err = self.kit('find', path, '--numbers', self.put('n', '99\n'), '--csv')
        self.assertEqual((status, 'but not 99' in err), (2, True))

    def test_csv(self) -> None:
        text = bytearray(plan.text(3, (1000, 2500), b'a "b", c'))
        text[46:50] = plan.long(90 * 360000)
        path = self.put('in.dgn', with_units(drawings.drawing(bytes(text), plan.line(7, (0, 0), (100, 50))), *METRIC))
        rows = list(csv.DictReader(io.StringIO(self.said('find', path, '--level', '3,7', '--csv'))))
        self.assertEqual((rows[0]['text'], rows[0]['x'], rows[0]['y']), ('a "b", c', '1', '2.5'))
        self.assertEqual((rows[0]['height'], rows[0]['angle'], rows[0]['level']), ('0.12', '90', '3'))
        self.assertEqual((rows[1]['high_x'], rows[1]['text'], rows[1]['colour_name']), ('0.1', '', 'white'))

    def test_what_members_there_are_is_told(self) -> None:
        _, _, err = self.kit('find', self.example('valve.dgn'), '--level', 11)
        self.assertIn('3 and 4 are members of cell 2 VLV on level 10', err)

    def test_what_nothing_meets_is_told(self) -> None:
        plan_file = self.example('plan.dgn')
        _, _, err = self.kit('find', plan_file, '--level', 40, '--cell', 'PUMP')
        self.assertIn('nothing matches --level 40 --cell PUMP; there are elements on levels 1, 2, 3, 8, 10, 11', err)
        self.assertIn('the cells are VLV', err)

    def test_lengths_places_and_heights_of_a_template(self) -> None:
        origin = (100, 10, ('m', 'cm'), (-1000, 500, 0))
        path = self.put('in.dgn', with_units(drawings.drawing(drawings.line()), *origin))
        words = ['find', path, '--number', 1, '--script']
        self.assertEqual(self.said(*words, 'move {n} {2.5} {-1}'), 'move 1 2500 -1000\n')
        for wrong in ('move {n} {2,5} 0', 'move {n} {x} 0', 'move {n} {2.5 0'):
            status, _, err = self.kit(*words, wrong)
            self.assertEqual((status, 'write {2.5}' in err), (2, True), err)
        text = self.said(*words, 'text 1 0 0 0 1 0 {3} {3} {1.5},{2} NO {n}')
        self.assertEqual(text, 'text 1 0 0 0 1 0 500000 500000 500,2500 NO 1\n')


class Sums(samples.WithProgram):
    def test_lengths_and_areas_by_level(self) -> None:
        hole = bytearray(plan.path(6, 5, [(1000, 1000), (2000, 1000), (2000, 2000), (1000, 2000)]))
        hole[33] |= 0x80
        legs = [plan.line(0, (0, 0), (3000, 4000), True), plan.line(0, (3000, 4000), (3000, 9000), True)]
        chain = drawings.with_total(drawings.element(12, 12, 40), (40 + 104 - 38) // 2) + b''.join(legs)
        square = plan.path(6, 5, [(0, 0), (4000, 0), (4000, 4000), (0, 4000), (0, 0)])
        gone = drawings.deleted(plan.line(7, (0, 0), (9000, 0)))
        file = drawings.drawing(plan.line(7, (0, 0), (0, 1500)), chain, square, bytes(hole), gone)
        path = self.put('in.dgn', with_units(file, *METRIC))
        facts = json.loads(self.said('info', '--lengths', '--json', path))[0]['lengths']
        self.assertEqual(facts['7'], {'lines': 1, 'shapes': 0, 'length': 1.5, 'outline': 0, 'area': 0})
        self.assertEqual(facts['12'], {'lines': 2, 'shapes': 0, 'length': 10, 'outline': 0, 'area': 0})
        self.assertEqual(facts['5'], {'lines': 0, 'shapes': 2, 'length': 0, 'outline': 20, 'area': 15})
        rows = list(csv.DictReader(io.StringIO(self.said('info', '--lengths', '--csv', path))))
        self.assertEqual({it['level']: it['area'] for it in rows}['5'], '15.0')

    def test_the_names_of_reference_files(self) -> None:
        body = bytes(20) + b'roads.dgn\0\0/maps/north sheet.dgn\0' + bytes(9)
        attached = bytes([9, 5]) + (len(body) // 2).to_bytes(2, 'little') + body
        facts = json.loads(self.said('info', '--json', self.put('in.dgn', drawings.drawing(attached))))[0]
        self.assertEqual(facts['reference_files'][0]['names'], ['roads.dgn', '/maps/north sheet.dgn'])
        self.assertIn('reference  element 1: roads.dgn', self.said('info', self.path('in.dgn')))

    def test_shared_cell_definitions_do_not_count_as_drawn(self) -> None:
        far = plan.line(1, (90000, 0), (99000, 0), True)
        path = self.put('in.dgn', drawings.drawing(drawings.element(34, 1, 36), far, drawings.line()))
        facts = json.loads(self.said('info', '--json', '--lengths', path))[0]
        self.assertEqual(facts['extent']['high_resolution'], [100, 50])
        self.assertEqual(facts['lengths']['1']['lines'], 1)
        features = json.loads(self.said('geojson', path))['features']
        self.assertEqual([it['id'] for it in features], [3])
        self.assertEqual(self.said('find', path, '--near', '95000,0', '--within', '9', '--numbers'), '')

    def test_trees_that_are_there_twice(self) -> None:
        valve = plan.valve(10, 500, 0, 20)
        grouped = bytearray(drawings.line())
        grouped[28] = 7
        other = plan.line(1, (0, 0), (100, 51))
        file = drawings.drawing(valve, drawings.line(), valve, bytes(grouped), other, drawings.deleted(other))
        said = self.said('health', '--json', self.put('in.dgn', file), status=1)
        self.assertEqual([it['elements'] for it in json.loads(said)[0]['twice']], [[1, 5], [4, 8]])
        said = self.said('health', '-v', self.path('in.dgn'), status=1)
        self.assertIn('cell 1 VLV on level 10 is there 2 times: 1 and 5', said)

    def test_a_frame(self) -> None:
        lines = [plan.line(1, (0, 0), (50, 50)), plan.line(1, (50, 50), (150, 50)), plan.line(1, (300, 0), (400, 0))]
        path = self.put('in.dgn', drawings.drawing(*lines))
        self.said('health', path, '--frame', '-10,-10', '500,500')
        said = self.said('health', '-v', path, '--frame', '-10,-10', '100,100', status=1)
        self.assertIn('2 trees outside the frame', said)
        self.assertIn("line 2 on level 1 isn't inside the frame\n  line 3 on level 1", said)

    def test_ranges_are_said_in_master_units(self) -> None:
        small = drawings.drawing(drawings.cell(drawings.line_of_small_range()))
        said = self.said('health', '-v', self.put('in.dgn', with_units(small, *METRIC)), status=1)
        self.assertIn('its range is 0,0 0.01,0.01, and should be 0,0 0.1,0.05 m', said)


class OutOfTheDrawing(samples.WithProgram):
    def test_a_system_of_coordinates(self) -> None:
        valve = self.example('valve.dgn')
        made = json.loads(self.said('geojson', valve, '--crs', 'epsg:25832'))
        self.assertEqual(made['crs']['properties']['name'], 'urn:ogc:def:crs:EPSG::25832')
        self.assertIn('may take the numbers for degrees', self.kit('geojson', valve)[2])
        self.assertEqual(self.kit('geojson', valve, '--crs', 'UTM 32')[0], 2)

    def test_the_origin_of_a_cell_does_not_widen_what_is_drawn(self) -> None:
        away = plan.cell(1, 'ABC', (-90000, 0), (0, 0), (100, 50), drawings.line(True))
        made = json.loads(self.said('geojson', self.put('in.dgn', drawings.drawing(away))))['features']
        self.assertEqual(made[0]['geometry'], {'type': 'Point', 'coordinates': [50, 25]})

    def test_places_that_can_not_be_told_apart(self) -> None:
        path = self.put('in.dgn', with_units((samples.EXAMPLES / 'valve.dgn').read_bytes(), *METRIC))
        for rows, word in [
            ('1,430010,440020\n', 'it has 3 columns, but the drawing has 2 dimensions'),
            ('x,y\n1010,5,2030,5\n', 'row 2: it has 4 fields, but the first row has 2'),
            ('a,b\n1,2\n', 'easting and northing'),
        ]:
            status, _, err = self.kit('place', path, 'VLV', self.put('p.csv', rows), '-o', self.path('s'))
            self.assertEqual((status, word in err), (2, True), err)
        words = ['place', path, 'VLV', self.put('p.csv', 'name;Northing;Easting\nA;0,01;0,5\nB;9;9\n')]
        said = self.said(*words, '--dry-run')
        self.assertIn('row 2: cell 2 VLV on level 10 to 0.5,0.01 m', said)
        self.assertIn(
            '1 of 2 positions are outside of what is drawn (0,-0.02 to 1,0.02 m): rows 3, the first at 9,9 m',
            self.kit(*words)[2],
        )

    def differences_left(self, first: bytes, lines: List[str], by_hand: Dict[int, int]) -> str:
        """What is left of the differences that a script and bytes by hand make, once diff's own script has run."""
        a, b = self.put('a.dgn', first), self.path('b.dgn')
        self.program.edit(a, samples.Script(it.encode() for it in lines), b)
        made = bytearray((self.folder / 'b.dgn').read_bytes())
        for place, byte in by_hand.items():
            made[place] = byte
        (self.folder / 'b.dgn').write_bytes(made)
        said = self.said('diff', '--script', a, b, '-o', self.path('s'), '--force')
        status, out, _ = self.kit('diff', self.then(said), b)
        return out

    def test_differences_as_a_script(self) -> None:
        file = (samples.EXAMPLES / 'plan.dgn').read_bytes()
        lines = ['move 6 10 -20', 'sym 5 3 7 -', 'color 9 5', 'delete 3', 'move 10 5 5', 'fit 9']
        lines += [
            'delete 11',
            'copy 6 3 4',
            'copy 5 5 5',
            'line 3 1 2 3 0,0 9,9',
            'shape 3 1 2 3 0,0 9,9 9,0 0,0',
            'text 3 1 0 0 1 0 700 800 5,5 a b',
        ]
        self.assertEqual(self.differences_left(file, lines, {}), 'no difference\n')
        self.assertIn('1 element differs: 1 on another level', self.differences_left(file, lines, {1536: 7}))


if __name__ == '__main__':
    unittest.main()
