"""`diff`: each change by itself, as the editor makes it or by hand, and in words."""

import json
import time
import unittest
from typing import Dict, List, Optional, Tuple

import samples
from samples import drawings, plan, with_units

METRIC = (100, 1, ('m', 'cm'), (0, 0, 0))
Change = Tuple[Optional[int], Optional[int], List[str]]


class Diff(samples.WithProgram):
    def found(self, before: bytes, after: bytes, status: int = 1) -> samples.Json:
        names = self.put('a.dgn', before), self.put('b.dgn', after)
        found: samples.Json = json.loads(self.said('diff', *names, '--json', status=status))
        return found

    def changes(self, before: bytes, after: bytes) -> Dict[Optional[int], samples.Json]:
        """The changes of each element that differs, by its number."""
        return {it['before']: it['changes'] for it in self.found(before, after)['elements']}

    def edited(self, file: bytes, *lines: str) -> bytes:
        source, out = self.put('in.dgn', file), self.path('out.dgn')
        answers = self.program.edit(source, samples.Script(it.encode() for it in lines), out)
        self.assertEqual([it.cause for it in answers if it.is_refused], [])
        return (self.folder / 'out.dgn').read_bytes()

    def by_edit(self, file: bytes, *lines: str) -> Dict[Optional[int], samples.Json]:
        return self.changes(file, self.edited(file, *lines))

    valve = (samples.EXAMPLES / 'valve.dgn').read_bytes()

    def test_the_same(self) -> None:
        self.assertEqual(self.found(self.valve, self.valve, 0), {'elements': [], 'tail': []})
        self.assertEqual(self.said('diff', self.put('a', self.valve), self.put('b', self.valve)), 'no difference\n')

    def test_moved(self) -> None:
        moved = {'moved': {'resolution': [50, -10], 'master': None, 'metres': None}}
        self.assertEqual(self.by_edit(self.valve, 'move 2 50 -10'), {2: moved, 3: moved, 4: moved})
        metric = with_units(self.valve, *METRIC)
        self.assertEqual(self.by_edit(metric, 'move 1 250 0')[1]['moved']['metres'], [2.5, 0.0])
        feet = with_units(self.valve, 10, 10, ('ft', 'x'), (0, 0, 0))
        self.assertEqual(
            self.by_edit(feet, 'move 1 250 0')[1]['moved'],
            {'resolution': [250, 0], 'master': [2.5, 0.0], 'metres': [0.762, 0.0]},
        )
        solid = drawings.DRAWINGS['a line of three axes']
        self.assertEqual(self.by_edit(solid, 'move 1 5 0 -5')[1]['moved']['resolution'], [5, 0, -5])

    def words(self, before: bytes, *lines: str) -> str:
        """What is said of the first element that differs after these edits."""
        names = self.put('a.dgn', before), self.put('b.dgn', self.edited(before, *lines))
        return self.said('diff', *names, status=1).split('\n')[0].partition(': ')[2]

    def test_a_displacement_in_words(self) -> None:
        self.assertEqual(self.words(self.valve, 'move 1 50 -10'), 'moved by 50,-10 units of resolution')
        metric = with_units(self.valve, *METRIC)
        self.assertEqual(self.words(metric, 'move 1 0 -250'), 'moved 2.5 m south (0,-250 units of resolution)')
        feet = with_units(self.valve, 10, 10, ('ft', 'x'), (0, 0, 0))
        said = 'moved 2.5 ft west and 1 ft north, or 0.762 m and 0.3048 m (-250,100 units of resolution)'
        self.assertEqual(self.words(feet, 'move 1 -250 100'), said)
        solid = with_units(drawings.DRAWINGS['a line of three axes'], *METRIC)
        said = 'moved 1 m east, 2 m north and 3 m down (100,200,-300 units of resolution)'
        self.assertEqual(self.words(solid, 'move 1 100 200 -300'), said)

    def test_a_moved_member_widens_its_header(self) -> None:
        found = self.by_edit(self.valve, 'move 3 100 0')
        self.assertEqual(found[2], {'widened': {'from': [[480, -20], [520, 20]], 'to': [[480, -20], [620, 20]]}})
        self.assertEqual(list(found[3]), ['moved'])
        narrowed = self.changes(self.edited(self.valve, 'move 3 100 0', 'move 3 -100 0'), self.valve)
        self.assertEqual(list(narrowed[2]), ['range'])

    def test_looks(self) -> None:
        self.assertEqual(self.by_edit(self.valve, 'color 1 7'), {1: {'recoloured': {'colour': [0, 7]}}})
        self.assertEqual(self.by_edit(self.valve, 'sym 1 - 3 5'), {1: {'looks': {'weight': [0, 3], 'style': [0, 5]}}})

    def test_deleted_and_back(self) -> None:
        gone = self.edited(self.valve, 'delete 1')
        self.assertEqual(self.changes(self.valve, gone), {1: {'deleted': True}})
        self.assertEqual(self.changes(gone, self.valve), {1: {'deleted': False}})
        names = self.put('a.dgn', gone), self.put('b.dgn', self.valve)
        self.assertIn('1 element differs: 1 no longer deleted', self.said('diff', *names, status=1))

    def test_appended_and_gone(self) -> None:
        more = self.edited(self.valve, 'copy 2 0 100')
        found = self.found(self.valve, more)['elements']
        self.assertEqual(
            [(it['before'], it['after'], it['changes']) for it in found],
            [(None, it, {'appended': True}) for it in (5, 6, 7)],
        )
        self.assertEqual([it['before'] for it in self.found(more, self.valve)['elements']], [5, 6, 7])

    def test_an_element_in_the_midst(self) -> None:
        lines = [plan.line(1, (it, 0), (it, 9)) for it in range(6)]
        text = plan.text(3, (1, 1), b'new')
        found = self.found(drawings.drawing(*lines), drawings.drawing(*lines[:2], text, *lines[2:]))['elements']
        self.assertEqual([(it['before'], it['after'], list(it['changes'])) for it in found], [(None, 3, ['appended'])])
        swapped = self.found(drawings.drawing(*lines), drawings.drawing(*lines[:2], *lines[3:]))['elements']
        self.assertEqual([(it['before'], it['after'], list(it['changes'])) for it in swapped], [(3, None, ['gone'])])

    def numbers(self, before: List[bytes], after: List[bytes]) -> List[Change]:
        """Of the elements that differ the number in the first drawing, that in the second, and the changes."""
        found = self.found(drawings.drawing(*before), drawings.drawing(*after))['elements']
        return [(it['before'], it['after'], sorted(it['changes'])) for it in found]

    def test_elements_that_came_and_went_and_changed(self) -> None:
        lines = [plan.line(1, (it, 0), (it, 9)) for it in range(8)]
        text, new = plan.text(3, (1, 1), b'new'), plan.text(3, (1, 1), b'newer')
        coloured = [it[:35] + b'\7' + it[36:] for it in lines]
        # one came before a line that changed
        after = [*lines[:2], text, coloured[2], *lines[3:]]
        self.assertEqual(self.numbers(lines, after), [(None, 3, ['appended']), (3, 4, ['recoloured'])])
        # one went, and one behind it changed
        after = [lines[0], *lines[2:5], coloured[5], *lines[6:]]
        self.assertEqual(self.numbers(lines, after), [(2, None, ['gone']), (6, 5, ['recoloured'])])
        # one is another now, and some are moved behind it
        before = [lines[0], text, *lines[1:]]
        after = [lines[0], new, *lines[1:]]
        self.assertEqual(self.numbers(before, after), [(2, None, ['gone']), (None, 2, ['appended'])])

    def test_the_same_elements_many_times(self) -> None:
        same, other = [plan.line(1, (0, 0), (0, 9))] * 5, plan.line(1, (3, 0), (3, 9))
        self.assertEqual(self.numbers([*same, other], [*same[:3], other]), [(4, None, ['gone']), (5, None, ['gone'])])
        text = plan.text(3, (1, 1), b'new')
        self.assertEqual(self.numbers([*same, other], [*same[:3], text, *same[3:], other]), [(None, 4, ['appended'])])

    lines = [plan.line(1, (it, 0), (it * it, 9)) for it in range(200)]
    other = plan.line(1, (777, 0), (778, 9))

    def test_an_element_of_the_same_type_and_size_put_in(self) -> None:
        lines, other = self.lines, self.other
        self.assertEqual(self.numbers(lines, [*lines[:50], other, *lines[50:]]), [(None, 51, ['appended'])])
        self.assertEqual(self.numbers(lines, [*lines[:50], *lines[51:]]), [(51, None, ['gone'])])
        both = [*lines[:20], other, *lines[20:150], *lines[151:]]
        self.assertEqual(self.numbers(lines, both), [(None, 21, ['appended']), (151, None, ['gone'])])
        coloured = lines[90][:35] + b'\7' + lines[90][36:]
        after = [*lines[:20], other, *lines[20:90], coloured, *lines[91:]]
        self.assertEqual(self.numbers(lines, after), [(None, 21, ['appended']), (91, 92, ['recoloured'])])

    def test_the_script_of_an_element_put_in(self) -> None:
        lines = self.lines
        names = [
            self.put('a.dgn', drawings.drawing(*lines)),
            self.put('b.dgn', drawings.drawing(*lines[:50], self.other, *lines[50:])),
        ]
        self.assertEqual(self.said('diff', *names, '--script'), 'line 1 0 0 0 777,0 778,9\n')

    def test_another_order(self) -> None:
        lines = self.lines[:9]
        self.assertEqual(self.numbers(lines, [lines[4], *lines[:4], *lines[5:]]), [(5, 1, ['reordered'])])
        turned = self.found(drawings.drawing(*lines), drawings.drawing(*lines[::-1]))['elements']
        self.assertEqual({tuple(it['changes']) for it in turned}, {('reordered',)})
        self.assertEqual(len(turned), 8)
        names = self.put('a.dgn', drawings.drawing(*lines)), self.put('b.dgn', drawings.drawing(*lines[::-1]))
        said = self.said('diff', *names, status=1).splitlines()
        self.assertEqual(said[-1], 'the same elements, 8 of them in another order')
        self.assertTrue(said[0].endswith(': the same, in another order'), said[0])

    def test_an_edit_keeps_the_numbers(self) -> None:
        grid = [plan.line(1, (10 * it, 0), (10 * it, 9)) for it in range(5)]
        # the line moves to where the next one is, which is the same then
        moved = [grid[1], *grid[1:]]
        self.assertEqual(self.numbers(grid, moved), [(1, 1, ['moved'])])

    def test_many_elements_that_differ_little_take_little_time(self) -> None:
        many = [plan.line(1, (it, it % 977), (it * 3, 9)) for it in range(100000)]
        after = [*many[:100], self.other, *many[100:70000], *many[70001:], many[70000]]
        began = time.monotonic()
        found = self.numbers(many, after)
        self.assertEqual(found, [(None, 101, ['appended']), (70001, 100001, ['reordered'])])
        self.assertLess(time.monotonic() - began, 20)

    def test_marks_of_the_head(self) -> None:
        line = drawings.line()
        for other, changes in [
            (bytes([21]) + line[1:], {'level': [1, 21]}),
            (drawings.locked(line), {'locked': True}),
            (drawings.with_bit_c(line), {'bit_c': True}),
        ]:
            self.assertEqual(self.changes(drawings.drawing(line), drawings.drawing(other)), {1: changes})

    def test_texts(self) -> None:
        one, other = plan.text(3, (1, 1), b'DN 150'), plan.text(3, (1, 1), b'DN 200')
        self.assertEqual(
            self.changes(drawings.drawing(one), drawings.drawing(other)), {1: {'text': ['DN 150', 'DN 200']}}
        )
        short = one[:58] + bytes([4]) + one[59:]
        self.assertEqual(
            self.changes(drawings.drawing(one), drawings.drawing(short)), {1: {'text': ['DN 150', 'DN 1']}}
        )

    def test_single_points(self) -> None:
        one = plan.path(4, 1, [(0, 0), (5, 5), (9, 9)])
        other = one[:38] + plan.path(4, 1, [(0, 0), (5, 6), (9, 9)])[38:]
        points = [{'point': 2, 'from': [5, 5], 'to': [5, 6]}]
        self.assertEqual(self.changes(drawings.drawing(one), drawings.drawing(other)), {1: {'points': points}})

    def test_other_bytes_have_their_places(self) -> None:
        one = plan.text(3, (1, 1), b'DN 150')
        other = one[:36] + b'\x07' + one[37:48] + b'\x05' + one[49:]
        self.assertEqual(self.changes(drawings.drawing(one), drawings.drawing(other)), {1: {'bytes': [36, 48]}})
        names = self.put('a', drawings.drawing(one)), self.put('b', drawings.drawing(other))
        said = self.said('diff', *names, status=1)
        self.assertIn("text 1 'DN 150' on level 3: other bytes at 36, 48 (2 bytes: body, rotation)", said)

    def test_the_tail(self) -> None:
        self.assertEqual(
            self.found(self.valve, self.valve + b'x')['tail'],
            ['after the elements: 2 bytes in the first, 3 bytes in the second'],
        )

    def test_every_byte_that_differs_is_told(self) -> None:
        # a change of any one byte of the plan is a difference, but of what opens no more
        file = (samples.EXAMPLES / 'plan.dgn').read_bytes()
        opened = self.opened(file)
        for element in opened.elements[1:6]:
            for place in range(4, element.size, 3):
                made = bytearray(file)
                made[element.offset + place] ^= 0x01
                status, out, _ = self.kit('diff', self.put('a', file), self.put('b', bytes(made)), '--json')
                if status == 1:
                    self.assertIn(element.number, [it['before'] for it in json.loads(out)['elements']], place)
                else:
                    self.assertEqual(status, 2)


if __name__ == '__main__':
    unittest.main()
