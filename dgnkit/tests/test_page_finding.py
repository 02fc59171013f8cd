"""The app in a real browser: trees are selected by what is asked of their elements, and edited in one action."""

from __future__ import annotations

import unittest
from typing import List

from app import HAS_PROGRAM, IS_ASKED, NO_PROGRAM
from samples import drawings, plan
from test_page_editing import WithEditor


@unittest.skipUnless(HAS_PROGRAM, NO_PROGRAM)
class Finding(WithEditor):
    def drawing(self) -> str:
        """Lines 1 to 4 on levels 1, 2, 3 and 2, of colours 0, 5, 5 and 5; text 5 on level 2; a cell 6 with a line on
        level 9 of colour 7."""
        made: List[bytes] = []
        for at, (level, colour) in enumerate(((1, 0), (2, 5), (3, 5), (2, 5))):
            line = bytearray(plan.line(level, (0, 100 * at), (1000, 100 * at)))
            line[35] = colour
            made.append(bytes(line))
        member = bytearray(plan.line(9, (0, 900), (500, 900), True))
        member[35] = 7
        made.append(plan.text(2, (0, 600), b'Valve 7'))
        made.append(plan.cell(1, 'ABC', (0, 900), (0, 900), (500, 900), bytes(member)))
        return self.put('find.dgn', drawings.drawing(*made))

    def find(self, button: str = 'Select', **fields: str) -> List[int]:
        self.seen.click('#find')
        self.seen.wait(IS_ASKED)
        for name in ('level', 'colour', 'weight', 'style', 'words'):
            self.seen.type('#asked-' + name, fields.get(name, ''))
        self.seen.run("document.getElementById('asked-type').value = arguments[0]", fields.get('type', 'any'))
        self.dialog(button)
        return list(self.seen.run('return page.choice.numbers'))

    def test_conditions_hold_together(self) -> None:
        self.open(self.drawing())
        self.assertEqual(self.find(level='2'), [2, 4, 5])
        self.assertEqual(self.find(level='2', colour='5'), [2, 4])
        self.assertEqual(self.find(level='1-3', colour='5, 7'), [2, 3, 4])
        self.assertEqual(self.find(colour='7'), [6], 'a tree is selected by its member')
        self.assertEqual(self.find(type='17 text'), [5])
        self.assertEqual(self.find(words='valve'), [5])
        self.assertEqual(self.find(words='abc'), [6])
        self.assertEqual(self.find(level='2', words='abc'), [])
        self.assertEqual(self.find(level='3'), [3])
        self.assertEqual(self.find('Add to the selection', colour='0', level='1'), [3, 1, 6])

    def test_what_is_not_shown_is_not_selected(self) -> None:
        self.open(self.drawing())
        self.seen.click('#level-2')
        self.assertEqual(self.find(colour='5'), [3])

    def test_what_is_no_number_is_told(self) -> None:
        self.open(self.drawing())
        self.assertEqual(self.find(level='two'), [])
        self.assertIn('‘two’ isn’t a list of levels', self.notice())
        self.find(colour='9-5')
        self.assertIn('isn’t a list of colours', self.notice())

    def test_an_edit_of_them_is_one_action(self) -> None:
        made = self.drawing()
        self.open(made)
        self.find(level='2-3')
        self.seen.type('#new-color', '1')
        self.do('#edit-sym')
        self.compare(made, ['color %d 1' % it for it in (2, 3, 4, 5)])
        self.do('#undo')
        self.assertEqual(self.script_lines(), [])


if __name__ == '__main__':
    unittest.main()
