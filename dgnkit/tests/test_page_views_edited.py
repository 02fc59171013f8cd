"""Edits in the views of drawings of three axes in a real browser, held against what the program makes of the script."""

from __future__ import annotations

import unittest
from typing import List

from pictures import Picture
from solids import LINE, STRING, WithHouse, flat
from test_page_editing import WithEditor


class EditedViews(WithHouse, WithEditor):
    """Edits in a view, held against what the program makes of the script."""

    def see(self, x: float, y: float, scale: float) -> None:
        where = 'Object.assign(page.view, { x: arguments[0], y: arguments[1], scale: arguments[2] })'
        self.seen.run(where + '; page.stage.moved()', x, y, scale)
        self.seen.settle()

    def test_a_drag_goes_along_the_axes_that_are_seen(self) -> None:
        made, lines = self.house(), []
        self.do('#snap')
        for view, start, script in (
            ('Front', (500, 300), 'move 1 80 0 -120'),
            ('Right', (200, 180), 'move 1 0 80 -120'),
            ('Top', (580, 280), 'move 1 80 -120 0'),
        ):
            self.show(view)
            self.see(*start, 0.5)
            self.click_at(*start)
            self.assertEqual(self.number(), 'element 1')
            self.do('#drag-move')
            left, top = self.screen(*start)
            self.seen.drag((left, top), (left + 10, top + 10), (left + 40, top + 60))
            self.seen.settle()
            lines.append(script)
            self.assertEqual(self.script_lines(), lines)
        self.compare(made, lines)
        self.show('Front')
        moved = [(x + 160, y, z - 240) for x, y, z in LINE]
        self.assertEqual(Picture(self.seen).missing([flat(moved, 'Front')])[:5], [])

    def test_a_drag_that_snaps_goes_away_where_both_its_ends_say_how_far(self) -> None:
        made = self.house()
        self.show('Front')
        self.see(500, 300, 0.5)
        self.click_at(500, 300)
        self.do('#drag-copy')
        (left, top), (right, up) = self.screen(1000, 600), self.screen(900, 300)
        self.seen.drag((left + 4, top - 4), (left, top + 40), (right + 4, up - 4))
        self.seen.settle()
        # from the end of the line to that of the line string, at y 400 and 600
        self.compare(made, ['copy 1 -100 200 -300'])

    def test_another_view_gives_up_a_drag(self) -> None:
        self.house()
        self.click_at(500, 200)
        self.do('#drag-move')
        self.seen.drag(self.screen(500, 200), self.screen(700, 200), self.screen(900, 100), key='2')
        self.seen.settle()
        self.assertEqual(self.chosen(), 'Front')
        self.assertEqual(self.script_lines(), [])

    def test_typed_distances_looks_and_delete(self) -> None:
        made = self.house()
        self.show('Front')
        self.click_at(500, 300)
        self.seen.type('#by-y', '250')
        self.seen.type('#by-z', '-70')
        self.do('#edit-copy')
        self.do('#drag-move')
        self.seen.type('#coordinate', '30,40')
        self.seen.key('Enter')
        self.seen.settle()
        self.do('#drag-move')
        self.seen.type('#coordinate', '1,2,3')
        self.seen.key('Enter')
        self.seen.settle()
        self.seen.type('#new-color', '3')
        self.do('#edit-sym')
        self.do('#edit-delete')
        self.compare(made, ['copy 1 0 250 -70', 'move 1 30 0 40', 'move 1 1 2 3', 'color 1 3', 'delete 1'])

    def test_a_box_takes_what_is_seen_in_it(self) -> None:
        self.house()
        self.show('Front')
        for start, end, numbers in (
            ((1900, 250), (2300, 550), [3]),
            ((2100, 250), (2300, 550), []),
            ((2300, 550), (2100, 250), [3]),
            ((3950, -50), (4450, 250), [6]),
            ((-50, -250), (1100, 650), [1, 2]),
            ((800, 100), (700, 0), [2]),
            ((2900, 850), (3500, 950), [4]),
            ((3300, 850), (3500, 950), []),
            ((5300, 850), (4900, 500), [9]),
        ):
            with self.subTest((start, end)):
                self.seen.run('page.choice.choose([])')
                self.seen.drag(self.screen(*start), self.screen(*end), shift=True)
                self.seen.settle()
                self.assertEqual(self.seen.run('return page.choice.numbers'), numbers)
        self.show('Right')
        self.seen.run('page.choice.choose([])')
        self.seen.drag(self.screen(150, 850), self.screen(550, 950), shift=True)
        self.seen.settle()
        self.seen.type('#by-z', '5')
        self.do('#edit-move')
        self.assertEqual(self.script_lines(), ['move 4 0 0 5'])

    def test_fences_and_new_elements_are_drawn_from_above(self) -> None:
        self.house()
        names = ['fence', 'line', 'string', 'shape', 'text']
        self.tool('fence')
        self.show('Front')
        self.assertEqual(self.seen.run('return page.tools.tool'), 'choose')
        self.assertEqual(self.tools_off(), names)
        self.focus()
        self.seen.key('f')
        self.assertEqual(self.seen.run('return page.tools.tool'), 'choose')
        self.assertIn('Top', self.seen.text('#said'))
        titles = 'return [...document.querySelectorAll("#tools :disabled")].map((it) => it.title)'
        self.assertTrue(all('Top' in it for it in self.seen.run(titles)))
        self.seen.key('1')
        self.seen.settle()
        self.assertEqual(self.tools_off(), [])
        self.assertIn('corners', self.seen.run("return document.querySelector('[data-tool=fence]').title"))

    def tools_off(self) -> List[str]:
        return list(
            self.seen.run("return [...document.querySelectorAll('#tools :disabled')].map((it) => it.dataset.tool)")
        )

    def test_a_fence_that_is_drawn_holds_in_another_view(self) -> None:
        made = self.house()
        self.tool('fence')
        self.draw((-100, -100), (1100, -100), (1100, 500), (-100, 500))
        self.seen.key('Enter')
        self.seen.wait('page.tools.fence.isKnown')
        self.show('Front')
        self.assertEqual(self.seen.run('return page.tools.outline'), [])
        self.seen.type('#by-z', '40')
        self.do('#edit-move')
        lines = self.script_lines()
        self.assertEqual(lines[1:], ['fmove inside 0 0 40'])
        self.compare(made, lines)
        moved = [(x, y, z + 40) for x, y, z in LINE]
        self.assertEqual(Picture(self.seen).missing([flat(moved, 'Front')])[:5], [])

    def test_before_both_and_after(self) -> None:
        self.house()
        self.show('Front')
        self.click_at(500, 300)
        self.seen.type('#by-z', '-200')
        self.do('#edit-move')
        old, new = flat(LINE, 'Front'), flat([(x, y, z - 200) for x, y, z in LINE], 'Front')
        for mode, lines in (('before', [old]), ('after', [new]), ('both', [new])):
            self.do('#mode-' + mode)
            self.assertEqual(Picture(self.seen).missing(lines)[:5], [], mode)
        self.do('#mode-after')
        self.assertGreater(len(Picture(self.seen).missing([old])), 10)
        self.do('#undo')
        self.assertEqual(Picture(self.seen).missing([old])[:5], [])

    def test_what_a_patch_file_makes_is_seen_in_the_same_view(self) -> None:
        made = self.house()
        script, patch = self.put('move.txt', 'move 1 0 0 -200\n'), self.path('move.patch')
        self.assertEqual(self.program.run('pack', made, script, patch).status, 0)
        self.show('Front')
        self.second('apply', patch)
        new = flat([(x, y, z - 200) for x, y, z in LINE], 'Front')
        self.assertEqual(Picture(self.seen).missing([new])[:5], [])
        self.show('Right')
        self.do('#undo')
        self.assertEqual(Picture(self.seen).missing([flat(LINE, 'Right')])[:5], [])

    def test_compared_in_a_view(self) -> None:
        made, other = self.house(), self.path('other.dgn')
        script = self.put('move.txt', 'move 2 0 0 -250\n')
        self.assertEqual(self.program.run('edit', made, script, other).status, 0)
        self.show('Front')
        self.second('compare', other)
        self.seen.wait("!document.getElementById('tab-changes').hidden")
        self.do('#changes .entry')
        moved = [(x, y, z - 250) for x, y, z in STRING]
        self.assertEqual(Picture(self.seen).missing([flat(moved, 'Front')])[:5], [])
        self.assertEqual(self.show('Right').missing([flat(moved, 'Right')])[:5], [])
        self.do('#compare-end')
        self.assertEqual(self.chosen(), 'Right')
        self.assertEqual(Picture(self.seen).missing([flat(STRING, 'Right')])[:5], [])


if __name__ == '__main__':
    unittest.main()
