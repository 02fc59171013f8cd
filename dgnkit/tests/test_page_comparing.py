"""The app in a real browser, showing what differs between two drawings."""

from __future__ import annotations

import subprocess
import unittest

from app import HAS_PROGRAM, NO_PROGRAM, WithBrowser
from page_pictures import PICTURES
from samples import EXAMPLES, PROGRAM, drawings, plan


class Comparing(WithBrowser):
    """What has changed is marked, listed in words, and gone to."""

    def edited(self, *lines: str) -> str:
        """What lines make of the plan."""
        script, out = self.put('edit.txt', ''.join(line + '\n' for line in lines)), self.path('after.dgn')
        words = [str(PROGRAM), 'edit', str(EXAMPLES / 'plan.dgn'), script, out]
        subprocess.run(words, stdout=subprocess.DEVNULL, check=False)
        return out

    def compare(self, *lines: str) -> None:
        self.page(str(EXAMPLES / 'plan.dgn'), '--after', self.edited(*lines))

    def test_changes_are_listed_with_what_they_are_of(self) -> None:
        self.compare('color 5 1', 'move 6 1000 75', 'delete 9', 'copy 6 0 900')
        rows = self.seen.run("return [...document.querySelectorAll('#changes .entry')].map((it) => it.innerText)")
        said = [' '.join(it.split()) for it in rows]
        self.assertIn('changed line string 5 on level 10: colour 0 (white, #ffffff) to 1 (blue, #0000ff)', said)
        self.assertTrue(any(it.startswith('changed cell 6 VLV on level 10: moved by 1000,75') for it in said), said)
        self.assertTrue(any(it.startswith('deleted cell 9 VLV on level 10: deleted') for it in said), said)
        self.assertTrue(any(it.startswith('added cell 12 VLV on level 10: appended') for it in said), said)
        self.assertIn('10 changes', self.seen.text('#changes-count'))
        for row in said:
            numbers = [it for it in row.split(':')[0].split() if it.isdigit()]
            self.assertEqual(len(numbers), 2, 'each has one number, and its level: ' + row)

    def test_three_colours_and_an_old_place(self) -> None:
        self.compare('move 6 1000 75', 'delete 9', 'copy 6 0 900')
        pens = self.seen.run('return [page.pens.changed, page.pens.added, page.pens.deleted, page.pens.old]')
        wanted = [[int(it[at : at + 2], 16) for at in (1, 3, 5)] for it in pens]
        # the valves' arms: where it is now, its copy, the deleted one, where it was
        for (x, y), colour in zip(((2040, 615), (2040, 1515), (3040, 690), (1040, 540)), wanted):
            found = self.dot(x, y)
            self.assertGreater(found[3], 60, (x, y))
            self.assertLess(max(abs(a - b) for a, b in zip(found, colour)), 24, (x, y, found, colour))
        self.seen.click('#mode-before')
        self.assertEqual(self.dot(2040, 615)[3], 0)
        self.assertGreater(self.dot(1040, 540)[3], 100)
        self.seen.click('#mode-after')
        self.assertGreater(self.dot(2040, 615)[3], 100)
        self.assertEqual(self.dot(1040, 540)[3], 0)
        self.assertEqual(self.dot(3040, 690)[3], 0)

    def test_after_has_the_colours_of_the_drawing(self) -> None:
        self.compare('sym 5 3 8 -')
        self.seen.run("page.stage.setGround('dark'); page.modes.set('after')")
        self.assertEqual(self.dot(2000, 562)[:3], [255, 0, 0])

    def test_what_has_not_changed_is_faint(self) -> None:
        self.compare('color 5 1')
        faint = self.dot(0, 1500)[3]
        self.seen.click('#mode-after')
        self.assertLess(faint, 0.6 * self.dot(0, 1500)[3])

    def test_an_entry_goes_to_its_place(self) -> None:
        self.compare('move 6 1000 75')
        for _ in range(6):
            self.seen.click('#zoom-in')
        self.seen.click('#changes li:first-child .entry')
        self.seen.settle()
        self.assertEqual(self.seen.run('return page.choice.numbers'), [6])
        for place in ((1000, 500), (2000, 575)):
            left, top = self.screen(*place)
            self.assertTrue(200 < left < 940 and 50 < top < 770, 'both the old and the new place are seen')

    def test_an_element_that_came_between_is_the_only_change(self) -> None:
        lines = [plan.line(1, (0, 100 * it), (4000, 100 * it)) for it in (0, 0, 10, 20, 30)]
        more = plan.path(4, 1, [(0, 1500), (1000, 1500), (4000, 1500)])
        made = self.put('before.dgn', drawings.drawing(*lines))
        after = self.put('after.dgn', drawings.drawing(lines[0], more, *lines[1:]))
        self.page(made, '--after', after)
        self.assertIn('1 change', self.seen.text('#changes-count'))
        added = [int(it, 16) for it in self.seen.run('return page.pens.added.slice(1).match(/../g)')]
        self.assertLess(max(abs(a - b) for a, b in zip(self.dot(2000, 1500), added)), 24)
        for y in (0, 1000, 2000, 3000):
            self.assertGreater(max(abs(a - b) for a, b in zip(self.dot(2000, y), added)), 60)
        self.page(after, '--after', made)
        self.assertIn('gone', self.seen.text('#changes'))
        self.click_at(2000, 1500)
        self.assertEqual(self.seen.run('return page.choice.numbers'), [2])
        self.seen.click('#mode-both')
        self.click_at(2000, 3000)
        self.assertEqual(self.seen.run('return page.choice.numbers'), [5], 'in what became of it')

    def test_comparing_is_ended(self) -> None:
        self.compare('color 5 1')
        if HAS_PROGRAM:
            self.assertTrue(self.seen.run("return document.getElementById('edits').disabled"))
        self.do('#compare-end')
        self.assertTrue(self.seen.run("return document.getElementById('modes').hidden"))
        if HAS_PROGRAM:
            self.assertFalse(self.seen.run("return document.getElementById('edits').disabled"))

    def test_the_same_drawing(self) -> None:
        self.page(str(EXAMPLES / 'plan.dgn'), '--after', str(EXAMPLES / 'plan.dgn'))
        self.assertIn('No differences', self.seen.text('#changes'))


@unittest.skipUnless(HAS_PROGRAM, NO_PROGRAM)
class Pictures(WithBrowser):
    """The pictures of the documents can be made."""

    def test_both_are_made(self) -> None:
        made = {name: picture(self.seen, str(self.folder)) for name, picture in PICTURES.items()}
        for name, content in made.items():
            self.assertEqual(content[:8], b'\x89PNG\r\n\x1a\n', name)
            self.assertGreater(len(content), 20000, name)
        self.assertTrue(self.seen.text('#changes-count').startswith('7 changes'))


if __name__ == '__main__':
    unittest.main()
