"""The page for those who see or move less: names, keyboard and contrast, by Chromium's own accessibility tree."""

from __future__ import annotations

import unittest
from typing import Any, Dict, List

from app import HAS_PROGRAM, NO_PROGRAM, WithBrowser
from samples import EXAMPLES

NAMED = {'button', 'checkbox', 'textbox', 'searchbox', 'combobox', 'radio', 'spinbutton', 'application', 'region'}
# The contrast of each piece of text that is seen and can be used, with the text.
CONTRASTS = """
const parts = (colour) => colour.match(/[\\d.]+/g).map(Number);
const light = (colour) => parts(colour).slice(0, 3).map((it) => it / 255)
    .map((it) => (it <= 0.04045 ? it / 12.92 : ((it + 0.055) / 1.055) ** 2.4))
    .reduce((sum, it, at) => sum + it * [0.2126, 0.7152, 0.0722][at], 0);
const groundOf = (element) => { for (let at = element; at; at = at.parentElement) {
    const colour = getComputedStyle(at).backgroundColor; const [, , , alpha] = parts(colour);
    if (alpha === undefined || alpha === 1) return colour; } return 'rgb(255, 255, 255)'; };
const seen = [];
for (const element of document.querySelectorAll('body *')) {
    const own = [...element.childNodes].some((it) => it.nodeType === 3 && it.textContent.trim() !== '');
    if (!own || element.closest('[hidden], .hidden, script, noscript, :disabled, option')) continue;
    const [one, other] = [light(getComputedStyle(element).color), light(groundOf(element))].sort((a, b) => b - a);
    seen.push([(one + 0.05) / (other + 0.05), element.textContent.trim().slice(0, 40)]);
}
return seen;
"""

# What stands in the bar at the top and is cut: what reaches beyond its own room, or beyond the page.
CUT = """
const field = document.getElementById('search-field'), style = getComputedStyle(field);
const pen = document.createElement('canvas').getContext('2d');
pen.font = style.font;
const room = field.clientWidth - parseFloat(style.paddingLeft) - parseFloat(style.paddingRight);
const seen = [...document.querySelectorAll('header.bar *')].filter((it) => it.checkVisibility() && it !== field
    && !it.closest('.hidden, .found, .menu-list'));
const cut = seen.filter((it) => it.scrollWidth > it.clientWidth + 1 && getComputedStyle(it).display !== 'inline'
    || it.getBoundingClientRect().right > innerWidth);
return [...cut.map((it) => it.id || it.textContent), pen.measureText(field.placeholder).width > room && 'search']
    .filter(Boolean);
"""


@unittest.skipUnless(HAS_PROGRAM, NO_PROGRAM)
class Access(WithBrowser):
    """The app with a drawing, with a script that was run, and with another drawing to compare."""

    def pages(self) -> List[List[str]]:
        script = self.put('edit.txt', 'move 6 1000 75\ndelete 9\ncopy 6 0 900\ncolor 1 4\n')
        return [[], ['--script', script], ['--after', str(EXAMPLES / 'valve.dgn')]]

    def nodes(self) -> List[Dict[str, Any]]:
        return list(self.seen.command('Accessibility.getFullAXTree')['nodes'])

    def open_with_all(self, words: List[str]) -> None:
        """A page with something chosen and written, so that all of its parts are there."""
        self.page(str(EXAMPLES / 'plan.dgn'), *words)
        self.click_at(980, 520)
        self.seen.type('#search-field', 'v')

    def test_whatever_is_used_has_a_name(self) -> None:
        for words in self.pages():
            self.open_with_all(words)
            for node in self.nodes():
                role = node.get('role', {}).get('value')
                if role in NAMED and not node.get('ignored'):
                    with self.subTest(words=words, node=node.get('nodeId'), role=role):
                        self.assertTrue(node.get('name', {}).get('value', '').strip(), node)

    def test_all_text_is_read_on_both_grounds(self) -> None:
        for words in self.pages():
            self.open_with_all(words)
            for ground in ('dark', 'light'):
                self.seen.run('page.stage.setGround(arguments[0])', ground)
                found = self.seen.run(CONTRASTS)
                self.assertGreater(len(found), 30)
                for contrast, text in found:
                    with self.subTest(words=words, ground=ground, text=text):
                        self.assertGreaterEqual(contrast, 4.5)

    def test_the_bar_has_room_for_all_that_stands_in_it(self) -> None:
        self.page(str(EXAMPLES / 'plan.dgn'), *self.pages()[1])
        self.assertEqual(self.seen.run('return innerWidth'), 1280)
        self.assertTrue(self.seen.run("return document.getElementById('modes').checkVisibility()"))
        self.assertEqual(self.seen.run(CUT), [])

    def test_tab_reaches_all_and_leaves_none(self) -> None:
        for words in self.pages():
            self.open_with_all(words)
            self.seen.run("document.getElementById('search-field').value = ''; document.activeElement.blur()")
            wanted = self.seen.run(
                "return [...document.querySelectorAll('button, input, select, canvas[tabindex]')]"
                '.filter((it) => !it.matches(":disabled") && it.tabIndex >= 0 && it.checkVisibility()).length'
            )
            self.seen.run(
                'window.reached = new Set(); document.addEventListener("focusin",'
                '(event) => window.reached.add(event.target))'
            )
            self.seen.key(*['Tab'] * (wanted + 3))
            self.assertGreaterEqual(self.seen.run('return window.reached.size'), wanted)


if __name__ == '__main__':
    unittest.main()
