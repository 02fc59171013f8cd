"""The app in a real browser: what a user sees and finds. Skipped where there is no browser."""

from __future__ import annotations

import base64
import os
import shutil
import socket
import sys
import tempfile
import unittest
from pathlib import Path
from unittest import mock

from app import HOSTILE, MISSING, WithBrowser, made_app
from samples import EXAMPLES, WithProgram, drawings, plan, vax_double, with_units

from dgnkit.format.colours import usual_colours


def setUpModule() -> None:
    if MISSING:
        print('the page is not tested: ' + MISSING, file=sys.stderr)


class Looking(WithBrowser):
    """The drawing is seen, and what is pointed at is named."""

    def test_title_counts_and_no_complaint(self) -> None:
        self.page(str(EXAMPLES / 'plan.dgn'))
        self.assertEqual(self.seen.title, 'plan.dgn – 12 elements')
        self.assertEqual(self.seen.text('#title'), 'plan.dgn')
        self.assertIn('12 elements', self.seen.text('#summary'))
        rows = self.seen.run("return [...document.querySelectorAll('#levels label')].map((it) => it.innerText)")
        counts = [row.split() for row in rows]
        self.assertEqual(counts, [['1', '1'], ['2', '2'], ['3', '1'], ['10', '1'], ['11', '4']])

    def test_the_valve_is_2(self) -> None:
        self.page(str(EXAMPLES / 'valve.dgn'))
        self.seen.hover(self.screen(490, 10))
        self.seen.settle()
        self.assertIn('4 line', self.seen.text('#under'))
        self.assertIn('in 2 cell VLV', self.seen.text('#under'))
        self.click_at(490, 10)
        self.assertEqual(self.number(), 'element 2')
        self.assertIn('VLV', self.seen.text('#headline'))
        self.assertIn('2 members', self.seen.text('#element'))
        self.click_at(490, 10)
        self.assertEqual(self.number(), 'element 4')
        self.seen.click('#element .facts button')
        self.assertEqual(self.number(), 'element 2')
        self.assertEqual(self.seen.run('return document.activeElement.id'), 'element-title')
        self.click_at(900, 300)
        self.assertEqual(self.number(), 'element')

    def test_a_level_is_switched_off_and_on(self) -> None:
        self.page(str(EXAMPLES / 'plan.dgn'))
        self.assertGreater(self.dot(500, 550)[3], 100)
        self.assertGreater(self.dot(0, 1500)[3], 100)
        self.seen.click('#level-10')
        self.assertEqual(self.dot(500, 550)[3], 0)
        self.assertGreater(self.dot(0, 1500)[3], 100)
        self.seen.click('#levels-none')
        self.assertEqual(self.dot(0, 1500)[3], 0)
        self.assertTrue(self.seen.run("return !document.getElementById('nothing').hidden"))
        self.seen.click('#levels-all')
        self.assertGreater(self.dot(500, 550)[3], 100)
        self.seen.click('#levels li:nth-child(4) .only')
        self.assertGreater(self.dot(500, 550)[3], 100)
        self.assertEqual(self.dot(0, 1500)[3], 0)

    def test_deleted_elements_are_drawn_where_they_are_asked_for(self) -> None:
        gone = drawings.deleted(plan.line(1, (0, 0), (1000, 0)))
        self.page(self.put('gone.dgn', drawings.drawing(gone, plan.line(1, (0, 500), (1000, 500)))))
        self.assertEqual(self.dot(500, 0)[3], 0)
        self.seen.click('#show-deleted')
        self.assertGreater(self.dot(500, 0)[3], 30)
        self.assertLess(self.dot(500, 0)[3], 0.7 * self.dot(500, 500)[3])

    def test_wheel_keys_and_drag(self) -> None:
        self.page(str(EXAMPLES / 'plan.dgn'))
        place = self.screen(2600, 1500)
        before = self.seen.run('return page.view.scale')
        self.seen.wheel(place, -300)
        self.seen.settle()
        self.assertGreater(self.seen.run('return page.view.scale'), 1.4 * before)
        for axis, (was, now) in enumerate(zip(place, self.screen(2600, 1500))):
            self.assertAlmostEqual(was, now, delta=1, msg='the place under the wheel stays, axis %d' % axis)
        self.seen.drag(place, (place[0] + 40, place[1] + 30), (place[0] + 100, place[1] + 60))
        self.seen.settle()
        moved = self.screen(2600, 1500)
        self.assertAlmostEqual(moved[0], place[0] + 100, delta=1)
        self.assertAlmostEqual(moved[1], place[1] + 60, delta=1)
        self.assertEqual(self.number(), 'element')
        self.seen.key('0')
        self.seen.settle()
        self.assertAlmostEqual(self.seen.run('return page.view.scale'), before)
        for _ in range(40):
            self.seen.key('+')
        self.seen.settle()
        self.assertGreater(self.seen.run('return page.view.scale'), 100, 'single units are seen')

    def test_two_fingers_zoom(self) -> None:
        self.page(str(EXAMPLES / 'plan.dgn'))
        before, middle = self.seen.run('return page.view.scale'), self.screen(2000, 1500)
        x, y = middle
        self.seen.pinch(((x - 50, y), (x - 150, y)), ((x + 50, y), (x + 150, y)))
        self.seen.settle()
        self.assertAlmostEqual(self.seen.run('return page.view.scale') / before, 3, delta=0.3)
        for was, now in zip(middle, self.screen(2000, 1500)):
            self.assertAlmostEqual(was, now, delta=12)
        self.assertEqual(self.number(), 'element')

    def test_far_away_and_near(self) -> None:
        line = plan.line(1, (-2147483648, -2147483648), (2147483647, 2147483647))
        self.page(self.put('far.dgn', drawings.drawing(line, plan.line(2, (7, 3), (12, 3)))))
        self.assertGreater(self.dot(-1000000000, -1000000000)[3], 60)
        self.seen.type('#search-field', '2')
        self.seen.key('Enter', 'Escape')
        self.seen.settle()
        self.assertGreater(self.seen.run('return page.view.scale'), 20, 'five units are seen')
        self.assertGreater(self.dot(9, 3)[3], 60)
        self.assertGreater(self.dot(5, 5)[3], 60, 'the line across the plane passes here, too')
        self.assertEqual(self.dot(5, 4)[3], 0)

    def test_places_in_units_of_resolution_and_in_master_units(self) -> None:
        file = (EXAMPLES / 'valve.dgn').read_bytes()
        self.page(self.put('units.dgn', with_units(file, 100, 1, ('m', 'cm'), (-2147483600, 0, 0))))
        self.seen.hover(self.screen(500, 100))
        self.seen.settle()
        said = self.seen.run("return document.getElementById('place').textContent")
        x, y = (int(it) for it in said.split('  =  ')[0].split(','))
        self.assertAlmostEqual(x, 500, delta=3)
        self.assertEqual(said.split('  =  ')[1], '%.2f, %.2f m' % ((x + 2147483600) / 100, y / 100))
        self.assertTrue(self.seen.text('#scale-text').endswith(' m'))

    def test_a_table_of_colours_is_used(self) -> None:
        table = bytes([9, 9, 9]) + bytes([0, 0, 0]) + bytes([10, 200, 30]) * 254
        behind = bytes(2) + table
        made = bytes([1, 5]) + ((36 + len(behind) - 4) // 2).to_bytes(2, 'little') + bytes(32) + behind
        line = bytearray(plan.line(2, (0, 0), (1000, 0)))
        line[34:36] = bytes([8 * 8, 7])
        self.page(self.put('table.dgn', drawings.drawing(made, bytes(line))))
        self.seen.run("page.stage.setGround('dark'); page.stage.request()")
        self.assertEqual(self.dot(500, 0)[:3], [10, 200, 30])

    def test_the_usual_colours(self) -> None:
        line = bytearray(plan.line(2, (0, 0), (1000, 0)))
        line[34:36] = bytes([8 * 8, 3])
        self.page(self.put('usual.dgn', drawings.drawing(bytes(line))))
        self.assertEqual(self.dot(500, 0)[:3], [255, 0, 0])

    def test_a_drawing_of_nothing(self) -> None:
        self.page(self.put('empty.dgn', drawings.drawing()))
        self.assertEqual(self.seen.title, 'empty.dgn – 1 element')
        self.assertEqual(self.seen.text('#nothing'), 'Nothing is shown.')
        self.seen.key('/', '0', 'Enter')
        self.assertEqual(self.number(), 'element 0')
        self.assertIn('design file header', self.seen.text('#element'))

    def test_light_and_dark(self) -> None:
        self.page(str(EXAMPLES / 'plan.dgn'))
        grounds = set()
        for _ in range(2):
            shade = self.dot(0, 1500)
            ground = self.seen.run("return getComputedStyle(document.getElementById('stage')).backgroundColor")
            self.assertGreater(abs(int(ground.split('(')[1].split(',')[0]) - shade[0]), 120, 'white is seen on both')
            grounds.add(ground)
            self.seen.click('#ground')
        self.assertEqual(len(grounds), 2)

    def test_text_has_its_size_and_angle(self) -> None:
        text = bytearray(plan.text(1, (1000, 1000), b'HHHHHHHHHH'))
        text[38:50] = plan.long(50000) + plan.long(50000) + plan.long(90 * 360000)
        far = plan.line(1, (0, 0), (5000, 5000))
        self.page(self.put('text.dgn', drawings.drawing(bytes(text), far)))
        # ten signs of 300 units each: upwards from the origin, and to the left of it
        self.seen.click('#levels-all')
        filled = self.seen.run(
            'const context = document.getElementById("drawing").getContext("2d");'
            'const span = (x, y, wide, high) => { const { view } = page;'
            '  const dots = context.getImageData(view.toScreenX(x), view.toScreenY(y + high),'
            '    Math.max(wide * view.scale, 1), high * view.scale).data;'
            '  let count = 0;'
            '  for (let at = 3; at < dots.length; at += 4) count += dots[at] > 60 ? 1 : 0; return count; };'
            'return [span(700, 1000, 300, 1500), span(700, 2500, 300, 1450), span(400, 1050, 250, 1800),'
            '  span(700, 4100, 300, 300)];'
        )
        self.assertGreater(min(filled[:2]), 50, 'its signs stand one above the other over 3000 units')
        self.assertEqual(filled[2:], [0, 0], 'it is no higher than 300 units, and no longer than 3000')

    def test_what_is_known_by_its_range_is_a_dashed_box(self) -> None:
        arc = bytearray(plan.display(16, 1, (0, 0), (1000, 500), bytes(36)))
        arc[35] = 3
        self.page(self.put('arc.dgn', drawings.drawing(bytes(arc))))
        row = self.seen.run(
            'const context = document.getElementById("drawing").getContext("2d");'
            'const left = page.view.toScreenX(0), top = Math.round(page.view.toScreenY(500));'
            'const dots = context.getImageData(left, top - 1, 1000 * page.view.scale, 3).data;'
            'const wide = dots.length / 12;'
            'let changes = 0, was = null;'
            'for (let at = 0; at < wide; at++) { let is = false;'
            '  for (let row = 0; row < 3; row++) is = is || dots[(row * wide + at) * 4 + 3] > 80;'
            '  if (was !== null && was !== is) changes++; was = is; } return changes;'
        )
        self.assertGreater(row, 20)

    def test_an_arc_is_drawn_round_where_its_fields_fit_its_range(self) -> None:
        # a quarter of a circle of 1000 around 0,0 from 0 to 90 degrees, and the same with another range
        body = plan.long(0) + plan.long(90 * 360000) + vax_double(1000) * 2 + plan.long(0) + vax_double(0) * 2
        arc = plan.display(16, 1, (0, 0), (1000, 1000), body)
        other = plan.display(16, 1, (2000, 0), (3000, 1000), body)
        self.page(self.put('arc.dgn', drawings.drawing(arc, other)))
        self.assertGreater(self.dot(707, 707)[3], 60)
        self.assertEqual(self.dot(300, 0)[3], 0, 'no box is drawn around it')
        self.assertEqual(self.dot(2707, 707)[3], 0)
        self.click_at(707, 707)
        self.assertEqual(self.number(), 'element 1')


class Reading(WithBrowser):
    """Whatever a drawing holds is text for the page."""

    def test_a_hostile_text_is_shown_as_text(self) -> None:
        text = plan.text(1, (0, 0), HOSTILE.encode('ascii'))
        name = '<b>x&amp;.dgn'
        self.page(self.put(name, drawings.drawing(text, plan.line(1, (0, 0), (9000, 0)))))
        self.assertEqual(self.seen.title, name + ' – 3 elements')
        self.assertEqual(self.seen.text('#title'), name)
        self.seen.type('#search-field', '<script>')
        self.assertIn(HOSTILE, self.seen.text('#search-list'))
        self.seen.key('Enter')
        self.assertEqual(self.number(), 'element 1')
        self.assertIn(HOSTILE, self.seen.text('#headline'))
        made = self.seen.run("return [document.images.length, document.scripts.length, !!document.querySelector('b')]")
        self.assertEqual(made, [0, self.scripts, False])

    def test_nothing_is_asked_of_a_network(self) -> None:
        made = self.page(str(EXAMPLES / 'plan.dgn'))
        with open(made, encoding='utf-8') as file:
            text = file.read()
        self.assertTrue("default-src 'none'" in text)
        for word in ('innerHTML', 'outerHTML', 'insertAdjacentHTML', 'document.write', 'eval(', 'http://', 'https://'):
            self.assertFalse(word in text, word)
        self.assertEqual(self.seen.run('return performance.getEntriesByType("resource").length'), 0)

    def test_nothing_can_be_sent_by_the_page_or_its_worker(self) -> None:
        self.page(str(EXAMPLES / 'plan.dgn'))
        with socket.create_server(('127.0.0.1', 0)) as waiting:
            waiting.settimeout(0.5)
            place = 'http://127.0.0.1:%d/' % waiting.getsockname()[1]
            sending = "fetch('%s').then(() => DONE('sent'), () => DONE('stopped'));" % place
            by_page = 'const done = arguments[0]; ' + sending.replace('DONE', 'done')
            self.assertEqual(self.seen.run_slowly(by_page), 'stopped')
            by_worker = (
                'const done = arguments[1], held = new Blob([arguments[0]]);'
                'new Worker(URL.createObjectURL(held)).onmessage = ({ data }) => done(data);'
            )
            said = self.seen.run_slowly(by_worker, sending.replace('DONE', 'postMessage'))
            self.assertEqual(said, 'stopped')
            with self.assertRaises(socket.timeout, msg='no call comes'):
                waiting.accept()
        self.assertGreater(len(self.seen.complaints()), 0, 'the browser says that it forbids it')

    def test_texts_of_both_codes_and_escapes(self) -> None:
        texts = ['Straße'.encode('utf-8'), 'Straße'.encode('latin-1'), b'a\nb', 'a\u202eb'.encode('utf-8')]
        made = [plan.text(1, (0, 100 * row), it) for row, it in enumerate(texts)]
        self.page(self.put('codes.dgn', drawings.drawing(*made)))
        found = self.seen.run('return [1, 2, 3, 4].map((it) => page.drawing.records.wordsOf(it))')
        self.assertEqual(found, ['Straße', 'Straße', 'a\\0ab', 'a\\e2\\80\\aeb'])

    def test_broken_locked_and_deleted_are_told(self) -> None:
        told = {
            'a complex chain of the line 2, with bit C': 'broken',
            'a cell header whose total counts more than what is behind it': 'broken',
            'a locked cell of the line 2': 'locked',
        }
        for name, word in told.items():
            with self.subTest(name):
                self.page(self.put('told.dgn', drawings.DRAWINGS[name]))
                self.seen.type('#search-field', '1')
                self.seen.key('Enter')
                self.assertEqual(self.number(), 'element 1')
                self.assertIn(word, self.seen.text('#headline'))

    def test_linkages_are_listed(self) -> None:
        self.page(self.put('links.dgn', drawings.DRAWINGS['a line with three linkages']))
        self.click_at(50, 25)
        for said in ('dmrs of 8 bytes at 52', 'user of 6 bytes at 60', 'rest of 4 bytes at 66'):
            self.assertIn(said, self.seen.text('#element'))

    def test_search_finds_numbers_texts_and_cells(self) -> None:
        self.page(str(EXAMPLES / 'plan.dgn'))
        for asked, found in (('9', 'element 9'), ('house', 'element 4'), ('vlv', 'element 6')):
            self.seen.type('#search-field', asked)
            self.seen.key('Enter')
            self.assertEqual(self.number(), found)
        self.seen.key('Enter')
        self.assertEqual(self.number(), 'element 9', 'a second Enter goes to the next one')
        left, top = self.screen(3000, 650)
        self.assertTrue(200 < left < 940 and 50 < top < 770, 'it is seen')

    def test_a_place_is_found_with_what_is_near_it(self) -> None:
        self.page(str(EXAMPLES / 'plan.dgn'))
        self.seen.type('#search-field', '3500,500')
        found = self.seen.text('#search-list').split('\n')
        self.assertEqual(found[1], 'Place 3500,500 in units')
        # the pipe passes 3500 at 525, and falls 250 over 1000 there
        self.assertEqual(found[2], '5 line string · 24 units away')
        self.seen.key('ArrowDown', 'ArrowDown', 'Enter')
        self.assertEqual(self.number(), 'element 5')

    def test_a_place_in_master_units(self) -> None:
        file = with_units((EXAMPLES / 'valve.dgn').read_bytes(), 100, 1, ('m', 'cm'), (-1000, 0, 0))
        self.page(self.put('units.dgn', file))
        self.seen.type('#search-field', '15.00, 0.5')
        self.assertEqual(self.seen.text('#search-list').split('\n')[1], 'Place 15.00, 0.5 in m')
        self.seen.key('Enter')
        self.assertEqual(self.seen.run('return page.place'), [500, 50])


class Opening(WithBrowser):
    """A drawing is opened by hand; a file that is none is told."""

    def fault(self, name: str, content: bytes) -> str:
        self.leave()
        self.seen.open(str(self.app))
        self.seen.choose_file('#open-file', self.put(name, content))
        self.seen.wait("document.getElementById('start-fault').textContent.includes('open')")
        self.assertTrue(self.seen.run('return page.drawing === null'))
        return self.seen.text('#start-fault')

    def test_a_drawing_is_opened_and_then_another_one(self) -> None:
        self.open(str(EXAMPLES / 'valve.dgn'))
        self.assertEqual(self.seen.title, 'valve.dgn – 5 elements')
        self.assertGreater(self.dot(250, 0)[3], 100)
        self.choose(str(EXAMPLES / 'plan.dgn'))
        self.assertEqual(self.seen.title, 'plan.dgn – 12 elements')
        self.assertGreater(self.dot(0, 1500)[3], 100)

    def test_a_drawing_is_dropped(self) -> None:
        self.leave()
        self.seen.open(str(self.app))
        content = base64.b64encode((EXAMPLES / 'valve.dgn').read_bytes()).decode('ascii')
        self.seen.run(
            'const bytes = Uint8Array.from(atob(arguments[0]), (it) => it.charCodeAt(0)), held = new DataTransfer();'
            "held.items.add(new File([bytes], 'dropped.dgn'));"
            "document.dispatchEvent(new DragEvent('drop', { dataTransfer: held, cancelable: true }));",
            content,
        )
        self.seen.wait('page.drawing !== null')
        self.seen.settle()
        self.assertEqual(self.seen.title, 'dropped.dgn – 5 elements')
        self.assertGreater(self.dot(250, 0)[3], 100)

    def test_the_example_is_seen_and_opened(self) -> None:
        self.leave()
        self.seen.open(str(self.app))
        dark = self.seen.run(
            "const canvas = document.getElementById('start-picture'), { width, height } = canvas;"
            'const dots = canvas.getContext("2d").getImageData(0, 0, width, height).data;'
            'let count = 0; for (let at = 0; at < dots.length; at += 4) count += dots[at + 1] < 128 ? 1 : 0;'
            'return count;'
        )
        self.assertGreater(dark, 1000, 'it shows a drawing')
        self.seen.click('#start-example')
        self.seen.wait("page.drawing !== null && page.drawing.name === 'town.dgn'")
        self.seen.settle()
        made = self.seen.run('return btoa(String.fromCharCode(...page.drawing.bytes))')
        self.assertEqual(base64.b64decode(made), (EXAMPLES / 'town.dgn').read_bytes())

    def test_what_is_no_drawing_is_told_by_name(self) -> None:
        self.assertIn('DGN version 8', self.fault('new.dgn', bytes.fromhex('d0cf11e0a1b11ae1') + bytes(2000)))
        self.assertIn('a MicroStation cell library', self.fault('cells.cel', bytes.fromhex('08051700') + bytes(2000)))
        self.assertIn('an empty file', self.fault('empty.dgn', b''))
        self.assertIn('doesn’t begin like one', self.fault('notes.dgn', b'hello'))

    def test_a_fault_is_told_with_its_byte(self) -> None:
        file = (EXAMPLES / 'valve.dgn').read_bytes()
        said = self.fault('cut.dgn', file[:1700])
        self.assertIn('The element that begins at byte 1680 reaches past the end of the file', said)
        short = bytearray(drawings.drawing(drawings.element(4, 1, 40)))
        short[1536 + 36] = 9
        self.assertIn('The element that begins at byte 1536 is shorter', self.fault('short.dgn', bytes(short)))

    def test_a_file_that_does_not_open_leaves_the_drawing(self) -> None:
        self.open(str(EXAMPLES / 'valve.dgn'))
        self.seen.choose_file('#open-file', self.put('notes.dgn', b'hello'))
        self.assertIn('notes.dgn doesn’t open', self.notice())
        self.assertEqual(self.seen.text('#title'), 'valve.dgn')

    def test_origins_far_away_do_not_make_a_dot_of_the_drawing(self) -> None:
        file = bytearray((EXAMPLES / 'valve.dgn').read_bytes())
        file[1588 + 84 : 1588 + 92] = plan.long(-2000000000) * 2
        self.page(self.put('far.dgn', bytes(file)))
        left, right = self.screen(0, 0)[0], self.screen(1000, 0)[0]
        self.assertGreater(right - left, 400)
        self.assertIn('origin of 1 cell', self.seen.text('#said'))

    def test_a_place_lets_go_of_what_was_chosen(self) -> None:
        self.page(str(EXAMPLES / 'plan.dgn'))
        self.click_at(980, 520)
        self.assertEqual(self.number(), 'element 6')
        self.seen.type('#search-field', '100,100')
        self.seen.key('Enter')
        self.assertEqual(self.number(), 'element')

    def test_what_is_hidden_is_let_go(self) -> None:
        self.page(str(EXAMPLES / 'plan.dgn'))
        self.click_at(0, 1500)
        self.assertEqual(self.number(), 'element 1')
        level = self.seen.run('return page.drawing.records.level[1]')
        self.seen.click('#level-%d' % level)
        self.assertEqual(self.number(), 'element')

    def test_a_length_is_measured(self) -> None:
        file = with_units((EXAMPLES / 'valve.dgn').read_bytes(), 100, 1, ('m', 'cm'), (0, 0, 0))
        self.page(self.put('units.dgn', file))
        self.seen.click('#tools [data-tool=measure]')
        self.seen.drag(self.screen(0, 0))
        self.seen.hover(self.screen(300, 0))
        self.seen.settle()
        said = self.seen.text('#hint')
        self.assertAlmostEqual(float(said.split()[0]), 3, delta=0.05)
        self.assertEqual(said.split()[1], 'm')

    def test_a_choice_is_seen_on_a_small_screen(self) -> None:
        self.page(str(EXAMPLES / 'plan.dgn'))
        self.seen._size(700, 900)
        self.addCleanup(self.seen._size, 1280, 800)
        self.seen.settle()
        self.click_at(980, 520)
        top = self.seen.run("return document.getElementById('headline').getBoundingClientRect().top")
        self.assertLess(top, 860)


class Colours(unittest.TestCase):
    """The usual colours, in the companion and in the app."""

    def test_the_usual_colours(self) -> None:
        table = usual_colours()
        self.assertEqual(len(table), 256)
        # rows that other readers of the format have: the first of a row, its orange, its last, and the end
        self.assertEqual([table[it] for it in (16, 22, 31)], [(240, 240, 240), (240, 122, 0), (0, 225, 225)])
        self.assertEqual([table[it] for it in (208, 214, 223)], [(60, 60, 60), (60, 62, 0), (0, 45, 45)])
        self.assertEqual(table[254:], [(192, 192, 192), (28, 0, 100)])


class Refusing(WithProgram):
    """What can't be done is said in one line, and nothing is written."""

    def setUp(self) -> None:
        super().setUp()
        folder = tempfile.mkdtemp(prefix='dgnkit-app-')
        self.addCleanup(shutil.rmtree, folder)
        os.environ['DGNEDIT_APP'] = str(made_app(folder))

    def refused(self, *words: str) -> str:
        before = sorted(os.listdir(self.folder))
        status, out, err = self.kit('page', *words)
        self.assertEqual((status, out), (2, ''), err)
        self.assertEqual(err.count('\n'), 1, err)
        self.assertEqual(sorted(os.listdir(self.folder)), before)
        return err

    def test_each_fault_is_one_line(self) -> None:
        made = self.example('plan.dgn')
        bad = self.put('bad.txt', 'color 1 2\nmove it\n')
        solid = self.put('solid.dgn', drawings.DRAWINGS['a line of three axes'])
        page = self.path('page.html')
        self.assertIn('missing.dgn', self.refused(self.path('missing.dgn'), '-o', page))
        self.assertIn('missing.txt', self.refused(made, '--script', self.path('missing.txt'), '-o', page))
        self.assertIn('dimensions', self.refused(made, '--after', solid, '-o', page))
        self.assertIn(made, self.refused(made, '-o', made))
        self.assertIn('nowhere', self.refused(made, '-o', self.path('nowhere/page.html')))
        self.assertIn('design file', self.refused(bad, '-o', page))

    def test_a_drawing_is_opened_in_a_browser(self) -> None:
        made = self.example('plan.dgn')
        with mock.patch('webbrowser.open', return_value=True) as opened:
            said = self.said('open', made)
        page = Path(said.split(': ')[0])
        self.addCleanup(shutil.rmtree, page.parent)
        opened.assert_called_once_with(page.as_uri())
        self.assertIn('<title>plan.dgn – 12 elements</title>', page.read_text(encoding='utf-8'))
        with mock.patch('webbrowser.open', return_value=True) as opened:
            self.said('open')
        opened.assert_called_once_with(Path(os.environ['DGNEDIT_APP']).as_uri())
        with mock.patch('webbrowser.open', return_value=False):
            said = self.said('open', made, status=1)
        self.assertIn('no browser was found', said)
        shutil.rmtree(Path(said.split(': ')[0]).parent)

    def test_a_file_that_is_no_page_is_left(self) -> None:
        made = self.example('plan.dgn')
        kept, here = self.put('plan.html', 'mine'), os.getcwd()
        os.chdir(self.folder)
        self.addCleanup(os.chdir, here)
        self.assertIn('plan.html', self.refused(made))
        self.assertEqual(Path(kept).read_text(), 'mine')
        os.remove(kept)
        for _ in range(2):
            self.assertIn('plan.html', self.said('page', made))


if __name__ == '__main__':
    unittest.main()
