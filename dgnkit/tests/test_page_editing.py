"""The app in a real browser: what a user edits, undoes, saves, and finds again. What is saved is compared with what the
program makes of the same script, byte for byte."""

from __future__ import annotations

import os
import subprocess
import sys
import unittest
from pathlib import Path
from typing import List, Sequence, Tuple

import ogr
from app import HAS_PROGRAM, HOSTILE, IS_ASKED, MISSING, NO_PROGRAM, WithBrowser
from samples import EXAMPLES, OGR, PROGRAM, drawings, plan, with_units


def setUpModule() -> None:
    if not MISSING and not HAS_PROGRAM:
        print('editing in the page is not tested: ' + NO_PROGRAM, file=sys.stderr)


@unittest.skipUnless(HAS_PROGRAM, NO_PROGRAM)
class WithEditor(WithBrowser):
    """A test that edits in the app."""

    def expected(self, drawing: str, lines: Sequence[str]) -> Tuple[List[str], bytes]:
        """What the program answers to a script, and what it makes."""
        script, out = self.put('expected.txt', ''.join(line + '\n' for line in lines)), self.path('expected.dgn')
        ran = subprocess.run([str(PROGRAM), 'edit', drawing, script, out], stdout=subprocess.PIPE, check=False)
        return ran.stdout.decode('latin-1').splitlines(), Path(out).read_bytes()

    def compare(self, drawing: str, lines: Sequence[str]) -> None:
        """The script is these lines, its answers are the program's, and the saved drawing is what the program makes."""
        self.seen.settle()
        answers, made = self.expected(drawing, lines)
        self.assertEqual(self.script_lines(), list(lines))
        self.assertEqual([it.split(':')[0] for it in self.answers()], answers)
        self.assertEqual(self.saved_drawing(drawing), made)

    def saved_drawing(self, drawing: str) -> bytes:
        self.do('#save')
        name = os.path.basename(drawing).replace('.dgn', '-new.dgn')
        return Path(self.saved_file(name)).read_bytes()

    def focus(self) -> None:
        self.seen.run("document.getElementById('marks').focus()")

    def draw(self, *corners: Tuple[float, float]) -> None:
        for corner in corners:
            self.click_at(*corner)

    def tool(self, name: str) -> None:
        self.do('#tools [data-tool=%s]' % name)

    def second(self, name: str, path: str) -> None:
        """Does what stands in the menu with a file that is chosen for it."""
        self.seen.run("document.getElementById('second-file').click = () => {}")
        self.more(name)
        self.seen.choose_file('#second-file', path)
        self.seen.settle()

    def abandon(self) -> None:
        """Leaves the page without a word, as a crash does."""
        self.seen.run("Object.defineProperty(page.work, 'losesByLeaving', { value: false })")

    def kept(self) -> List[List[str]]:
        """The lines of each record that the browser keeps, the oldest first."""
        return list(
            self.seen.run_slowly(
                'const done = arguments[arguments.length - 1];'
                'page.work.around.store.all().then((all) => done(all.sort((one, other) => one.time - other.time)'
                '.map(({ acts }) => acts.flatMap(({ lines }) => lines || []))));'
            )
        )

    def typed(self, line: str) -> None:
        self.do('#tab-script')
        self.seen.type('#typed', line)
        self.do('#typed-add')


class Editing(WithEditor):
    """From opening to the saved file."""

    def test_a_move_is_made_seen_and_saved(self) -> None:
        made = self.example('plan.dgn')
        self.open(made)
        self.click_at(980, 520)
        self.assertEqual(self.number(), 'element 6')
        self.seen.type('#by-x', '1000')
        self.seen.type('#by-y', '75')
        self.do('#edit-move')
        self.assertGreater(self.dot(1980, 595)[3], 100, 'it is seen at its new place')
        self.assertEqual(self.dot(1040, 540)[3], 0, 'and not at the old one')
        self.compare(made, ['move 6 1000 75'])
        self.assertEqual(Path(made).read_bytes(), (EXAMPLES / 'plan.dgn').read_bytes(), 'IN stays')

    def test_look_copy_delete_undo_and_redo(self) -> None:
        made = self.example('plan.dgn')
        self.open(made)
        self.click_at(980, 520)
        self.seen.type('#new-color', '4')
        self.do('#edit-sym')
        self.seen.type('#new-weight', '3')
        self.do('#edit-sym')
        self.do('#edit-copy')
        self.do('#edit-delete')
        lines = ['color 6 4', 'sym 6 4 3 -', 'copy 6 0 0', 'delete 6']
        self.compare(made, lines)
        self.assertEqual(self.number(), 'element', 'what is deleted is let go')
        self.do('#undo')
        self.do('#undo')
        self.compare(made, lines[:2])
        self.do('#redo')
        self.compare(made, lines[:3])
        for _ in range(3):
            self.do('#undo')
        self.assertEqual(self.script_lines(), [])
        self.assertTrue(self.seen.run("return document.getElementById('modes').hidden"))
        self.assertTrue(self.seen.run("return document.getElementById('save').disabled"))

    def test_a_line_is_taken_out(self) -> None:
        made = self.example('plan.dgn')
        self.open(made)
        for line in ('color 6 4', 'move 5 10 0', 'color 6 7'):
            self.typed(line)
        self.seen.click('#script li:nth-child(2) .remove')
        self.compare(made, ['color 6 4', 'color 6 7'])

    def test_lines_that_come_at_once_are_run_one_after_another(self) -> None:
        made = self.example('plan.dgn')
        self.open(made)
        lines = ['color 5 %d' % it for it in range(1, 6)] + ['color 1 4', 'move 6 5 5']
        self.seen.run(
            "arguments[0].forEach((it) => page.work.apply({ why: 'typed', lines: [it] })); page.work.undo();", lines
        )
        self.seen.wait('!page.work.isDoing')
        self.compare(made, lines[:-1])

    def test_a_drag_moves_by_whole_units(self) -> None:
        made = self.example('plan.dgn')
        self.open(made)
        self.click_at(980, 520)
        self.do('#drag-move')
        self.seen.drag(self.screen(1000, 500), self.screen(1200, 700), self.screen(1500, 1000))
        self.seen.settle()
        word, number, x, y = self.script_lines()[0].split()
        self.assertEqual((word, number), ('move', '6'))
        self.assertAlmostEqual(int(x), 500, delta=8)
        self.assertAlmostEqual(int(y), 500, delta=8)
        self.compare(made, self.script_lines())

    def test_several_are_chosen_by_shift_and_by_a_box(self) -> None:
        made = self.example('plan.dgn')
        self.open(made)
        self.seen.run(
            "const canvas = document.getElementById('marks');"
            "for (const name of ['pointerdown', 'pointerup']) canvas.setPointerCapture = () => {};"
        )
        self.click_at(980, 520)
        self.shift_drag(self.screen(2980, 600 + 50 - 30))
        self.shift_drag(self.screen(700, 800), self.screen(2700, 2300))
        self.assertIn('trees', self.number())
        chosen = self.seen.run('return page.choice.numbers')
        box = ['fence 700,800 2700,800 2700,2300 700,2300', 'select inside']
        listed = [int(it) for it in self.expected(made, box)[0][1:-1]]
        self.assertTrue(set(listed) <= set(chosen) or set(chosen) >= set(listed), (listed, chosen))
        self.seen.type('#by-x', '7')
        self.do('#edit-move')
        self.compare(made, ['move %d 7 0' % it for it in chosen])
        self.do('#undo')
        self.assertEqual(self.script_lines(), [], 'one doing is taken back at once')

    def shift_drag(self, *places: Tuple[float, float]) -> None:
        """A click or a drag with Shift."""
        self.seen.drag(*places, shift=True)
        self.seen.settle()

    def test_three_axes(self) -> None:
        made = self.put('solid.dgn', drawings.DRAWINGS['a line of three axes'])
        self.open(made)
        self.click_at(50, 25)
        self.assertIn('100, 50, 25', self.seen.text('#element'))
        self.seen.type('#by-x', '5')
        self.seen.type('#by-z', '-5')
        self.do('#edit-move')
        self.compare(made, ['move 1 5 0 -5'])

    def test_a_displacement_in_master_units(self) -> None:
        file = with_units((EXAMPLES / 'valve.dgn').read_bytes(), 100, 1, ('m', 'cm'), (0, 0, 0))
        made = self.put('units.dgn', file)
        self.open(made)
        self.click_at(490, 10)
        self.seen.type('#by-x', '-2.504')
        self.do('#edit-move')
        self.seen.type('#by-y', 'far')
        self.assertIn('is a number', self.seen.text('#mistakes'))
        self.assertTrue(self.seen.run("return document.getElementById('edit-move').disabled"))
        self.compare(made, ['move 2 -250 0'])

    def test_what_lies_out_of_sight_is_told_and_gone_to(self) -> None:
        self.open(str(EXAMPLES / 'plan.dgn'))
        self.click_at(980, 520)
        self.seen.type('#by-x', '90000')
        self.do('#edit-copy')
        self.assertIn('What was added is out of sight', self.notice())
        self.seen.click('#notice button')
        left, top = self.screen(91000, 500)
        self.assertTrue(200 < left < 940 and 50 < top < 770)

    def test_save_is_in_reach_on_a_low_screen(self) -> None:
        self.open(str(EXAMPLES / 'plan.dgn'))
        self.seen._size(1280, 620)
        self.addCleanup(self.seen._size, 1280, 800)
        self.click_at(980, 520)
        self.do('#edit-delete')
        bottom = self.seen.run("return document.getElementById('save').getBoundingClientRect().bottom")
        self.assertLess(bottom, 620)

    def test_new_elements_are_drawn(self) -> None:
        made = self.put('units.dgn', with_units((EXAMPLES / 'valve.dgn').read_bytes(), 100, 1, ('m', 'cm'), (0, 0, 0)))
        self.open(made)
        self.tool('line')
        self.seen.type('#make-color', '3')
        self.draw((100, 100), (300, 100))
        self.tool('shape')
        self.draw((100, -100), (300, -100), (300, -50))
        self.focus()
        self.seen.key('Enter')
        self.tool('text')
        self.seen.type('#make-words', 'Straße 7')
        self.seen.type('#make-height', '0.6')
        self.draw((400, 100))
        self.seen.settle()
        lines = self.seen.run('return page.work.document.lines')
        self.assertEqual([it.split()[0] for it in lines], ['line', 'shape', 'text'])
        self.assertTrue(lines[0].startswith('line 1 3 0 0 '))
        # 0.6 m are 60 units of resolution, and a multiplier counts 6 thousandths of one
        self.assertEqual(lines[2].split()[5:9], ['1', '0', '10000', '10000'])
        self.assertTrue(lines[2].endswith('Straße 7'), 'in Latin-1, a byte each')
        script = self.put('made.txt', ''.join(line + '\n' for line in lines).encode('latin-1'))
        subprocess.run(
            [str(PROGRAM), 'edit', made, script, self.path('out.dgn')], check=True, stdout=subprocess.DEVNULL
        )
        self.assertEqual(self.saved_drawing(made), Path(self.path('out.dgn')).read_bytes())

    def test_by_keys_alone(self) -> None:
        made = self.example('plan.dgn')
        self.open(made)
        self.seen.key('/', *'vlv', 'Enter', 'Escape')
        self.assertEqual(self.number(), 'element 6')
        self.focus()
        self.seen.key('n')
        self.assertEqual(self.number(), 'element 9')
        self.seen.key('Delete')
        self.compare(made, ['delete 9'])

    def test_the_ends_of_the_plane(self) -> None:
        edge = plan.line(1, (-2147483648, -2147483648), (2147483647, 2147483647))
        made = self.put('edge.dgn', drawings.drawing(edge, plan.line(2, (0, 0), (9, 9))))
        self.open(made)
        self.typed('move 1 1 0')
        self.typed('move 2 2147483638 -2147483648')
        self.compare(made, ['move 1 1 0', 'move 2 2147483638 -2147483648'])

    def test_a_drawing_of_nothing(self) -> None:
        made = self.put('empty.dgn', drawings.drawing())
        self.open(made)
        self.typed('line 3 1 0 0 0,0 10,10')
        self.do('#fit')
        self.assertGreater(self.dot(5, 5)[3], 0)
        self.compare(made, ['line 3 1 0 0 0,0 10,10'])

    def test_texts_names_and_file_names_that_are_markup(self) -> None:
        text = plan.text(1, (0, 0), HOSTILE.encode('ascii'))
        made = self.put('<img src=x onerror=alert(1)>.dgn', drawings.drawing(text, plan.line(1, (0, 0), (9000, 0))))
        self.open(made)
        line = 'text 1 0 0 0 1 0 1000 1000 0,500 ' + HOSTILE
        self.typed(line)
        self.typed('color 1 5')
        self.assertEqual(self.script_lines(), [line, 'color 1 5'])
        self.assertEqual(self.seen.run('return [document.images.length, document.title]')[0], 0)
        self.assertNotEqual(self.seen.title, 'taken')
        self.do('#tab-edit')
        self.seen.type('#search-field', '1')
        self.seen.key('Enter')
        self.assertIn(HOSTILE, self.seen.text('#headline'))


class Refused(WithEditor):
    """What is refused is told by the program, and nothing changes."""

    def test_what_would_be_refused_is_said_before(self) -> None:
        self.open(str(EXAMPLES / 'plan.dgn'))
        self.click_at(0, 1500)
        self.seen.wait("document.getElementById('refusals').textContent !== ''")
        self.assertIn('Move, Set look, Delete would be refused: shape 1 on level', self.seen.text('#refusals'))
        self.assertIn('is locked', self.seen.text('#refusals'))
        self.assertTrue(self.seen.run("return document.getElementById('edit-delete').disabled"))
        self.do('#edit-copy')
        self.assertEqual(self.script_lines(), ['copy 1 0 0'])

    def test_what_is_hidden_is_not_edited_by_hand(self) -> None:
        self.open(str(EXAMPLES / 'plan.dgn'))
        self.seen.click('#level-11')
        self.seen.type('#search-field', '6')
        self.seen.key('Enter')
        self.seen.settle()
        self.assertEqual(self.number(), 'element 6')
        self.assertIn('isn’t shown', self.seen.text('#edits-legend'))
        self.assertTrue(self.seen.run("return document.getElementById('edit-delete').disabled"))
        self.focus()
        self.seen.key('Delete')
        self.seen.settle()
        self.assertEqual(self.script_lines(), [])

    def test_a_refused_edit_leaves_no_line(self) -> None:
        made = self.example('plan.dgn')
        self.open(made)
        self.click_at(980, 520)
        self.seen.type('#by-x', '2147483647')
        self.do('#edit-move')
        self.assertIn('would leave the design plane', self.notice())
        self.assertEqual(self.script_lines(), [])
        self.seen.type('#by-x', '5')
        self.do('#edit-move')
        self.compare(made, ['move 6 5 0'])

    def test_a_typed_line_stays_with_its_refusal(self) -> None:
        made = self.example('plan.dgn')
        self.open(made)
        self.typed('color 1 4')
        self.typed('color 5 1')
        self.assertIn('shape 1 on level', self.answers()[0])
        self.compare(made, ['color 1 4', 'color 5 1'])
        self.typed('color 5')
        self.assertIn('Line 3 isn’t a command', self.notice())
        self.assertEqual(self.script_lines(), ['color 1 4', 'color 5 1'])

    def test_a_script_is_opened_and_answered_line_by_line(self) -> None:
        made = self.example('plan.dgn')
        lines = ['# a comment', 'color 5 1', '', 'show', 'tree 6', 'move 1 5 5', 'undo', 'elements', 'refs', 'audit']
        script = self.put('script.txt', ''.join(line + '\n' for line in lines))
        self.page(made, '--script', script)
        self.assertEqual(self.script_lines(), lines)
        answers, file = self.expected(made, lines)
        self.assertEqual(
            [it.split(':')[0] for it in self.answers()],
            [it for it in answers if it.split()[0] in ('ok', 'refused', 'shown', 'tree', 'elements', 'refs', 'audit')],
        )
        listed = self.seen.run("return [...document.querySelectorAll('.listed')].map((it) => it.textContent)")
        self.assertEqual(listed[0].split('\n'), answers[1 : [it.split()[0] for it in answers].index('shown')])
        self.assertEqual(self.saved_drawing(made), file)


class Fences(WithEditor):
    """A fence is drawn, and the program says what it takes."""

    HOUSE = ((700, 800), (2700, 800), (2700, 2300), (700, 2300))

    def fence(self, *corners: Tuple[float, float]) -> None:
        self.tool('fence')
        self.draw(*corners)
        self.focus()
        self.seen.key('Enter')
        self.seen.settle()
        self.seen.wait('page.tools.fence.isKnown')

    def test_an_edit_of_a_fence_is_what_the_program_makes(self) -> None:
        made = self.example('plan.dgn')
        self.open(made)
        self.seen.click('#level-1')
        self.fence(*self.HOUSE)
        self.assertIn('3 trees', self.seen.text('#edits-legend').lower())
        self.seen.type('#by-x', '900')
        self.seen.type('#by-y', '300')
        self.do('#edit-move')
        lines = self.script_lines()
        self.assertEqual([it.split()[0] for it in lines], ['levels', 'fence', 'fmove'])
        self.assertEqual(lines[0], 'levels 0 2-63')
        self.assertEqual(self.answers(), ['ok', 'ok', 'ok 3'])
        self.compare(made, lines)

    def test_a_fence_by_keys_and_let_go(self) -> None:
        self.open(str(EXAMPLES / 'valve.dgn'))
        self.focus()
        self.seen.key('f', 'ArrowUp', ' ')
        self.seen.key(*['ArrowDown'] * 2, *['ArrowRight'] * 2, ' ', *['ArrowLeft'] * 4, ' ', 'Enter')
        self.seen.settle()
        self.seen.wait('page.tools.fence.isKnown')
        self.assertIn('1 tree', self.seen.text('#edits-legend').lower())
        self.focus()
        self.seen.key('Escape')
        self.seen.settle()
        self.assertIn('select something', self.seen.text('#edits-legend').lower())

    def test_what_cannot_be_edited_is_left_out(self) -> None:
        made = self.example('plan.dgn')
        self.open(made)
        self.do('#zoom-out')
        self.fence((-500, -500), (5000, -500), (5000, 4000), (-500, 4000))
        chosen = self.seen.run('return page.tools.fence.chosen')
        self.assertIn(1, chosen)
        self.seen.type('#by-x', '3')
        self.do('#edit-move')
        self.assertIn('is locked', self.notice())
        self.assertEqual(self.script_lines(), [])
        self.seen.click('#notice button')
        self.seen.settle()
        self.compare(made, ['move %d 3 0' % it for it in chosen if it != 1])

    def test_two_corners_are_refused_by_the_program(self) -> None:
        self.open(str(EXAMPLES / 'plan.dgn'))
        self.tool('fence')
        self.draw((700, 800), (2700, 800))
        self.focus()
        self.seen.key('Enter')
        self.assertIn('at least 3 corners, and this one has 2', self.notice())

    def test_a_fence_becomes_a_choice(self) -> None:
        self.open(str(EXAMPLES / 'plan.dgn'))
        self.fence(*self.HOUSE)
        chosen = self.seen.run('return page.tools.fence.chosen')
        self.do('#fence-choose')
        self.assertEqual(self.seen.run('return page.choice.numbers'), chosen)

    def test_a_whole_level_is_chosen(self) -> None:
        self.open(str(EXAMPLES / 'plan.dgn'))
        self.do('[aria-label="Select all on level 11"]')
        self.assertEqual(self.seen.run('return page.choice.numbers'), [6, 9])


class Files(WithEditor):
    """Second files, and what is saved."""

    def import_file(self, path: str, x: str = '0') -> None:
        """Imports a drawing, moved to the right by so much."""
        self.second('import', path)
        self.seen.wait(IS_ASKED)
        self.seen.type('#asked-x', x)
        self.dialog('Import')

    def test_a_second_drawing_is_imported(self) -> None:
        made = self.example('plan.dgn')
        self.open(made)
        self.seen.type('#by-x', '70')
        self.import_file(str(EXAMPLES / 'valve.dgn'), '50')
        self.assertEqual(self.script_lines(), ['import valve.dgn 50 0'], 'the fields of a move are another matter')
        here = os.getcwd()
        os.chdir(EXAMPLES)
        self.addCleanup(os.chdir, here)
        self.compare(made, ['import valve.dgn 50 0'])

    def test_an_import_that_is_refused_is_told(self) -> None:
        self.open(str(EXAMPLES / 'plan.dgn'))
        self.import_file(self.put('solid.dgn', drawings.DRAWINGS['a line of three axes']))
        self.assertIn('another number of dimensions', self.notice())
        self.import_file(self.put('notes.dgn', b'hello'))
        self.assertIn('notes.dgn doesn’t open', self.notice())
        self.assertEqual(self.script_lines(), [])

    def test_a_patch_file_is_saved_and_put_on(self) -> None:
        made = self.example('plan.dgn')
        self.open(made)
        self.typed('color 5 1')
        self.typed('move 6 10 10')
        self.more('save-patch')
        patch = self.saved_file('plan-edit.patch')
        script = self.put('script.txt', 'color 5 1\nmove 6 10 10\n')
        self.said_by('pack', made, script, self.path('wanted.patch'))
        self.assertEqual(Path(patch).read_bytes(), Path(self.path('wanted.patch')).read_bytes())
        self.open(made)
        self.second('apply', patch)
        self.seen.wait('page.work.document.before.length === 1')
        self.typed('delete 9')
        self.said_by('apply', made, patch, self.path('mid.dgn'))
        self.said_by('edit', self.path('mid.dgn'), self.put('del.txt', 'delete 9\n'), self.path('end.dgn'))
        self.assertEqual(self.saved_drawing(made), Path(self.path('end.dgn')).read_bytes())
        commands = self.seen.text('#command')
        self.assertIn('dgnedit apply plan.dgn plan-edit.patch plan-1.dgn', commands)
        self.assertIn('dgnedit edit plan-1.dgn plan-edit.txt plan-new.dgn', commands)

    def test_a_patch_file_that_does_not_fit_is_told(self) -> None:
        made = self.example('plan.dgn')
        script = self.put('script.txt', 'color 5 1\n')
        self.said_by('pack', made, script, self.path('one.patch'))
        self.open(str(EXAMPLES / 'valve.dgn'))
        self.second('apply', self.path('one.patch'))
        self.assertIn('entry 1 doesn’t find the bytes', self.notice())
        self.second('apply', self.put('bad.patch', b'DGNPAT01\1\0\0\0'))
        self.assertIn('first bad piece begins at byte 12', self.notice())
        self.assertEqual(self.seen.run('return page.work.document.before.length'), 0)

    def test_broken_trees_are_mended_edited_and_saved(self) -> None:
        made = self.example('street.dgn')
        self.open(made)
        self.more('mend')
        said = self.dialog('Mend')
        self.assertIn('complex chain 17 on level 12: member mark (bit C) cleared, now with 2 members', said)
        self.seen.wait('page.work.document.before.length === 1')
        self.typed('move 17 0 100')
        self.said('mend', made, self.path('wanted.patch'))
        self.said_by('apply', made, self.path('wanted.patch'), self.path('mid.dgn'))
        self.said_by('edit', self.path('mid.dgn'), self.put('move.txt', 'move 17 0 100\n'), self.path('end.dgn'))
        self.assertEqual(self.saved_drawing(made), Path(self.path('end.dgn')).read_bytes())

    @unittest.skipUnless(OGR, 'ogr2ogr is not installed')
    def test_a_drawing_of_gdal_is_mended_edited_and_saved(self) -> None:
        made = ogr.made(self, ogr.parcels() + ogr.roads() + ogr.labels())
        self.open(made)
        self.more('mend')
        self.dialog('Mend')
        self.seen.wait('page.work.document.before.length === 1')
        self.seen.settle()
        # the first corner of a parcel's ring, the member behind its cell, by the program's listing
        self.said_by('apply', made, self.wanted_patch(made), self.path('mid.dgn'))
        lines = subprocess.run(
            [str(PROGRAM), 'edit', self.path('mid.dgn'), self.put('show.txt', 'show\n'), '/dev/null'],
            stdout=subprocess.PIPE,
            check=True,
        )
        items = [it.split() for it in lines.stdout.decode('latin-1').splitlines()]
        cell = next(at for at, it in enumerate(items) if it[7:8] == ['cell'])
        x, y = (int(it) for it in items[cell + 1][8].split(','))
        left, right = self.screen(x, y)[0], self.screen(x + 80000, y)[0]
        self.assertGreater(right - left, 20, 'the drawing is no dot, though the origins of cells lie elsewhere')
        self.click_at(x, y)
        self.assertIn('cell', self.seen.text('#headline'))
        number = self.seen.run('return page.choice.last')
        self.seen.type('#new-color', '4')
        self.do('#edit-sym')
        script = self.put('colour.txt', 'color %d 4\n' % number)
        self.said_by('edit', self.path('mid.dgn'), script, self.path('end.dgn'))
        self.assertEqual(self.saved_drawing(made), Path(self.path('end.dgn')).read_bytes())

    def test_two_files_of_one_name_are_imported(self) -> None:
        made = self.example('plan.dgn')
        self.open(made)
        self.import_file(str(EXAMPLES / 'valve.dgn'))
        other = Path(self.path('other'))
        other.mkdir()
        (other / 'valve.dgn').write_bytes(drawings.drawing(plan.line(1, (0, 0), (500, 900))))
        self.import_file(str(other / 'valve.dgn'))
        self.seen.wait('page.work.document.lines.length === 2')
        lines = self.script_lines()
        self.assertEqual(lines, ['import valve.dgn', 'import other-valve.dgn'])
        here = os.getcwd()
        os.chdir(self.folder)
        self.addCleanup(os.chdir, here)
        self.example('valve.dgn')
        (other / 'valve.dgn').rename(self.path('other-valve.dgn'))
        self.compare(made, lines)

    def test_a_script_that_imports_asks_for_the_file(self) -> None:
        made = self.example('plan.dgn')
        self.open(made)
        self.do('#tab-script')
        self.seen.type('#typed', 'import valve.dgn')
        self.seen.click('#typed-add')
        self.assertIn('imports valve.dgn', self.asked())
        self.seen.choose_file('#asked-file', str(EXAMPLES / 'valve.dgn'))
        self.seen.wait('page.work.document.lines.length === 1')
        here = os.getcwd()
        os.chdir(EXAMPLES)
        self.addCleanup(os.chdir, here)
        self.compare(made, ['import valve.dgn'])

    def test_a_mending_patch_file_is_saved(self) -> None:
        made = self.example('street.dgn')
        self.open(made)
        self.more('mend')
        self.dialog('Save as a patch file')
        self.said('mend', made, self.path('wanted.patch'))
        saved = Path(self.saved_file('street-mend.patch')).read_bytes()
        self.assertEqual(saved, Path(self.path('wanted.patch')).read_bytes())

    def test_the_script_is_saved_and_the_sums_are_right(self) -> None:
        made = self.example('plan.dgn')
        self.open(made)
        self.typed('color 5 1')
        self.more('save-script')
        self.assertEqual(Path(self.saved_file('plan-edit.txt')).read_text(), 'color 5 1\n')
        out = self.put('saved.dgn', self.saved_drawing(made))
        sums = self.seen.run("return [...document.querySelectorAll('.sums dd')].map((it) => it.textContent)")
        wanted = [
            subprocess.run(['sha256sum', it], stdout=subprocess.PIPE, check=True).stdout[:64] for it in (made, out)
        ]
        self.assertEqual(sums, [it.decode('ascii') for it in wanted])

    def wanted_patch(self, drawing: str) -> str:
        """The patch file that the companion mends a drawing by."""
        self.said('mend', drawing, self.path('wanted.patch'))
        return self.path('wanted.patch')

    def said_by(self, *words: str) -> None:
        subprocess.run([str(PROGRAM), *words], stdout=subprocess.DEVNULL, check=True)


class Keeping(WithEditor):
    """A reload loses nothing, and what isn't saved is asked about."""

    def test_work_is_offered_again_after_a_reload(self) -> None:
        made = self.example('plan.dgn')
        self.open(made)
        self.typed('color 5 1')
        self.typed('move 6 10 10')
        self.abandon()
        self.seen.open(str(self.app))
        self.seen.choose_file('#open-file', made)
        self.assertIn('2 lines', self.dialog('Continue'))
        self.seen.wait('page.work.document.lines.length === 2')
        self.compare(made, ['color 5 1', 'move 6 10 10'])
        self.confirm()
        self.seen.open(str(self.app))
        self.choose(made)
        self.assertFalse(self.is_asked(), 'what is saved is not kept')

    def test_mended_work_is_offered_again(self) -> None:
        made = self.example('street.dgn')
        self.open(made)
        self.more('mend')
        self.dialog('Mend')
        self.seen.wait('page.work.document.before.length === 1')
        self.typed('move 17 0 100')
        wanted = self.seen.run('return [...page.work.document.lines, page.work.document.before.length]')
        self.abandon()
        self.seen.open(str(self.app))
        self.seen.choose_file('#open-file', made)
        self.dialog('Continue')
        self.seen.wait('page.work.document.lines.length === 1')
        self.assertEqual(
            self.seen.run('return [...page.work.document.lines, page.work.document.before.length]'), wanted
        )

    def test_another_drawing_is_not_offered_it(self) -> None:
        self.open(str(EXAMPLES / 'plan.dgn'))
        self.typed('color 5 1')
        self.seen.choose_file('#open-file', str(EXAMPLES / 'valve.dgn'))
        self.dialog('Open the other drawing')
        self.seen.wait("page.drawing.name === 'valve.dgn'")
        self.seen.settle()
        self.assertFalse(self.is_asked())
        self.assertEqual(self.script_lines(), [])

    def test_work_is_thrown_away(self) -> None:
        made = self.example('plan.dgn')
        self.open(made)
        self.typed('color 5 1')
        self.more('throw-away')
        self.dialog('Throw it away')
        self.seen.wait('page.work.document.lines.length === 0')
        self.assertEqual(self.kept(), [])

    def test_a_full_store_is_told(self) -> None:
        self.open(str(EXAMPLES / 'plan.dgn'))
        self.seen.run(
            "page.work.around.store.put = async () => { throw new DOMException('full', 'QuotaExceededError'); }"
        )
        self.typed('color 5 1')
        self.assertIn('no room to keep this work', self.seen.text('#keeping'))

    def test_leaving_is_asked_about_until_it_is_saved(self) -> None:
        made = self.example('plan.dgn')
        self.open(made)
        leaves = (
            "const event = new Event('beforeunload', { cancelable: true }); dispatchEvent(event);"
            'return event.defaultPrevented;'
        )
        self.assertFalse(self.seen.run(leaves))
        self.typed('color 5 1')
        self.assertTrue(self.seen.run(leaves))
        self.saved_drawing(made)
        self.assertTrue(self.seen.run(leaves), 'nobody has said yet that the file is there')
        self.confirm()
        self.assertFalse(self.seen.run(leaves))

    def test_a_run_is_stopped(self) -> None:
        made = self.example('plan.dgn')
        self.open(made)
        self.typed('color 5 1')
        self.seen.run("page.work.apply({ why: 'typed', lines: new Array(60000).fill('elements') })")
        self.seen.wait("!document.getElementById('busy').hidden")
        self.assertEqual(self.seen.run('return 1 + 1'), 2, 'the page answers meanwhile')
        self.seen.click('#stop')
        self.seen.settle()
        self.assertIn('Stopped', self.seen.text('#said'))
        self.typed('color 6 2')
        self.compare(made, ['color 5 1', 'color 6 2'])


class Without(WithBrowser):
    """A browser that can't run the program says so, and still shows the drawing."""

    def test_it_is_said_and_the_drawing_is_shown(self) -> None:
        lacks = self.seen.command('Page.addScriptToEvaluateOnNewDocument', source='WebAssembly.validate = () => false')
        self.addCleanup(self.seen.command, 'Page.removeScriptToEvaluateOnNewDocument', identifier=lacks['identifier'])
        self.leave()
        self.seen.open(str(self.app))
        self.assertIn('Memory64', self.seen.text('#start-fault'))
        self.choose(str(EXAMPLES / 'plan.dgn'))
        self.assertGreater(self.dot(0, 1500)[3], 100)
        self.assertFalse(self.seen.run("return document.getElementById('edits').checkVisibility()"))


if __name__ == '__main__':
    unittest.main()
