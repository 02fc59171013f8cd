"""The app in a real browser: no work is lost, and nothing is done by half. What a person does while a step runs, asks
or waits is played by calls of the program that take a while."""

from __future__ import annotations

import base64
import os
import sys
import unittest
from pathlib import Path
from typing import List

from app import HAS_PROGRAM, IS_ASKED, MISSING, NO_PROGRAM
from samples import EXAMPLES, drawings, plan
from test_page_editing import WithEditor

# A call of the program waits, once it is done, until `window.letGo` is called.
HOLD = '''
const { program } = page.work.around, name = arguments[0], real = program[name].bind(program);
window.held = 0;
program[name] = async (...words) => {
    program[name] = real;
    const said = await real(...words), signal = words[words.length - 1];
    window.held++;
    await new Promise((resolve, reject) => {
        window.letGo = resolve;
        signal.addEventListener('abort', () => reject(Object.assign(new Error('stopped'), { isStop: true })));
    });
    return said;
};
'''
DROP = '''
const given = new DataTransfer(), bytes = Uint8Array.from(atob(arguments[1]), (sign) => sign.charCodeAt(0));
given.items.add(new File([bytes], arguments[0]));
document.dispatchEvent(new DragEvent('drop', { dataTransfer: given, cancelable: true }));
'''
# A window for a place to save at, which is played: what is written goes to `window.written`.
PICK = '''
const how = arguments[0];
window.written = null;
window.showSaveFilePicker = async ({ suggestedName }) => {
    if (how === 'cancelled') throw new DOMException('no', 'AbortError');
    return { name: suggestedName, createWritable: async () => ({
        write: async (bytes) => { window.writing = bytes; },
        close: async () => { if (how === 'failing') throw new DOMException('the disk is full', 'QuotaExceededError');
            window.written = window.writing; },
        abort: async () => {},
    }) };
};
'''
LEAVES = (
    "const event = new Event('beforeunload', { cancelable: true }); dispatchEvent(event);"
    'return event.defaultPrevented;'
)


def setUpModule() -> None:
    if not MISSING and not HAS_PROGRAM:
        print('the work in the page is not tested: ' + NO_PROGRAM, file=sys.stderr)


@unittest.skipUnless(HAS_PROGRAM, NO_PROGRAM)
class WithWork(WithEditor):
    """A test of what surrounds the answers."""

    def hold(self, name: str) -> None:
        self.seen.run(HOLD, name)

    def held(self) -> None:
        self.seen.wait('window.held > 0')

    def let_go(self) -> None:
        self.seen.run('window.letGo()')
        self.seen.settle()

    def drop(self, path: str) -> None:
        file = Path(path)
        self.seen.run(DROP, file.name, base64.b64encode(file.read_bytes()).decode('ascii'))

    def stop(self) -> None:
        self.seen.wait("!document.getElementById('busy').hidden")
        self.seen.click('#stop')
        self.seen.settle()

    def close_question(self) -> None:
        self.seen.wait(IS_ASKED)
        self.seen.key('Escape')
        self.seen.wait('!(%s)' % IS_ASKED)

    def again(self, drawing: str) -> None:
        """Opens the app anew, and the drawing in it, as after a crash."""
        self.abandon()
        self.seen.open(str(self.app))
        self.seen.choose_file('#open-file', drawing)

    def leaves(self) -> bool:
        return bool(self.seen.run(LEAVES))

    def made_by(self, drawing: str, lines: List[str]) -> bytes:
        return self.expected(drawing, lines)[1]

    def shown_name(self) -> str:
        return str(self.seen.run('return page.drawing.name'))


class Kept(WithWork):
    """What was done is kept until it is in a file, or a person discards it."""

    def worked(self, *lines: str) -> str:
        """A drawing with lines that were typed one by one."""
        made = self.example('plan.dgn')
        self.open(made)
        for line in lines:
            self.typed(line)
        return made

    def test_continued_work_is_taken_back_act_by_act(self) -> None:
        made = self.worked('color 5 1', 'move 6 10 10', 'delete 9')
        self.do('#undo')
        self.again(made)
        self.assertIn('2 lines, 1 act taken back', self.dialog('Continue'))
        self.assertEqual(self.script_lines(), ['color 5 1', 'move 6 10 10'])
        self.do('#redo')
        self.assertEqual(self.script_lines(), ['color 5 1', 'move 6 10 10', 'delete 9'])
        for left in (2, 1, 0):
            self.do('#undo')
            self.assertEqual(len(self.script_lines()), left)
        self.do('#redo')
        self.compare(made, ['color 5 1'])

    def test_work_with_an_import_is_continued(self) -> None:
        made = self.example('plan.dgn')
        self.open(made)
        self.second('import', str(EXAMPLES / 'valve.dgn'))
        self.dialog('Import')
        self.typed('color 5 1')
        self.again(made)
        self.dialog('Continue')
        self.assertIn('imports valve.dgn', self.asked())
        self.seen.choose_file('#asked-file', str(EXAMPLES / 'plan.dgn'))
        self.seen.wait("document.getElementById('asking').textContent.includes('isn’t the drawing')")
        self.seen.choose_file('#asked-file', str(EXAMPLES / 'valve.dgn'))
        self.seen.wait('page.work.document.lines.length === 2')
        here = os.getcwd()
        os.chdir(EXAMPLES)
        self.addCleanup(os.chdir, here)
        self.compare(made, ['import valve.dgn', 'color 5 1'])

    def test_not_now_and_escape_keep_it_beside_new_work(self) -> None:
        made = self.worked('color 5 1')
        self.again(made)
        self.dialog('Not now')
        self.typed('color 6 2')
        self.assertEqual(self.kept(), [['color 5 1'], ['color 6 2']])
        self.again(made)
        self.close_question()
        self.assertEqual(self.kept(), [['color 5 1'], ['color 6 2']])
        self.more('kept-open')
        self.assertEqual(self.seen.run("return document.querySelectorAll('#kept-rows li').length"), 2)
        self.seen.run(
            "const buttons = [...document.querySelectorAll('#kept-rows button')];"
            "buttons.filter((it) => it.textContent === 'Continue')[1].click()"
        )
        self.seen.wait('page.work.document.lines.length === 1')
        self.compare(made, ['color 5 1'])

    def test_it_is_forgotten_only_when_it_is_in_a_file(self) -> None:
        made = self.worked('color 5 1')
        self.saved_drawing(made)
        self.assertEqual(self.kept(), [['color 5 1']])
        self.confirm()
        self.assertEqual(self.kept(), [])
        self.assertFalse(self.leaves())
        self.typed('color 6 2')
        self.assertEqual(self.kept(), [['color 5 1', 'color 6 2']])
        self.assertTrue(self.leaves())

    def test_two_windows_keep_their_own(self) -> None:
        made = self.worked('color 5 1')
        first = self.seen._call('GET', self.seen.session + '/window')
        second = self.seen._ask('/window/new', {'type': 'tab'})['handle']
        self.seen._ask('/window', {'handle': second})
        try:
            self.seen.open(str(self.app))
            self.seen.run('delete window.showSaveFilePicker')
            self.seen.choose_file('#open-file', made)
            self.dialog('Not now')
            self.typed('color 6 2')
            self.assertEqual(self.kept(), [['color 5 1'], ['color 6 2']])
            self.saved_drawing(made)
            self.confirm()
            self.assertEqual(self.kept(), [['color 5 1']])
        finally:
            self.abandon()
            self.seen._call('DELETE', self.seen.session + '/window')
            self.seen._ask('/window', {'handle': first})
        self.typed('delete 9')
        self.assertEqual(self.kept(), [['color 5 1', 'delete 9']])

    def test_a_page_with_a_script_runs_it_once(self) -> None:
        made = self.example('plan.dgn')
        script = self.put('script.txt', 'color 5 1\ncopy 6 0 50\n')
        page = self.page(made, '--script', script)
        self.seen.wait('page.work.document.lines.length === 2')
        self.assertEqual(self.kept(), [], 'the script of the page is in a file, the page')
        self.assertFalse(self.leaves())
        self.typed('delete 9')
        self.abandon()
        self.seen.open(page)
        self.dialog('Continue')
        self.seen.wait('page.work.document.lines.length > 0')
        self.compare(made, ['color 5 1', 'copy 6 0 50', 'delete 9'])
        self.abandon()
        self.seen.open(page)
        self.dialog('Not now')
        self.seen.wait('page.work.document.lines.length > 0')
        self.assertEqual(self.script_lines(), ['color 5 1', 'copy 6 0 50'])

    def test_what_cannot_be_kept_is_said_as_long_as_it_is_so(self) -> None:
        self.open(str(EXAMPLES / 'plan.dgn'))
        self.seen.run(
            'const { store } = page.work.around; window.put = store.put.bind(store);'
            "store.put = async () => { throw new DOMException('no', 'InvalidStateError'); }"
        )
        self.typed('color 5 1')
        self.assertIn('doesn’t let the page keep this work', self.seen.text('#keeping'))
        self.drop(str(EXAMPLES / 'valve.dgn'))
        self.assertIn('It isn’t kept in this browser', self.dialog('Stay'))
        self.seen.run('page.work.around.store.put = window.put')
        self.typed('color 6 2')
        self.assertTrue(self.seen.run("return document.getElementById('keeping').hidden"))
        self.drop(str(EXAMPLES / 'valve.dgn'))
        self.assertIn('It is kept in this browser', self.dialog('Stay'))

    def test_a_store_that_never_answers_holds_up_nothing(self) -> None:
        made = self.example('plan.dgn')
        self.open(made)
        self.seen.run('page.work.around.store.opened = null; IDBFactory.prototype.open = () => ({});')
        self.typed('color 5 1')
        self.assertIn('doesn’t let the page keep this work', self.seen.text('#keeping'))
        self.compare(made, ['color 5 1'])

    def test_the_oldest_goes_where_there_is_no_room_and_it_is_said(self) -> None:
        made = self.worked('color 5 1')
        self.again(made)
        self.dialog('Not now')
        self.seen.run(
            'const { store } = page.work.around, put = store.put.bind(store);'
            'store.put = async (record) => { const all = await store.all();'
            '  const isThere = all.some(({ id }) => id === record.id);'
            "  if (all.length > 0 && !isThere) throw new DOMException('', 'QuotaExceededError');"
            '  return put(record); }'
        )
        self.typed('color 6 2')
        self.assertIn('the oldest that was kept went', self.notice())
        self.assertEqual(self.kept(), [['color 6 2']])

    def test_a_poisoned_store_is_set_aside(self) -> None:
        made = self.worked('color 5 1')
        digest = self.seen.run('return page.work.document.original.digest')
        poison = [
            {'id': 'a', 'shape': 2, 'digest': digest, 'name': '<b>', 'acts': 'x'},
            {
                'id': 'b',
                'shape': 2,
                'digest': digest,
                'name': 'x',
                'size': 1,
                'time': 1,
                'acts': [{'why': 'edit', 'lines': ['color 5 1\nundo']}],
                'undone': [],
                'imports': [],
                'from': None,
            },
            {'id': 'c', 'shape': 1, 'lines': ['color 1 1']},
        ]
        for record in poison:
            self.seen.run_slowly('page.work.around.store.put(arguments[0]).then(arguments[1])', record)
        self.again(made)
        self.assertIn('1 line', self.dialog('Continue'))
        self.more('kept-open')
        said = self.seen.text('#kept-rows')
        self.assertEqual(said.count('isn’t offered: it is damaged'), 3)
        self.seen.click('#kept-close')
        self.compare(made, ['color 5 1'])

    def test_kept_work_is_listed_at_the_start_and_its_script_saved(self) -> None:
        self.worked('color 5 1', 'move 6 10 10')
        self.abandon()
        self.seen.open(str(self.app))
        self.seen.wait("!document.getElementById('start-kept').hidden")
        self.assertIn('plan.dgn – 2 lines', self.seen.text('#start-kept-rows'))
        self.seen.run("document.querySelector('#start-kept-rows button').click()")
        self.assertEqual(Path(self.saved_file('plan-edit.txt')).read_text(), 'color 5 1\nmove 6 10 10\n')
        self.seen.run("document.querySelectorAll('#start-kept-rows button')[1].click()")
        self.seen.wait("document.getElementById('start-kept-rows').textContent.includes('Nothing is kept')")


class Stopped(WithWork):
    """A step is done whole or not at all, and those behind it wait."""

    def test_a_stop_in_the_check_leaves_the_drawing_that_was_open(self) -> None:
        made = self.example('plan.dgn')
        self.open(made)
        self.typed('color 5 1')
        self.saved_drawing(made)
        self.confirm()
        self.hold('check')
        self.seen.choose_file('#open-file', str(EXAMPLES / 'valve.dgn'))
        self.held()
        self.assertEqual(self.shown_name(), 'plan.dgn')
        self.stop()
        self.assertEqual(self.shown_name(), 'plan.dgn')
        self.typed('color 6 2')
        self.compare(made, ['color 5 1', 'color 6 2'])

    def test_an_edit_that_runs_is_not_lost_to_a_drop(self) -> None:
        self.open(self.example('plan.dgn'))
        self.hold('edit')
        self.seen.run("page.work.apply({ why: 'typed', lines: ['color 5 1'] })")
        self.held()
        self.assertTrue(self.leaves(), 'a step runs')
        self.drop(str(EXAMPLES / 'valve.dgn'))
        self.seen.run('window.letGo()')
        self.assertIn('plan.dgn', self.dialog('Stay'))
        self.assertEqual(self.script_lines(), ['color 5 1'])

    def test_two_drawings_that_are_opened_at_once(self) -> None:
        self.open(self.example('plan.dgn'))
        valve = self.example('valve.dgn')
        street = self.example('street.dgn')
        self.hold('check')
        self.drop(valve)
        self.held()
        self.drop(street)
        self.seen.wait("page.drawing.name === 'street.dgn'")
        self.seen.settle()
        self.typed('color 1 3')
        self.assertEqual(self.seen.title.split(' ')[0], 'street.dgn')
        self.compare(street, ['color 1 3'])

    def test_a_question_about_kept_work_ends_with_another_drawing(self) -> None:
        made = self.example('plan.dgn')
        self.open(made)
        self.typed('color 5 1')
        self.again(made)
        self.seen.wait(IS_ASKED)
        self.drop(str(EXAMPLES / 'valve.dgn'))
        self.seen.wait("page.drawing.name === 'valve.dgn'")
        self.seen.settle()
        self.assertFalse(self.is_asked())
        self.assertEqual(self.script_lines(), [])
        self.assertEqual(self.kept(), [['color 5 1']])

    def test_a_save_while_a_refused_edit_runs_saves_what_was_accepted(self) -> None:
        made = self.example('plan.dgn')
        self.open(made)
        self.typed('color 5 1')
        self.hold('edit')
        self.seen.run("page.work.apply({ why: 'edit', lines: ['color 6 2', 'color 1 2'] })")
        self.held()
        self.seen.click('#save')
        self.seen.run('window.letGo()')
        self.assertIn('is locked', self.notice())
        saved = Path(self.saved_file('plan-new.dgn')).read_bytes()
        self.assertEqual(saved, self.made_by(made, ['color 5 1']))

    def test_a_stop_in_a_refused_edit_leaves_no_line(self) -> None:
        made = self.example('plan.dgn')
        self.open(made)
        self.typed('color 5 1')
        self.hold('edit')
        self.seen.run("page.work.apply({ why: 'edit', lines: ['color 6 2', 'color 1 2'] })")
        self.held()
        self.stop()
        self.compare(made, ['color 5 1'])

    def test_a_stop_in_the_check_of_a_patch_file_leaves_all_as_it_was(self) -> None:
        made = self.example('plan.dgn')
        self.open(made)
        self.typed('color 5 1')
        self.more('save-patch')
        patch = self.saved_file('plan-edit.patch')
        self.do('#undo')
        self.hold('check')
        self.drop(patch)
        self.held()
        self.stop()
        self.assertEqual(self.seen.run('return page.work.document.before.length'), 0)
        self.typed('color 6 2')
        self.compare(made, ['color 6 2'])

    def test_a_patch_file_is_taken_back_and_done_again(self) -> None:
        made = self.example('plan.dgn')
        self.open(made)
        self.typed('color 5 1')
        self.more('save-patch')
        patch = self.saved_file('plan-edit.patch')
        self.do('#undo')
        self.drop(patch)
        self.seen.wait('page.work.document.before.length === 1')
        self.typed('color 6 2')
        for _ in range(2):
            self.do('#undo')
        self.assertTrue(self.seen.run("return document.getElementById('save').disabled"))
        for _ in range(2):
            self.do('#redo')
        self.assertEqual(self.saved_drawing(made), self.made_by(made, ['color 5 1', 'color 6 2']))

    def test_a_question_that_is_closed_holds_up_nothing(self) -> None:
        made = self.example('plan.dgn')
        self.open(made)
        self.seen.run("page.work.apply({ why: 'typed', lines: ['import far.dgn'] })")
        self.seen.wait(IS_ASKED)
        self.seen.run("page.work.apply({ why: 'typed', lines: ['import near.dgn'] })")
        self.seen.run("page.work.apply({ why: 'typed', lines: ['color 5 1'] })")
        self.assertIn('far.dgn', self.asked())
        self.seen.key('Escape')
        self.seen.wait("document.getElementById('asking')?.textContent.includes('near.dgn')")
        self.seen.key('Escape')
        self.seen.wait('page.work.document.lines.length === 1')
        self.compare(made, ['color 5 1'])


class Saved(WithWork):
    """A file is saved when it is whole."""

    def test_a_file_is_saved_when_its_stream_has_closed(self) -> None:
        made = self.example('plan.dgn')
        self.open(made)
        self.typed('color 5 1')
        self.seen.run(PICK, 'failing')
        self.do('#save')
        self.assertIn('the disk is full', self.notice())
        self.assertTrue(self.leaves())
        self.assertEqual(self.kept(), [['color 5 1']])
        self.seen.run(PICK, 'cancelled')
        self.do('#save')
        self.assertTrue(self.leaves())
        self.assertNotIn('Saved as', self.seen.text('#said'))
        self.seen.run(PICK, 'whole')
        self.do('#save')
        self.assertIn('Saved as plan-new.dgn', self.seen.text('#said'))
        self.assertFalse(self.leaves())
        self.assertEqual(self.kept(), [])
        written = self.seen.run('return btoa(String.fromCharCode(...window.written))')
        self.assertEqual(base64.b64decode(written), self.made_by(made, ['color 5 1']))

    def test_all_scripts_and_patch_files_are_saved(self) -> None:
        made = self.example('plan.dgn')
        self.open(made)
        self.typed('color 5 1')
        self.more('save-patch')
        patch = self.saved_file('plan-edit.patch')
        self.do('#undo')
        self.typed('color 6 2')
        self.drop(patch)
        self.seen.wait('page.work.document.before.length === 1')
        self.typed('delete 9')
        self.seen.run(PICK, 'whole')
        self.seen.run(
            'window.names = []; const pick = window.showSaveFilePicker; window.showSaveFilePicker = (asked) =>'
            ' { window.names.push(asked.suggestedName); return pick(asked); }'
        )
        self.more('save-script')
        self.assertEqual(self.seen.run('return window.names'), ['plan-edit-1.txt', 'plan-edit.patch', 'plan-edit.txt'])
        self.assertFalse(self.leaves(), 'all that was done is in files')


class Script(WithWork):
    """Lines, points and fences."""

    def test_a_line_that_is_taken_out_shows_what_those_behind_it_do(self) -> None:
        made = self.example('plan.dgn')
        self.open(made)
        lines = ['copy 6 0 50', 'copy 9 0 50', 'move 12 5 5', 'color 5 1']
        for line in lines:
            self.typed(line)
        self.seen.click('#script li:nth-child(4) .remove')
        self.seen.settle()
        self.assertFalse(self.is_asked(), 'nothing stands behind it')
        self.do('#undo')
        self.seen.click('#script li:nth-child(1) .remove')
        said = self.dialog('Leave it')
        self.assertIn('move 12 5 5', said)
        self.assertNotIn('color 5 1', said)
        self.assertEqual(self.script_lines(), lines)
        self.seen.click('#script li:nth-child(1) .remove')
        self.dialog('Remove the line')
        self.compare(made, lines[1:])
        self.do('#undo')
        self.compare(made, lines)

    def test_files_of_any_name_are_imported(self) -> None:
        for name in ('IN', 'SCRIPT', 'OUT'):
            with self.subTest(name):
                made = self.example('plan.dgn')
                self.open(made)
                other = self.put(name, (EXAMPLES / 'valve.dgn').read_bytes())
                self.second('import', other)
                self.dialog('Import')
                self.seen.wait('page.work.document.lines.length === 1')
                here = os.getcwd()
                os.chdir(self.folder)
                try:
                    self.compare(made, ['import ' + name])
                finally:
                    os.chdir(here)

    def test_points_stay_where_an_element_is_refused(self) -> None:
        self.open(self.example('plan.dgn'))
        self.tool('string')
        self.seen.type('#make-level', '64')
        self.draw((500, 500), (900, 500), (900, 900))
        self.focus()
        self.seen.key('Enter')
        self.notice()
        self.assertEqual(self.seen.run('return page.tools.points.length'), 3)
        self.seen.type('#make-level', '7')
        self.focus()
        self.seen.key('Enter')
        self.seen.wait('page.work.document.lines.length === 1')
        self.assertEqual(self.seen.run('return page.tools.points.length'), 0)
        self.assertTrue(self.script_lines()[0].startswith('string 7 '))

    def test_a_string_of_many_points_becomes_several(self) -> None:
        made = self.example('plan.dgn')
        self.open(made)
        self.tool('string')
        self.seen.run('for (let at = 0; at < 250; at++) page.tools.addPoint([500 + 10 * at, 500 + 7 * (at % 9)]);')
        self.focus()
        self.seen.key('Enter')
        self.seen.wait('page.work.document.lines.length > 1')
        self.assertIn('drawn as 3', self.notice())
        lines = [it.split()[5:] for it in self.script_lines()]
        self.assertEqual([len(it) for it in lines], [101, 101, 50])
        self.assertEqual([lines[0][-1], lines[1][-1]], [lines[1][0], lines[2][0]])
        self.do('#undo')
        self.assertEqual(self.script_lines(), [], 'it is one act')

    def test_a_click_on_the_first_corner_closes_a_shape(self) -> None:
        made = self.example('plan.dgn')
        self.open(made)
        self.tool('shape')
        self.draw((500, 500), (900, 500), (900, 900), (502, 503))
        self.seen.wait('page.work.document.lines.length === 1')
        points = self.script_lines()[0].split()[5:]
        self.assertEqual(len(points), 4)
        self.assertEqual(points[0], points[3])

    def test_causes_of_a_fence_are_those_of_its_mode(self) -> None:
        self.open(self.example('plan.dgn'))
        self.do('#zoom-out')
        self.tool('fence')
        self.draw((-500, -500), (5000, -500), (5000, 4000), (-500, 4000))
        self.focus()
        self.seen.key('Enter')
        self.seen.settle()
        self.seen.wait('page.tools.fence.isKnown')
        self.assertIn('is locked', self.seen.text('#refusals'))
        self.seen.run(
            "const mode = document.getElementById('fence-mode'); mode.value = 'void';"
            "mode.dispatchEvent(new Event('change'));"
        )
        self.seen.settle()
        self.seen.wait('page.tools.fence.isKnown')
        self.assertNotIn('is locked', self.seen.text('#refusals'))

    def test_a_level_of_many_is_one_line(self) -> None:
        lines = [plan.line(4 if at % 2 else 3, (10 * at, 0), (10 * at + 5, 30)) for at in range(1000)]
        made = self.put('many.dgn', drawings.drawing(*lines))
        self.open(made)
        self.do('[aria-label="Select all on level 4"]')
        self.assertIn('500 trees', self.number())
        self.seen.type('#by-x', '3')
        self.do('#edit-move')
        self.seen.wait('page.work.document.lines.length > 0')
        script = self.script_lines()
        self.assertEqual([it.split()[0] for it in script], ['levels', 'fence', 'fmove'])
        self.assertEqual(self.answers()[-1], 'ok 500')
        singly = ['move %d 3 0' % (at + 1) for at in range(1000) if at % 2]
        self.assertEqual(self.saved_drawing(made), self.made_by(made, singly))

    def test_a_script_that_is_too_long_is_told_with_advice(self) -> None:
        self.open(self.example('plan.dgn'))
        self.seen.run("page.work.apply({ why: 'edit', lines: new Array(200000).fill('color 5 1') })")
        self.assertIn('by a fence or by their level', self.notice())

    def test_files_that_are_dropped_are_taken_for_what_they_are(self) -> None:
        made = self.example('plan.dgn')
        self.open(made)
        self.drop(self.put('more.txt', 'color 5 1\ncolor 6 2\n'))
        self.seen.wait('page.work.document.lines.length === 2')
        self.do('#undo')
        self.assertEqual(self.script_lines(), [])


class Compared(WithWork):
    def test_the_drawing_as_it_is_is_compared(self) -> None:
        made = self.example('plan.dgn')
        self.open(made)
        self.typed('color 5 1')
        other = self.put('other.dgn', self.made_by(made, ['color 5 1', 'move 5 3 3']))
        self.second('compare', other)
        self.seen.wait("document.getElementById('changes-count').textContent === '1 change'")
        self.assertIn('plan.dgn as it is now', self.seen.text('#changes-title').lower())
        self.assertNotIn('colour', self.seen.text('#changes'))
        self.do('#compare-end')
        self.typed('color 6 2')
        self.compare(made, ['color 5 1', 'color 6 2'])


if __name__ == '__main__':
    unittest.main()
