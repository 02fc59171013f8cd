"""Scripts and their answers, where the program is found, and each of its endings as an exception."""

import os
import unittest
from typing import List, Tuple, Type, TypeVar, Union
from unittest import mock

import samples
from dgnkit import errors
from samples import Program, Script, drawings

Kind = TypeVar('Kind', bound=errors.Ending)


class Scripts(samples.WithProgram):
    def test_a_method_for_each_command(self) -> None:
        valve = self.example('valve.dgn')
        look, font = (10, 3, 1, 0), (1, 0, 1000, 1000)
        script = (
            Script().comment('all commands').move(2, 5, -5).copy(2, 0, 9).color(1, 7).sym(1, None, 3, None).delete(3)
        )
        script.line(look, (0, 0), (1, 1)).string(look, [(0, 0), (1, 1)]).shape(look, [(0, 0), (1, 1), (2, 0)])
        script.write_text(look, font, (5, 5), b'a b').import_(valve).import_(valve, 3, -4).fit(1).undo()
        script.levels(1, '3-5', 63).levels('all').show().tree(2).elements().refs().links(1).audit()
        script.fence([(0, 0), (9, 0), (9, 9)]).select('void').fmove('inside', 1, 1).fcopy('overlap', 1, 1)
        script.fsym('inside', 1, None, 2).fdelete('inside').nofence()
        answers = self.program.edit(valve, script)
        self.assertEqual([it.cause for it in answers], [None] * len(script.commands))
        self.assertEqual(len(answers), 28)
        named = {it.name for it in script.commands}
        self.assertEqual(len(named), 26)
        tree = answers[[it.name for it in script.commands].index('tree')]
        self.assertEqual((tree.count, len(tree.lines)), (3, 3))
        self.assertEqual(answers[9].count, 2)

    def test_the_text_of_a_script(self) -> None:
        text = b'# x\r\n\n color 1 7 \nmove 1 5 5'
        script = Script.from_bytes(text)
        self.assertEqual(
            [(it.line, it.name, it.text) for it in script.commands],
            [(3, 'color', 'color 1 7'), (4, 'move', 'move 1 5 5')],
        )
        self.assertEqual(script.text, b'# x\n\n color 1 7 \nmove 1 5 5\n')

    def test_parts_are_as_long_as_the_program_reads(self) -> None:
        script = Script()
        for _ in range(2 * 1048576 // 10 + 1):
            script.add('color 1 7')
        parts = script.parts()
        self.assertEqual([len(it.text) for it in parts], [1048570, 1048570, 20])
        self.assertEqual([line for it in parts for line in it.lines], script.lines)
        self.assertEqual(len(self.program.edit(self.example('valve.dgn'), parts[0])), 104857)

    def test_names_that_no_import_line_has(self) -> None:
        for name in ('', 'a b', 'stra\u00dfe.dgn', 'x' * 256):
            with self.assertRaises(errors.Mistake):
                Script().import_(name)


class Endings(samples.WithProgram):
    def ended(self, kind: Type[Kind], word: str, drawing: str, given: Union[str, bytes] = '', out: str = '') -> Kind:
        """The ending of a run, to which a patch file is given by its path, or a script as bytes."""
        with self.assertRaises(kind) as caught:
            if word == 'apply':
                assert isinstance(given, str)
                self.program.apply(drawing, given, out)
            elif word == 'check':
                self.program.check(drawing)
            else:
                assert isinstance(given, bytes)
                self.program.edit(drawing, Script.from_bytes(given), out)
        return caught.exception

    def test_each_ending_is_an_exception_with_what_it_says(self) -> None:
        valve = self.example('valve.dgn')
        line = self.ended(errors.BadScript, 'edit', valve, b'color 1 1\n\ncolour 1\n', self.path('o'))
        self.assertEqual((line.status, line.said, line.line), (3, ['bad script line 3'], 3))
        cut = self.put('cut', (samples.EXAMPLES / 'valve.dgn').read_bytes()[:1600])
        design = self.ended(errors.BadDesign, 'check', cut)
        self.assertEqual((design.status, design.fault, design.offset), (4, 'cut', 1588))
        self.assertIn(cut, str(design))
        self.assertEqual(self.ended(errors.BadUsage, 'edit', valve, b'', valve).status, 2)
        self.assertEqual(self.ended(errors.ReadFault, 'check', self.path('none')).status, 5)
        self.assertEqual(self.ended(errors.WriteFault, 'edit', valve, b'show\n', self.path('none/o')).status, 6)
        self.assertEqual(self.ended(errors.TooLong, 'edit', valve, b'#' * 1048577, self.path('o')).what, 'script')
        self.assertEqual(self.ended(errors.BadPatch, 'apply', valve, self.put('p', b'x'), self.path('o')).offset, 0)
        self.program.run('pack', valve, self.put('s', 'color 1 3\n'), self.path('p'))
        self.program.run('edit', valve, self.path('s'), self.path('o'))
        self.assertEqual(
            self.ended(errors.PatchRefused, 'apply', self.path('o'), self.path('p'), self.path('q')).entry, 1
        )

    def test_an_ending_that_is_not_understood(self) -> None:
        odd: List[Tuple[int, List[str]]] = [(9, []), (3, ['bad line 3']), (0, []), (11, ['refused entry'])]
        for status, said in odd:
            with self.assertRaises(errors.ListingError):
                raise errors.ending_of(status, said)

    def test_no_memory(self) -> None:
        self.assertIsInstance(errors.ending_of(7, []), errors.OutOfMemory)


class Finding(samples.WithProgram):
    def test_the_program_that_is_named(self) -> None:
        with mock.patch.dict(os.environ, {'DGNEDIT': self.path('none')}):
            status, out, err = self.kit('info', self.example('valve.dgn'))
        self.assertEqual((status, out, err.count('\n')), (2, '', 1))
        self.assertIn('$DGNEDIT names', err)

    def test_the_one_beside_and_the_one_on_the_path(self) -> None:
        for place in ('beside', 'path'):
            (self.folder / place).mkdir()
            os.symlink(str(samples.PROGRAM), self.folder / place / 'dgnedit')
        found = {'PATH': str(self.folder / 'path')}
        with mock.patch.dict(os.environ, found), mock.patch('sys.argv', [self.path('beside/dgnkit')]):
            del os.environ['DGNEDIT']
            self.assertEqual(Program.find().path, os.path.realpath(self.folder / 'beside') + '/dgnedit')
        with mock.patch.dict(os.environ, found), mock.patch('sys.argv', [self.path('dgnkit')]):
            del os.environ['DGNEDIT']
            self.assertEqual(Program.find().path, self.path('path/dgnedit'))
        with mock.patch.dict(os.environ, {'PATH': str(self.folder)}), mock.patch('sys.argv', [self.path('dgnkit')]):
            del os.environ['DGNEDIT']
            with self.assertRaises(errors.MissingProgram):
                Program.find()

    def test_a_program_that_says_what_is_not_understood(self) -> None:
        odd = self.put('odd', '#!/bin/sh\ncat > /dev/null\necho 0 0 1536 9 8 -- odd\necho elements 1\n')
        os.chmod(odd, 0o755)
        with mock.patch.dict(os.environ, {'DGNEDIT': odd}):
            status, out, err = self.kit('info', self.put('in.dgn', drawings.drawing()))
        self.assertEqual((status, out, err.count('\n')), (2, '', 1))
        self.assertIn("doesn't understand", err)


if __name__ == '__main__':
    unittest.main()
