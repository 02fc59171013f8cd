"""What is said of scripts and patch files that are written: what would change, and that nothing has."""

import unittest
from typing import List, Tuple

import samples
from samples import drawings


class Proposals(samples.WithProgram):
    """A command that writes a patch file changes no drawing, and says so."""

    def test_it_says_what_would_change_and_what_is_written(self) -> None:
        source, patch = self.example('plan.dgn'), self.path('p')
        gone = self.put('gone.dgn', drawings.drawing(drawings.deleted(drawings.line())))
        broken = self.put('broken.dgn', drawings.DRAWINGS['a complex chain of the line 2, with bit C'])
        commands: List[Tuple[List[str], str]] = [
            (['relevel', source, patch, '--to', '21', '--level', '10'], '7 elements'),
            (['retext', source, patch, 'HOUSE', 'ROOMS'], '1 element'),
            (['retext', source, patch, '--each', '{}'], '1 element'),
            (['rename', source, patch, 'VLV', 'PUMP'], '2 elements'),
            (['lock', source, patch, '--number', '5'], '1 element'),
            (['unlock', source, patch, '--number', '1-2'], '1 element'),
            (['undelete', gone, patch, '--number', '1'], '1 element'),
            (['mend', broken, patch], '1 element'),
        ]
        for words, count in commands:
            with self.subTest(words=words):
                said = self.said(*words, '--force').splitlines()
                self.assertEqual(said[-2], '%s would change: %s written' % (count, patch))
                self.assertTrue(said[-1].startswith('next: dgnkit run '))
                self.assertNotIn('changed', '\n'.join(said))
                self.assertNotIn('written', self.said(*words, '--dry-run').split('nothing is written')[0])

    def test_a_script_that_was_written_is_none_that_was_run(self) -> None:
        source, script = self.example('plan.dgn'), self.path('s.txt')
        places = self.put('p.csv', 'x,y,text,height\n1,2,AB,60\n')
        commands: List[List[str]] = [
            ['find', source, '--level', '10', '--script', 'color {n} 3'],
            ['place', source, 'VLV', places],
            ['draw', source, places],
            ['text', source, '5,5', 'AB', '--height', '60'],
            ['merge', source, self.example('valve.dgn')],
        ]
        for words in commands:
            said = self.said(*words, '-o', script, '--force').splitlines()
            self.assertIn('%s: %s written' % ('3 commands' if words[0] == 'find' else '1 command', script), said)
            patch = ['1 entry: %s written' % self.path('s.patch')] if words[0] in ('draw', 'text') else []
            self.assertEqual([it for it in said if 's.patch written' in it], patch)

    def test_mend_says_how_many_trees_would_still_be_broken(self) -> None:
        broken = self.put('broken.dgn', drawings.DRAWINGS['a complex chain of the line 2, with bit C'])
        self.assertIn('1 broken tree now, 0 with the patch file\n', self.said('mend', broken, '--dry-run'))

    def test_what_goes_with_a_header_would_change(self) -> None:
        source = self.example('plan.dgn')
        err = self.kit('relevel', source, self.path('p'), '--to', 21, '--level', 10)[2]
        self.assertIn('4 members would change with their header', err)
        err = self.kit('find', source, '--level', 10, '--script', 'color {n} 3')[2]
        self.assertIn('4 members would change with their headers', err)


if __name__ == '__main__':
    unittest.main()
