"""`retext --each`: texts get running numbers."""

import os
import unittest
from typing import List, Tuple

import samples
from samples import drawings, plan


class Numbered(samples.WithProgram):
    """Four texts, and a line that has no number."""

    def setUp(self) -> None:
        super().setUp()
        # the texts 1 to 4 and their places; a line between them has no number
        texts = [plan.text(3, place, b'NUMBER') for place in ((10, 40), (30, 10), (20, 30), (20, -5))]
        self.source = self.put('in.dgn', drawings.drawing(*texts[:2], drawings.line(), *texts[2:]))

    def numbered(self, form: str, *more: object) -> List[str]:
        """The texts once the patch file is applied."""
        said = self.said('retext', self.source, self.path('p'), '--each', form, '--force', *more)
        out = self.then(said)
        made = samples.Drawing(out, self.program).elements
        os.unlink(out)
        return [it.text or '' for it in made if it.type == 17]

    def test_by_number(self) -> None:
        self.assertEqual(self.numbered('N{:03}'), ['N001', 'N002', 'N003', 'N004'])
        self.assertEqual(self.numbered('{}', '--start', 9), ['9', '10', '11', '12'])
        self.assertEqual(self.numbered('({:2})', '--number', '2,4-5'), ['NUMBER', '( 1)', '( 2)', '( 3)'])

    def test_by_place(self) -> None:
        self.assertEqual(self.numbered('{}', '--by', 'x'), ['1', '4', '2', '3'])
        self.assertEqual(self.numbered('{}', '--by', '-x'), ['4', '1', '2', '3'])
        self.assertEqual(self.numbered('{}', '--by', 'y'), ['4', '2', '3', '1'])
        self.assertEqual(self.numbered('{}', '--by', '-y'), ['1', '3', '2', '4'])

    def test_the_nearest_first(self) -> None:
        # from 20,0 the squares of the distances are 1700, 200, 900 and 25
        self.assertEqual(self.numbered('{}', '--near', '20,0', '--within', '100'), ['4', '2', '3', '1'])
        nearest = ['--type', 'text', '--near', '20,0', '--nearest']
        self.assertEqual(self.numbered('{}', *nearest, '2'), ['NUMBER', '2', 'NUMBER', '1'])
        self.assertEqual(self.numbered('{}', *nearest, '3', '--by', 'x'), ['NUMBER', '3', '1', '2'])

    def test_one_that_gets_longer_is_left_and_keeps_its_number(self) -> None:
        texts = [plan.text(3, (0, 0), it) for it in (b'AB', b'A', b'AB')]
        status, said, err = self.kit(
            'retext', self.put('in.dgn', drawings.drawing(*texts)), self.path('p'), '--each', '{}', '--start', 9
        )
        self.assertEqual(status, 0)
        self.assertIn('left out: 1 element (the new text is longer than the old one): 2', err)
        made = samples.Drawing(self.then(said), self.program).elements
        self.assertEqual([it.text for it in made[1:]], ['9', 'A', '11'])

    def test_what_can_not_be_done(self) -> None:
        wrong: List[Tuple[List[str], str]] = [
            (['--each', 'N'], "'N' needs one place for the number"),
            (['--each', '{}{}'], 'needs one place for the number'),
            (['--each', '{0.__class__}'], 'needs one place for the number'),
            (['--each', '{:999}'], 'needs one place for the number'),
            (['--each', '{}', 'OLD', 'NEW'], '--each takes the place of OLD and NEW'),
            (['--each', '{}', 'OLD'], '--each takes the place of OLD and NEW'),
            (['--each', '{}', '--start', '-1'], "'-1' isn't a valid first number"),
            (['OLD', 'NEW', '--by', 'x'], '--by and --start need --each'),
            (['OLD', 'NEW', '--start', '4'], '--by and --start need --each'),
            (['OLD'], 'required: NEW'),
            ([], 'required: OLD, NEW'),
        ]
        for words, why in wrong:
            status, out, err = self.kit('retext', self.source, self.path('p'), *words)
            self.assertEqual((status, out, err.count('\n')), (2, '', 1), words)
            self.assertIn(why, err)
        self.assertFalse((self.folder / 'p').exists())


if __name__ == '__main__':
    unittest.main()
