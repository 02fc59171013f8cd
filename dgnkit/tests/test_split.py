"""`split` and `purge`: new drawings of the trees of another one, in which the rest is gone."""

import csv
import io
import json
import os
import struct
import tempfile
import unittest
from pathlib import Path
from typing import Dict, List
from unittest import mock

import samples
from samples import drawings, plan

from dgnkit.commands.split import plain_stems

ONE, FIVE = plan.line(1, (0, 0), (9, 9)), plan.line(5, (1, 2), (3, 4))
COLOURS = drawings.element(5, 1, 50)  # silent, so it is drawn nowhere
VALVE = plan.valve(10, 100, 100, 5)
DEFINITION = drawings.element(34, 3, 36) + plan.line(4, (0, 0), (1, 1), True)
IN_LINES = '#!/bin/sh\ntext=$(cat)\nsaid=$(printf \'%%s\\n\' "$text" | %s "$@")\nstatus=$?\n'


def named(first: int, second: int) -> bytes:
    """A cell on level 10 whose name is these words."""
    made = bytearray(plan.valve(10, 0, 0, 5))
    struct.pack_into('<HH', made, 38, first, second)
    return bytes(made)


class Making(samples.WithProgram):
    def setUp(self) -> None:
        super().setUp()
        self.into = self.path('into')

    def files(self) -> Dict[str, bytes]:
        """The files in the folder that is split to."""
        return {it.name: it.read_bytes() for it in Path(self.into).iterdir()}

    def split(self, by: str, *elements: bytes) -> str:
        """Splits a drawing of these elements, and gives what is said on standard error."""
        status, said, err = self.kit('split', self.put('in.dgn', drawings.drawing(*elements)), '--by', by, self.into)
        self.assertEqual((status, 'new files, whose elements have new numbers' in said), (0, True), said + err)
        return err

    def left_as_it_was(self, *words: object) -> str:
        """Runs a command that can't be done, and gives why; nothing is written."""
        before = {it: it.read_bytes() for it in self.folder.rglob('*') if it.is_file()}
        folders = [it for it in self.folder.rglob('*') if it.is_dir()]
        status, out, err = self.kit(*words)
        self.assertEqual((status, out, err.count('\n')), (2, '', 1), err)
        self.assertEqual({it: it.read_bytes() for it in self.folder.rglob('*') if it.is_file()}, before)
        self.assertEqual([it for it in self.folder.rglob('*') if it.is_dir()], folders)
        return err


class Split(Making):
    def test_a_drawing_for_each_level(self) -> None:
        err = self.split('level', ONE, COLOURS, FIVE, VALVE, ONE)
        made = {
            'level-1.dgn': drawings.drawing(COLOURS, ONE, ONE),
            'level-5.dgn': drawings.drawing(COLOURS, FIVE),
            'level-10.dgn': drawings.drawing(COLOURS, VALVE),
        }
        self.assertEqual((self.files(), err), (made, ''))

    def test_a_tree_on_level_0_counts_on_that_of_its_first_member(self) -> None:
        ahead, on_6 = drawings.deleted(plan.line(9, (0, 0), (1, 1), True)), plan.line(6, (0, 0), (1, 1), True)
        members = ahead + plan.line(0, (0, 0), (1, 1), True) + on_6 + plan.line(7, (0, 0), (1, 1), True)
        tree = plan.cell(0, 'ABC', (0, 0), (0, 0), (1, 1), members)
        nowhere = plan.line(0, (0, 0), (1, 1))
        self.split('level', tree, nowhere)
        self.assertEqual(
            self.files(), {'level-6.dgn': drawings.drawing(tree), 'level-0.dgn': drawings.drawing(nowhere)}
        )

    def test_a_drawing_for_each_cell_and_one_for_the_others(self) -> None:
        other = drawings.cell(plan.line(1, (0, 0), (1, 1), True))
        self.split('cell', VALVE, FIVE, other, VALVE)
        made = {
            'cell-VLV.dgn': drawings.drawing(VALVE, VALVE),
            'cell-ABC.dgn': drawings.drawing(other),
            'others.dgn': drawings.drawing(FIVE),
        }
        self.assertEqual(self.files(), made)

    def test_names_that_no_file_can_have(self) -> None:
        # the words 64000 and 64001 are no letters: they are read as \fa00 and \fa01; 0 is three blanks, 1683 is ABC
        cells = [named(64000, 0), named(0, 64000), named(0, 0), named(1683, 0)]
        self.split('cell', *cells)
        names = ['cell-_fa00.dgn', 'cell-____fa00.dgn', 'cell-unnamed.dgn', 'cell-ABC.dgn']
        self.assertEqual(self.files(), {name: drawings.drawing(it) for name, it in zip(names, cells)})

    def test_two_names_that_become_the_same(self) -> None:
        made = plain_stems(['cell-A/B', 'cell-A?B', 'cell-a_b', 'cell-A_B-2'])
        self.assertEqual(list(made.values()), ['cell-A_B', 'cell-A_B-2', 'cell-a_b-3', 'cell-A_B-2-2'])

    def test_what_is_marked_deleted(self) -> None:
        gone, member = drawings.deleted(FIVE), drawings.deleted(plan.line(1, (0, 0), (1, 1), True))
        tree = drawings.cell(plan.line(1, (0, 0), (1, 1), True), member)
        err = self.split('level', gone, drawings.deleted(COLOURS), tree)
        self.assertEqual(self.files(), {'level-1.dgn': drawings.drawing(tree)})
        self.assertIn('left out: 1 tree marked deleted: 1\n', err)
        self.assertIn('left out: 1 other element marked deleted: 2\n', err)
        self.assertIn('1 deleted member stays with its tree: 5\n', err)

    def test_definitions_of_shared_cells_come_first_in_each(self) -> None:
        err = self.split('level', ONE, FIVE, DEFINITION)
        made = {
            'level-1.dgn': drawings.drawing(DEFINITION, ONE),
            'level-5.dgn': drawings.drawing(DEFINITION, FIVE),
        }
        self.assertEqual((self.files(), err), (made, 'in each file: 1 definition of shared cells\n'))

    def test_a_table_as_csv_and_as_json(self) -> None:
        source = self.put('in.dgn', drawings.drawing(COLOURS, VALVE, FIVE))
        said = self.said('split', source, '--by', 'level', self.into, '--csv')
        # 1536 bytes and 2 of the end mark, 50, and a line of 52, or a cell of 92 and its two lines
        rows = [['into/level-5.dgn', '1', '3', '1640'], ['into/level-10.dgn', '1', '5', '1784']]
        found = [[it[0][-len(row[0]) :], *it[1:]] for it, row in zip(list(csv.reader(io.StringIO(said)))[1:], rows)]
        self.assertEqual(found, rows)
        told = json.loads(self.said('split', source, '--by', 'level', self.into, '--json', '--force'))
        self.assertEqual(
            [[str(it[name]) for name in ('trees', 'elements', 'bytes')] for it in told], [it[1:] for it in rows]
        )

    def test_a_drawing_in_blocks_gives_drawings_in_blocks(self) -> None:
        source = self.put('in.dgn', drawings.drawing(ONE, FIVE) + bytes(2048 - 1536 - 2 * 52 - 2))
        self.said('split', source, '--by', 'level', self.into)
        for name, made in self.files().items():
            self.assertEqual(len(made) % 512, 0, name)
            self.assertEqual(made[1588:].strip(b'\0'), b'\xff\xff')
        source = self.put('no-end.dgn', drawings.drawing(ONE, FIVE)[:-2])
        self.said('split', source, '--by', 'level', self.into, '--force')
        self.assertEqual(self.files()['level-5.dgn'], drawings.drawing(FIVE)[:-2])

    def test_broken_trees_are_mended_first(self) -> None:
        source = self.put('in.dgn', drawings.DRAWINGS['a complex chain of the line 2, with bit C'])
        err = self.left_as_it_was('split', source, '--by', 'level', self.into)
        self.assertIn('has 1 broken tree (1), which would be lost: run `dgnkit mend` first', err)

    def test_what_is_not_drawn_may_have_bit_c(self) -> None:
        # as the components of a raster have, which belong to no header that the editor reads
        raster = drawings.element(87, 1, 40) + drawings.element(88, 1, 40, member=True)
        self.split('level', ONE, raster, FIVE)
        made = {'level-1.dgn': drawings.drawing(raster, ONE), 'level-5.dgn': drawings.drawing(raster, FIVE)}
        self.assertEqual(self.files(), made)

    def test_three_axes(self) -> None:
        line = drawings.line_of_three_axes()
        source = self.put('in.dgn', drawings.drawing(line, drawings.deleted(line), axes=3))
        self.said('split', source, '--by', 'level', self.into)
        self.assertEqual(self.files(), {'level-1.dgn': drawings.drawing(line, axes=3)})

    def test_a_temporary_folder_that_no_script_can_name(self) -> None:
        source = self.put('in.dgn', drawings.drawing(ONE))
        os.mkdir(self.path('a b'))
        with mock.patch.object(tempfile, 'tempdir', self.path('a b')):
            err = self.left_as_it_was('split', source, '--by', 'level', self.into)
        self.assertIn('set TMPDIR to another one', err)

    def test_all_or_nothing(self) -> None:
        source = self.put('in.dgn', drawings.drawing(ONE, FIVE))
        os.mkdir(self.into)
        old = self.put('into/level-5.dgn', drawings.drawing())
        err = self.left_as_it_was('split', source, '--by', 'level', self.into)
        self.assertIn('level-5.dgn already exists: --force overwrites it', err)
        self.said('split', source, '--by', 'level', self.into, '--force')
        self.assertEqual(Path(old).read_bytes(), drawings.drawing(FIVE))
        err = self.left_as_it_was('split', old, '--by', 'level', self.into, '--force')
        self.assertIn("level-5.dgn is an input, and isn't overwritten", err)

    def test_what_can_not_be_done(self) -> None:
        source = self.put('in.dgn', drawings.drawing(ONE))
        self.assertIn("isn't a folder", self.left_as_it_was('split', source, '--by', 'level', source))
        self.assertIn("isn't a folder", self.left_as_it_was('split', source, '--by', 'level', source + '/in'))
        empty = self.put('empty.dgn', drawings.drawing(COLOURS, drawings.deleted(ONE)))
        self.assertIn('has no trees to split', self.left_as_it_was('split', empty, '--by', 'cell', self.into))
        status, _, err = self.kit('split', source, '--by', 'colour', self.into)
        self.assertEqual((status, err.count('\n')), (2, 1))

    def stub(self, text: str) -> str:
        """A program that does something else than the real one, once that has made OUT, which is $4."""
        path = self.put('stub', IN_LINES % samples.PROGRAM + text + '\nprintf \'%s\\n\' "$said"\nexit $status\n')
        os.chmod(path, 0o755)
        return path

    def test_what_is_made_is_held_against_the_drawing(self) -> None:
        source = self.put('in.dgn', drawings.drawing(FIVE, ONE))
        for text, why in [
            (
                'case $2 in *level-5) said=$(printf \'%s\\n\' "$said" | sed "s/path 1,2/path 1,3/");; esac',
                'the drawing that dgnedit made shows something else than',
            ),
            (
                'case $4 in *level-5) printf x | dd of="$4" bs=1 seek=1580 conv=notrunc 2> /dev/null;; esac',
                'made a drawing with other bytes',
            ),
            (
                'case $4 in *level-5) said="refused too-long"; status=1;; esac',
                "dgnedit can't make a drawing of trees of",
            ),
            ('case $4 in *level-5) said="ok 2";; esac', 'dgnedit imported 2 of 1 tree'),
            (
                'case $2 in *in.dgn) said=$(printf \'%s\\n\' "$said" | sed "s/^1 0 3 5/9 0 3 5/");; esac',
                "dgnedit listed '9 0 3 5 0 0 0 path 1,2 3,4', which isn't in",
            ),
        ]:
            with mock.patch.dict(os.environ, {'DGNEDIT': self.stub(text)}):
                self.assertIn(why, self.left_as_it_was('split', source, '--by', 'level', self.into))


class Purge(Making):
    def purged(self, file: bytes, *more: str) -> List[str]:
        """What is said of the drawing out.dgn, a line each."""
        return self.said('purge', self.put('in.dgn', file), self.path('out.dgn'), *more).splitlines()

    def test_what_is_marked_deleted_is_gone(self) -> None:
        dead_cell = drawings.deleted(VALVE[:92]) + VALVE[92:]
        member = drawings.deleted(plan.line(1, (0, 0), (1, 1), True))
        tree = drawings.cell(plan.line(1, (0, 0), (1, 1), True), member)
        file = drawings.drawing(ONE, dead_cell, drawings.deleted(COLOURS), tree, COLOURS, drawings.deleted(FIVE))
        said = self.purged(file)
        self.assertEqual((self.folder / 'out.dgn').read_bytes(), drawings.drawing(COLOURS, ONE, tree))
        self.assertEqual(said[0], 'left out: 2 trees marked deleted: 2, 10')
        self.assertEqual(said[1], 'left out: 1 other element marked deleted: 5')
        self.assertEqual(said[2], '1 deleted member stays with its tree: 8')
        self.assertIn('out.dgn: written, 1836 bytes: a new file, whose elements have new numbers', said[3])

    def test_bytes_after_the_end_mark_are_gone(self) -> None:
        said = self.purged(drawings.drawing(ONE) + b'OLD' + bytes(9))
        self.assertEqual(said[0], 'left out: 3 bytes after the end mark')
        self.assertEqual((self.folder / 'out.dgn').read_bytes(), drawings.drawing(ONE))

    def test_nothing_to_purge(self) -> None:
        self.assertEqual(self.purged(drawings.drawing(COLOURS))[0], 'nothing is marked deleted')
        self.assertEqual((self.folder / 'out.dgn').read_bytes(), drawings.drawing(COLOURS))
        self.assertIn('already exists', self.left_as_it_was('purge', self.path('in.dgn'), self.path('out.dgn')))
        self.purged(drawings.drawing(ONE), '--force')
        self.assertEqual((self.folder / 'out.dgn').read_bytes(), drawings.drawing(ONE))

    def test_a_deleted_orphan_is_no_hindrance(self) -> None:
        orphan = drawings.deleted(drawings.line(True))
        self.purged(drawings.drawing(orphan, ONE))
        self.assertEqual((self.folder / 'out.dgn').read_bytes(), drawings.drawing(ONE))
        file = self.put('in.dgn', drawings.drawing(ONE, drawings.line(True)))
        err = self.left_as_it_was('purge', file, self.path('other.dgn'))
        self.assertIn('1 broken tree (2)', err)


if __name__ == '__main__':
    unittest.main()
