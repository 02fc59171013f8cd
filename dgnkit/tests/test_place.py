"""`place`: copies of a cell stand at the places of a CSV, by the cell's own origin."""

import os
import unittest
from pathlib import Path
from typing import List, Tuple

import samples
from samples import drawings, plan, with_units


VLV = (22 * 1600 + 12 * 40 + 22).to_bytes(2, 'little')  # the first word of the name: V is 22, L 12


class Place(samples.WithProgram):
    def setUp(self) -> None:
        super().setUp()
        self.valve = self.example('valve.dgn')

    def placed(self, drawing: str, cell: str, rows: str, *more: str) -> List[Tuple[int, ...]]:
        """The origins of all cells once the script has run."""
        script, out = self.path('s'), self.path('out.dgn')
        self.said('place', drawing, cell, self.put('p.csv', rows), '-o', script, '--force', *more)
        self.program.edit(drawing, samples.Script.read(script), out)
        made = samples.Drawing(out, self.program)
        return [it.points[0] for it in made.elements if it.type == 2]

    def test_twenty_places(self) -> None:
        places = [(100 * it, 7 - it) for it in range(20)]
        rows = ''.join('%d,%d\n' % it for it in places)
        self.assertEqual(self.placed(self.valve, 'vlv', rows), [(500, 0), *places])
        made = samples.Drawing(self.path('out.dgn'), self.program)
        self.assertEqual(len(made.elements), 5 + 60)
        # the lines of the last copy stand around its origin as those of the valve do
        self.assertEqual(made.elements[-1].points, [(1880, 8), (1920, -32)])

    def test_columns_by_name_and_other_separators(self) -> None:
        self.assertEqual(
            self.placed(self.valve, 'VLV', 'name;Y;x\npump 1;5;10\n\npump 2;6;11\n')[1:], [(10, 5), (11, 6)]
        )
        self.assertEqual(self.placed(self.valve, 'VLV', '"10"\t5\r\n')[1:], [(10, 5)])
        self.assertEqual(self.placed(self.valve, 'VLV', '\ufeffx,y\n10,5')[1:], [(10, 5)])

    def test_master_units(self) -> None:
        metric = self.put(
            'm.dgn', with_units((samples.EXAMPLES / 'valve.dgn').read_bytes(), 100, 10, ('m', 'cm'), (5000, 0, 0))
        )
        self.assertEqual(self.placed(metric, 'VLV', '1.5,-0.25\n')[1:], [(6500, -250)])
        self.assertEqual(self.placed(metric, 'VLV', '1,-2\n', '--units', 'resolution')[1:], [(1, -2)])

    def test_three_axes(self) -> None:
        header = plan.display(
            2, 10, (0, 0), (9, 9), b'\x33\x00' + VLV + bytes(72) + b''.join(map(plan.long, (1, 2, 3)))
        )
        solid = self.put('solid.dgn', drawings.drawing(drawings.with_total(header, (124 - 38) // 2), axes=3))
        self.assertEqual(self.placed(solid, 'VLV', '10,20,30\n11,21\n'), [(1, 2, 3), (10, 20, 30), (11, 21, 3)])

    def test_the_first_of_several_is_told(self) -> None:
        plan_file = self.example('plan.dgn')
        status, out, err = self.kit('place', plan_file, 'VLV', self.put('p.csv', '0,0\n'))
        self.assertEqual((status, out), (0, 'copy 6 -1000 -500\n'))
        self.assertIn('first of 2 cells VLV is copied, element 6', err)
        self.assertEqual(self.said('place', plan_file, 'VLV', self.path('p.csv'), '--number', 9), 'copy 9 -3000 -650\n')

    def test_a_dry_run(self) -> None:
        said = self.said('place', self.valve, 'VLV', self.put('p.csv', '7,8\n'), '-o', self.path('s'), '--dry-run')
        self.assertIn('row 1: cell 2 VLV on level 10 to 7,8', said)
        self.assertFalse((self.folder / 's').exists())

    def test_rows_that_can_not_be_read(self) -> None:
        for rows, why in [
            ('1,2\n3,x\n', "row 2: 'x' isn't a number"),
            ('x,y\n1,2\n\n3\n', 'row 4: there is no column 2'),
            ('name,east\npump,1\n', 'row 1: it has no columns x and y'),
            ('1,9999999999\n', "row 1: 1,9999999999 isn't on the design plane"),
            ('1,"2\n', 'row 1: '),
            ('', 'has no row'),
            ('1,2\n2147483640,0\n', "row 2: cell 2 VLV on level 10 can't be copied there (off-plane 2)"),
        ]:
            status, out, err = self.kit('place', self.valve, 'VLV', self.put('p.csv', rows), '-o', self.path('s'))
            self.assertEqual((status, out, err.count('\n')), (2, '', 1), rows)
            self.assertIn('p.csv', err)
            self.assertIn(why, err)
            self.assertFalse((self.folder / 's').exists())

    def test_cells_that_can_not_be_copied(self) -> None:
        rows = self.put('p.csv', '1,2\n')
        self.assertIn('no cell is called', self.kit('place', self.valve, 'PUMP', rows)[2])
        self.assertIn('the cells are VLV', self.kit('place', self.valve, 'PUMP', rows)[2])
        self.assertIn('no such file', self.kit('place', self.valve, 'VLV', self.path('none.csv'))[2])
        broken = self.put('b.dgn', drawings.DRAWINGS['a cell header whose total counts more than what is behind it'])
        self.assertIn('broken', self.kit('place', broken, 'ABC', rows)[2])
        arc = self.put('arc.dgn', drawings.DRAWINGS['a cell of the line 2 and the arc 3'])
        self.assertIn('floating', self.kit('place', arc, 'ABC', rows)[2])


class FromALibrary(samples.WithProgram):
    """A cell of another drawing is imported to the first place, and copied from there to the others."""

    def setUp(self) -> None:
        super().setUp()
        os.mkdir(self.path('lib'))
        other = drawings.cell(plan.line(1, (0, 0), (1, 1), True))
        file = drawings.drawing(drawings.line(), other, plan.valve(10, 500, 0, 20))
        self.library, self.sheet = self.put('lib/library.dgn', file), self.example('plan.dgn')  # of 12 elements
        self.places = self.put('p.csv', '900,800\n1000,1000\n')

    def place(self, *more: object) -> Tuple[int, str, str]:
        words = ['place', self.sheet, 'VLV', self.places, '--from', self.library, '-o', self.path('s.txt')]
        return self.kit(*words, *more)

    def refused(self, *words: object) -> str:
        """Why something can't be done, which writes nothing."""
        before = sorted(it.name for it in self.folder.rglob('*'))
        status, out, err = self.kit(*words)
        self.assertEqual((status, out), (2, ''), err)
        self.assertEqual(sorted(it.name for it in self.folder.rglob('*')), before)
        return err

    def test_it_is_imported_once_and_copied(self) -> None:
        status, said, err = self.place()
        self.assertEqual((status, err), (0, ''))
        cell = drawings.drawing(plan.valve(10, 500, 0, 20))
        self.assertEqual((self.folder / 'VLV.dgn').read_bytes(), cell)
        script = 'import %s 400 800\ncopy 12 100 200\n' % self.path('VLV.dgn')
        self.assertEqual((self.folder / 's.txt').read_text(), script)
        self.assertIn('1734 bytes: %s written, which the script imports\n' % self.path('VLV.dgn'), said)
        made = samples.Drawing(self.then(said), self.program)
        self.assertEqual(made.data[1536:].count(plan.valve(10, 900, 800, 20)), 1)
        self.assertEqual([it.points[0] for it in made.elements[12:] if it.type == 2], [(900, 800), (1000, 1000)])

    def test_one_place_where_it_already_is(self) -> None:
        self.put('p.csv', '500,0\n')
        self.assertEqual(self.place()[0], 0)
        self.assertEqual((self.folder / 's.txt').read_text(), 'import %s\n' % self.path('VLV.dgn'))

    def test_the_script_can_be_run_where_it_was_written(self) -> None:
        self.addCleanup(os.chdir, os.getcwd())
        os.chdir(self.folder)
        said = self.said('place', 'plan.dgn', 'VLV', 'p.csv', '--from', 'lib/library.dgn', '-o', 'lib/s.txt')
        self.assertEqual((self.folder / 'lib/s.txt').read_text().split()[1], 'lib/VLV.dgn')
        self.assertEqual(self.then(said), 'plan-out.dgn')

    def test_a_dry_run(self) -> None:
        said = self.place('--dry-run')[1]
        self.assertIn('row 2: cell 4 VLV on level 10 to 1000,1000', said)
        self.assertEqual(sorted(os.listdir(self.folder)), ['lib', 'p.csv', 'plan.dgn'])

    def test_both_files_or_none(self) -> None:
        for name in ('VLV.dgn', 's.txt'):
            self.put(name, drawings.drawing() if name == 'VLV.dgn' else 'kept')
            self.assertIn(name + ' already exists', self.refused('place', *self.words()))
            os.unlink(self.path(name))
        self.put('VLV.dgn', drawings.drawing())
        self.assertEqual(self.place('--force')[0], 0)
        # a library whose name the cell's drawing would have is no output
        os.rename(self.library, self.path('VLV.dgn'))
        self.library = self.path('VLV.dgn')
        self.assertIn('is an input', self.refused('place', *self.words(), '--force'))

    def words(self) -> List[str]:
        return [self.sheet, 'VLV', self.places, '--from', self.library, '-o', self.path('s.txt')]

    def test_what_can_not_be_done(self) -> None:
        self.assertIn('--from needs -o SCRIPT', self.refused('place', *self.words()[:-2]))
        self.assertIn('--from needs -o SCRIPT', self.refused('place', *self.words()[:-1], '/dev/stdout'))
        metric = with_units(Path(self.sheet).read_bytes(), 100, 10, ('m', 'cm'), (0, 0, 0))
        self.assertIn('different units', self.refused('place', self.put('m.dgn', metric), *self.words()[1:]))
        solid = drawings.DRAWINGS['a line of three axes']
        self.assertIn('has 2 dimensions', self.refused('place', self.put('solid.dgn', solid), *self.words()[1:]))
        words = [*self.words()[:-1], self.path('VLV.dgn')]
        self.assertIn('VLV.dgn is the name of the drawing that the script imports', self.refused('place', *words))
        self.put('p.csv', '2147483640,0\n')
        self.assertIn('it would leave the design plane', self.refused('place', *self.words()))
        self.put('p.csv', '1,2\n')
        inner = drawings.with_bit_c(plan.valve(10, 0, 0, 5)[:92])
        inner = drawings.with_total(inner, (92 - 38) // 2)
        self.put('lib/library.dgn', drawings.drawing(drawings.cell(inner)))
        self.assertIn('is a member of another element', self.refused('place', *self.words()))


if __name__ == '__main__':
    unittest.main()
