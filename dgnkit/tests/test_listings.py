"""Listings: each kind of line by itself, lines that aren't understood, and all kinds of the program's."""

import time
import unittest
from typing import Callable, Iterator, List, Tuple

import samples
from dgnkit import ListingError
from dgnkit.format.walking import elements_in
from dgnkit.program.answers import answers_of
from dgnkit.program.listings import (
    chosen_of,
    findings_of,
    item_of,
    links_of,
    nodes_of,
    references_of,
)


class Lines(unittest.TestCase):
    def test_elements_of_a_file(self) -> None:
        line, cell = samples.drawings.line(), samples.plan.valve(10, 500, 0, 20)
        file = samples.drawings.drawing(samples.drawings.deleted(line), cell)
        made = elements_in(file, 2)
        self.assertEqual([(it.number, it.offset, it.size) for it in made][1:3], [(1, 1536, 52), (2, 1588, 92)])
        self.assertEqual([(it.type, it.level) for it in made], [(9, 8), (3, 1), (2, 10), (3, 11), (3, 11)])
        self.assertEqual([it.has_c for it in made], [False, False, False, True, True])
        self.assertEqual([it.is_deleted for it in made], [False, True, False, False, False])
        self.assertEqual(len(elements_in(file[:-2], 2)), 5)

    def test_a_file_that_ends_within_an_element(self) -> None:
        file = samples.drawings.drawing(samples.drawings.line())[:-2]
        for end in (*range(1537, 1588), 1, 3, 1535):
            with self.assertRaises(ValueError, msg=end):
                elements_in(file[:end], 2)
        with self.assertRaises(ValueError):
            elements_in(file + b'\0', 2)

    def test_items(self) -> None:
        path = item_of('3 1 3 11 5 2 7 path 480,-20 520,20')
        self.assertEqual((path.number, path.depth, path.type, path.level), (3, 1, 3, 11))
        self.assertEqual((path.colour, path.weight, path.style, path.points), (5, 2, 7, [(480, -20), (520, 20)]))
        self.assertEqual(item_of('4 0 4 1 0 0 0 path').points, [])
        self.assertEqual(item_of('4 0 3 1 0 0 0 path 1,2,3 4,5,6').points, [(1, 2, 3), (4, 5, 6)])
        text = item_of('3 0 17 1 0 0 0 text 7,8 a b\\5c\\e9')
        self.assertEqual((text.points, text.characters, text.text), ([(7, 8)], b'a b\\\xe9', 'a b\\é'))
        self.assertEqual(item_of('3 0 17 1 0 0 0 text 7,8 ').characters, b'')
        cell = item_of('2 0 2 10 0 0 0 cell [VLV       ] 500,0')
        self.assertEqual((cell.name, cell.points), ('VLV', [(500, 0)]))
        self.assertEqual(item_of('2 0 2 10 0 0 0 cell [ABC  DE   ] 500,0').name, 'ABCDE')
        self.assertEqual(item_of('1 0 2 1 0 0 0 cell [ABC  \\fa00] 0,0').name, 'ABC\\fa00')
        self.assertEqual(item_of('5 0 27 1 0 0 0 box 0,0 100,50').points, [(0, 0), (100, 50)])
        self.assertEqual(item_of('5 0 7 1 0 0 0 node 9,9').points, [(9, 9)])
        self.assertEqual(item_of('1 0 12 1 0 0 0 group').kind, 'group')

    def test_lines_of_the_other_listings(self) -> None:
        node = nodes_of(['1 0 12 1 group live orphan', '2 1 3 1 leaf deleted'])
        self.assertEqual(
            [(it.depth, it.knot, it.is_deleted, it.is_orphan) for it in node][0], (0, 'group', False, True)
        )
        self.assertEqual((node[1].is_deleted, node[1].is_orphan), (True, False))
        self.assertEqual(references_of(['1 1536 10 live'])[0].offset, 1536)
        self.assertEqual(
            [it.kind for it in links_of(['52 8 dmrs', '60 6 user', '66 4 rest'])], ['dmrs', 'user', 'rest']
        )
        finding = findings_of(['2 480,-20 620,20 480,-20 520,20'])[0]
        self.assertEqual((finding.high, finding.hull_high), ((620, 20), (520, 20)))
        self.assertEqual(chosen_of(['2', '11']), [2, 11])

    def test_a_line_that_is_not_understood_is_an_error(self) -> None:
        wrong: List[Tuple[Callable[[str], object], List[str]]] = [
            (item_of, ['', '1 2 3', '1 0 3 1 0 0 0 arc 1,2', '1 0 3 1 0 0 0 path 1,2 3', '1 0 2 1 0 0 0 cell VLV 1,2']),
            (item_of, ['1 0 12 1 0 0 0 group 1,2', '1 0 27 1 0 0 0 box 1,2', '1 0 17 1 0 0 0 text 7,8']),
            (lambda it: nodes_of([it]), ['1 0 12 1 twig live', '1 0 12 1 leaf live lost', 'tree 1']),
            (lambda it: references_of([it]), ['1 2 3', '1 2 3 dead']),
            (lambda it: links_of([it]), ['1 2 odd', '1 2']),
            (lambda it: findings_of([it]), ['1 2,3 4,5 6,7', '1 2 3 4 5']),
            (lambda it: chosen_of([it]), ['1 2', '-1', '']),
        ]
        for read, lines in wrong:
            for line in lines:
                with self.assertRaises(ListingError, msg=line):
                    read(line)


class Answers(unittest.TestCase):
    def test_answers_are_matched_to_commands(self) -> None:
        said = ['ok', '7 0 3 1 leaf live', 'tree 1', 'refused locked 1', 'ok 3', '0 0 1536 9 8 --', 'level 8 1']
        said += ['type 9 1', 'elements 1', 'shown 0']
        made = answers_of(['color', 'tree', 'color', 'fsym', 'elements', 'show'], said)
        self.assertEqual([it.cause for it in made], [None, None, 'locked 1', None, None, None])
        self.assertEqual([it.count for it in made], [None, 1, None, 3, 1, 0])
        self.assertEqual(made[4].lines, ['0 0 1536 9 8 --', 'level 8 1', 'type 9 1'])

    def test_too_few_too_many_and_odd_answers_are_errors(self) -> None:
        wrong: List[Tuple[List[str], List[str]]] = [
            (['color'], []),
            (['color'], ['ok', 'ok']),
            (['color'], ['done']),
            (['tree'], ['7 0 3 1 leaf live']),
            (['tree'], ['7 0 3 1 leaf live', 'tree 2']),
            (['show'], ['shown x']),
        ]
        for names, said in wrong:
            with self.assertRaises(ListingError, msg=str(said)):
                answers_of(names, said)


class OfTheProgram(samples.WithProgram):
    """All listings of all drawings are understood, and say of an element what its bytes say."""

    def drawings(self) -> Iterator[Tuple[str, samples.Drawing]]:
        for name, file in samples.drawings.DRAWINGS.items():
            yield name, self.opened(file)
        for name in ('plan.dgn', 'valve.dgn'):
            yield name, samples.Drawing(self.example(name), self.program)
        yield 'gen', samples.Drawing(self.gen(3, 500), self.program)

    def test_bytes_say_what_listings_say(self) -> None:
        for name, drawing in self.drawings():
            with self.subTest(name):
                for item in drawing.items:
                    element = drawing.elements[item.number]
                    look = element.colour, element.weight, element.style
                    self.assertEqual((item.colour, item.weight, item.style), look)
                    self.assertEqual((item.type, item.level), (element.type, element.level))
                    self.assertEqual(item.characters, element.characters)
                    self.assertEqual(item.name, element.cell_name)
                    if item.kind == 'box':
                        assert element.range is not None
                        self.assertEqual(item.points, list(element.range))
                    else:
                        self.assertEqual(item.points, element.points)
                    self.assertEqual(item.depth, drawing.nesting.depths[item.number])

    def test_the_elements_are_those_of_the_listing(self) -> None:
        for name, drawing in self.drawings():
            with self.subTest(name):
                answers = self.program.listed(drawing.path, samples.Script([b'elements']))
                rows = [
                    '%d %d %d %d %d %s%s'
                    % (it.number, it.offset, it.size, it.type, it.level, '-c'[it.has_c], '-d'[it.is_deleted])
                    for it in drawing.elements
                ]
                self.assertEqual([it for it in answers[0].lines if it[0].isdigit()], rows)

    def test_nested_headers_behind_many_orphans_take_little_time(self) -> None:
        """Each orphan is a root, and each header holds all behind it: their trees together would have a billion
        lines."""
        orphans = [samples.plan.line(1, (it, 0), (it, 9), True) for it in range(9000)]
        nested: List[bytes] = []
        size = 0
        while size < 65000:
            header = samples.drawings.with_total(samples.drawings.element(12, 1, 40, True), (40 + 2 * size - 38) // 2)
            nested.insert(0, header)
            size += 20
        drawing = self.opened(samples.drawings.drawing(*orphans, *nested, *nested, *nested))
        began = time.monotonic()
        self.assertEqual(max(drawing.nesting.depths), len(nested) - 1)
        self.assertEqual(len(drawing.nesting.orphans), len(orphans) + 3)
        self.assertLess(time.monotonic() - began, 10)

    def test_trees_are_those_of_each_element_asked_by_itself(self) -> None:
        for name, drawing in self.drawings():
            with self.subTest(name):
                script = samples.Script()
                for element in drawing.elements:
                    script.tree(element.number)
                asked = [nodes_of(it.lines) for it in self.program.listed(drawing.path, script)]
                self.assertEqual(asked, [drawing.tree(it.number) for it in drawing.elements])

    def test_findings_references_and_links(self) -> None:
        small = self.opened(samples.drawings.DRAWINGS['a cell of a line whose range is too small'])
        self.assertEqual([(it.number, it.hull_high) for it in small.findings], [(2, (100, 50))])
        attached = self.opened(samples.drawings.DRAWINGS['an element that may attach a reference'])
        self.assertEqual([it.number for it in attached.references], [1])
        linked = self.opened(samples.drawings.DRAWINGS['a line with three linkages'])
        self.assertEqual([(it.place, it.length, it.kind) for it in linked.links([0, 1])[1]][1], (60, 6, 'user'))
        self.assertEqual(linked.links([0]), {0: []})


if __name__ == '__main__':
    unittest.main()
