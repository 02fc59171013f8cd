"""The tables of the app and of the companion that are made of the definitions in crates/: beside the documents, and
what is said where a definition changes."""

from __future__ import annotations

import ast
import re
import shutil
import subprocess
import sys
import tempfile
import unittest
from pathlib import Path
from typing import Any, Dict, Iterator, List, Tuple

from samples import TOP

from dgnkit.explain.refusals import EXPLAIN
from dgnkit.format import tables as companion
from dgnkit.format.element import Element
from dgnkit.program.grammar import FORMS, OWN_FORMS

TABLES, COMPANION = 'web/tables.js', 'dgnkit/src/dgnkit/format/tables.py'
TOOL, READER = 'tools/make_tables', 'tools/format_facts.py'
EDITS, TEXTS = 'crates/edit_script/specs/Edits.antt', 'crates/dgn_answers/specs/Texts.antt'
COMMANDS = 'crates/edit_script/specs/CommandNames.antt'
PROPERTIES = 32  # where the word of properties stands
CLASSES, SPOTS = 'crates/dgn_layout/specs/Classes.antt', 'crates/dgn_layout/specs/Spots.antt'
NESTING, PLANE = 'crates/dgn_drawing/specs/Nesting.antt', 'crates/range_code/specs/Plane.antt'
CAUSES = 'crates/edit_ops/specs/Causes.antt'
LINKAGES, SIGNS = 'crates/dgn_linkage/src/first.rt', 'crates/dgn_radix50/specs/Signs.antt'


def tables() -> Dict[str, Any]:
    """The constants of the module."""
    made = {}
    for name, value in re.findall(r'^export const (\w+) = ([^;]+);', (TOP / TABLES).read_text('utf-8'), re.MULTILINE):
        plain = re.sub(r'Object\.freeze\(|Uint8Array\.from\(|\)', '', value)
        made[name] = ast.literal_eval(re.sub(r'(\w+): ', r"'\1': ", plain))
    return made


def rows(heading: str, document: str = 'FORMAT.md') -> List[List[str]]:
    """The fields of the rows of the first table below a heading of a document."""
    part = (TOP / 'docs' / document).read_text('utf-8').partition('\n## %s\n' % heading)[2].partition('\n## ')[0]
    lines = [line for line in part.split('\n') if line.startswith('|')]
    return [[field.strip() for field in line.strip('|').split('|')] for line in lines[2:]]


def kinds_in(text: str) -> List[int]:
    """The types that a text lists, some of them as the first and the last of several."""
    found: List[int] = []
    for first, last in re.findall(r'(\d+)(?: to (\d+))?', text):
        found += range(int(first), int(last or first) + 1)
    return found


class Made(unittest.TestCase):
    """They agree with the document and with the companion."""

    def setUp(self) -> None:
        self.made = tables()
        self.names: Dict[int, str] = {number: name for name, number in self.made['CLASS'].items()}
        self.starts = {2: self.made['POINTS_IN_PLANE'], 3: self.made['POINTS_IN_SPACE']}
        self.texts = {2: self.made['TEXT_IN_PLANE'], 3: self.made['TEXT_IN_SPACE']}

    def class_of(self, kind: int) -> str:
        return self.names[self.made['CLASS_OF'][kind]]

    def test_each_table_has_all_types(self) -> None:
        for name in ('CLASS_OF', 'COUNTS', 'POINTS_IN_PLANE', 'POINTS_IN_SPACE'):
            self.assertEqual(len(self.made[name]), 128, name)

    def test_classes_as_the_document_has_them(self) -> None:
        said = {name: kinds_in(types) for name, types in rows('Classes') if not types.startswith('all other')}
        others = [kind for kind in range(128) if not any(kind in kinds for kinds in said.values())]
        self.assertEqual(rows('Classes')[-1], ['silent', 'all other types from 0 to 127'])
        made = {name: [kind for kind in range(128) if self.class_of(kind) == name] for name in self.made['CLASS']}
        self.assertEqual(made, {**said, 'silent': others})

    def test_places_in_bodies_as_the_document_has_them(self) -> None:
        seen = set()
        for kind, field, axes, place in self.places():
            seen.add((kind, field))
            if field in ('first point', 'origin', 'point i, counted from 0'):
                self.assertEqual(self.starts[axes][kind], place, (kind, field))
                count = {'first point': 2, 'origin': 1}.get(field, self.made['BY_WORD'])
                self.assertEqual(self.made['COUNTS'][kind], count, (kind, field))
            elif field == 'word: the number n of points':
                self.assertEqual(self.made['COUNT_AT'], place, kind)
            elif field == 'characters, a byte each':
                self.assertEqual(self.texts[axes], place)
            elif field == 'word: total':
                self.assertEqual(self.made['BEFORE_TOTAL'], place + 2, kind)
            elif field.endswith("body's end") and kind not in (4, 6, 11, 17):
                end = self.starts[axes][kind] + 4 * axes * self.made['COUNTS'][kind]
                self.assertEqual(end, place, (kind, field))
        self.assertEqual(len([kind for kind, field in seen if field.endswith("body's end")]), 20)
        self.assertEqual({kind for kind, field in seen if field == 'origin'}, {2, 7, 17})

    def places(self) -> Iterator[Tuple[int, str, int, int]]:
        """The rows of the document's bodies: a type, a field, the axes, the first number of its place."""
        kinds: List[int] = []
        for types, field, *places in rows('Bodies'):
            kinds = kinds_in(types) or kinds
            for kind in kinds:
                for axes, place in zip((2, 3), places):
                    yield kind, field, axes, kinds_in(place)[0]

    def test_the_companion_has_the_same(self) -> None:
        for name, value in self.made.items():
            there = getattr(companion, name)
            self.assertEqual(list(there) if isinstance(there, bytes) else there, value, name)

    def test_places_as_the_companion_takes_them(self) -> None:
        for axes, starts in self.starts.items():
            for kind, count in enumerate(self.made['COUNTS']):
                counted = b'\x03\x01'
                data = bytes(self.made['COUNT_AT']) + counted + bytes(90)
                element = Element(1, 0, len(data), kind, 1, False, False, data, axes)
                self.assertEqual(element.points_place, starts[kind] if count else None, kind)
                wanted = 0x0103 if count == self.made['BY_WORD'] else count
                self.assertEqual(element.points_count, wanted, kind)
                self.assertEqual(element.text_place, self.texts[axes])

    def test_commands_as_the_document_has_them(self) -> None:
        said = ' '.join(it[0] for it in rows('The commands', 'EDITING.md'))
        wanted = [[name, *form.split()] for name, forms in companion.COMMANDS.items() for form in forms]
        self.assertEqual(sorted(re.findall('`([^`]+)`', said)), sorted(' '.join(it).replace('-', '') for it in wanted))
        self.assertEqual({*FORMS, *OWN_FORMS}, set(companion.COMMANDS))

    def test_each_cause_has_a_sentence(self) -> None:
        self.assertEqual(set(EXPLAIN), set(companion.CAUSES))

    def test_bits_as_the_document_has_them(self) -> None:
        (properties,) = [it[1] for it in rows('The element') if it[0] == str(PROPERTIES)]
        self.assertIn('0x%04X: attribute data follow' % self.made['LINKED'], properties)
        self.assertIn('0x%04X: the element is locked' % self.made['LOCKED'], properties)

    def test_linkages_as_the_document_has_them(self) -> None:
        said = [' '.join(it) for it in rows('Linkages')]
        self.assertIn('r is below %d Rest, of r bytes' % self.made['LINKAGE_LEAST'], said)
        self.assertIn('b0 is 0 and b1 is 0 or 128 Dmrs, of %d bytes' % self.made['DMRS_LENGTH'], said)
        self.assertTrue(any(it.startswith('bit 0x%x of b1 is set User' % self.made['USER_BIT']) for it in said))


class Planted(unittest.TestCase):
    """A copy of the definitions in which one is changed is told of, in one line."""

    def setUp(self) -> None:
        self.top = Path(tempfile.mkdtemp(prefix='dgnkit-'))
        self.addCleanup(shutil.rmtree, self.top)
        heading = (TOP / COMPANION).read_text('utf-8').split('"""')[1]
        self.sources = re.findall(r'crates/[\w/]+\.(?:antt|rt)', heading)
        for path in (TABLES, COMPANION, TOOL, READER, *self.sources):
            (self.top / path).parent.mkdir(parents=True, exist_ok=True)
            shutil.copy(TOP / path, self.top / path)

    def check(self, *words: str) -> Tuple[int, str]:
        """The status of the tool, and what it says."""
        ran = subprocess.run(
            [sys.executable, str(self.top / TOOL), *words], stdout=subprocess.PIPE, stderr=subprocess.STDOUT
        )
        return ran.returncode, ran.stdout.decode('utf-8')

    def told(self, path: str, old: str, new: str, wanted: str) -> None:
        """Expects that a change of a file is told of in a line that says something."""
        place, text = self.top / path, (TOP / path).read_text('utf-8')
        self.assertEqual(text.count(old), 1, old)
        place.write_text(text.replace(old, new), encoding='utf-8')
        self.tells(wanted)
        place.write_text(text, encoding='utf-8')

    def tells(self, wanted: str) -> None:
        status, said = self.check('--check')
        self.assertEqual((status, said.count('\n')), (1, 1), said)
        self.assertRegex(said, '^make_tables: .*' + re.escape(wanted))

    def test_nothing_is_said_of_what_is_as_it_should_be(self) -> None:
        self.assertEqual(self.check('--check'), (0, ''))

    def test_another_value(self) -> None:
        for path, old, new, name in [
            (CLASSES, '(17 ∷ [])', '(17 ∷ 36 ∷ [])', 'CLASS_OF'),
            (SPOTS, 'if dim == 2 then 84 else 112', 'if dim == 2 then 84 else 116', 'POINTS_IN_SPACE'),
            (SPOTS, 'count = 2; start = 36', 'count = 3; start = 36', 'COUNTS'),
            (NESTING, '21 ∷ 25 ∷ 26 ∷ 28', '21 ∷ 25 ∷ 26', 'SPLINE_PARTS'),
            (NESTING, '24 ∷ 27', '24 ∷ 29', 'SPLINES'),
            (PLANE, 'pos 2147483647', 'pos 2147483646', 'GREATEST'),
            (LINKAGES, 'const DMRS: usize = 8;', 'const DMRS: usize = 6;', 'DMRS_LENGTH'),
            (SIGNS, 'XYZ$.%01', 'XYZ$%.01', 'SIGNS'),
            (EDITS, 'number_within 4294967295 word', 'number_within 4294967294 word', 'NUMBER_MOST'),
            (EDITS, '`move N D D`', '`move N D`', 'COMMANDS'),
            (COMMANDS, '    ∷ (codes "fit", names.Fit)\n', '', 'COMMANDS'),
            (TEXTS, 'nat_lt 256', 'nat_lt 255', 'CORNERS_MOST'),
        ]:
            self.told(
                path, old, new, '%s: %s is not what the sources say' % (TABLES if name in tables() else COMPANION, name)
            )

    def test_another_form(self) -> None:
        for path, old, new, wanted in [
            (CLASSES, '    else Silent', '    else if kind == 99 then Run else Silent', 'has a form that is not read'),
            (CLASSES, 'class_of kind =', 'class_of k =', 'stands there 0 times'),
            (CLASSES, '(17 ∷ [])', '(17 ∷ 3 ∷ [])', 'the type 3 is listed twice'),
            (CLASSES, '(17 ∷ [])', '(17 ∷ 128 ∷ [])', '128 is no type'),
            (CLASSES, 'else if is_among kind (17 ∷ []) then Words', '', 'the classes are not those of'),
            (SPOTS, 'text_origin dim = if dim == 2 then 50 else 62', 'text_origin dim = 50', 'has a form that is not'),
            (SPOTS, 'if dim == 2 then 84 else 112', 'if dim == 2 then 84 else 256', 'past what a table of bytes holds'),
            (SPOTS, 'points_in Class.Words', 'points_in Class.Text', 'and of all others'),
            (CAUSES, 'properties / 256', 'properties / 384', 'no single bit'),
            (SPOTS, 'points_in other dim', 'points_in Class.Run dim', 'and of all others'),
            (NESTING, 'whole_of h = 38', 'whole_of h = 38\nwhole_of h = 38', 'has a form that is not read'),
            (PLANE, 'is_on_plane v =', '-- is_on_plane v =', 'stands there 0 times'),
            (LINKAGES, 'const FEWEST: usize = 4;', 'const FEWEST: usize = 4;\nconst FEWEST: usize = 4;', '2 times'),
            (SIGNS, '%0123456789"', '%012345678"', '64000 is not how many words three of 39 signs make'),
            (
                EDITS,
                '-- `move N D D`, `move N D D D`, by its words',
                '-- by its words',
                'no form of move_command stands',
            ),
        ]:
            self.told(path, old, new, wanted)

    def test_a_file_without_what_is_read_or_that_is_gone(self) -> None:
        for path in self.sources:
            text = (self.top / path).read_text('utf-8')
            (self.top / path).write_text('', encoding='utf-8')
            self.tells(path)
            (self.top / path).unlink()
            self.tells(path)
            (self.top / path).write_text(text, encoding='utf-8')

    def test_a_module_that_was_changed_by_hand_is_made_anew(self) -> None:
        for path in (TABLES, COMPANION):
            self.told(path, 'LOCKED = 0x100', 'LOCKED = 0x200', path + ': LOCKED is not')
            (self.top / path).write_text((TOP / path).read_text('utf-8') + '\n', encoding='utf-8')
            self.tells(path)
            self.assertEqual(self.check(), (0, ''))
            self.assertEqual((self.top / path).read_bytes(), (TOP / path).read_bytes())


if __name__ == '__main__':
    unittest.main()
