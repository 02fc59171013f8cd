"""What holds of the plugin's sources: what a person reads goes through `tr`, and nothing is used that Qt 6 dropped."""

import ast
import configparser
import importlib
import re
import unittest
from pathlib import Path
from typing import Any, Dict, Iterator, List, Set, Tuple

import plugin

PLUGIN = plugin.TOP / 'qgis' / 'dgnedit'
# Two words with a blank between them, or one that begins as a sentence or a title does.
PROSE = re.compile(r"[A-Za-z']{2,}[,;:.]? [(%A-Za-z\"]|^[A-Z][a-z]+\b")
# What looks like that and isn't said: orders to SQLite, expressions and names of QGIS, types of geometry, what the
# layers are marked by, and parts of sentences of dgnkit, which the program's words stay in.
NOT_SAID = re.compile(
    r'^(?:SELECT|INSERT|UPDATE|CREATE|DELETE|DROP|BEGIN|PRAGMA) '
    r'|^(?:MultiLineString|LineString|Polygon|Point|Option|Feature|Canvas|ValueMap|CPLQuietErrorHandler|Latin-1)\b'
    r'|^(?:from qgis\.utils|layers of a design file by|SQLite format|there is no table)'
    r'|^(?:<b>\[%|"type" in|BRUSH\[|concat\(|if\()'
    r'|^(?:the line|the text|number of an element|the selection|the package dgnkit is)\b'
    r'|^`dgnkit|^--near|^\'(?:Left|Base)|^%s (?:IN|WHERE) '
)
TELL = {
    'Mistake',
    'Stopped',
    'MissingProgram',
    'say',
    'warn',
    'error',
    'doing',
}  # what hands its first word to the user


def trees() -> Iterator[Tuple[Path, ast.Module]]:
    """The modules of the plugin."""
    for path in sorted(PLUGIN.rglob('*.py')):
        yield path.relative_to(PLUGIN), ast.parse(path.read_text(encoding='utf-8'))


def said_without_translation(tree: ast.AST) -> List[str]:
    """The texts of a module that a person reads, and that don't go through `tr`."""
    passed: Set[ast.AST] = set()  # what is translated, keys, what documents, and words to be found by
    told: Set[ast.AST] = set()
    for node in ast.walk(tree):
        if isinstance(node, ast.Call):
            name = getattr(node.func, 'id', getattr(node.func, 'attr', ''))
            passed.update(node.args if name == 'tr' else ())
            told.update(node.args[:1] if name in TELL else ())
        elif isinstance(node, ast.Subscript):
            passed.add(node.slice)
        elif isinstance(node, ast.Expr):
            passed.add(node.value)
        elif isinstance(node, ast.Assign) and getattr(node.targets[0], 'id', '') == 'TAGS':
            passed.add(node.value)
    texts = (it for it in ast.walk(tree) if isinstance(it, ast.Constant) and isinstance(it.value, str))
    left = [it for it in texts if it not in passed]
    return [it.value for it in left if it in told or PROSE.search(it.value) and not NOT_SAID.search(it.value)]


class Sources(unittest.TestCase):
    def test_what_a_person_reads_goes_through_tr(self) -> None:
        for path, tree in trees():
            self.assertEqual(said_without_translation(tree), [], path)

    def test_that_is_found_where_it_does_not(self) -> None:
        for line, text in (
            ("TITLE = 'Move'", 'Move'),
            ("raise Mistake('gone')", 'gone'),
            ("call.say('%d' % count)", None),
            ("call.warn(tr('All') + ' of it is gone')", ' of it is gone'),
            ("add('NAME', 'The name')", 'The name'),
            ("TITLE = tr('Move')", None),
        ):
            self.assertEqual(said_without_translation(ast.parse(line)), [] if text is None else [text], line)

    def test_qt_is_taken_from_qgis_alone(self) -> None:
        for path, tree in trees():
            for node in ast.walk(tree):
                names = [it.name for it in node.names] if isinstance(node, ast.Import) else []
                names += [node.module or ''] if isinstance(node, ast.ImportFrom) else []
                found = [it for it in names if re.match(r'PyQt\d|PySide\d|sip\b', it)]
                self.assertEqual(found, [], path)

    def test_values_of_enumerations_are_named_by_these(self) -> None:
        for path, tree in trees():
            known = names_of_qgis(tree)
            for node in ast.walk(tree):
                if isinstance(node, ast.Attribute) and isinstance(node.value, ast.Name) and node.value.id in known:
                    owner = known[node.value.id]
                    kind = type(getattr(owner, node.attr, None)).__name__
                    said = '%s: %s.%s is a value of %s' % (path, node.value.id, node.attr, kind)
                    self.assertFalse(isinstance(owner, type) and hasattr(owner, kind), said)

    def test_the_metadata_are_for_qgis_3_and_4(self) -> None:
        metadata = configparser.ConfigParser()
        metadata.read(PLUGIN / 'metadata.txt', encoding='utf-8')
        general = metadata['general']
        self.assertEqual(general['supportsQt6'], 'True')
        self.assertEqual((general['qgisMinimumVersion'], general['qgisMaximumVersion']), ('3.22', '4.99'))


def names_of_qgis(tree: ast.Module) -> Dict[str, Any]:
    """What a module takes from QGIS, by its names."""
    made = {}
    for node in ast.walk(tree):
        if isinstance(node, ast.ImportFrom) and (node.module or '').startswith('qgis.') and not node.level:
            there = importlib.import_module(node.module or '')
            made.update({it.asname or it.name: getattr(there, it.name, None) for it in node.names})
    return made


if __name__ == '__main__':
    unittest.main()
