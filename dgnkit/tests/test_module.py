"""The package as a module: what it offers, and that it reads without the program."""

import json
import os
import random
import subprocess
import sys
import unittest
from pathlib import Path
from typing import Any, Dict
from unittest import mock

import dgnkit
import samples
from samples import EXAMPLES, TOP, drawings, plan, with_units

ALONE = {**os.environ, 'DGNEDIT': '', 'PATH': '/nowhere', 'PYTHONPATH': str(TOP / 'dgnkit' / 'src')}
READS = """
import dgnkit, json, sys
town = dgnkit.Drawing.open(sys.argv[1])
texts = [it.text for it in town.elements if it.type_name == 'text'][:2]
print(json.dumps([len(town.elements), town.scale, town.units.name, texts, town.to_master(town.elements[44].points[0])]))
"""


class Module(samples.WithProgram):
    def test_what_it_offers(self) -> None:
        self.assertEqual(sorted(dgnkit.__all__), dgnkit.__all__)
        for name in dgnkit.__all__:
            self.assertIsNotNone(getattr(dgnkit, name), name)
        self.assertTrue({*dgnkit.__all__, '__version__'} <= set(dir(dgnkit)))
        self.assertEqual(dgnkit.__version__, (TOP / 'VERSION').read_text().strip())
        self.assertTrue((TOP / 'dgnkit' / 'src' / 'dgnkit' / 'py.typed').exists())

    def test_reading_needs_no_program(self) -> None:
        words = [sys.executable, '-c', READS, self.example('town.dgn')]
        ran = subprocess.run(words, env=ALONE, stdout=subprocess.PIPE, check=True)
        count, scale, name, texts, place = json.loads(ran.stdout)
        self.assertEqual((count, scale, name), (54, 1000, 'm'))
        whole = samples.Drawing(self.example('town.dgn'), self.program)
        self.assertEqual(texts, [it.text for it in whole.elements if it.type == 17][:2])
        self.assertEqual(place, list(whole.units.to_master(whole.elements[44].points[0])))

    def test_changes_between_two_drawings(self) -> None:
        before = self.put('a.dgn', with_units(drawings.drawing(drawings.line()), 100, 10, ('m', 'cm'), (0, 0, 0)))
        after = self.put('b.dgn', Path(before).read_bytes().replace(drawings.line(), plan.line(1, (0, 0), (100, 60))))
        found = dgnkit.changes_between(*map(dgnkit.Drawing.open, (before, after)))
        self.assertEqual([(it.before, it.after, list(it.changes)) for it in found], [(1, 1, ['widened', 'points'])])

    def test_faults_are_those_of_the_program(self) -> None:
        """Drawings with bytes that were changed at random: each opens where the program opens it, or has its fault."""
        dice = random.Random(4)
        files = [(EXAMPLES / (it + '.dgn')).read_bytes() for it in ('plan', 'street', 'town', 'valve')]
        files += [it for it in drawings.DRAWINGS.values()]
        seen: Dict[Any, int] = {}
        for _ in range(400):
            made = bytearray(dice.choice(files))
            for _ in range(dice.choice([0, 1, 1, 3])):
                place = dice.randrange(1536, len(made))
                made[place] = dice.choice([0, 1, 2, 3, 8, 0xFF, dice.randrange(256)])
            del made[dice.choice([len(made), len(made), dice.randrange(1500, len(made))]) :]
            path = self.put('any.dgn', bytes(made))
            found = [self.opened_by(path), None]
            with mock.patch.object(dgnkit.Program, 'find', side_effect=dgnkit.MissingProgram('none')):
                found[1] = self.opened_by(path)
            self.assertEqual(found[1], found[0])
            kind = found[0][0] if isinstance(found[0], tuple) else 'opened'
            seen[kind] = seen.get(kind, 0) + 1
        self.assertTrue({'opened', 'cut', 'short', 'attributes'} <= set(seen), seen)

    def opened_by(self, path: str) -> object:
        """How many elements there are, or the fault and its byte."""
        try:
            return len(dgnkit.Drawing.open(path).elements)
        except dgnkit.BadDesign as why:
            return why.fault, why.offset


if __name__ == '__main__':
    unittest.main()
