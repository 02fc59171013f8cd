"""`mend` on trees made at random, of which many are broken in several ways: no byte but bit C and totals of headers
changes, no tree that was whole changes, what was mended needs no more, and all that is left broken is told."""

import random
import struct
import unittest
from typing import List

import samples
from dgnkit.drawing.mending import mending_of
from dgnkit.propose.writing import patch_of
from samples import drawings

DRAWINGS = 60
SIZES = {2: 92, 7: 70}


class AtRandom(samples.WithProgram):
    def setUp(self) -> None:
        super().setUp()
        self.dice = random.Random(3)

    def leaf(self, member: bool) -> bytes:
        kind = self.dice.random()
        if kind < 0.6:
            return drawings.line(member)
        if kind < 0.8:
            return drawings.line(member, drawings.LINKED, drawings.LINKAGES)
        return drawings.element(self.dice.choice([4, 16, 35]), 9, self.dice.choice([38, 40, 72]), member)

    def tree(self, depth: int, member: bool) -> bytes:
        if depth == 0 or self.dice.random() < 0.4:
            return self.leaf(member)
        body = b''.join(self.tree(depth - 1, True) for _ in range(self.dice.randrange(4)))
        return self.header(self.dice.choice([2, 2, 7, 12, 12, 14, 18]), member, len(body)) + body

    def header(self, kind: int, member: bool, behind: int) -> bytes:
        """A header with attribute data of its own, whose total is right, leaves these out, or is wrong."""
        size, own = SIZES.get(kind, 40), self.dice.choice([0, 8, 16, 20, 52])
        made = bytearray(drawings.element(kind, 9, size, member))
        if own:
            made += bytes([own // 2 - 1, 0x10]) + bytes(own - 2)
            struct.pack_into('<H', made, 2, (len(made) - 4) // 2)
            struct.pack_into('<HH', made, 30, (size - 32) // 2, drawings.LINKED)
        total = (len(made) + behind - 38) // 2
        total += self.dice.choice([0, 0, 0, -own // 2, -own // 2, 26, -5])
        struct.pack_into('<H', made, 36, max(0, total))
        return bytes(made)

    def test_trees_at_random(self) -> None:
        counts = [0, 0, 0]
        for _ in range(DRAWINGS):
            trees = [self.tree(3, self.dice.random() < 0.3) for _ in range(self.dice.randrange(1, 7))]
            before = self.opened(drawings.drawing(*trees))
            mending = mending_of(before)
            self.program.apply(
                before.path, self.put('p', patch_of(before, mending.changes).to_bytes()), self.path('out')
            )
            after = samples.Drawing(self.path('out'), self.program)
            self.assertEqual(self.strange_places(before, after), [])
            whole = [it for it in before.roots if it not in before.nesting.broken_roots]
            self.assertEqual([before.tree(it) for it in whole], [after.tree(it) for it in whole])
            self.assertEqual(mending_of(after).changes, [])
            self.assertEqual(sorted({it.element.number for it in mending.left}), after.nesting.broken)
            counts[0] += len(before.nesting.broken_roots)
            counts[1] += len(after.nesting.broken_roots)
            counts[2] += len(mending.changes)
        self.assertGreater(counts[0], counts[1] + 50)
        self.assertGreater(counts[2], 50)

    def strange_places(self, before: samples.Drawing, after: samples.Drawing) -> List[int]:
        """The bytes that differ and are neither bit C nor the total of a header."""
        headers = [it.offset for it in before.elements if it.total is not None]
        allowed = {offset + place for offset in headers for place in (36, 37)}
        marks = {offset: before.data[offset] & 0x7F for offset in headers}
        self.assertEqual(len(before.data), len(after.data))
        differ = [it for it, (a, b) in enumerate(zip(before.data, after.data)) if a != b]
        return [it for it in differ if it not in allowed and after.data[it] != marks.get(it)]


if __name__ == '__main__':
    unittest.main()
