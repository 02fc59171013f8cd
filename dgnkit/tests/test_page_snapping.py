"""What the pointer snaps to and which points the field takes, by Node: random segments against all of their places one
by one, typed numbers against their decimal digits. Left out where there is no Node."""

from __future__ import annotations

import shutil
import subprocess
import unittest

from samples import TOP

NODE = shutil.which('node') or shutil.which('nodejs')


@unittest.skipIf(NODE is None, 'node is not installed')
class Snapped(unittest.TestCase):
    def test_all_is_as_looked_at_one_by_one(self) -> None:
        ran = subprocess.run(
            [str(NODE), str(TOP / 'web' / 'tests' / 'snapping.mjs')],
            stdout=subprocess.PIPE,
            stderr=subprocess.STDOUT,
            text=True,
            check=False,
        )
        self.assertEqual(ran.returncode, 0, ran.stdout)


if __name__ == '__main__':
    unittest.main()
