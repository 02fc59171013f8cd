"""As a new user would: the zip file in a fresh profile of a QGIS with a window, by menus and dialogues."""

import filecmp
import os
import subprocess
import sys
import tempfile
import time
import unittest
import zipfile
from pathlib import Path

import plugin
import window
from plugin import samples


class ZipFile(unittest.TestCase):
    def test_two_of_the_same_sources_are_the_same(self) -> None:
        with tempfile.TemporaryDirectory() as one, tempfile.TemporaryDirectory() as other:
            first = window.make_zip(Path(one))
            copy = Path(other) / 'sources'
            for name in ('qgis', 'dgnkit', 'tools', 'VERSION', 'LICENSE', 'docs/CONTACT'):
                (copy / name).parent.mkdir(parents=True, exist_ok=True)
                subprocess.run(['cp', '-r', str(plugin.TOP / name), str(copy / name)], check=True)
            for file in copy.rglob('*'):
                os.utime(file, (time.time() - 1e6, time.time() - 1e6))
                file.chmod(0o755)
            said = subprocess.run([sys.executable, str(copy / 'tools/make_qgis'), other], stdout=subprocess.PIPE)
            second = said.stdout.decode().strip()
            self.assertTrue(filecmp.cmp(first, second, shallow=False))
            with zipfile.ZipFile(first) as packed:
                names = packed.namelist()
                metadata = packed.read('dgnedit/metadata.txt').decode()
        self.assertTrue(all(it.startswith('dgnedit/') for it in names))
        self.assertIn('dgnedit/lib/dgnkit/drawing/drawing.py', names)
        self.assertIn('\nversion=%s\n' % (plugin.TOP / 'VERSION').read_text().strip(), metadata)


@unittest.skipUnless(window.QGIS and window.SCREEN, 'QGIS or Xvfb is not installed')
class NewUser(samples.WithProgram):
    def test_a_road_is_recoloured_and_a_parcel_moved(self) -> None:
        found = window.run('user.py', samples.PROGRAM)
        self.assertNotIn('wrong', found, found.get('wrong'))
        self.assertEqual(found['installed'], ['dgnedit'])
        self.assertIn('Install it, and name its file in that setting', found['missing'])
        self.assertFalse(found['missing_written'])
        self.assertEqual([ok for _, ok in found['steps']], [[False], *[[True]] * 9])
        self.assertEqual((found['findings'], found['groups'], found['system']), (11, ['mended.dgn'], 'EPSG:25832'))
        # colour 3 of the usual table, and colour 5
        self.assertEqual((found['road'], found['road_after']), ('#ff0000', '#ff00ff'))
        moved = [round(b - a, 6) for a, b in zip(found['parcel'], found['parcel_after'])]
        self.assertEqual(moved, [12.5, 45, 12.5, 45])
        self.assertEqual(found['selected'], [15])
        self.assertEqual(found['shown'], {'parcel.dgn': True})
        words = dict(found['changes'])
        self.assertEqual(len(words), 13)  # the chain with nine members, and the parcel with two rings
        self.assertIn('12500,45000', words['cell 38 on level 20'])
        self.assertRegex(words['complex chain 15 on level 12'], '#ff0000.*#ff00ff')
        self.assertEqual((found['zoom'], found['zoomed']), (['Zoom to it'], True))
        step = found['step']
        for wanted, before, after in zip([2 * step, -step] * 2, found['garden'], found['garden_after']):
            self.assertAlmostEqual(after - before, wanted, delta=step / 5)
        self.assertEqual(len(found['drawn']), 1)
        for corner, place in zip(found['corners'], found['drawn'][0]):
            self.assertLess(max(abs(a - b) for a, b in zip(corner, place)), step / 5)
        self.assertTrue(found['dropped'].endswith('/valve.dgn'))
        self.assertEqual((found['off'], found['on']), ([True] * 2, [True] * 3))
        self.assertEqual(found['old_modules'], [])
        self.assertGreater(found['modules'], 80)


if __name__ == '__main__':
    unittest.main()
