"""Which program the plugin takes: that of a setting, its own, the one that $DGNEDIT names, or one on the path."""

import os
import platform
import unittest
from pathlib import Path
from unittest import mock

import plugin
from dgnedit import program
from dgnkit.errors import MissingProgram
from processing.core.ProcessingConfig import ProcessingConfig


class Programs(plugin.InQgis):
    def setUp(self) -> None:
        super().setUp()
        self.own = self.put_program('bin/dgnedit', 0o644)
        patched = mock.patch.object(program, 'OWN', self.own)
        patched.start()
        self.addCleanup(patched.stop)
        self.set_machine('x86_64')

    def put_program(self, name: str, mode: int) -> Path:
        """A program in a folder of the test."""
        path = Path(self.path(name))
        path.parent.mkdir(exist_ok=True)
        path.write_text('#!/bin/sh\nexit 0\n')
        path.chmod(mode)
        return path

    def set_machine(self, name: str) -> None:
        patched = mock.patch.object(platform, 'machine', lambda: name)
        patched.start()
        self.addCleanup(patched.stop)

    def found(self, setting: str = '') -> str:
        """The program that is found with this setting, where the path has none."""
        settings = mock.patch.object(ProcessingConfig, 'getSetting', lambda name: setting)
        nowhere = mock.patch.dict(os.environ, {'PATH': '/nowhere'})
        with settings, nowhere:
            return program.find_program().path

    def test_its_own_with_no_setting(self) -> None:
        with mock.patch.dict(os.environ):
            os.environ.pop('DGNEDIT', None)
            self.assertEqual(self.found(), str(self.own))
        self.assertTrue(os.access(self.own, os.X_OK))

    def test_a_setting_wins(self) -> None:
        other = self.put_program('other', 0o755)
        self.assertEqual(self.found(str(other)), str(other))

    def test_on_another_machine(self) -> None:
        self.set_machine('aarch64')
        with mock.patch.dict(os.environ):
            os.environ.pop('DGNEDIT', None)
            with self.assertRaises(MissingProgram) as missing:
                self.found()
            self.assertIn("wasn't found", str(missing.exception))
            other = self.put_program('other', 0o755)
            os.environ['DGNEDIT'] = str(other)
            self.assertEqual(self.found(), str(other))


if __name__ == '__main__':
    unittest.main()
