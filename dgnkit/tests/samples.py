"""What the tests share: the drawings of tools/drawings.py and others, the program, and a folder to work in."""

from __future__ import annotations

import contextlib
import io
import os
import re
import shlex
import shutil
import struct
import subprocess
import sys
import tempfile
import unittest
from pathlib import Path
from typing import Any, Dict, Optional, Tuple, Union

TOP = Path(__file__).resolve().parents[2]
EXAMPLES = TOP / 'examples'
for folder in (EXAMPLES, TOP / 'tools', TOP / 'dgnkit' / 'src'):
    sys.path.insert(0, str(folder))
sys.dont_write_bytecode = True

import drawings  # noqa: E402
import make_plan as plan  # noqa: E402
from dgnkit import Drawing, Program, Script, cli  # noqa: E402

__all__ = [
    'EXAMPLES',
    'OGR',
    'PROGRAM',
    'TOP',
    'Drawing',
    'Json',
    'Program',
    'Script',
    'WithProgram',
    'cli',
    'drawings',
    'plan',
    'vax_double',
    'with_units',
    'without_progress',
]

PROGRESS = re.compile(r'^.* \(\d+ seconds so far\)\n', re.M)
Json = Dict[str, Any]  # an object that dgnkit says as JSON, or a part of one
OGR = shutil.which('ogr2ogr') and shutil.which('ogrinfo')


def program_path() -> Optional[str]:
    """The program to test with: $DGNEDIT, or the one that is built here, or the one on the path."""
    built = TOP / 'crates' / 'dgnedit' / 'out' / 'dgnedit'
    return os.environ.get('DGNEDIT') or (str(built) if built.exists() else shutil.which('dgnedit'))


PROGRAM = program_path()
if PROGRAM:
    os.environ['DGNEDIT'] = PROGRAM


def without_progress(said: str) -> str:
    """What was said on standard error, without the words on progress that there are on a slow machine."""
    return PROGRESS.sub('', said)


def vax_double(value: int) -> bytes:
    """A whole number as a VAX D double: sign, exponent in excess of 128, fraction from a half to 1."""
    if value == 0:
        return bytes(8)
    size = abs(value).bit_length()
    fraction = (abs(value) << (56 - size)) & ((1 << 55) - 1)
    bits = (int(value < 0) << 63) | ((size + 128) << 55) | fraction
    return struct.pack('<HHHH', *(bits >> shift & 0xFFFF for shift in (48, 32, 16, 0)))


def with_units(file: bytes, subunits: int, resolution: int, names: Tuple[str, str], origin: Tuple[int, ...]) -> bytes:
    """The same drawing with these units and this global origin in its TCB."""
    made = bytearray(file)
    made[1112:1120] = plan.long(subunits) + plan.long(resolution)
    for place, name in zip((1120, 1122), names):
        made[place : place + 2] = name.encode('latin-1').ljust(2, b'\0')
    for axis, value in enumerate(origin):
        made[1240 + 8 * axis : 1248 + 8 * axis] = vax_double(value)
    return bytes(made)


@unittest.skipUnless(PROGRAM, 'dgnedit is not built')
class WithProgram(unittest.TestCase):
    """A test that runs the program in a folder of its own."""

    def setUp(self) -> None:
        self.folder = Path(tempfile.mkdtemp(prefix='dgnkit-'))
        self.addCleanup(shutil.rmtree, self.folder)
        self.program = Program(str(PROGRAM))

    def put(self, name: str, content: Union[bytes, str]) -> str:
        """Writes a file, and gives its path."""
        path = self.folder / name
        path.write_bytes(content.encode('utf-8') if isinstance(content, str) else content)
        return str(path)

    def path(self, name: str) -> str:
        return str(self.folder / name)

    def example(self, name: str) -> str:
        return str(shutil.copy(EXAMPLES / name, self.folder / name))

    def opened(self, file: bytes) -> Drawing:
        return Drawing(self.put('opened.dgn', file), self.program)

    def gen(self, seed: int, count: int, name: str = 'gen.dgn') -> str:
        ran = self.program.run('gen', str(seed), str(count), self.path(name))
        self.assertEqual(ran.status, 0)
        return self.path(name)

    def kit(self, *words: object) -> Tuple[int, str, str]:
        """Runs dgnkit, and gives its status and what it said on standard output and on standard error."""
        out, err = io.StringIO(), io.StringIO()
        with contextlib.redirect_stdout(out), contextlib.redirect_stderr(err):
            try:
                status = cli.main([str(it) for it in words])
            except SystemExit as ended:
                status = int(ended.code or 0)
        return status, out.getvalue(), err.getvalue()

    def said(self, *words: object, status: int = 0) -> str:
        """What dgnkit says on standard output, where it ends as it should."""
        ended, out, err = self.kit(*words)
        self.assertEqual(ended, status, out + err)
        return out

    def then(self, said: str, status: int = 0) -> str:
        """Runs the command that is to be run next, and gives the drawing that it writes."""
        words = shlex.split(said.rstrip().split('next: ')[1])
        self.assertEqual(words[:2], ['dgnkit', 'run'])
        self.said(*words[1:], status=status)
        return words[-1]

    def ogr(self, *words: object) -> str:
        """What one of GDAL's tools says."""
        ran = subprocess.run([str(it) for it in words], stdout=subprocess.PIPE, stderr=subprocess.PIPE, check=True)
        return ran.stdout.decode('utf-8', 'replace')
