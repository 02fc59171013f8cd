"""A QGIS with a window, on a screen that nobody sees, in a fresh profile, with the plugin's zip file beside it."""

from __future__ import annotations

import contextlib
import json
import os
import shutil
import subprocess
import sys
import tempfile
from pathlib import Path
from typing import Any, Dict, Iterator, Optional

HERE = Path(__file__).resolve().parent
TOP = HERE.parents[1]
QGIS = shutil.which('qgis.bin') or shutil.which('qgis')
SCREEN = shutil.which('Xvfb')
PATH = '/usr/bin:/bin'  # where no other Python is found than that of QGIS, and no dgnedit
PATIENCE = 180  # seconds that all of it may take
SETTINGS = '[PythonPlugins]\nprocessing=true\n'


@contextlib.contextmanager
def screen() -> Iterator[str]:
    """A screen; its name."""
    assert SCREEN is not None
    reading, writing = os.pipe()
    words = [SCREEN, '-displayfd', str(writing), '-screen', '0', '1400x900x24', '-nolisten', 'tcp']
    ran = subprocess.Popen(words, pass_fds=[writing], stderr=subprocess.DEVNULL)
    try:
        os.close(writing)
        with os.fdopen(reading) as said:
            yield ':' + said.readline().strip()
    finally:
        ran.terminate()
        ran.wait()


def make_zip(folder: Path) -> Path:
    """The zip file of the plugin, made in a folder."""
    said = subprocess.run([sys.executable, str(TOP / 'tools' / 'make_qgis'), str(folder)], stdout=subprocess.PIPE)
    return Path(said.stdout.decode().strip())


def make_profile(folder: Path) -> None:
    """A fresh profile without the plugin."""
    profile = folder / 'profiles' / 'default'
    (profile / 'QGIS').mkdir(parents=True)
    (profile / 'QGIS' / 'QGIS3.ini').write_text(SETTINGS)


def run(script: str, program: Optional[str], **facts: Any) -> Dict[str, Any]:
    """Runs a script of this folder in QGIS, and gives what it found: the file `found.json` of its folder `work`."""
    with tempfile.TemporaryDirectory(prefix='dgnedit-window-') as name, screen() as display:
        folder = Path(name)
        make_profile(folder)
        work = folder / 'work'
        work.mkdir()
        known = {'program': program, 'top': str(TOP), 'patience': PATIENCE, 'zip': str(make_zip(folder))}
        (work / 'facts.json').write_text(json.dumps({**facts, **known}))
        environment = {
            key: it for key, it in os.environ.items() if not key.startswith(('QGIS', 'PYTHON', 'QT_', 'DGN'))
        }
        environment.update(HOME=name, XDG_RUNTIME_DIR=name, TMPDIR=name, DISPLAY=display, WORK=str(work), PATH=PATH)
        environment['LANG'] = 'C.UTF-8'
        folder.chmod(0o700)
        words = [str(QGIS), '--noversioncheck', '--nologo', '--profiles-path', name, '--code', str(HERE / script)]
        ran = subprocess.run(
            words, env=environment, cwd=name, stdout=subprocess.PIPE, stderr=subprocess.STDOUT, timeout=2 * PATIENCE
        )
        found, stack = work / 'found.json', work / 'stack.txt'
        if not found.exists():
            where = stack.read_text() if stack.exists() else ''
            said = ran.stdout.decode('utf-8', 'replace')
            raise AssertionError('QGIS ended with %d: %s%s' % (ran.returncode, said, where))
        made: Dict[str, Any] = json.loads(found.read_text())
        return made
