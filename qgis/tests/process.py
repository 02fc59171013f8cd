"""QGIS from the command line: qgis_process in a profile of its own, with the plugin in it."""

from __future__ import annotations

import os
import re
import shutil
import subprocess
from pathlib import Path
from typing import Any, Dict, Optional, Tuple

TOP = Path(__file__).resolve().parents[2]
COMMAND = shutil.which('qgis_process.bin') or shutil.which('qgis_process')
RESULT = re.compile(r'^(\w+):\t(.*)$', re.M)


class Profile:
    """A fresh profile; `plugin` is the folder of the plugin, which gets there as it is."""

    def __init__(self, home: Path, plugin: Path, program: Optional[str]) -> None:
        self.home = home
        plugins = home / '.local/share/QGIS/QGIS3/profiles/default/python/plugins'
        plugins.mkdir(parents=True)
        home.chmod(0o700)
        (plugins / 'dgnedit').symlink_to(plugin, target_is_directory=True)
        self.environment = {key: it for key, it in os.environ.items() if not key.startswith(('QGIS', 'PYTHON'))}
        self.environment.update(
            HOME=str(home),
            XDG_RUNTIME_DIR=str(home),
            TMPDIR=str(home),  # where QGIS leaves what it doesn't remove
            PATH='/usr/bin:/bin',  # where no other Python is found than that of QGIS
            QT_QPA_PLATFORM='offscreen',
            PYTHONDONTWRITEBYTECODE='1',
        )
        self.environment.pop('DGNEDIT', None)
        if program is not None:
            self.environment['DGNEDIT'] = program
        self.said('plugins', 'enable', 'dgnedit')

    def said(self, *words: str) -> Tuple[int, str, str]:
        """What the command says, with its status."""
        assert COMMAND is not None
        ran = subprocess.run([COMMAND, *words], env=self.environment, stdout=subprocess.PIPE, stderr=subprocess.PIPE)
        return ran.returncode, ran.stdout.decode('utf-8', 'replace'), ran.stderr.decode('utf-8', 'replace')

    def run(self, name: str, **parameters: Any) -> Tuple[int, Dict[str, str], str]:
        """Runs an algorithm: its status, its results, and all that was said."""
        words = ['--%s=%s' % it for it in parameters.items()]
        status, out, err = self.said('run', 'dgnedit:' + name, *words)
        results = dict(RESULT.findall(out.rsplit('Results\n', 1)[-1])) if status == 0 else {}
        return status, results, out + err
