"""Finds the program dgnedit: by a setting, in the folder of the plugin, by $DGNEDIT, or on the path."""

import os
import platform
import shutil
from typing import Iterator, Tuple

from dgnkit.errors import MissingProgram
from dgnkit.program.runs import Program
from dgnkit.system import PROGRAM
from processing.core.ProcessingConfig import ProcessingConfig, Setting
from qgis.PyQt.QtGui import QIcon

from .kit import PLUGIN
from .translation import tr

GROUP = 'dgnedit'
SETTING = 'DGNEDIT_PROGRAM'
ICON = str(PLUGIN / 'icon.svg')
OWN = PLUGIN / 'bin' / PROGRAM  # the program that the zip file of the plugin has
MACHINES = ('x86_64', 'AMD64')  # those that it is for, as Linux and Windows call them
WHERE = tr('Settings, Options, Processing, Providers, dgnedit')
NOWHERE = tr(
    "The program dgnedit wasn't found: not by the setting (%s), in the folder of the plugin (%s), by $DGNEDIT, or on "
    'the path. Install it, and name its file in that setting.'
)


def add_setting() -> None:
    """Adds the setting that names the program."""
    ProcessingConfig.settingIcons[GROUP] = QIcon(ICON)
    ProcessingConfig.addSetting(Setting(GROUP, SETTING, tr('The program dgnedit'), '', valuetype=Setting.FILE))
    ProcessingConfig.readSettings()


def remove_setting() -> None:
    """Takes the setting out again; what it was set to stays."""
    ProcessingConfig.removeSetting(SETTING)


def find_program() -> Program:
    """The program. It raises MissingProgram, which says what to install, where there is none."""
    allow_own()
    for what, named in places():
        found = shutil.which(named)
        if found:
            return Program(os.path.abspath(found))
        if what:
            raise MissingProgram(tr("%s names %s, which can't be run as a program") % (what, named))
    raise MissingProgram(NOWHERE % (WHERE, PLUGIN))


def allow_own() -> None:
    """Lets the plugin's own program be run: QGIS unpacks it as a file that can't be."""
    if OWN.is_file() and not os.access(OWN, os.X_OK):
        try:
            OWN.chmod(0o755)
        except OSError:
            pass  # then it isn't found there


def places() -> Iterator[Tuple[str, str]]:
    """Where the program may be, the first place first, each with what names it; nothing where it need not be there."""
    named = ProcessingConfig.getSetting(SETTING)
    if named:
        yield tr('the setting (%s)') % WHERE, str(named)
    if platform.machine() in MACHINES:
        yield '', str(OWN)
    if os.environ.get('DGNEDIT'):
        yield '$DGNEDIT', os.environ['DGNEDIT']
    yield '', 'dgnedit'
