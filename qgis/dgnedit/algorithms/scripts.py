"""Runs a script, and applies a patch file."""

import os

from dgnkit.commands._runs import is_patch
from dgnkit.errors import Mistake
from dgnkit.files import read_file
from dgnkit.format.limits import PATCH_LONGEST
from dgnkit.format.patch import Patch
from qgis.core import QgsProcessingParameterFile, QgsProcessingParameterString

from ..calls import Call
from ..editing import folder, run_files
from ..translation import tr
from .base import Results, opened
from .results import PATCHES, SCRIPTS, MakesDrawing, refusals_of


class RunScript(MakesDrawing):
    """Runs a script."""

    NAME = 'script'
    TITLE = tr('Run a script')
    GROUP = ('files', tr('Scripts and patch files'))
    SHORT = tr('Runs a script of the editor on a drawing: a file, or the lines that are given.')
    HELP = tr(
        'A script has a line for each command, such as "move 12 2500 0"; its lengths are in units of resolution. '
        'Listings are in the log. Refused commands are in a table with the reason, and the rest is done. If a line '
        "isn't a command, nothing is done."
    )
    CHANGES = tr(
        'The result is a new drawing, in which what the commands edit has changed. All else stays, and so does the old '
        'drawing.'
    )
    TAGS = 'script commands'

    def define(self) -> None:
        self.add_drawing()
        self.add(
            QgsProcessingParameterFile('SCRIPT', tr('Script'), fileFilter=SCRIPTS, optional=True),
            tr('The file of a script.'),
        )
        self.add(
            QgsProcessingParameterString('LINES', tr('Or the lines of a script'), None, True, True),
            tr('Such as sym 12 3 - -, a command in each line.'),
        )
        self.add_outcome()

    def work(self, call: Call) -> Results:
        call.doing(tr('The drawing is read'), 0.0)
        script, lines = call.file('SCRIPT'), call.text('LINES')
        if bool(script) == bool(lines):
            raise Mistake(tr('Name a script, or give the lines of one, and not both.'))
        drawing = opened(call.file('DRAWING'))
        out = self.out(call)
        call.doing(tr('The script runs'), 0.2)
        with folder() as place:
            if lines:
                file = place / 'lines.txt'
                file.write_text(lines + '\n', encoding='utf-8')
                script = str(file)
            made = run_files(call, drawing, [script], out)
        return self.give(call, drawing, out, made, list(refusals_of(made)))


class ApplyPatch(MakesDrawing):
    """Applies a patch file."""

    NAME = 'patch'
    TITLE = tr('Apply a patch file')
    GROUP = ('files', tr('Scripts and patch files'))
    SHORT = tr('Applies a patch file, such as a correction from another office, to a drawing.')
    HELP = tr(
        'The patch file is applied as a whole or not at all: it is refused if the drawing has other bytes than it '
        'expects, and the reason names the first place. If it was made for another drawing, check the new one.'
    )
    CHANGES = tr(
        'The result is a new drawing, in which what the patch file says has changed. All else stays, and so does the '
        'old drawing.'
    )
    TAGS = 'patch correction apply'

    def define(self) -> None:
        self.add_drawing()
        self.add(
            QgsProcessingParameterFile('PATCH', tr('Patch file'), fileFilter=PATCHES),
            tr('The file with the edits.'),
        )
        self.add_result()

    def work(self, call: Call) -> Results:
        call.doing(tr('The drawing is read'), 0.0)
        drawing = opened(call.file('DRAWING'))
        patch, out = call.file('PATCH'), self.out(call)
        if os.path.isfile(patch) and not is_patch(patch):
            raise Mistake(tr("%s isn't a patch file") % patch)
        call.doing(tr('The patch file is applied'), 0.2)
        made = run_files(call, drawing, [patch], out)
        made.accepted = len(Patch.from_bytes(read_file(patch, PATCH_LONGEST)).entries)
        return self.give(call, drawing, out, made, [])
