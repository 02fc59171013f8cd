"""Algorithms that make a new drawing: the new one is opened beside the old one, and what was refused is a table."""

import os
from typing import Dict, Iterable, List, Optional, Sequence, Tuple

from dgnkit.drawing.drawing import Drawing
from dgnkit.errors import Mistake
from dgnkit.format.element import described
from dgnkit.output import printable
from dgnkit.program.grammar import kinds_of
from qgis.core import (
    QgsApplication,
    QgsProcessingOutputNumber,
    QgsProcessingParameterFileDestination,
    QgsProcessingUtils,
)

from ..calls import Call, Stopped
from ..editing import Made
from ..layers import add_to_project, hide_drawing
from ..marks import Boxes, Marks, sink_parameter
from ..opening import Written, digest_of, write_layers
from ..renewal import Renewal
from ..rows import Wishes
from ..translation import tr
from ..wording import here
from .base import DgnAlgorithm, Results

REFUSED_FIELDS: Dict[str, type] = {'number': int, 'root': int, 'is': str, 'command': str, 'why': str}
PATCHES = tr('Patch files (*.patch);;All files (*)')
SCRIPTS = tr('Scripts (*.txt);;All files (*)')
SAME_EDIT = tr('To make the same edit in a copy of the drawing.')
Refusal = Tuple[Optional[int], str, str]  # the element, the command, and why
MOST_SAID = 20  # so many refusals are said in the log
BESIDE = tr("The layers of %s can't become those of the new drawing, which is opened beside it: %s")
NOT_SHOWN = tr('The layers still show %s: %s. The new drawing is written: open %s to see it.')


class MakesDrawing(DgnAlgorithm):
    """An algorithm that writes a new drawing."""

    written: Optional[Written] = None
    renewals: Sequence[Renewal] = ()
    old = ''

    def add_outcome(self) -> None:
        """The new drawing, and the table of what was refused."""
        self.add_result()
        self.add(
            sink_parameter('REFUSED', tr('What was refused')),
            tr('A row for each command that was refused, with its reason; the rest was done.'),
        )
        self.addOutput(QgsProcessingOutputNumber('REFUSED_COUNT', tr('How many were refused')))

    def out(self, call: Call) -> str:
        """The name of the new drawing. It raises Mistake where it may not be written, or a file beside it: one of the
        project's drawings has that name, or a file that isn't to be replaced, or two of them have one name."""
        out = call.target('OUTPUT')
        beside = [call.target(it) for it in ('SCRIPT', 'PATCH', 'LAYERS_FILE') if self.is_written(it)]
        names = [out, *(it for it in beside if it)]
        places = [os.path.realpath(it) for it in names]
        if len(set(places)) < len(places):
            raise Mistake(tr('The new drawing and the files beside it each need a name of their own.'))
        if places[0] in {os.path.realpath(it.drawing) for it in self.known}:
            raise Mistake(tr('%s is open in this project: name another file') % out)
        read = os.path.realpath(call.file('DRAWING'))  # which is never replaced, as is said when it is to be
        self.layers_file(call, 'LAYERS_FILE')
        there = [it for it, place in zip(names, places) if os.path.isfile(it) and place != read]
        if there and not call.flag('OVERWRITE'):
            raise Mistake(tr('%s already exists: name another file, or allow that it is replaced') % there[0])
        return out

    def only_one(self, why: str) -> str:
        """The only drawing that is open in the project. It raises Mistake with the reason where there isn't one."""
        names = {it.drawing for it in self.known}
        if len(names) != 1:
            raise Mistake(why)
        return names.pop()

    def is_written(self, name: str) -> bool:
        """Whether a parameter is that of a file that is written."""
        return isinstance(self.parameterDefinition(name), QgsProcessingParameterFileDestination)

    def give(self, call: Call, drawing: Drawing, out: str, made: Made, refused: List[Refusal]) -> Results:
        """Says what was made, writes the table, and prepares the layers of the new drawing."""
        for line in made.said:
            call.say(printable(line))
        refused = [(number, command, here(why)) for number, command, why in refused]
        for number, command, why in refused[:MOST_SAID]:
            call.warn('%s: %s' % (printable(command), printable(why)))
        if len(refused) > MOST_SAID:
            call.warn(tr('and %d more: see the table of what was refused') % (len(refused) - MOST_SAID))
        call.say(tr('%s: written') % out)
        wishes = self.wishes(call, drawing)
        marks = Marks(call, 'REFUSED', REFUSED_FIELDS, wishes)
        boxes = Boxes(drawing, wishes)
        marks.add((boxes.around(it[0]), refused_row(drawing, it)) for it in refused)
        if not refused:
            marks.do_not_load(call)
        if call.flag('OPEN') and call.project is not None:
            self.show(call, drawing, Drawing(os.path.abspath(out), drawing.program), wishes)
        results = {'OUTPUT': out, 'ACCEPTED': made.accepted}
        if self.parameterDefinition('REFUSED') is not None:
            results['REFUSED_COUNT'] = len(refused)
        return {**results, 'REFUSED': marks.id} if marks.id else results

    def show(self, call: Call, old: Drawing, new: Drawing, wishes: Wishes) -> None:
        """Prepares that the layers of the old drawing become those of the new one, or are beside these. The new drawing
        is there already: where this is cancelled, it stays."""
        self.old = os.path.abspath(old.path)
        try:
            if not self.renew(call, old, new):
                self.open(call, new, wishes)
        except Stopped:
            call.warn(tr('Stopped: the new drawing is written, but not opened.'))

    def renew(self, call: Call, old: Drawing, new: Drawing) -> bool:
        """Prepares that the layers of the old drawing become those of the new one; whether there are such, and they
        can."""
        digest = digest_of(old)
        shown = [it for it in self.known if (it.drawing, it.digest) == (self.old, digest)]
        if not shown or call.target('LAYERS_FILE') or QgsApplication.platform() == 'qgis_process':
            return False
        call.doing(tr('The layers are changed'), 0.5)
        made: List[Renewal] = []
        try:
            for it in shown:
                made.append(Renewal(it, old, new, lambda share: call.done(0.5 + 0.4 * share)))
        except Mistake as why:
            drop_all(made)
            if isinstance(why, Stopped):
                raise
            call.warn(BESIDE % (self.old, why))
            return False
        except BaseException:
            drop_all(made)
            raise
        self.renewals = made
        return True

    def open(self, call: Call, new: Drawing, wishes: Wishes) -> None:
        """Writes the layers of the new drawing."""
        package = call.target('LAYERS_FILE') or QgsProcessingUtils.generateTempFilename('layers.gpkg')
        call.doing(tr('The layers of the new drawing are written'), 0.5)
        self.written = write_layers(new, package, wishes, lambda it: call.done(0.5 + 0.4 * it))

    def leave(self) -> None:
        drop_all(self.renewals)

    def finish(self, call: Call) -> None:
        """Shows the new drawing in the layers of the old one; or beside these, which are hidden and stay."""
        if call.project is None:
            self.leave()
            return
        for it in self.renewals:
            try:
                it.keep(call.project)
            except Mistake as why:
                call.error(NOT_SHOWN % (self.old, why, it.written.drawing))
        if self.written is not None:
            hide_drawing(call.project, self.old)
            add_to_project(call.project, self.written)


def drop_all(renewals: Iterable[Renewal]) -> None:
    """Leaves the layers of all as they are."""
    for it in renewals:
        it.drop()


def refused_row(drawing: Drawing, refused: Refusal) -> List[object]:
    """A row of the table."""
    number, command, why = refused
    if number is None or number >= len(drawing.elements):
        return [number, None, None, command, why]
    return [number, drawing.nesting.roots[number], described(drawing.elements[number]), command, why]


def refusals_of(made: Made) -> Iterable[Refusal]:
    """What was refused of scripts, each with the element that the command names."""
    for it in made.refused:
        yield element_of(str(it['command'])), tr('line %s: %s') % (it['line'], it['command']), str(it['why'])


def element_of(command: str) -> Optional[int]:
    """The element that a command of a script names, none where it names none."""
    words = command.split()
    named = [word for word, kind in zip(words, kinds_of(words)) if kind == 'N']
    return int(named[0]) if named else None
