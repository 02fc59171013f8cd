"""Compares two drawings."""

from typing import Dict

from dgnkit.commands.diff import name_of, summary, tail_said
from dgnkit.drawing.drawing import Drawing
from dgnkit.explain.comparing import differences
from dgnkit.output import printable
from qgis.core import QgsProcessingOutputNumber

from ..calls import Call
from ..marks import Boxes, Marks, sink_parameter
from ..translation import tr
from .base import DgnAlgorithm, Results, opened

FIELDS: Dict[str, type] = {'before': int, 'after': int, 'is': str, 'changes': str, 'words': str}


class Compare(DgnAlgorithm):
    """What `dgnkit diff` says, as a layer."""

    NAME = 'compare'
    TITLE = tr('Compare two drawings')
    SHORT = tr('Says in words what has changed between two drawings, with a box around each change.')
    HELP = tr(
        'A row has the number of the element in the first drawing and in the second, what it is, what happened to it, '
        'such as moved or recoloured, and by how much. The boxes are those of the second drawing, or of the first for '
        'what is gone. The button of a row zooms to it.'
    )
    CHANGES = tr('Nothing changes: both drawings are only read.')
    TAGS = 'compare diff difference change'

    def define(self) -> None:
        self.add_drawing('FIRST', tr('First drawing, as it was'))
        self.add_drawing('SECOND', tr('Second drawing, as it is'))
        self.add_system()
        self.add(
            sink_parameter('OUTPUT', tr('Changes')), tr('A row for each element that differs, with a box around it.')
        )
        self.addOutput(QgsProcessingOutputNumber('COUNT', tr('How many elements differ')))

    def work(self, call: Call) -> Results:
        call.doing(tr('The drawings are read'), 0.0)
        first = opened(call.file('FIRST'))
        second = Drawing(call.file('SECOND'), first.program)
        call.doing(tr('The drawings are compared'), 0.3)
        found = differences(first, second)
        call.doing(tr('The changes are written'), 0.8)
        wishes = self.wishes(call, second)
        marks = Marks(call, 'OUTPUT', FIELDS, wishes)
        old_boxes, boxes = Boxes(first, wishes), Boxes(second, wishes)
        for it in found:
            box = old_boxes.around(it.before) if it.after is None else boxes.around(it.after)
            row = [it.before, it.after, name_of(it), ', '.join(it.changes), '; '.join(it.words)]
            marks.add([(box, row)])
        for line in tail_said(first, second):
            call.say(line)
        call.say(printable(summary(found)) if found else tr('No element differs.'))
        return {'OUTPUT': marks.id, 'COUNT': len(found)}
