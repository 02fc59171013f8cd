"""Checks a drawing: what in it is damaged, broken or odd."""

from argparse import Namespace
from typing import Dict

from dgnkit.commands.health import facts_of, findings_of, line_of
from dgnkit.errors import Mistake
from dgnkit.output import printable
from qgis.core import QgsProcessingOutputNumber

from ..calls import Call
from ..marks import Boxes, Marks, sink_parameter
from ..translation import tr
from .base import DgnAlgorithm, Results, opened

KINDS = {
    'broken': tr('broken tree'),
    'type_0': tr('element of type 0'),
    'zeros': tr('run of zeros'),
    'audit': tr('wrong range'),
    'twice': tr('duplicate'),
    'end_mark': tr('no end mark'),
    'behind': tr('bytes after the end mark'),
}
FIELDS: Dict[str, type] = {'number': int, 'root': int, 'kind': str, 'finding': str}


class Check(DgnAlgorithm):
    """What `dgnkit health` says, as a table."""

    NAME = 'check'
    TITLE = tr('Check a drawing')
    SHORT = tr('Says what in a drawing is damaged, broken or odd, in a table with a box around each finding.')
    HELP = tr(
        "It finds broken trees, which can't be edited until they are mended; ranges that don't fit what an element "
        'holds; duplicates; zeros where there should be elements; and a missing end mark. The button in each row zooms '
        "to it. A file that doesn't open is an error."
    )
    CHANGES = tr('Nothing changes: the drawing is only read.')
    TAGS = 'check health audit damage validate'

    def define(self) -> None:
        self.add_drawing()
        self.add_system()
        self.add(
            sink_parameter('OUTPUT', tr('Findings')), tr('A row for each finding, with its element and its reason.')
        )
        self.addOutput(QgsProcessingOutputNumber('COUNT', tr('How many findings there are')))

    def work(self, call: Call) -> Results:
        call.doing(tr('The drawing is checked'), 0.0)
        path = call.file('DRAWING')
        drawing = opened(path)
        wishes = self.wishes(call, drawing)
        facts, scale = facts_of(path, drawing.program, Namespace(frame=None, units=wishes.units))
        if not facts['opens']:
            raise Mistake(line_of(facts))
        call.doing(tr('The findings are written'), 0.8)
        call.say(printable(line_of(facts)))
        found = findings_of(facts, scale)
        marks, boxes = Marks(call, 'OUTPUT', FIELDS, wishes), Boxes(drawing, wishes)
        for kind, elements, line in found:
            number = elements[0] if elements else None
            root = None if number is None else drawing.nesting.roots[number]
            marks.add([(boxes.around(number), [number, root, KINDS[kind], line])])
        return {'OUTPUT': marks.id, 'COUNT': len(found)}
