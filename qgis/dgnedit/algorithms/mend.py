"""Mends broken trees."""

from typing import Dict, List

from dgnkit.drawing.drawing import Drawing
from dgnkit.drawing.mending import Mending, mending_of
from dgnkit.format.element import described
from dgnkit.propose.writing import applied, patch_of
from qgis.core import QgsProcessingOutputNumber

from ..calls import Call
from ..editing import run_patch
from ..marks import Boxes, Marks, sink_parameter
from ..translation import tr
from .base import Results, opened
from .results import PATCHES, SAME_EDIT, MakesDrawing

FIELDS: Dict[str, type] = {'number': int, 'is': str, 'becomes': str, 'why': str}


class Mend(MakesDrawing):
    """Mends what can be mended of broken trees, by a few bytes."""

    NAME = 'mend'
    TITLE = tr('Mend a drawing')
    SHORT = tr('Mends broken trees, such as the areas with holes and the long lines that GDAL and QGIS export.')
    HELP = tr(
        "What can't be mended for certain is left as it is, and listed with the reason. In the new drawing, areas with "
        'holes are shown as such, and can be edited.'
    )
    CHANGES = tr(
        'The result is a new drawing, in which a few bytes differ that say which elements belong to a header. Nothing '
        'that is drawn changes, and the old drawing stays as it is.'
    )
    TAGS = 'mend repair fix broken gdal ogr'

    def define(self) -> None:
        self.add_drawing()
        self.add_result()
        self.add(
            sink_parameter('TABLE', tr('What was mended, and what was left')),
            tr('A row for each element, with what was corrected or why it was left.'),
        )
        self.add_file('PATCH', tr('Patch file of the edit'), PATCHES, SAME_EDIT)
        self.addOutput(QgsProcessingOutputNumber('BEFORE', tr('How many trees were broken')))
        self.addOutput(QgsProcessingOutputNumber('AFTER', tr('How many trees are still broken')))

    def work(self, call: Call) -> Results:
        call.doing(tr('The drawing is read'), 0.0)
        drawing = opened(call.file('DRAWING'))
        mending = mending_of(drawing)
        patch = patch_of(drawing, mending.changes)
        applied(drawing, patch, mending.changes)
        out = self.out(call)
        call.doing(tr('The drawing is mended'), 0.3)
        made = run_patch(call, drawing, patch, call.target('PATCH'), out)
        made.accepted = len(mending.changes)
        counts = [len(it.nesting.broken_roots) for it in (drawing, Drawing(out, drawing.program))]
        call.say(tr('%d broken trees before, %d after') % tuple(counts))
        results = self.give(call, drawing, out, made, [])
        table = self.table(call, drawing, mending)
        files = {'PATCH': call.target('PATCH')} if call.target('PATCH') else {}
        return {**results, **table, **files, 'BEFORE': counts[0], 'AFTER': counts[1]}

    def table(self, call: Call, drawing: Drawing, mending: Mending) -> Results:
        """A row for each element that was mended or left."""
        wishes = self.wishes(call, drawing)
        marks, boxes = Marks(call, 'TABLE', FIELDS, wishes), Boxes(drawing, wishes)
        rows: List[List[object]] = [
            [it.element.number, described(it.element), tr('mended'), ', '.join(it.words)] for it in mending.changes
        ]
        rows += [[it.element.number, described(it.element), tr('left'), it.why] for it in mending.left]
        for row in rows:
            marks.add([(boxes.around(row[0] if isinstance(row[0], int) else None), row)])
        return {'TABLE': marks.id} if marks.id else {}
