"""What all edits of a selection share: how the elements are chosen, whole trees or not, and what is written."""

from typing import List, Tuple

from dgnkit.commands._fields import parts_of
from dgnkit.drawing.drawing import Drawing
from dgnkit.drawing.tables import numbers_in
from dgnkit.explain.members import parts_said
from dgnkit.output import counted, few
from dgnkit.propose.field_edits import FieldEdits
from dgnkit.propose.scripting import Proposal, topmost
from dgnkit.propose.templates import line_of
from dgnkit.propose.writing import applied, patch_of
from qgis.core import (
    QgsProcessing,
    QgsProcessingParameterFeatureSource,
    QgsProcessingParameterFile,
    QgsProcessingParameterMultipleLayers,
    QgsProcessingParameterString,
)

from ..calls import Call
from ..editing import Made, run_lines, run_patch
from ..selection import FIELD, Selected, chosen, drawing_of, move_selection, numbers_of, rows_of, selected_in
from ..translation import tr
from .base import Results, opened
from .results import PATCHES, SAME_EDIT, SCRIPTS, MakesDrawing, Refusal, refusals_of

ANY, TABLES = QgsProcessing.SourceType.TypeVectorAnyGeometry, QgsProcessing.SourceType.TypeVector
HELP = tr(
    'Edits the features that are selected in the layers of a drawing: in all its layers, or in those that you name. '
    'Instead you can give element numbers, or a table with a field "number". Whole trees are edited, such as a cell '
    'with everything in it, unless you switch that off.\n\n'
    'The result is a new drawing, which the layers then show, with the same features selected. The old one is never '
    'changed. Anything that is refused, such as a locked element, is in a table with the reason; the rest is done.'
)
LISTS = tr('Lists of elements (*.csv *.txt *.geojson *.json);;All files (*)')
NOTHING = tr('Nothing is selected and no drawing is named: select features in the layers of a drawing.')
TOLD = 8


class EditAlgorithm(MakesDrawing):
    """An edit of what is selected."""

    GROUP = ('edit', tr('Edit what is selected'))
    selected: List[Selected] = []
    chosen: List[int] = []

    def texts(self) -> Tuple[str, ...]:
        return self.SHORT, self.HELP, HELP

    def define(self) -> None:
        self.define_edit()
        self.add_flag('TREES', tr('Whole trees'), True, tr('Such as a whole cell, if one of its features is selected.'))
        self.add_drawing(said=tr('Drawing (if not that of the selection)'), is_optional=True, is_advanced=True)
        self.add(
            QgsProcessingParameterMultipleLayers(
                'LAYERS', tr('Only what is selected in these layers'), ANY, None, True
            ),
            tr('If you name none: what is selected in all layers of the drawing.'),
            True,
        )
        self.add(
            QgsProcessingParameterString('NUMBERS', tr('Or the elements with these numbers'), None, False, True),
            tr('Such as 12 or 3-5,9. The selection is then ignored, except in layers that you name.'),
            True,
        )
        self.add(
            QgsProcessingParameterFeatureSource('TABLE', tr('Or the elements of this table'), [TABLES], None, True),
            tr('A layer or a table with a field "number".'),
            True,
        )
        self.add(
            QgsProcessingParameterFile(
                'FILE', tr('Or the elements that this file lists'), fileFilter=LISTS, optional=True
            ),
            tr('A CSV file with a column "number", a list with a number in each line, or a GeoJSON file.'),
            True,
        )
        self.add_outcome()
        self.define_files()

    def define_edit(self) -> None:
        """Adds the parameters of the edit itself."""

    def define_files(self) -> None:
        """Adds the files that can be saved."""
        self.add_file('PATCH', tr('Patch file of the edit'), PATCHES, SAME_EDIT)

    def prepare(self, call: Call) -> None:
        layers = self.parameterAsLayerList(call.parameters, 'LAYERS', call.context)
        is_named = any(call.parameters.get(it) not in (None, '') for it in ('NUMBERS', 'TABLE', 'FILE'))
        self.selected = [] if is_named and not layers else selected_in(call, layers)

    def work(self, call: Call) -> Results:
        call.doing(tr('The drawing is read'), 0.0)
        drawing = opened(call.file('DRAWING') or drawing_of(self.selected) or self.only_one(NOTHING))
        rows = rows_of(self.parameterAsSource(call.parameters, 'TABLE', call.context))
        named = numbers_of(call.text('NUMBERS'))
        named += numbers_in(call.file('FILE'), FIELD) if call.file('FILE') else []
        self.chosen = numbers = chosen(drawing, self.selected, named, rows)
        if call.flag('TREES'):
            numbers = sorted({drawing.nesting.roots[it] for it in numbers})
        else:
            numbers = topmost(drawing, numbers, Proposal())
            for line in parts_said(drawing, numbers, TOLD):
                call.say(tr('%s; the rest of its tree is not changed') % line)
        call.doing(tr('The drawing is edited'), 0.2)
        out = self.out(call)
        made, refused = self.edit(call, drawing, numbers, out)
        if not made.accepted:
            call.warn(tr('Nothing was changed: the new drawing is the same as the old one.'))
        return {**self.give(call, drawing, out, made, refused), **self.files(call)}

    def finish(self, call: Call) -> None:
        """What was selected in the old drawing is selected in the new one."""
        super().finish(call)
        if self.selected and self.written is not None and call.project is not None:
            move_selection(call.project, self.selected[0].drawing, self.written.drawing, self.chosen)

    def edit(self, call: Call, drawing: Drawing, numbers: List[int], out: str) -> Tuple[Made, List[Refusal]]:
        """Makes the new drawing, and says what was refused."""
        raise NotImplementedError

    def files(self, call: Call) -> Results:
        """The files that were saved."""
        return {name: call.target(name) for name in ('SCRIPT', 'PATCH') if call.target(name)}


class CommandAlgorithm(EditAlgorithm):
    """An edit by a command of the editor's script, a line for each element."""

    def define_files(self) -> None:
        self.add_file('SCRIPT', tr('Script of the edit'), SCRIPTS, tr('Without the lines that were refused.'))
        super().define_files()

    def template(self, call: Call, drawing: Drawing) -> str:
        """The line, with {n} for the number of the element."""
        raise NotImplementedError

    def edit(self, call: Call, drawing: Drawing, numbers: List[int], out: str) -> Tuple[Made, List[Refusal]]:
        template = self.template(call, drawing)
        lines = [line_of(template, it) for it in numbers]
        made = run_lines(call, drawing, lines, (call.target('SCRIPT'), call.target('PATCH')), out)
        return made, [(number, self.TITLE, why) for number, _, why in refusals_of(made)]


class FieldAlgorithm(EditAlgorithm):
    """An edit of single fields, for which the editor has no command: by a patch file."""

    def fields(self, call: Call, drawing: Drawing, numbers: List[int]) -> FieldEdits:
        """The changes of these elements."""
        raise NotImplementedError

    def edit(self, call: Call, drawing: Drawing, numbers: List[int], out: str) -> Tuple[Made, List[Refusal]]:
        tell_broken(call, drawing, numbers)
        edits = self.fields(call, drawing, parts_of(drawing, numbers))
        patch = patch_of(drawing, edits.changes)
        applied(drawing, patch, edits.changes)
        made = run_patch(call, drawing, patch, call.target('PATCH'), out)
        made.accepted = len(edits.changes)
        return made, [(number, self.TITLE, why) for number, why in edits.left]


def tell_broken(call: Call, drawing: Drawing, numbers: List[int]) -> None:
    """Says which elements stand in broken trees, so that it isn't known what belongs to them."""
    broken = [it for it in numbers if drawing.nesting.roots[it] in drawing.nesting.broken_roots]
    if broken:
        said = tr(
            "It isn't known what belongs to %s in broken trees (%s), so only these change: mend the drawing first."
        )
        call.warn(said % (counted(len(broken), 'element'), few(broken)))
