"""Finds elements by conditions, and selects them."""

from argparse import Namespace
from typing import Dict, List, Sequence

from dgnkit.cli import Parser
from dgnkit.drawing.conditions import Conditions
from dgnkit.drawing.drawing import Drawing
from dgnkit.drawing.nothing import nothing_said
from dgnkit.drawing.options import add_conditions
from dgnkit.errors import Mistake
from dgnkit.format.element import described
from dgnkit.format.units import shortest
from qgis.core import (
    QgsProcessingOutputNumber,
    QgsProcessingOutputString,
    QgsProcessingParameterEnum,
    QgsProcessingParameterExtent,
    QgsProcessingParameterNumber,
    QgsProcessingParameterPoint,
    QgsProcessingParameterString,
    QgsVectorLayer,
)

from ..calls import Call
from ..layers import DIGEST, drawing_layers
from ..marks import Boxes, Marks, sink_parameter
from ..opening import digest_of
from ..rows import Wishes
from ..selection import select, spelled
from ..translation import tr
from .base import DgnAlgorithm, Results, opened

# The conditions that are texts: the parameter, the option of dgnkit, and what is said of it.
TEXTS = (
    ('LEVEL', '--level', tr('On these levels'), tr('Such as 12, 3-5,9 or >20.')),
    ('TYPE', '--type', tr('Of these types'), tr('By number or name, such as 3,text.')),
    ('COLOUR', '--color', tr('Of these colours'), tr('Such as 3 or 1-5.')),
    ('WEIGHT', '--weight', tr('Of these weights'), tr('Such as >3.')),
    ('STYLE', '--style', tr('Of these styles'), tr('Such as 0 or 1-7.')),
    ('TEXT', '--text', tr('Texts with this word'), tr('Only as a whole word.')),
    ('PATTERN', '--pattern', tr('Texts with what this regular expression finds'), tr('Such as DN [0-9]+.')),
    ('SIZE', '--size', tr('Texts of this height'), tr('Such as 2.5 or >2.5.')),
    ('CELL', '--cell', tr('Cells of this name'), tr('You can use * and ?.')),
    ('NUMBER', '--number', tr('With these numbers'), tr('Such as 12 or 3-5,9.')),
)
FLAGS = (
    ('IGNORE_CASE', '--ignore-case', tr('Ignore case'), tr('In the words of texts.')),
    ('LOCKED', '--locked', tr('Locked'), tr('Only what is locked.')),
    ('BROKEN', '--broken', tr('In a broken tree'), tr("Only what can't be edited until it is mended.")),
    (
        'WRONG_RANGE',
        '--wrong-range',
        tr('With a wrong range'),
        tr("Only elements whose stored range doesn't fit what they hold."),
    ),
    ('DELETED', '--deleted', tr('Marked deleted'), tr('Only what is marked deleted, which is left out otherwise.')),
)
MODES = ['--inside', '--overlap', '--crossing', '--void']
MODES_SAID = [
    tr('inside the box'),
    tr('at least partly in the box'),
    tr('crossing its edge'),
    tr('outside the box'),
]
METHODS = [tr('new selection'), tr('add to the selection'), tr('do not select')]
FIELDS: Dict[str, type] = {'number': int, 'root': int, 'type': int, 'level': int, 'is': str}
SETS, ADDS = QgsVectorLayer.SelectBehavior.SetSelection, QgsVectorLayer.SelectBehavior.AddToSelection


class Find(DgnAlgorithm):
    """What `dgnkit find` finds, as a selection and a table."""

    NAME = 'find'
    TITLE = tr('Find and select')
    SHORT = tr('Finds the elements of a drawing that meet all conditions, and selects them in its layers.')
    HELP = tr(
        'The drawing has to be open, so that its features can be selected. The table and the numbers can be used by '
        'the edits, for example in a model. Coordinates are in the units of the layers.'
    )
    CHANGES = tr('The selection in the layers of the drawing, unless you choose none. The drawing is only read.')
    TAGS = 'find select search filter query'
    numbers: Sequence[int] = ()
    digest = ''

    def define(self) -> None:
        self.add_drawing()
        for name, _, said, text in TEXTS:
            self.add(QgsProcessingParameterString(name, said, None, False, True), text, name in ('PATTERN', 'NUMBER'))
        self.add(
            QgsProcessingParameterExtent('BOX', tr('A box on the map'), None, True),
            tr('Only trees that lie so to this box as the next parameter says.'),
        )
        self.add(
            QgsProcessingParameterEnum('BOX_MODE', tr('Take trees that are'), MODES_SAID, False, 0),
            tr('How a tree has to lie to the box.'),
        )
        self.add_near()
        for name, _, said, text in FLAGS:
            self.add_flag(name, said, False, text, True)
        self.add_flag('TREES', tr('Whole trees'), False, tr('The root of the tree of each element that is found.'))
        self.add(
            QgsProcessingParameterEnum('METHOD', tr('Selection'), METHODS, False, 0),
            tr('What becomes of the selection in the layers of the drawing.'),
        )
        self.add_system()
        self.add(sink_parameter('OUTPUT', tr('What was found')), tr('A row for each element, with a box around it.'))
        self.addOutput(QgsProcessingOutputNumber('COUNT', tr('How many elements were found')))
        self.addOutput(QgsProcessingOutputString('NUMBERS', tr('Their numbers')))

    def add_near(self) -> None:
        """A place, and how near."""
        double, whole = QgsProcessingParameterNumber.Type.Double, QgsProcessingParameterNumber.Type.Integer
        self.add(
            QgsProcessingParameterPoint('NEAR', tr('Near this place'), None, True),
            tr('With a distance, or with a number of elements.'),
            True,
        )
        self.add(
            QgsProcessingParameterNumber('WITHIN', tr('Within this distance'), double, None, True, 0),
            tr('From the place, in the units of the layers.'),
            True,
        )
        self.add(
            QgsProcessingParameterNumber('NEAREST', tr('Only the nearest, this many'), whole, None, True, 1),
            tr('Those that lie nearest to the place.'),
            True,
        )

    def work(self, call: Call) -> Results:
        call.doing(tr('The drawing is read'), 0.0)
        drawing = opened(call.file('DRAWING'))
        wishes = self.wishes(call, drawing)
        conditions = Conditions(drawing, self.arguments(call, wishes))
        self.numbers, self.digest = conditions.chosen(), digest_of(drawing)
        call.say(tr('found %d of %d elements') % (len(self.numbers), len(drawing.elements)))
        if not self.numbers:
            call.warn(nothing_said(conditions))
        call.doing(tr('The table is written'), 0.7)
        marks, boxes = Marks(call, 'OUTPUT', FIELDS, wishes), Boxes(drawing, wishes)
        marks.add((boxes.around(it), row_of(drawing, it)) for it in self.numbers)
        found = {'COUNT': len(self.numbers), 'NUMBERS': spelled(self.numbers)}
        return {**found, 'OUTPUT': marks.id} if marks.id else {**found}

    def arguments(self, call: Call, wishes: Wishes) -> Namespace:
        """The conditions, as dgnkit reads them. It raises Mistake where one can't be read."""
        words = ['--units=' + wishes.units]
        words += ['%s=%s' % (option, call.text(name)) for name, option, _, _ in TEXTS if call.text(name)]
        words += [option for name, option, _, _ in FLAGS if call.flag(name)]
        words += ['--trees'] if call.flag('TREES') else []
        words += box_words(call, wishes) + near_words(call, wishes)
        parser = Parser(prog='find', add_help=False)
        add_conditions(parser)
        try:
            return parser.parse_args(words)
        except SystemExit:
            raise Mistake(tr("The conditions can't be read: %s") % ' '.join(words))

    def finish(self, call: Call) -> None:
        method = call.choice('METHOD', METHODS)
        for layer in drawing_layers(call.project) if method != METHODS[2] else ():
            if layer.customProperty(DIGEST) == self.digest:
                select(layer, self.numbers, SETS if method == METHODS[0] else ADDS)


def box_words(call: Call, wishes: Wishes) -> List[str]:
    """The box, as dgnkit reads it."""
    if call.parameters.get('BOX') in (None, ''):
        return []
    box = call.algorithm.parameterAsExtent(call.parameters, 'BOX', call.context, wishes.system)
    corners = [(box.xMinimum(), box.yMinimum()), (box.xMaximum(), box.yMaximum())]
    return [call.choice('BOX_MODE', MODES), *(','.join(map(shortest, it)) for it in corners)]


def near_words(call: Call, wishes: Wishes) -> List[str]:
    """The place, as dgnkit reads it."""
    words = []
    if call.parameters.get('NEAR') not in (None, ''):
        point = call.algorithm.parameterAsPoint(call.parameters, 'NEAR', call.context, wishes.system)
        words.append('--near=%s,%s' % (shortest(point.x()), shortest(point.y())))
    if call.decimal('WITHIN'):
        words.append('--within=' + call.decimal('WITHIN'))
    if call.whole('NEAREST') is not None:
        words.append('--nearest=%d' % (call.whole('NEAREST') or 0))
    return words


def row_of(drawing: Drawing, number: int) -> List[object]:
    """A row of the table."""
    element = drawing.elements[number]
    return [number, drawing.nesting.roots[number], element.type, element.level, described(element)]
