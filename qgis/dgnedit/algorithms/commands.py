"""Edits by the editor's commands: move, copy, look, delete."""

from dgnkit.drawing.drawing import Drawing
from dgnkit.errors import Mistake
from dgnkit.format.limits import COLOUR_MOST, STYLE_MOST, WEIGHT_MOST
from dgnkit.format.places import Scale
from dgnkit.format.units import rounded, shortest
from qgis.core import QgsProcessingParameterEnum, QgsProcessingParameterNumber

from ..calls import Call
from ..styles import STYLE_NAMES
from ..translation import tr
from .edits import CommandAlgorithm

AXES = {
    'DX': tr('Distance to the east (x)'),
    'DY': tr('Distance to the north (y)'),
    'DZ': tr('Distance upwards (z), in three dimensions'),
}
TOO_SHORT = tr('The drawing holds nothing smaller than %s, and the distance is less than half of that. %s')
LEFT_OUT = tr('The drawing holds nothing smaller than %s: a distance of less than half of that is taken as 0.')


def least_said(scale: Scale) -> str:
    """The smallest distance that there is, in words."""
    return '%s %s' % (shortest(1 / scale.units.in_master), scale.units.name) if scale.is_master else '1'


class Move(CommandAlgorithm):
    """Moves by a vector."""

    NAME = 'move'
    TITLE = tr('Move')
    SHORT = tr('Moves what is selected by a vector.')
    HELP = tr('The vector is in the units of the layers: master units, or units of resolution if they were opened so.')
    CHANGES = tr(
        'The coordinates and ranges of what is selected, and the ranges of the cells that it stands in, which come to '
        'hold it. All else stays.'
    )
    TAGS = 'move shift translate displace'
    WORD = 'move'
    NOWHERE = tr('Nothing would be moved: give a distance to the east or to the north.')

    def define_edit(self) -> None:
        for name, said in AXES.items():
            parameter = QgsProcessingParameterNumber(name, said, QgsProcessingParameterNumber.Type.Double)
            parameter.setDefaultValue(0)
            self.add(parameter, tr('In the units of the layers; less than 0 goes the other way.'), name == 'DZ')

    def template(self, call: Call, drawing: Drawing) -> str:
        scale = Scale(drawing.units, self.wishes(call, drawing).units)
        exact = [scale.signed_length(call.decimal(it) or '0') for it in AXES]
        if drawing.axes == 2 and exact.pop():
            raise Mistake(tr('The drawing has two dimensions: nothing in it can be moved upwards.'))
        shift = [rounded(it) for it in exact]
        if not any(shift):
            raise Mistake(TOO_SHORT % (least_said(scale), self.NOWHERE) if any(exact) else self.NOWHERE)
        if any(it and not there for it, there in zip(exact, shift)):
            call.warn(LEFT_OUT % least_said(scale))
        return ' '.join([self.WORD, '{n}', *map(str, shift)])


class Copy(Move):
    """Copies, moved by a vector."""

    NAME = 'copy'
    TITLE = tr('Copy')
    SHORT = tr('Appends a copy of what is selected, moved by a vector.')
    CHANGES = tr('The copy is appended behind the last element. What is copied stays, and so does all else.')
    TAGS = 'copy duplicate'
    WORD = 'copy'
    NOWHERE = tr('The copy would lie where it was copied: give a distance to the east or to the north.')


class Look(CommandAlgorithm):
    """Another colour, weight or style."""

    NAME = 'look'
    TITLE = tr('Colour, weight and style')
    SHORT = tr('Gives what is selected another colour, weight or style. What is left empty stays.')
    CHANGES = tr('Of what is selected the colour, the weight and the style, as far as you give them. All else stays.')
    TAGS = 'color colour recolour weight style line symbology'

    def define_edit(self) -> None:
        self.add_number(
            'COLOUR', tr('Colour'), COLOUR_MOST, tr('A number from the colour table, 0 to 255, such as 3 for red.')
        )
        self.add_number('WEIGHT', tr('Weight'), WEIGHT_MOST, tr('From 0 to 31.'))
        options = ['%d %s' % it for it in enumerate(STYLE_NAMES[: STYLE_MOST + 1])]
        self.add(QgsProcessingParameterEnum('STYLE', tr('Style'), options, False, None, True), tr('From 0 to 7.'))

    def template(self, call: Call, drawing: Drawing) -> str:
        values = [call.whole(it) for it in ('COLOUR', 'WEIGHT', 'STYLE')]
        if values == [None] * 3:
            raise Mistake(tr('Give a colour, a weight or a style.'))
        return ' '.join(['sym', '{n}', *('-' if it is None else str(it) for it in values)])


class Delete(CommandAlgorithm):
    """Marks deleted."""

    NAME = 'delete'
    TITLE = tr('Delete')
    SHORT = tr('Marks what is selected deleted. "Take a deletion back" undoes that.')
    CHANGES = tr(
        'The mark in each element that is selected. Nothing is erased: all its other bytes stay, and so does all else.'
    )
    TAGS = 'delete remove erase'

    def template(self, call: Call, drawing: Drawing) -> str:
        return 'delete {n}'
