"""Draws a line, an area or a text, which is appended to a drawing by a script."""

from typing import List

from dgnkit.drawing.drawing import Drawing
from dgnkit.drawing.tables import Row
from dgnkit.errors import Mistake
from dgnkit.format.limits import COLOUR_MOST, LEVEL_MOST, STYLE_MOST, WEIGHT_MOST
from dgnkit.format.places import Scale
from dgnkit.format.units import shortest
from dgnkit.propose.appending import Appender, Appending
from dgnkit.propose.wishes import Defaults, Reader
from qgis.core import (
    QgsProcessingParameterEnum,
    QgsProcessingParameterGeometry,
    QgsProcessingParameterNumber,
    QgsProcessingParameterPoint,
    QgsProcessingParameterString,
)

from ..calls import Call
from ..editing import Made, folder, run_files, scripts_in
from ..rows import Wishes
from ..styles import STYLE_NAMES
from ..translation import tr
from .base import Results, opened
from .fields import ENCODINGS, add_encoding
from .results import MakesDrawing

# Of each part of the look the parameter, what is said of it, its greatest value, the usual one, and dgnkit's word.
LOOKS = (
    ('LEVEL', tr('Level'), LEVEL_MOST, 1, 'level'),
    ('COLOUR', tr('Colour'), COLOUR_MOST, 0, 'color'),
    ('WEIGHT', tr('Weight'), WEIGHT_MOST, 0, 'weight'),
)
LETTERING = {'font': '1', 'justification': '0'}


class Draws(MakesDrawing):
    """An algorithm that draws one thing."""

    GROUP = ('draw', tr('Draw'))
    HELP = tr(
        'The result is a new drawing, which the layers then show; the old one is never changed. Coordinates are in the '
        'units of the layers.'
    )
    CHANGES = tr('What is drawn is appended behind the last element. All else stays.')

    def define(self) -> None:
        self.add_drawing(said=tr('Drawing (if not the one that is open)'), is_optional=True)
        self.define_drawn()
        whole = QgsProcessingParameterNumber.Type.Integer
        text = tr('Of what is drawn, from 0 to %d.')
        for name, said, most, usual, _ in LOOKS:
            self.add(QgsProcessingParameterNumber(name, said, whole, usual, False, 0, most), text % most)
        options = ['%d %s' % it for it in enumerate(STYLE_NAMES[: STYLE_MOST + 1])]
        self.add(QgsProcessingParameterEnum('STYLE', tr('Style'), options, False, 0), text % STYLE_MOST)
        self.add_result()

    def define_drawn(self) -> None:
        """Adds the parameters of what is drawn."""

    def rows(self, call: Call, wishes: Wishes) -> List[Row]:
        """What is drawn, as a table that dgnkit reads."""
        raise NotImplementedError

    def defaults(self, call: Call) -> Defaults:
        """How it looks."""
        look = {word: str(self.parameterAsInt(call.parameters, name, call.context)) for name, _, _, _, word in LOOKS}
        look['style'] = str(self.parameterAsEnum(call.parameters, 'STYLE', call.context))
        return Defaults('', look, call.decimal('HEIGHT'), call.decimal('ANGLE') or '0', LETTERING)

    def work(self, call: Call) -> Results:
        call.doing(tr('The drawing is read'), 0.0)
        drawing = opened(call.file('DRAWING') or self.only_one(tr('No drawing is named.')))
        wishes = self.wishes(call, drawing)
        scale = Scale(drawing.units, wishes.units)
        reader = Reader(self.rows(call, wishes), drawing.axes, scale, self.defaults(call))
        encoding = call.choice('ENCODING', ENCODINGS) if self.parameterDefinition('ENCODING') is not None else ''
        appending = Appender(drawing, scale, True, encoding).appending(reader.wishes())
        out = self.out(call)
        call.doing(tr('It is drawn'), 0.2)
        return self.give(call, drawing, out, appended(call, drawing, appending, out), [])


def appended(call: Call, drawing: Drawing, appending: Appending, out: str) -> Made:
    """Makes the drawing with what is appended."""
    with folder() as place:
        files = scripts_in(place, 'script', appending.script)
        if appending.patch is not None:
            (place / 'texts.patch').write_bytes(appending.patch.to_bytes())
            files.append(str(place / 'texts.patch'))
        made = run_files(call, drawing, files, out)
    made.accepted = len(appending.script.commands)
    return made


class DrawLine(Draws):
    """A line or an area."""

    NAME = 'draw'
    TITLE = tr('Draw a line or an area')
    SHORT = tr('Draws a line through places, or the outline of an area.')
    TAGS = 'draw line polyline polygon area append digitize'

    def define_drawn(self) -> None:
        self.add(
            QgsProcessingParameterGeometry('GEOMETRY', tr('Line or area, as text (WKT)')),
            tr('Such as LineString (10 20, 30 40). "Draw a line on the map" of the menu fills it in.'),
        )

    def rows(self, call: Call, wishes: Wishes) -> List[Row]:
        geometry = self.parameterAsGeometry(call.parameters, 'GEOMETRY', call.context)
        if geometry.isNull() or geometry.isEmpty():
            raise Mistake(tr('There is no line and no area to draw.'))
        if geometry.isMultipart() and geometry.constGet().numGeometries() > 1:
            raise Mistake(tr('It has several parts: draw one after the other.'))
        geometry.convertToSingleType()
        shape = geometry.constGet().segmentize()
        if shape.ringCount() > 1:
            raise Mistake(tr("It has a hole, which can't be drawn."))
        kind = 'shape' if shape.dimension() == 2 else 'line'
        places = [[shortest(it.x()), shortest(it.y()), kind] for it in shape.vertices()]
        return [Row('the line', at, fields) for at, fields in enumerate([['x', 'y', 'kind'], *places])]


class DrawText(Draws):
    """A text."""

    NAME = 'text'
    TITLE = tr('Draw a text')
    SHORT = tr('Draws a text at a place, which is its lower left corner.')
    TAGS = 'draw text label append'

    def define_drawn(self) -> None:
        real = QgsProcessingParameterNumber.Type.Double
        self.add(QgsProcessingParameterPoint('PLACE', tr('Place')), tr('The lower left corner of the text.'))
        self.add(QgsProcessingParameterString('TEXT', tr('Text')), tr('The text itself.'))
        self.add(
            QgsProcessingParameterNumber('HEIGHT', tr('Height'), real, None, False, 0),
            tr('In the units of the layers.'),
        )
        self.add(
            QgsProcessingParameterNumber('ANGLE', tr('Angle in degrees, anticlockwise'), real, 0),
            tr('From the direction to the right.'),
        )
        add_encoding(self)

    def rows(self, call: Call, wishes: Wishes) -> List[Row]:
        place = self.parameterAsPoint(call.parameters, 'PLACE', call.context, wishes.system)
        fields = [shortest(place.x()), shortest(place.y()), call.text('TEXT')]
        return [Row('the text', 1, ['x', 'y', 'text']), Row('the text', 1, fields)]
