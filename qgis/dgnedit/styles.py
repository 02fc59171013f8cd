"""What is drawn: by the drawing's colours, weights and styles, with labels of the texts' sizes and angles."""

from typing import List

from qgis.core import (
    QgsFillSymbol,
    QgsLineSymbol,
    QgsMarkerSymbol,
    QgsPalLayerSettings,
    QgsProperty,
    QgsSimpleFillSymbolLayer,
    QgsSimpleLineSymbolLayer,
    QgsSimpleMarkerSymbolLayer,
    QgsSingleSymbolRenderer,
    QgsSymbol,
    QgsSymbolLayer,
    QgsTextFormat,
    QgsUnitTypes,
    QgsVectorLayer,
)
from qgis.PyQt.QtCore import Qt
from qgis.PyQt.QtGui import QColor

from .translation import tr

STYLE_NAMES = (
    tr('solid'),
    tr('dotted'),
    tr('medium dashed'),
    tr('long dashed'),
    tr('dot-dashed'),
    tr('short dashed'),
    tr('dash double-dot'),
    tr('long dash - short dash'),
)
STYLE = 'style'  # the field
# Dashes and gaps of each style in millimetres.
DASHES: List[List[float]] = [
    [],
    [0.3, 1.0],
    [2.0, 1.0],
    [3.6, 1.2],
    [2.6, 1.0, 0.3, 1.0],
    [1.0, 1.0],
    [2.6, 0.8, 0.3, 0.8, 0.3, 0.8],
    [3.6, 0.8, 1.0, 0.8],
]
# White is drawn black on the white paper of a map, as MicroStation draws it on a white ground.
WHITE, BLACK = '#ffffff', '#000000'
COLOUR = '''if("rgb" = '%s', '%s', "rgb")''' % (WHITE, BLACK)
WIDTH = '0.26 + 0.16 * "weight"'  # millimetres
HEADERS = '"type" in (2, 7)'  # cells and text nodes, of which a point is the origin
CAPITAL = 0.72  # how high a capital letter is, by the size of its font


def symbol_of(kind: str, style: int, colour: str = BLACK) -> QgsSymbol:
    """The line, or the outline, of a style. What is drawn has the colour of its element; a legend has this one."""
    pen = QgsSimpleLineSymbolLayer(QColor(colour))
    pen.setWidthUnit(QgsUnitTypes.RenderUnit.RenderMillimeters)
    pen.setDataDefinedProperty(QgsSymbolLayer.Property.PropertyStrokeColor, QgsProperty.fromExpression(COLOUR))
    pen.setDataDefinedProperty(QgsSymbolLayer.Property.PropertyStrokeWidth, QgsProperty.fromExpression(WIDTH))
    dashes = DASHES[style] if kind != 'ranges' else [0.5, 1.5]
    if dashes:
        pen.setUseCustomDashPattern(True)
        pen.setCustomDashPatternUnit(QgsUnitTypes.RenderUnit.RenderMillimeters)
        pen.setCustomDashVector(dashes)
        pen.setPenCapStyle(Qt.PenCapStyle.FlatCap)
    made = drawn_by(QgsLineSymbol() if kind == 'lines' else QgsFillSymbol(), pen)
    if kind == 'areas':
        made.insertSymbolLayer(0, fill())
    return made


def fill() -> QgsSymbolLayer:
    """The fill of those areas that have one."""
    made = QgsSimpleFillSymbolLayer(QColor(0, 0, 0, 0))
    made.setStrokeStyle(Qt.PenStyle.NoPen)
    colour = '''coalesce("fill", '0,0,0,0')'''
    made.setDataDefinedProperty(QgsSymbolLayer.Property.PropertyFillColor, QgsProperty.fromExpression(colour))
    return made


def drawn_by(symbol: QgsSymbol, layer: QgsSymbolLayer) -> QgsSymbol:
    """A symbol that is drawn by one layer alone."""
    if not symbol.changeSymbolLayer(0, layer):
        symbol.appendSymbolLayer(layer)
    return symbol


def marker(colour: str = BLACK) -> QgsSymbol:
    """A cross for an origin, and a dot, by its weight, for a line of one place; of this colour in a legend."""
    dot = QgsSimpleMarkerSymbolLayer()
    dot.setColor(QColor(colour))
    dot.setStrokeColor(QColor(colour))
    dot.setSizeUnit(QgsUnitTypes.RenderUnit.RenderMillimeters)
    shape = "if(%s, 'cross2', 'circle')" % HEADERS
    size = 'if(%s, 1.8, 0.5 + 0.3 * "weight")' % HEADERS
    for name, expression in (
        (QgsSymbolLayer.Property.PropertyName, shape),
        (QgsSymbolLayer.Property.PropertySize, size),
        (QgsSymbolLayer.Property.PropertyFillColor, COLOUR),
        (QgsSymbolLayer.Property.PropertyStrokeColor, COLOUR),
    ):
        dot.setDataDefinedProperty(name, QgsProperty.fromExpression(expression))
    return drawn_by(QgsMarkerSymbol(), dot)


def label_settings() -> QgsPalLayerSettings:
    """Labels that stand with their base line at the text's origin, all of them, as high as the text is."""
    form = QgsTextFormat()
    form.setSizeUnit(QgsUnitTypes.RenderUnit.RenderMapUnits)
    form.setSize(1)
    made = QgsPalLayerSettings()
    made.fieldName = 'text'
    made.setFormat(form)
    made.placement = QgsPalLayerSettings.Placement.OverPoint
    made.displayAll = True
    made.obstacle = False
    made.scaleVisibility = False
    made.fontLimitPixelSize = False
    made.upsidedownLabels = QgsPalLayerSettings.UpsideDownLabels.ShowAll
    values = made.dataDefinedProperties()
    for name, expression in (
        (QgsPalLayerSettings.Property.Size, '"height" / %s' % CAPITAL),
        (QgsPalLayerSettings.Property.Color, COLOUR),
        (QgsPalLayerSettings.Property.PositionX, '$x'),
        (QgsPalLayerSettings.Property.PositionY, '$y'),
        (QgsPalLayerSettings.Property.Hali, "'Left'"),
        (QgsPalLayerSettings.Property.Vali, "'Base'"),
        (QgsPalLayerSettings.Property.LabelRotation, '-"angle"'),
    ):
        values.setProperty(name, QgsProperty.fromExpression(expression))
    made.setDataDefinedProperties(values)
    return made


def dress_marks(layer: QgsVectorLayer) -> None:
    """Gives boxes around elements their look: an outline that one doesn't miss."""
    pen = QgsSimpleLineSymbolLayer(QColor('#ff7f00'), 0.6)
    layer.setRenderer(QgsSingleSymbolRenderer(drawn_by(QgsFillSymbol(), pen)))
