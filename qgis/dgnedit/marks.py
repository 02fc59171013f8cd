"""Tables with a row for each element that something is said of, and a box around it, so that one can zoom to it."""

from typing import Any, Dict, Iterable, List, Optional, Sequence, Tuple

from dgnkit.drawing.drawing import Drawing
from dgnkit.format.numbers import Point
from dgnkit.format.places import Scale
from qgis.core import (
    Qgis,
    QgsAction,
    QgsAttributeTableConfig,
    QgsFeature,
    QgsFeatureSink,
    QgsField,
    QgsFields,
    QgsGeometry,
    QgsMapLayer,
    QgsProcessing,
    QgsProcessingContext,
    QgsProcessingFeedback,
    QgsProcessingLayerPostProcessorInterface,
    QgsProcessingParameterFeatureSink,
    QgsRectangle,
    QgsVectorLayer,
    QgsWkbTypes,
)
from qgis.PyQt.QtCore import QMetaType, QVariant

from .calls import Call
from .rows import Wishes
from .styles import dress_marks
from .translation import tr

Row = Sequence[Any]
# The types of fields, which are those of QMetaType from QGIS 3.38 on.
if Qgis.QGIS_VERSION_INT >= 33800:
    TYPES = {int: QMetaType.Type.Int, str: QMetaType.Type.QString, bool: QMetaType.Type.Bool}
else:
    TYPES = {int: QVariant.Type.Int, str: QVariant.Type.String, bool: QVariant.Type.Bool}
SHARE = 0.002  # how much of the drawing a box is wider on each side than its element
WIDE = {'is': 240, 'command': 200, 'changes': 160, 'finding': 780, 'why': 780, 'words': 480}  # pixels
ZOOM = (
    'from qgis.utils import iface\n'
    "iface.mapCanvas().zoomToFeatureIds(QgsProject.instance().mapLayer('[% @layer_id %]'), [int([% $id %])])\n"
)


def sink_parameter(name: str, said: str) -> QgsProcessingParameterFeatureSink:
    """The parameter of such a table."""
    return QgsProcessingParameterFeatureSink(name, said, QgsProcessing.SourceType.TypeVectorPolygon, None, True)


class Boxes:
    """The boxes around elements of a drawing, in the units of its layers."""

    def __init__(self, drawing: Drawing, wishes: Wishes) -> None:
        self.drawing = drawing
        self.scale = Scale(drawing.units, wishes.units)
        extent = drawing.extent
        corners = [self.rectangle(extent[0], extent[1], 0.0)] if extent else []
        self.margin = max([SHARE * max(it.width(), it.height()) for it in corners], default=0.0) or 1.0

    def rectangle(self, low: Point, high: Point, margin: float) -> QgsRectangle:
        """A box with these corners."""
        (left, below), (right, above) = self.scale.said(low)[:2], self.scale.said(high)[:2]
        return QgsRectangle(left, below, right, above).buffered(margin)

    def around(self, number: Optional[int]) -> Optional[QgsGeometry]:
        """A box around an element, none where it isn't there or is nothing that is drawn."""
        if number is None or number >= len(self.drawing.elements):
            return None
        stored = self.drawing.elements[number].range
        if stored is None:
            return None
        return QgsGeometry.fromRect(self.rectangle(stored[0], stored[1], self.margin))


class Marks:
    """A table that is written: its fields with their types, and rows, each with the element that it is at."""

    def __init__(self, call: Call, name: str, fields: Dict[str, type], wishes: Wishes) -> None:
        self.made = QgsFields()
        for title, kind in fields.items():
            self.made.append(QgsField(title, TYPES[kind]))
        self.sink, self.id = None, ''
        if call.algorithm.parameterDefinition(name) is not None:
            self.sink, self.id = call.algorithm.parameterAsSink(
                call.parameters, name, call.context, self.made, QgsWkbTypes.Type.Polygon, wishes.system
            )
        if self.id and call.context.willLoadLayerOnCompletion(self.id):
            after = Dress()
            KEPT.append(after)
            call.context.layerToLoadOnCompletionDetails(self.id).setPostProcessor(after)

    def add(self, rows: Iterable[Tuple[Optional[QgsGeometry], Row]]) -> None:
        """Adds rows, each with its box."""
        if self.sink is None:
            return
        for box, row in rows:
            feature = QgsFeature(self.made)
            feature.setAttributes(list(row))
            if box is not None:
                feature.setGeometry(box)
            self.sink.addFeature(feature, QgsFeatureSink.Flag.FastInsert)

    def do_not_load(self, call: Call) -> None:
        """Keeps the table from being added to the project."""
        waiting = call.context.layersToLoadOnCompletion()
        details = waiting.pop(self.id, None)
        call.context.setLayersToLoadOnCompletion(waiting)
        if details is not None and details.postProcessor() in KEPT:
            KEPT.remove(details.postProcessor())


class Dress(QgsProcessingLayerPostProcessorInterface):
    """Gives such a table its look once it is in the project, and a button for each row that zooms to it."""

    def postProcessLayer(
        self, layer: QgsMapLayer, context: QgsProcessingContext, feedback: QgsProcessingFeedback
    ) -> None:
        if isinstance(layer, QgsVectorLayer):
            dress_marks(layer)
            add_zoom(layer)
        if self in KEPT:
            KEPT.remove(self)


KEPT: List[Dress] = []  # what QGIS keeps no reference to until it is called


def add_zoom(layer: QgsVectorLayer) -> None:
    """Adds the button."""
    action = QgsAction(QgsAction.ActionType.GenericPython, tr('Zoom to it'), ZOOM, False)
    action.setActionScopes({'Feature', 'Canvas'})
    layer.actions().addAction(action)
    config = layer.attributeTableConfig()
    config.update(layer.fields())
    config.setActionWidgetVisible(True)
    config.setActionWidgetStyle(QgsAttributeTableConfig.ActionWidgetStyle.ButtonList)
    # the button first, where it is seen however wide the table is
    columns = config.columns()
    buttons = [it for it in columns if it.type == QgsAttributeTableConfig.Type.Action]
    config.setColumns([*buttons, *(it for it in columns if it.type != QgsAttributeTableConfig.Type.Action)])
    for index, column in enumerate(config.columns()):
        if column.name in WIDE:
            config.setColumnWidth(index, WIDE[column.name])
    layer.setAttributeTableConfig(config)
