"""Places that are pointed at on the map: a distance to move or copy by, and the line of what is drawn."""

from typing import Any, Callable, Dict, List

from qgis.core import QgsCoordinateReferenceSystem, QgsCoordinateTransform, QgsCsException, QgsPointXY, QgsProject
from qgis.gui import QgsMapMouseEvent, QgsMapTool, QgsRubberBand
from qgis.PyQt.QtCore import Qt
from qgis.PyQt.QtGui import QColor

Parameters = Dict[str, Any]
DIGITS = 9  # behind the point, which no unit of resolution is smaller than


class Pointing(QgsMapTool):
    """Takes places by the left button, as the project snaps them, up to a number of these or to the right button."""

    def __init__(self, canvas: Any, most: int, done: Callable[[List[QgsPointXY]], None]) -> None:
        super().__init__(canvas)
        self.most, self.done, self.before = most, done, canvas.mapTool()
        self.places: List[QgsPointXY] = []
        self.band = QgsRubberBand(canvas)
        self.band.setColor(QColor('#ff7f00'))
        self.band.setWidth(2)
        self.setCursor(Qt.CursorShape.CrossCursor)

    def canvasReleaseEvent(self, event: QgsMapMouseEvent) -> None:
        if event.button() == Qt.MouseButton.LeftButton:
            self.places.append(event.snapPoint())
        if event.button() == Qt.MouseButton.RightButton or len(self.places) == self.most:
            places = self.places
            self.end()
            self.done(places)

    def canvasMoveEvent(self, event: QgsMapMouseEvent) -> None:
        if self.places:
            self.band.reset()
            for place in (*self.places, event.snapPoint()):
                self.band.addPoint(place)

    def keyPressEvent(self, event: Any) -> None:
        if event.key() == Qt.Key.Key_Escape:
            self.end()

    def end(self) -> None:
        """Gives the map the tool back that it had."""
        self.canvas().unsetMapTool(self)
        if self.before is not None:
            self.canvas().setMapTool(self.before)

    def deactivate(self) -> None:
        self.band.reset()
        self.places = []
        super().deactivate()


def in_system(
    places: List[QgsPointXY], own: QgsCoordinateReferenceSystem, wanted: QgsCoordinateReferenceSystem
) -> List[QgsPointXY]:
    """Places of the map in the system of a drawing; as they are where one of both isn't known."""
    if not own.isValid() or not wanted.isValid() or own == wanted:
        return places
    transform = QgsCoordinateTransform(own, wanted, QgsProject.instance())
    try:
        return [transform.transform(it) for it in places]
    except QgsCsException:
        return places


def distance(places: List[QgsPointXY]) -> Parameters:
    """The parameters of a distance from the first place to the second."""
    one, other = places[:2]
    return {'DX': round(other.x() - one.x(), DIGITS), 'DY': round(other.y() - one.y(), DIGITS)}


def line(places: List[QgsPointXY]) -> Parameters:
    """The parameters of a line; of an area where it ends where it began."""
    words = ', '.join('%r %r' % (round(it.x(), DIGITS), round(it.y(), DIGITS)) for it in places)
    is_closed = len(places) > 3 and places[0] == places[-1]
    return {'GEOMETRY': 'Polygon ((%s))' % words if is_closed else 'LineString (%s)' % words}
