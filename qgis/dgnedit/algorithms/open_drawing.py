"""Opens a drawing."""

from typing import List

from qgis.core import (
    QgsCoordinateReferenceSystem,
    QgsCoordinateTransform,
    QgsCsException,
    QgsProcessing,
    QgsProcessingOutputNumber,
    QgsProcessingOutputVectorLayer,
    QgsProcessingParameterFileDestination,
    QgsProject,
    QgsRectangle,
    QgsVectorLayer,
)

from ..calls import Call
from ..layers import KINDS_SAID, add_to_project, extent_of
from ..opening import KINDS, write_layers
from ..rows import Wishes
from ..translation import tr
from .base import PACKAGES, UNITS, DgnAlgorithm, Results, opened

TYPES = {
    'texts': QgsProcessing.SourceType.TypeVectorPoint,
    'points': QgsProcessing.SourceType.TypeVectorPoint,
    'lines': QgsProcessing.SourceType.TypeVectorLine,
    'areas': QgsProcessing.SourceType.TypeVectorPolygon,
    'ranges': QgsProcessing.SourceType.TypeVectorPolygon,
}
NAMES = {
    'texts': tr('Texts'),
    'points': tr('Points, and the origins of cells and text nodes'),
    'lines': tr('Lines'),
    'areas': tr('Areas'),
    'ranges': tr('What is known by its range alone'),
}


class OpenDrawing(DgnAlgorithm):
    """A drawing as layers."""

    NAME = 'open'
    TITLE = tr('Open a drawing')
    SHORT = tr('Opens a design file as layers, by level and by geometry, with its colours, weights, styles and texts.')
    HELP = tr(
        'Each drawing is a group, with a group for each level. In it are layers of lines, areas, points, texts and '
        "ranges: the boxes of elements whose coordinates aren't read, such as dimensions. Each feature has the number "
        'of its element, by which it is edited, and that of the root of its tree.\n\n'
        "Coordinates are in master units, such as metres, if the drawing defines them. The drawing doesn't say which "
        'coordinate reference system they are in: choose one, or leave it open.\n\n'
        'The layers are kept in a GeoPackage. Name a file for it, or they are lost when QGIS is closed. They are '
        'read-only: edit the drawing with the other commands of this plugin.'
    )
    CHANGES = tr(
        'The drawing is only read. A GeoPackage is written, and a group of layers is added to the project, whose other '
        'layers stay as they are.'
    )
    TAGS = 'open read load import layers cad'

    def define(self) -> None:
        self.add_drawing()
        self.add_system()
        self.add_flag('HOLES', tr('Areas with holes as such'), True, tr('A cell of an area and its holes is one area.'))
        said = tr('Each piece beside the whole that it is a piece of.')
        self.add_flag('MEMBERS', tr('Also the members of complex chains and shapes'), False, said, True)
        said = tr('Such as to take a deletion back.')
        self.add_flag('DELETED', tr('Also what is marked deleted'), False, said, True)
        self.add(
            QgsProcessingParameterFileDestination('OUTPUT', tr('Save layers to'), PACKAGES),
            tr('The file that the layers are kept in.'),
        )
        said = tr('Only one that this plugin has written; others are never replaced.')
        self.add_flag('OVERWRITE', tr('Replace the GeoPackage if it is there'), False, said, True)
        self.add_flag(
            'LOAD', tr('Add the layers to the project'), True, tr('Otherwise only the GeoPackage is written.')
        )
        for kind in KINDS:
            self.addOutput(QgsProcessingOutputVectorLayer(kind.upper(), NAMES[kind], TYPES[kind]))
            self.addOutput(QgsProcessingOutputNumber(kind.upper() + '_COUNT', tr('%s: how many') % NAMES[kind]))

    def work(self, call: Call) -> Results:
        call.doing(tr('The drawing is read'), 0.0)
        drawing = opened(call.file('DRAWING'))
        wishes = Wishes(
            call.choice('UNITS', UNITS), call.system(), call.flag('MEMBERS'), call.flag('HOLES'), call.flag('DELETED')
        )
        package = self.layers_file(call, 'OUTPUT')
        count = len(drawing.elements)
        call.doing(tr('The layers are written'), 0.1)
        self.written = write_layers(drawing, package, wishes, lambda it: call.done(0.1 + 0.8 * it))
        counts = self.written.counts
        call.say(tr('%d elements; %s') % (count, ', '.join('%d %s' % (counts[it], KINDS_SAID[it]) for it in KINDS)))
        sources = {it.upper(): '%s|layername=%s' % (package, it) for it in KINDS}
        return {'OUTPUT': package, **sources, **{it.upper() + '_COUNT': counts[it] for it in KINDS}}

    def finish(self, call: Call) -> None:
        if not call.flag('LOAD') or call.project is None:
            return
        is_first = not call.project.mapLayers()
        layers = add_to_project(call.project, self.written)
        if is_first:
            call.project.setCrs(self.written.wishes.system)
        if layers:
            show(call, layers)


def show(call: Call, layers: List[QgsVectorLayer]) -> None:
    """Lets the map, where there is a window, show layers."""
    from qgis.utils import iface

    if iface is not None and iface.mapCanvas() is not None and call.project is not None:
        canvas = iface.mapCanvas()
        canvas.setExtent(seen_extent(layers, canvas.mapSettings().destinationCrs(), call.project))
        canvas.refresh()


def seen_extent(
    layers: List[QgsVectorLayer], system: QgsCoordinateReferenceSystem, project: QgsProject
) -> QgsRectangle:
    """The least box that holds layers, in a system of coordinates; in their own where one of both isn't known, or the
    one can't be had of the other."""
    extent, own = extent_of(layers), layers[0].crs()
    if not own.isValid() or not system.isValid() or own == system:
        return extent
    try:
        return QgsCoordinateTransform(own, system, project).transformBoundingBox(extent)
    except QgsCsException:
        return extent
