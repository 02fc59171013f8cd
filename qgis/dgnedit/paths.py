"""In the file of a project a drawing that lies below it is named as from there, so that both can be moved together."""

from typing import Any

from qgis.core import QgsMapLayer, QgsProject
from qgis.PyQt import sip

from .layers import DRAWING, drawing_layers, is_of_drawing

BELOW = './'  # what QGIS begins a name with that is relative, and doesn't lead out of the folder


class Paths:
    """Names the drawings of a project so while it is written; while it is open their names are whole."""

    def __init__(self, project: QgsProject) -> None:
        self.project = project
        self.find_all()
        project.readProject.connect(self.find_all)
        project.writeMapLayer.connect(self.write)

    def leave(self) -> None:
        """Does nothing any more. The project may be gone by then, where QGIS ends."""
        if sip.isdeleted(self.project):
            return
        self.project.readProject.disconnect(self.find_all)
        self.project.writeMapLayer.disconnect(self.write)

    def find_all(self, *_: Any) -> None:
        """Finds the drawings of a project that was read."""
        resolver = self.project.pathResolver()
        for layer in drawing_layers(self.project):
            layer.setCustomProperty(DRAWING, resolver.readPath(str(layer.customProperty(DRAWING))))

    def write(self, layer: QgsMapLayer, written: Any, *_: Any) -> None:
        """Changes the name of a drawing in what is written of a layer."""
        if not is_of_drawing(layer):
            return
        named = self.project.pathResolver().writePath(str(layer.customProperty(DRAWING)))
        options = written.elementsByTagName('Option')
        for option in (options.at(it).toElement() for it in range(options.count())):
            if option.attribute('name') == DRAWING and named.startswith(BELOW):
                option.setAttribute('value', named)
