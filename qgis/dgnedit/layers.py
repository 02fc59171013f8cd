"""The layers of a drawing in a project: a group for the drawing, in it a group for each level."""

import os
from dataclasses import dataclass
from pathlib import Path
from typing import Dict, Iterator, List, Optional, Sequence, Tuple

from dgnkit.drawing.drawing import Drawing
from qgis.core import (
    QgsCoordinateReferenceSystem,
    QgsLayerTreeGroup,
    QgsMapLayer,
    QgsProject,
    QgsRectangle,
    QgsVectorLayer,
)

from .forms import describe
from .legend import dress
from .opening import KINDS, Written, digest_of
from .rows import Wishes
from .translation import tr

DRAWING, DIGEST = 'dgnedit/drawing', 'dgnedit/digest'
UNITS, FLAGS = 'dgnedit/units', 'dgnedit/flags'
LEVEL, KIND, GROUP = 'dgnedit/level', 'dgnedit/kind', 'dgnedit/group'
Identity = Tuple[str, str, str]  # what a layer shows: its drawing, the digest of this, and the GeoPackage that has it
KINDS_SAID = {
    'texts': tr('texts'),
    'points': tr('points'),
    'lines': tr('lines'),
    'areas': tr('areas'),
    'ranges': tr('ranges'),
}
FLAG_NAMES = ('has_members', 'has_holes', 'has_deleted')


@dataclass
class Known:
    """A drawing that is open in the project: its file, the digest of its bytes, how it was opened, and the GeoPackage
    of its layers; and whether one of these is being edited."""

    drawing: str
    digest: str
    wishes: Wishes
    package: str = ''
    is_edited: bool = False

    @property
    def identity(self) -> Identity:
        """What tells its layers from others."""
        return self.drawing, self.digest, self.package


def add_to_project(project: QgsProject, written: Written) -> List[QgsVectorLayer]:
    """Adds a group for a drawing, on top of all, and gives its layers. Where that fails nothing of it is left."""
    group = new_group(project, written)
    made: List[QgsVectorLayer] = []
    try:
        fill_group(project, group, written, made)
    except BaseException:
        project.removeMapLayers([it.id() for it in made])
        project.layerTreeRoot().removeChildNode(group)
        raise
    return made


def new_group(project: QgsProject, written: Written) -> QgsLayerTreeGroup:
    """A group for a drawing, on top of all."""
    group = project.layerTreeRoot().insertGroup(0, Path(written.drawing).name)
    group.setCustomProperty(GROUP, True)
    return group


def fill_group(project: QgsProject, group: QgsLayerTreeGroup, written: Written, made: List[QgsVectorLayer]) -> None:
    """Adds the layers of a drawing to its group, by level, and to a list."""
    for level in sorted({level for level, _ in written.looks}):
        for kind in KINDS:
            if (level, kind) in written.looks:
                made.append(add_layer(project, group, written, level, kind))


def add_layer(project: QgsProject, group: QgsLayerTreeGroup, written: Written, level: int, kind: str) -> QgsVectorLayer:
    """Adds the layer of a level and a kind to the group of its drawing."""
    layer = layer_of(written, level, kind)
    project.addMapLayer(layer, False)
    below = level_group(group, level)
    kinds = [it.customProperty(KIND) for it in below.findLayers()]
    above = [it for it in kinds if it in KINDS and KINDS.index(it) < KINDS.index(kind)]
    node = below.insertLayer(len(above), layer)
    node.setCustomProperty(KIND, kind)
    node.setExpanded(False)
    return layer


def level_group(group: QgsLayerTreeGroup, level: int) -> QgsLayerTreeGroup:
    """The group of a level, which is made where there is none, behind those of lower levels."""
    groups = {int(it.customProperty(LEVEL, -1)): it for it in group.children()}
    if level not in groups:
        made = groups[level] = group.insertGroup(sum(it < level for it in groups), tr('level %d') % level)
        made.setCustomProperty(LEVEL, level)
        made.setExpanded(False)
    return groups[level]


def layer_of(written: Written, level: int, kind: str) -> QgsVectorLayer:
    """The layer of a level and a kind."""
    source = '%s|layername=%s|subset="level" = %d' % (written.package, kind, level)
    name = name_of(written.drawing, level, kind)
    layer = QgsVectorLayer(source, name, 'ogr', QgsVectorLayer.LayerOptions(loadDefaultStyle=False))
    layer.setCrs(written.wishes.system)
    wishes = written.wishes
    flags = ','.join(it for it in FLAG_NAMES if getattr(wishes, it))
    properties = {DRAWING: written.drawing, DIGEST: written.digest, UNITS: wishes.units, FLAGS: flags, KIND: kind}
    for key, value in properties.items():
        layer.setCustomProperty(key, value)
    layer.setCustomProperty(LEVEL, level)
    dress(layer, kind, written.looks[level, kind], written.colours)
    describe(layer)
    layer.setReadOnly(True)
    return layer


def name_of(drawing: str, level: int, kind: str) -> str:
    """What a layer of a drawing is called, unless one calls it otherwise."""
    return '%s %d %s' % (Path(drawing).stem, level, KINDS_SAID.get(kind, kind))


def place_of(layer: QgsVectorLayer) -> Tuple[int, str]:
    """The level and the kind of a layer."""
    return int(layer.customProperty(LEVEL, -1)), str(layer.customProperty(KIND))


def drawing_layers(project: Optional[QgsProject]) -> Iterator[QgsVectorLayer]:
    """All layers of drawings in a project."""
    for layer in project.mapLayers().values() if project is not None else ():
        if is_of_drawing(layer):
            yield layer


def is_of_drawing(layer: QgsMapLayer) -> bool:
    """Whether a layer is one of a drawing."""
    return isinstance(layer, QgsVectorLayer) and bool(layer.customProperty(DRAWING))


def package_of(layer: QgsVectorLayer) -> str:
    """The GeoPackage of a layer."""
    return str(layer.source()).split('|')[0]


def known_drawings(project: Optional[QgsProject]) -> List[Known]:
    """The drawings that are open in a project; to be asked in the main thread."""
    found: Dict[Identity, Known] = {}
    for layer in drawing_layers(project):
        known = known_of(layer)
        if known is not None:
            known.is_edited = found.setdefault(known.identity, known).is_edited or known.is_edited
            found[known.identity] = known
    return list(found.values())


def known_of(layer: Optional[QgsMapLayer]) -> Optional[Known]:
    """The drawing of a layer, none where it is one of none."""
    if layer is None or not is_of_drawing(layer):
        return None
    drawing, digest, package = identity_of(layer)
    return Known(drawing, digest, wishes_of(layer), package, bool(layer.isEditable()))


def identity_of(layer: QgsVectorLayer) -> Identity:
    """What a layer shows."""
    return str(layer.customProperty(DRAWING)), str(layer.customProperty(DIGEST)), package_of(layer)


def wishes_of(layer: QgsVectorLayer) -> Wishes:
    """How the drawing of a layer was opened."""
    flags = str(layer.customProperty(FLAGS, '')).split(',')
    made = Wishes(str(layer.customProperty(UNITS)), QgsCoordinateReferenceSystem(layer.crs()))
    for name in FLAG_NAMES:
        setattr(made, name, name in flags)
    return made


def wishes_for(known: Sequence[Known], drawing: Drawing) -> Wishes:
    """How a drawing is open in the project: by its file, or by its bytes; the usual way where it isn't."""
    path, digest = os.path.abspath(drawing.path), digest_of(drawing)
    same = [it for it in known if it.digest == digest] or [it for it in known if it.drawing == path]
    return next((it.wishes for it in same if it.drawing == path), same[0].wishes) if same else Wishes()


def hide_drawing(project: QgsProject, path: str) -> None:
    """Hides the groups of a drawing."""
    for layer in drawing_layers(project):
        group = group_of(project, layer) if layer.customProperty(DRAWING) == path else None
        if group is not None:
            group.setItemVisibilityChecked(False)
            group.setExpanded(False)


def group_of(project: QgsProject, layer: QgsVectorLayer) -> Optional[QgsLayerTreeGroup]:
    """The group of the drawing of a layer, none where the layer isn't in one any more."""
    node = project.layerTreeRoot().findLayer(layer.id())
    while node is not None and not node.customProperty(GROUP):
        node = node.parent()
    return node


def extent_of(layers: List[QgsVectorLayer]) -> QgsRectangle:
    """The least box that holds layers, of which there is one."""
    made = QgsRectangle(layers[0].extent())
    for layer in layers[1:]:
        made.combineExtentWith(layer.extent())
    return made
