"""The layers of a drawing become those of the drawing that was made of it: what differs is exchanged, and all else
stays, such as how they look and which of them are hidden."""

import sqlite3
from pathlib import Path
from typing import Callable, List, Sequence, Set

from dgnkit.drawing.drawing import Drawing
from dgnkit.errors import Mistake
from qgis.core import QgsFeatureRequest, QgsProject, QgsVectorLayer

from .changed import changed_numbers
from .layers import (
    DIGEST,
    DRAWING,
    Known,
    add_layer,
    drawing_layers,
    group_of,
    identity_of,
    name_of,
    new_group,
    place_of,
)
from .legend import renew_legend
from .opening import STEP, Written, digest_of
from .package import not_written
from .rows import Row, Rows
from .translation import tr
from .update import Update

MOST = 0.3  # of a greater share of the elements not only the rows of these are written, but all
IS_EDITED = tr('one of its layers is being edited')
Tell = Callable[[float], None]


class Renewal:
    """The layers of a drawing, which become those of another one once that is kept."""

    def __init__(self, known: Known, old: Drawing, new: Drawing, tell: Tell) -> None:
        """Prepares it, in any thread. It raises Mistake where it can't be done. `tell` is told the share that is done,
        and may raise what ends it."""
        if known.is_edited:
            raise Mistake(IS_EDITED)
        if old.axes != new.axes:
            raise Mistake(tr('the new drawing has %d dimensions') % new.axes)
        self.known, self.written = known, Written(
            known.package, new.path, digest_of(new), known.wishes, new.palette.spelled
        )
        self.update = Update(known.package, known.digest)
        try:
            before, after = Rows(old, known.wishes), Rows(new, known.wishes)
            self.numbers = changed_numbers(before.placing, after.placing, before.reasons, after.reasons)
            count = max(len(old.elements), len(new.elements))
            self.is_all = len(self.numbers) > MOST * count
            self.numbers = list(range(count)) if self.is_all else self.numbers
            self.exchange(self.made(after, tell))
        except sqlite3.Error as why:
            self.drop()
            raise not_written(known.package, why)
        except BaseException:
            self.drop()
            raise

    def made(self, rows: Rows, tell: Tell) -> List[Row]:
        """The new rows of all that differs."""
        made: List[Row] = []
        for row in rows.of(self.numbers):
            if len(made) % STEP == 0:
                tell(len(made) / len(self.numbers))
            made.append(row)
        return made

    def exchange(self, rows: Sequence[Row]) -> None:
        """Exchanges the rows of all that differs."""
        places = self.update.places(None if self.is_all else self.numbers) | {(it.level, it.kind) for it in rows}
        self.before = self.update.looks(places)
        self.update.exchange(rows, self.written.digest)
        self.written.looks = self.update.looks(places)

    def drop(self) -> None:
        """Leaves all as it is."""
        self.update.drop()

    def keep(self, project: QgsProject) -> None:
        """Does it, in the main thread. It raises Mistake where it can't be done; the layers stay as they are then."""
        layers = [it for it in drawing_layers(project) if identity_of(it) == self.known.identity]
        if any(it.isEditable() for it in layers):
            self.drop()
            raise Mistake(IS_EDITED)
        stop_drawing()
        self.update.keep()
        selected = {number for it in layers for number in it.selectedFeatureIds()}
        for layer in layers:
            self.rename(project, layer)
        layers += self.added(project, layers)
        for layer in layers:
            if place_of(layer) in self.before:
                self.renew(layer, selected)

    def rename(self, project: QgsProject, layer: QgsVectorLayer) -> None:
        """Lets a layer, and the group that it is in, be those of the new drawing; names that a user gave stay."""
        old, new = self.known.drawing, self.written.drawing
        layer.setCustomProperty(DRAWING, new)
        layer.setCustomProperty(DIGEST, self.written.digest)
        if layer.name() == name_of(old, *place_of(layer)):
            layer.setName(name_of(new, *place_of(layer)))
        group = group_of(project, layer)
        if group is not None and group.name() == Path(old).name:
            group.setName(Path(new).name)

    def added(self, project: QgsProject, layers: Sequence[QgsVectorLayer]) -> List[QgsVectorLayer]:
        """Adds a layer for each place that had nothing, and now has."""
        there = {place_of(it) for it in layers}
        wanted = sorted(it for it, looks in self.written.looks.items() if looks and not self.before[it])
        missing = [it for it in wanted if it not in there]
        if not missing:
            return []
        groups = (group_of(project, it) for it in layers)
        group = next((it for it in groups if it is not None), None) or new_group(project, self.written)
        return [add_layer(project, group, self.written, *it) for it in missing]

    def renew(self, layer: QgsVectorLayer, selected: Set[int]) -> None:
        """Lets a layer show what its table holds now, with the same features selected."""
        place = place_of(layer)
        renew_legend(layer, place[1], self.before[place], self.written.looks[place], self.written.colours)
        layer.reload()
        layer.updateExtents(True)
        moved = selected.intersection(self.numbers)
        request = QgsFeatureRequest().setFilterFids(list(moved)).setFlags(QgsFeatureRequest.Flag.NoGeometry)
        # features that are asked for by their numbers come from all levels
        there = [it.id() for it in layer.getFeatures(request) if it['level'] == place[0]] if moved else []
        layer.selectByIds([*(it for it in layer.selectedFeatureIds() if it not in moved), *there])
        layer.triggerRepaint()


def stop_drawing() -> None:
    """Lets the map, where there is a window, read no layer while its table changes."""
    from qgis.utils import iface

    if iface is not None and iface.mapCanvas() is not None:
        iface.mapCanvas().stopRendering()
