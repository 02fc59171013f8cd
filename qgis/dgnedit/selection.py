"""Which elements are to be edited: the features that are selected in layers, numbers, or the rows of a table."""

import os
from bisect import bisect_left
from dataclasses import dataclass, field
from typing import Any, Dict, List, Optional, Sequence

from dgnkit.drawing.conditions import ask_numbers
from dgnkit.drawing.drawing import Drawing
from dgnkit.drawing.spans import Spans
from dgnkit.errors import Mistake
from dgnkit.format.element import described
from dgnkit.format.limits import ELEMENTS_MOST
from qgis.core import QgsFeatureRequest, QgsProcessingFeatureSource, QgsProject, QgsVectorLayer

from .calls import Call
from .layers import DIGEST, DRAWING, drawing_layers, is_of_drawing, package_of
from .opening import digest_of
from .package import digest_in
from .translation import tr

FIELD = 'number'
ASKED = ('type', 'level')  # fields of a row that have to be those of its element


@dataclass
class Selected:
    """The elements that are selected in a layer, and the drawing that it was opened from, with its digest, and that of
    the drawing which its GeoPackage holds now."""

    layer: str
    drawing: str
    digest: str
    numbers: List[int]
    held: str


@dataclass
class Row:
    """A row of a table: the number of its element, and what else it says of it."""

    number: int
    facts: Dict[str, int] = field(default_factory=dict)


def selected_in(call: Call, layers: Sequence[Any]) -> List[Selected]:
    """What is selected in layers, or where none are named in all layers of drawings; to be asked in the main thread."""
    asked = list(layers) or list(drawing_layers(call.project))
    for layer in asked:
        if not is_of_drawing(layer):
            raise Mistake(tr("%s isn't a layer that this plugin opened from a drawing") % layer.name())
    return [it for it in map(selected_of, asked) if it.numbers]


def selected_of(layer: QgsVectorLayer) -> Selected:
    """What is selected in a layer."""
    request = QgsFeatureRequest().setFlags(QgsFeatureRequest.Flag.NoGeometry)
    request.setSubsetOfAttributes([FIELD], layer.fields())
    numbers = [int(it[FIELD]) for it in layer.getSelectedFeatures(request)]
    drawing, digest = (str(layer.customProperty(it)) for it in (DRAWING, DIGEST))
    return Selected(layer.name(), drawing, digest, numbers, digest_in(package_of(layer)) if numbers else '')


def drawing_of(selected: Sequence[Selected]) -> str:
    """The one drawing that things are selected in, or nothing. It raises Mistake where there are several."""
    names = sorted({it.drawing for it in selected})
    if len(names) > 1:
        raise Mistake(tr('Things are selected in several drawings: %s. Name the drawing.') % ', '.join(names))
    return names[0] if names else ''


def ask_same(drawing: Drawing, selected: Sequence[Selected]) -> None:
    """It raises Mistake where a layer wasn't opened from this drawing, as it is."""
    digest = digest_of(drawing)
    for it in selected:
        if it.held != it.digest:
            said = tr('The file of the layer %s has been written anew, so it may show other elements: open %s again.')
            raise Mistake(said % (it.layer, it.drawing))
        if it.digest == digest:
            continue
        if it.drawing == os.path.abspath(drawing.path):
            said = tr('%s: the drawing %s was changed since this layer was opened from it: open it again.')
            raise Mistake(said % (it.layer, it.drawing))
        raise Mistake(tr('The layer %s was opened from %s, not from %s.') % (it.layer, it.drawing, drawing.path))


def rows_of(source: Optional[QgsProcessingFeatureSource]) -> List[Row]:
    """The rows of a table. It raises Mistake where one has no number."""
    if source is None:
        return []
    names = source.fields().names()
    if FIELD not in names:
        said = tr('The table has no field %r with the numbers of elements: there are %s')
        raise Mistake(said % (FIELD, ', '.join(names)))
    there = [it for it in ASKED if it in names]
    request = QgsFeatureRequest().setFlags(QgsFeatureRequest.Flag.NoGeometry)
    made = []
    for feature in source.getFeatures(request):
        number = whole(feature[FIELD])
        if number is None:
            raise Mistake(tr('A row of the table has no number of an element: %r') % feature[FIELD])
        facts = {name: whole(feature[name]) for name in there}
        made.append(Row(number, {name: value for name, value in facts.items() if value is not None}))
    return made


def whole(value: Any) -> Optional[int]:
    """A value as a whole number from 0 on, none where it isn't one."""
    try:
        number = float(value)
        return int(number) if number >= 0 and number == int(number) else None
    except (TypeError, ValueError, OverflowError):
        return None


def ask_rows(drawing: Drawing, rows: Sequence[Row]) -> None:
    """It raises Mistake where a row is of another element than the drawing has: it is a row of another drawing."""
    for row in rows:
        if row.number >= len(drawing.elements):
            said = tr("The table isn't of %s: it has an element %d, but the drawing has 0 to %d.")
            raise Mistake(said % (drawing.path, row.number, len(drawing.elements) - 1))
        element = drawing.elements[row.number]
        for name, value in row.facts.items():
            if value != getattr(element, name):
                said = tr("The table isn't of %s: its element %d has the %s %d, but in the drawing it is %s.")
                raise Mistake(said % (drawing.path, row.number, name, value, described(element)))


def numbers_of(word: str) -> List[int]:
    """The numbers of a text, as 12 or 3-5,9."""
    if not word:
        return []
    spans = Spans.read('number of an element', [word], ELEMENTS_MOST - 1).spans
    if sum(high - low + 1 for low, high in spans) > ELEMENTS_MOST:
        raise Mistake(tr('%r names too many elements') % word)
    return [number for low, high in spans for number in range(low, high + 1)]


def chosen(drawing: Drawing, selected: Sequence[Selected], named: Sequence[int], rows: Sequence[Row]) -> List[int]:
    """The numbers of all that is chosen, each once. It raises Mistake where nothing is, or not of this drawing."""
    ask_same(drawing, selected)
    ask_rows(drawing, rows)
    found = {number for it in selected for number in it.numbers}
    found.update(it.number for it in rows)
    found.update(named)
    if not found:
        raise Mistake(tr('Nothing is selected: select features of the drawing, or give the numbers of its elements.'))
    made = sorted(found)
    ask_numbers(drawing, made, 'the selection')
    return made


def spelled(numbers: Sequence[int]) -> str:
    """Numbers as one writes them: 3-5,9."""
    pieces: List[str] = []
    at = 0
    while at < len(numbers):
        end = at
        while end + 1 < len(numbers) and numbers[end + 1] == numbers[end] + 1:
            end += 1
        pieces.append(str(numbers[at]) if end == at else '%d-%d' % (numbers[at], numbers[end]))
        at = end + 1
    return ','.join(pieces)


def move_selection(project: QgsProject, old: str, new: str, numbers: Sequence[int]) -> None:
    """Selects in the layers of a new drawing what was selected in those of the old one, and nothing in these."""
    for layer in drawing_layers(project):
        if layer.customProperty(DRAWING) == old:
            layer.removeSelection()
        elif layer.customProperty(DRAWING) == new:
            select(layer, numbers)


def select(
    layer: QgsVectorLayer, numbers: Sequence[int], method: Any = QgsVectorLayer.SelectBehavior.SetSelection
) -> None:
    """Selects the features that stand for some elements."""
    request = QgsFeatureRequest().setFlags(QgsFeatureRequest.Flag.NoGeometry)
    request.setSubsetOfAttributes(['number', 'last'], layer.fields())
    found = []
    for feature in layer.getFeatures(request):
        at = bisect_left(numbers, feature['number'])
        if at < len(numbers) and numbers[at] <= feature['last']:
            found.append(feature.id())
    layer.selectByIds(found, method)
