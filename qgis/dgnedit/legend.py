"""How layers look, and their legends: an entry for each colour, and each line style of it, with the number of the
colour and how many features have it."""

from typing import Dict, List, Mapping, Sequence

from qgis.core import (
    QgsCategorizedSymbolRenderer,
    QgsFeatureRenderer,
    QgsNullSymbolRenderer,
    QgsRendererCategory,
    QgsSingleSymbolRenderer,
    QgsSymbol,
    QgsVectorLayer,
    QgsVectorLayerSimpleLabeling,
)

from .rows import LOOK, STYLES
from .styles import BLACK, STYLE, STYLE_NAMES, WHITE, label_settings, marker, symbol_of
from .translation import tr

COLOUR = 'colour'  # the field
LINED = ('lines', 'areas')  # what has line styles
MOST = 48  # a legend of more entries isn't read, and takes long to make
Counts = Mapping[int, int]


def dress(layer: QgsVectorLayer, kind: str, looks: Counts, colours: Sequence[str]) -> None:
    """Gives a layer of this kind its look; `looks` says how many features have which."""
    if kind == 'texts':
        layer.setRenderer(QgsNullSymbolRenderer())
        layer.setLabeling(QgsVectorLayerSimpleLabeling(label_settings()))
        layer.setLabelsEnabled(True)
    else:
        layer.setRenderer(renderer_of(kind, looks, colours))
    layer.setDisplayExpression(
        '''concat("type_name", ' ', "number", coalesce(' ' || "cell", ''), coalesce(' ' || "text", ''))'''
    )


def renderer_of(kind: str, looks: Counts, colours: Sequence[str]) -> QgsFeatureRenderer:
    """A category for each colour and style; where there are too many, for each style alone, or none."""
    attribute = LOOK if kind in LINED else COLOUR
    if len(entries(attribute, looks)) > MOST:
        if kind not in LINED:
            return QgsSingleSymbolRenderer(symbol(kind, 0, BLACK))
        attribute = STYLE
    return QgsCategorizedSymbolRenderer(attribute, categories(attribute, kind, looks, colours))


def categories(attribute: str, kind: str, looks: Counts, colours: Sequence[str]) -> List[QgsRendererCategory]:
    """The categories by an attribute."""
    counts = entries(attribute, looks)
    return [category(attribute, kind, value, counts[value], colours) for value in sorted(counts)]


def entries(attribute: str, looks: Counts) -> Dict[int, int]:
    """How many features have which value of an attribute."""
    made: Dict[int, int] = {}
    for look, count in looks.items():
        value = {LOOK: look, COLOUR: look // STYLES, STYLE: look % STYLES}[attribute]
        made[value] = made.get(value, 0) + count
    return made


def category(attribute: str, kind: str, value: int, count: int, colours: Sequence[str]) -> QgsRendererCategory:
    """The category of a value of an attribute."""
    if attribute == STYLE:
        return QgsRendererCategory(value, symbol_of(kind, value), STYLE_NAMES[value] + counted(count))
    colour, style = divmod(value, STYLES) if attribute == LOOK else (value, 0)
    said = tr('colour %d, %s') % (colour, STYLE_NAMES[style]) if style else tr('colour %d') % colour
    shown = BLACK if colours[colour] == WHITE else colours[colour]
    return QgsRendererCategory(value, symbol(kind, style, shown), said + counted(count))


def counted(count: int) -> str:
    """How many features an entry is of."""
    return ' (%d)' % count


def symbol(kind: str, style: int, colour: str) -> QgsSymbol:
    """What a feature is drawn by."""
    return marker(colour) if kind == 'points' else symbol_of(kind, style, colour)


def renew_legend(layer: QgsVectorLayer, kind: str, before: Counts, looks: Counts, colours: Sequence[str]) -> None:
    """Lets the legend of a layer say how many features have which look now, and adds what it comes to show. What a user
    has made of it stays."""
    renderer = layer.renderer()
    if not isinstance(renderer, QgsCategorizedSymbolRenderer) or renderer.classAttribute() not in (LOOK, COLOUR, STYLE):
        return
    made, attribute = renderer.clone(), renderer.classAttribute()
    old, new = entries(attribute, before), entries(attribute, looks)
    for index, it in enumerate(made.categories()):
        label, end = it.label(), counted(old.get(it.value(), 0))
        if label.endswith(end):
            made.updateCategoryLabel(index, label[: -len(end)] + counted(new.get(it.value(), 0)))
    there = [it.value() for it in made.categories()]
    for value in sorted(it for it in new if it not in there):
        made.addCategory(category(attribute, kind, value, new[value], colours))
        made.moveCategory(len(there), sum(it < value for it in there if isinstance(it, int)))
        there.append(value)
    layer.setRenderer(made)
