"""How the fields of a layer are called and shown: in its table, in the form of a feature, and as map tips."""

from qgis.core import QgsEditorWidgetSetup, QgsExpression, QgsVectorLayer

from .styles import STYLE, STYLE_NAMES
from .translation import tr

ALIASES = {
    'number': tr('Element'),
    'last': tr('Last element of it'),
    'root': tr('Root of its tree'),
    'depth': tr('Depth below the root'),
    'type': tr('Type'),
    'type_name': tr('Type in words'),
    'level': tr('Level'),
    'colour': tr('Colour'),
    'rgb': tr('Colour as red, green, blue'),
    'weight': tr('Weight'),
    'style': tr('Line style'),
    'text': tr('Text'),
    'height': tr('Height of the text'),
    'angle': tr('Angle of the text'),
    'cell': tr('Cell'),
    'graphic_group': tr('Graphic group'),
    'mslink': tr('Row in the database (MSLINK)'),
    'entity': tr('Table in the database (entity)'),
    'fill': tr('Colour of the fill'),
    'deleted': tr('Marked deleted'),
    'locked': tr('Locked'),
    'broken': tr('In a broken tree'),
    'why': tr('Why it is broken'),
}
LOOK = tr('level {level}, colour {colour}, weight {weight}, style {style}')
STATES = (('locked', tr(', locked')), ('broken', tr(', in a broken tree')))


def map_tip() -> str:
    """What is said of a feature that the mouse points at, with the fields of it."""
    names = '<b>[% "type_name" %] [% "number" %]</b> [% coalesce("cell", \'\') %] [% coalesce("text", \'\') %]<br>'
    look = LOOK.format(**{it: '[%% "%s" %%]' % it for it in ('level', 'colour', 'weight', 'style')})
    states = ['[%% if("%s", %s, \'\') %%]' % (it, QgsExpression.quotedString(said)) for it, said in STATES]
    return ''.join([names, look, *states])


def describe(layer: QgsVectorLayer) -> None:
    """Gives the fields of a layer their names, and the layer its map tips."""
    fields = layer.fields()
    for name, alias in ALIASES.items():
        layer.setFieldAlias(fields.indexOf(name), alias)
    styles = [{'%d %s' % (number, name): number} for number, name in enumerate(STYLE_NAMES)]
    layer.setEditorWidgetSetup(fields.indexOf(STYLE), QgsEditorWidgetSetup('ValueMap', {'map': styles}))
    layer.setMapTipTemplate(map_tip())
