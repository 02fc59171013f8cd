"""What a new user does in QGIS, by its menus and dialogues: installs the plugin, names the program, opens a drawing,
mends it, recolours a road, moves a parcel, and compares. It runs in QGIS itself, and leaves what it found in a file."""

import faulthandler
import json
import os
import shutil
import sys
import time
import traceback
import zipfile
from pathlib import Path
from typing import Any, Callable, Dict, List, Optional

from processing.gui.AlgorithmDialog import AlgorithmDialog
from qgis.core import QgsApplication, QgsPointXY, QgsProject, QgsSettings, QgsVectorLayer
from qgis.PyQt.QtCore import QMimeData, QPoint, QPointF, Qt, QTimer, QUrl
from qgis.PyQt.QtGui import QDragEnterEvent, QDropEvent
from qgis.PyQt.QtTest import QTest
from qgis.PyQt.QtWidgets import QAction, QApplication, QDialogButtonBox, QTextEdit
from qgis.utils import active_plugins, iface, loadPlugin, startPlugin, unloadPlugin

WORK = Path(os.environ['WORK'])
FACTS = json.loads((WORK / 'facts.json').read_text())
PICTURES = Path(FACTS['pictures']) if FACTS.get('pictures') else None
found: Dict[str, Any] = {'steps': []}


def wait(seconds: float, until: Callable[[], bool] = lambda: False) -> None:
    """Lets QGIS work for so long, or until something holds."""
    end = time.monotonic() + seconds
    while time.monotonic() < end and not until():
        QApplication.processEvents()
        time.sleep(0.02)


def picture(name: str, widget: Optional[Any] = None) -> None:
    """Keeps a picture of the window, or of a part of it."""
    if PICTURES is not None:
        wait(20, lambda: not iface.mapCanvas().isDrawing())
        wait(0.5)
        (widget or iface.mainWindow()).grab().save(str(PICTURES / name))


def menu_action(title: str) -> QAction:
    """The entry of the plugin's menu with this title."""
    actions = [it for it in iface.mainWindow().findChildren(QAction) if it.text().startswith(title + ' …')]
    return actions[0]


def by_dialogue(
    title: str, parameters: Dict[str, Any], name: str = '', start: Optional[Callable[[], None]] = None
) -> List[str]:
    """Opens the dialogue of an algorithm, by the menu unless by something else, fills it in, presses Run, and closes
    it; what its log says."""
    said: List[str] = []
    before = len(found['steps'])

    def fill() -> None:
        shown = [it for it in QApplication.topLevelWidgets() if isinstance(it, AlgorithmDialog) and it.isVisible()]
        if not shown:
            QTimer.singleShot(50, fill)
            return
        dialogue = shown[0]
        try:
            wait(0.3)
            drawing = dialogue.mainWidget().wrappers['DRAWING'] if start else None
            found['preset'] = drawing.parameterValue() if drawing else None
            dialogue.setParameters(parameters)
            wait(0.3)
            if name:
                picture(name, dialogue)
            ended: List[bool] = []
            dialogue.algorithmFinished.connect(lambda ok, results: ended.append(ok))
            dialogue.runButton().click()
            wait(60, lambda: bool(ended))
            wait(0.3)
            said.extend(it.toPlainText() for it in dialogue.findChildren(QTextEdit))
            found['steps'].append([title, ended])
        finally:
            dialogue.buttonBox().button(QDialogButtonBox.StandardButton.Close).click()

    QTimer.singleShot(50, fill)
    (start or menu_action(title).trigger)()
    wait(60, lambda: len(found['steps']) > before or 'wrong' in found)
    return said


def layer(name: str) -> QgsVectorLayer:
    """The layer of this name."""
    return QgsProject.instance().mapLayersByName(name)[0]


def open_levels() -> None:
    """Shows the levels of the drawing, and the legend of a layer."""
    for group in QgsProject.instance().layerTreeRoot().children():
        group.setExpanded(True)
    node = QgsProject.instance().layerTreeRoot().findLayer(layer('mended 12 lines').id())
    node.parent().setExpanded(True)
    node.setExpanded(True)


def say_of(name: str, field: str) -> Dict[str, Any]:
    """A field of each feature of a layer."""
    return {str(it['number']): it[field] for it in layer(name).getFeatures()}


def places_of(name: str) -> Dict[str, List[float]]:
    """The box of each feature of a layer."""
    boxes = {str(it['number']): it.geometry().boundingBox() for it in layer(name).getFeatures()}
    return {key: [box.xMinimum(), box.yMinimum(), box.xMaximum(), box.yMaximum()] for key, box in boxes.items()}


def install() -> None:
    """By QGIS's own installer, which starts the plugin."""
    import pyplugin_installer

    pyplugin_installer.instance().installFromZipFile(FACTS['zip'])
    found['installed'] = [name for name in active_plugins if name == 'dgnedit']


def without_the_program() -> None:
    """Nothing is named yet: the log says what to install."""
    log = by_dialogue('Open a drawing', {'DRAWING': str(WORK / 'town.dgn'), 'OUTPUT': str(WORK / 'none.gpkg')})
    found['missing'] = ' '.join(log)
    found['missing_written'] = (WORK / 'none.gpkg').exists()


def name_the_program() -> None:
    """As the dialogue of the options does it."""
    from processing.core.ProcessingConfig import ProcessingConfig

    ProcessingConfig.setSettingValue('DGNEDIT_PROGRAM', FACTS['program'])
    QgsSettings().sync()


def mend_and_open() -> None:
    """Mends the drawing, which opens the mended one."""
    by_dialogue('Check a drawing', {'DRAWING': str(WORK / 'town.dgn'), 'OUTPUT': 'TEMPORARY_OUTPUT'})
    findings = layer('Findings')
    found['findings'] = findings.featureCount()
    table = iface.showAttributeTable(findings)
    table.resize(1180, 330)
    wait(1)
    picture('qgis-check.png', table)
    table.close()
    by_dialogue('Mend a drawing', {'DRAWING': str(WORK / 'town.dgn'), 'OUTPUT': str(WORK / 'mended.dgn')})
    QgsProject.instance().clear()
    words = {'DRAWING': str(WORK / 'mended.dgn'), 'CRS': 'EPSG:25832', 'OUTPUT': str(WORK / 'mended.gpkg')}
    by_dialogue('Open a drawing', words)
    wait(1)
    open_levels()
    found['groups'] = [it.name() for it in QgsProject.instance().layerTreeRoot().children()]
    found['system'] = QgsProject.instance().crs().authid()
    picture('qgis-open.png')


def recolour_a_road() -> None:
    """The road is selected, and gets another colour and weight."""
    found['road'] = say_of('mended 12 lines', 'rgb')['15']
    layer('mended 12 lines').selectByExpression('"number" = 15')
    words = {'COLOUR': 5, 'WEIGHT': 6, 'OUTPUT': 'road.dgn'}
    by_dialogue('Colour, weight and style', words, 'qgis-look.png')
    found['road_after'] = say_of('road 12 lines', 'rgb')['15']


def move_a_parcel() -> None:
    """The parcel is selected in the new drawing, and moved."""
    found['selected'] = [it['number'] for it in layer('road 12 lines').selectedFeatures()]
    layer('road 12 lines').removeSelection()
    layer('road 20 areas').selectByExpression('"number" = 38')
    found['parcel'] = places_of('road 20 areas')['38']
    by_dialogue('Move', {'DX': 12.5, 'DY': 45, 'OUTPUT': str(WORK / 'parcel.dgn')})
    found['parcel_after'] = places_of('parcel 20 areas')['38']


def compare() -> None:
    """The first drawing and the last one."""
    names = {'FIRST': str(WORK / 'mended.dgn'), 'SECOND': str(WORK / 'parcel.dgn'), 'OUTPUT': 'TEMPORARY_OUTPUT'}
    groups = QgsProject.instance().layerTreeRoot().findGroups()
    found['shown'] = {it.name(): it.isVisible() for it in groups if it.name().endswith('.dgn')}
    by_dialogue('Compare two drawings', names)
    changes = QgsProject.instance().mapLayersByName('Changes')[0]
    found['changes'] = [[it['is'], it['words']] for it in changes.getFeatures()]
    found['zoom'] = [it.name() for it in changes.actions().actions()]
    iface.setActiveLayer(changes)
    wait(1)
    picture('qgis-compare.png')


def zoom_to_a_change() -> None:
    """The button of a row."""
    changes = QgsProject.instance().mapLayersByName('Changes')[0]
    feature = next(it for it in changes.getFeatures() if it['after'] == 38)
    before = iface.mapCanvas().extent()
    changes.actions().actions()[0].run(changes, feature, changes.createExpressionContext())
    wait(1)
    box = iface.mapCanvas().extent()
    found['zoomed'] = box.width() < before.width() and box.contains(feature.geometry().boundingBox())


def click(place: QgsPointXY, button: Qt.MouseButton = Qt.MouseButton.LeftButton) -> None:
    """Clicks on a place of the map."""
    pixel = iface.mapCanvas().getCoordinateTransform().transform(place)
    where = QPoint(round(pixel.x()), round(pixel.y()))
    QTest.mouseClick(iface.mapCanvas().viewport(), button, Qt.KeyboardModifier.NoModifier, where)
    wait(0.1)


def with_the_mouse() -> None:
    """A garden is moved by two clicks; a line is drawn by three, and an end."""
    canvas = iface.mapCanvas()
    iface.setActiveLayer(layer('parcel 5 areas'))
    layer('parcel 5 areas').selectByExpression('"number" = 44')
    canvas.setExtent(layer('parcel 5 areas').extent().buffered(30))
    wait(1)
    middle, step = canvas.extent().center(), 10 * canvas.mapUnitsPerPixel()
    found['garden'] = places_of('parcel 5 areas')['44']

    def move() -> None:
        menu_action('Move with the mouse').trigger()
        click(middle)
        click(QgsPointXY(middle.x() + 2 * step, middle.y() - step))

    by_dialogue('Move', {'OUTPUT': str(WORK / 'garden.dgn')}, start=move)
    found['garden_after'], found['step'] = places_of('garden 5 areas')['44'], step
    corners = [QgsPointXY(middle.x() + 3 * step * it, middle.y() + step * it * it) for it in range(3)]

    def draw() -> None:
        menu_action('Draw a line on the map').trigger()
        for corner in corners:
            click(corner)
        click(corners[-1], Qt.MouseButton.RightButton)

    by_dialogue('Draw a line or an area', {'LEVEL': 61, 'OUTPUT': str(WORK / 'drawn.dgn')}, start=draw)
    found['drawn'] = [it.geometry().asMultiPolyline()[0] for it in layer('drawn 61 lines').getFeatures()]
    found['drawn'] = [[[it.x(), it.y()] for it in line] for line in found['drawn']]
    found['corners'] = [[it.x(), it.y()] for it in corners]


def drop() -> None:
    """A design file is dropped onto the window; the dialogue asks how it is to be opened."""
    shutil.copy(Path(FACTS['top']) / 'examples' / 'valve.dgn', WORK / 'valve.dgn')
    data = QMimeData()
    data.setUrls([QUrl.fromLocalFile(str(WORK / 'valve.dgn'))])
    place, copy = QPointF(300, 300), Qt.DropAction.CopyAction
    buttons, keys = Qt.MouseButton.LeftButton, Qt.KeyboardModifier.NoModifier
    enter, event = (
        it(at, copy, data, buttons, keys) for it, at in ((QDragEnterEvent, place.toPoint()), (QDropEvent, place))
    )

    def send() -> None:
        for it in (enter, event):
            QApplication.sendEvent(iface.mainWindow(), it)

    by_dialogue('Open a drawing', {}, start=send)
    found['dropped'] = found['preset']


def keep_wrong(kind: Any, why: BaseException, trace: Any) -> None:
    """What goes wrong within QGIS is kept, and no window says it, which nobody would close."""
    found['wrong'] = ''.join(traceback.format_exception(kind, why, trace))


def take_out() -> None:
    """The plugin is switched off, and on again."""
    registry = QgsApplication.processingRegistry()
    found['off'] = [unloadPlugin('dgnedit'), registry.providerById('dgnedit') is None]
    found['on'] = [loadPlugin('dgnedit'), startPlugin('dgnedit'), registry.providerById('dgnedit') is not None]


def upgrade() -> None:
    """Another version is installed over this one; each of its modules says so."""
    import pyplugin_installer

    other = str(WORK / 'other.zip')
    with zipfile.ZipFile(FACTS['zip']) as packed, zipfile.ZipFile(other, 'w') as made:
        for name in packed.namelist():
            made.writestr(name, packed.read(name) + (b'\nOTHER = True\n' if name.endswith('.py') else b''))
    pyplugin_installer.instance().installFromZipFile(other)
    loaded = {name: it for name, it in sys.modules.items() if name.split('.')[0] in ('dgnedit', 'dgnkit')}
    found['modules'] = len(loaded)
    found['old_modules'] = sorted(name for name, it in loaded.items() if not hasattr(it, 'OTHER'))


def all_of_it() -> None:
    """One step behind the other; where it hangs, QGIS is ended, and says where."""
    sys.excepthook = keep_wrong
    stack = open(WORK / 'stack.txt', 'w')
    faulthandler.dump_traceback_later(FACTS['patience'], exit=True, file=stack)
    os.chdir(WORK)
    shutil.copy(Path(FACTS['top']) / 'examples' / 'town.dgn', WORK / 'town.dgn')
    iface.mainWindow().resize(1280, 760)
    iface.mainWindow().findChild(object, 'Browser') and iface.mainWindow().findChild(object, 'Browser').hide()
    steps = [install, without_the_program, name_the_program, mend_and_open, recolour_a_road, move_a_parcel, compare]
    try:
        for step in [*steps, zoom_to_a_change, with_the_mouse, drop, take_out, upgrade]:
            step()
    except Exception:
        found['wrong'] = traceback.format_exc()
    (WORK / 'found.json').write_text(json.dumps(found))
    os._exit(0)


QTimer.singleShot(1000, all_of_it)
