"""The plugin: its provider, and a menu with a button for each algorithm, and for what is pointed at on the map."""

from typing import Any, Callable, Dict, List, Optional

from qgis.core import QgsApplication, QgsProject
from qgis.PyQt.QtGui import QIcon

from . import translation
from .algorithms import ALGORITHMS
from .dropping import Dropping
from .kit import forget
from .layers import Known, known_drawings, known_of
from .pointing import Parameters, Pointing, distance, in_system, line
from .program import ICON
from .provider import DgneditProvider
from .translation import tr

try:
    from qgis.PyQt.QtGui import QAction  # as Qt 6 has it
except ImportError:
    from qgis.PyQt.QtWidgets import QAction

MENU = 'dgnedit'
PRESET = ('check', 'mend', 'find', 'draw', 'text', 'script', 'patch')  # what asks for a drawing
# What is pointed at: its title, how many places it takes at most, 0 for any, what asks for the rest, its parameters.
POINTED = (
    (tr('Move with the mouse'), 2, 'move', distance),
    (tr('Copy with the mouse'), 2, 'copy', distance),
    (tr('Draw a line on the map'), 0, 'draw', line),
)


class DgneditPlugin:
    """What QGIS loads. Without a window there is a provider alone."""

    def __init__(self, iface: Any) -> None:
        self.iface = iface
        self.provider: Optional[DgneditProvider] = None
        self.dropping: Optional[Dropping] = None
        self.pointing: Optional[Pointing] = None
        self.actions: List[QAction] = []

    def initProcessing(self) -> None:
        """Adds the provider."""
        if self.provider is None:
            self.provider = DgneditProvider()
            QgsApplication.processingRegistry().addProvider(self.provider)

    def initGui(self) -> None:
        """Adds the provider and the menu, and lets files be dropped."""
        self.initProcessing()
        for algorithm in ALGORITHMS:
            self.add_action(algorithm.TITLE, lambda _=False, name=algorithm.NAME: self.ask(name, {}))
        for title, most, name, parameters in POINTED:
            asked = most, name, parameters
            self.add_action(title, lambda _=False, asked=asked: self.point(*asked))
        self.iface.addToolBarIcon(self.actions[0])
        self.dropping = Dropping(lambda file: self.ask('open', {'DRAWING': file}))
        self.iface.registerCustomDropHandler(self.dropping)

    def add_action(self, title: str, run: Callable[..., None]) -> None:
        """Adds a button to the menu."""
        action = QAction(QIcon(ICON), title + ' …', self.iface.mainWindow())
        action.triggered.connect(run)
        self.iface.addPluginToMenu(MENU, action)
        self.actions.append(action)

    def ask(self, name: str, parameters: Parameters) -> None:
        """Opens the dialogue of an algorithm, with what is known already."""
        import processing

        drawing = self.drawing() if name in PRESET else None
        known: Dict[str, Any] = {} if drawing is None else {'DRAWING': drawing.drawing}
        processing.execAlgorithmDialog('dgnedit:' + name, {**known, **parameters})

    def drawing(self) -> Optional[Known]:
        """The drawing of the active layer, or else the only one that is open."""
        active = known_of(self.iface.activeLayer())
        known = known_drawings(QgsProject.instance())
        return active or (known[0] if len({it.drawing for it in known}) == 1 else None)

    def point(self, most: int, name: str, parameters: Callable[[Any], Parameters]) -> None:
        """Lets places be pointed at on the map, and asks for the rest of what an algorithm needs."""
        canvas = self.iface.mapCanvas()

        def done(places: List[Any]) -> None:
            drawing = self.drawing()
            own = canvas.mapSettings().destinationCrs()
            there = places if drawing is None else in_system(places, own, drawing.wishes.system)
            if len(there) > 1:
                self.ask(name, parameters(there))

        self.pointing = Pointing(canvas, most, done)
        canvas.setMapTool(self.pointing)

    def unload(self) -> None:
        """Takes all of it out again."""
        for action in self.actions:
            self.iface.removePluginMenu(MENU, action)
        if self.actions:
            self.iface.removeToolBarIcon(self.actions[0])
        self.actions.clear()
        if self.dropping is not None:
            self.iface.unregisterCustomDropHandler(self.dropping)
            self.dropping = None
        if self.pointing is not None:
            self.iface.mapCanvas().unsetMapTool(self.pointing)
            self.pointing = None
        if self.provider is not None:
            QgsApplication.processingRegistry().removeProvider(self.provider)
            self.provider = None
        translation.end()
        forget()
