"""The provider of the plugin's algorithms."""

from typing import Optional

from qgis.core import QgsProcessingProvider, QgsProject
from qgis.PyQt.QtGui import QIcon

from .algorithms import ALGORITHMS
from .paths import Paths
from .program import ICON, add_setting, remove_setting
from .translation import tr


class DgneditProvider(QgsProcessingProvider):
    """All algorithms, the setting that names the program, and the names of drawings in project files."""

    paths: Optional[Paths] = None

    def id(self) -> str:
        return 'dgnedit'

    def name(self) -> str:
        return 'dgnedit'

    def longName(self) -> str:
        return tr('dgnedit: design files of MicroStation')

    def icon(self) -> QIcon:
        return QIcon(ICON)

    def svgIconPath(self) -> str:
        return ICON

    def load(self) -> bool:
        add_setting()
        self.paths = Paths(QgsProject.instance())
        self.refreshAlgorithms()
        return True

    def unload(self) -> None:
        remove_setting()
        if self.paths is not None:
            self.paths.leave()
            self.paths = None

    def loadAlgorithms(self) -> None:
        for algorithm in ALGORITHMS:
            self.addAlgorithm(algorithm())
