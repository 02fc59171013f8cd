"""A design file that is dropped onto the window of QGIS is opened by this plugin, and not by GDAL."""

from typing import Callable

from dgnkit.errors import Mistake
from dgnkit.files import front_of
from dgnkit.format.tcb import kind_of
from qgis.gui import QgsCustomDropHandler
from qgis.PyQt.QtCore import QTimer

FRONT = 16  # so many bytes tell what a file is


class Dropping(QgsCustomDropHandler):
    """Asks how a file is to be opened once it is dropped."""

    def __init__(self, ask: Callable[[str], None]) -> None:
        super().__init__()
        self.ask = ask

    def handleFileDrop(self, file: str) -> bool:
        """Whether it is a design file, which is opened then."""
        if not is_design(file):
            return False
        QTimer.singleShot(0, lambda: self.ask(file))  # once the drop is over
        return True


def is_design(file: str) -> bool:
    """Whether a file is a design file that the plugin opens."""
    try:
        return file.lower().endswith('.dgn') and kind_of(front_of(file, FRONT)) == 'design'
    except (Mistake, OSError):
        return False
