"""What a person reads, in the language of QGIS where there is a translation of it: i18n/dgnedit_LOCALE.qm."""

from typing import List

from qgis.core import QgsApplication
from qgis.PyQt.QtCore import QCoreApplication, QTranslator

from .kit import PLUGIN

CONTEXT = 'dgnedit'
FOLDER = PLUGIN / 'i18n'
LOADED: List[QTranslator] = []  # of which QGIS keeps no reference


def begin() -> None:
    """Loads the translation. It has to be there before a module is loaded that has texts."""
    translator = QTranslator()
    if translator.load('dgnedit_' + QgsApplication.locale(), str(FOLDER)):
        QCoreApplication.installTranslator(translator)
        LOADED.append(translator)


def end() -> None:
    """Takes the translation out again."""
    while LOADED:
        QCoreApplication.removeTranslator(LOADED.pop())


def tr(text: str) -> str:
    """A text in the language of QGIS."""
    return str(QCoreApplication.translate(CONTEXT, text))
