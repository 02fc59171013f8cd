"""A plugin for QGIS that opens, checks and edits design files. It holds no rule of the editor: it asks the package
dgnkit and the program dgnedit."""

from typing import Any

from . import kit

kit.provide()


def classFactory(iface: Any) -> Any:
    """The plugin, as QGIS asks for it."""
    from . import translation

    translation.begin()  # before what has texts is loaded
    from .plugin import DgneditPlugin

    return DgneditPlugin(iface)
