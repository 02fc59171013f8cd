"""Where the package dgnkit is: in the plugin's own folder, as its zip file has it, or in the sources."""

import importlib
import sys
from pathlib import Path

PLUGIN = Path(__file__).resolve().parent
PLACES = (PLUGIN / 'lib', PLUGIN.parents[1] / 'dgnkit' / 'src')


def provide() -> None:
    """Lets `import dgnkit` find that package, before any other one of this name."""
    for place in PLACES:
        if (place / 'dgnkit').is_dir():
            if str(place) not in sys.path:
                sys.path.insert(0, str(place))
            return
    raise ImportError('the package dgnkit is in none of %s: install the plugin from its zip file' % (PLACES,))


def forget() -> None:
    """Takes the modules of the plugin and of that package out, so that none of them is left when another version of the
    plugin is loaded."""
    own = {__name__.split('.')[0], 'dgnkit'}
    folders = (PLUGIN, *PLACES)
    for name, module in list(sys.modules.items()):
        file = Path(getattr(module, '__file__', None) or '.').resolve()
        if name.split('.')[0] in own and any(it in file.parents for it in folders):
            del sys.modules[name]
    for place in map(str, PLACES):
        if place in sys.path:
            sys.path.remove(place)
    importlib.invalidate_caches()
