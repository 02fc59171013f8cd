"""Says as JSON what the plugin in a folder hands to a person, in a QGIS of a language: the words that stand in menus
and dialogues, in help pages, in tables and in legends."""

import json
import sys
from typing import Any, Iterator

folder, locale = sys.argv[1:]
sys.path[:0] = ['/usr/share/qgis/python/plugins', folder]

from qgis.core import QgsApplication, QgsSettings  # noqa: E402

application = QgsApplication([], False)
application.initQgis()
QgsSettings().setValue('locale/overrideFlag', True)
QgsSettings().setValue('locale/userLocale', locale)

import dgnedit  # noqa: E402
from processing.core.Processing import Processing  # noqa: E402

Processing.initialize()
made = dgnedit.classFactory(None)


def of_algorithm(algorithm: Any) -> Iterator[str]:
    """All that is said of an algorithm."""
    yield from (algorithm.displayName(), algorithm.group(), algorithm.shortDescription())
    yield algorithm.shortHelpString()
    for it in algorithm.parameterDefinitions():
        yield from (it.description(), it.help(), *(it.options() if it.type() == 'enum' else ()))
    for it in algorithm.outputDefinitions():
        yield it.description()


def of_all() -> Iterator[str]:
    """All that is said."""
    from dgnedit import forms, layers, plugin, styles
    from dgnedit.algorithms import ALGORITHMS, check

    for kind in ALGORITHMS:
        algorithm = kind()
        algorithm.initAlgorithm()
        yield from of_algorithm(algorithm)
    yield from (it[0] for it in plugin.POINTED)
    for words in (forms.ALIASES, layers.KINDS_SAID, check.KINDS):
        yield from words.values()
    yield from styles.STYLE_NAMES


texts = list(of_all())
made.iface = None
made.unload()
from dgnedit.translation import tr  # noqa: E402

print(json.dumps({'texts': texts, 'after': tr('Move')}))
sys.stdout.flush()
application.exitQgis()
