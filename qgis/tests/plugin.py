"""What the tests share: QGIS without a window with the plugin in it, its algorithms, and drawings."""

from __future__ import annotations

import atexit
import json
import os
import shutil
import sys
import tempfile
from pathlib import Path
from typing import Any, Dict, List, Optional, Tuple

TOP = Path(__file__).resolve().parents[2]
sys.dont_write_bytecode = True
os.environ.setdefault('QT_QPA_PLATFORM', 'offscreen')
HOME = tempfile.mkdtemp(prefix='dgnedit-qgis-')
PROFILE = os.path.join(HOME, 'profile')
os.environ.update(HOME=HOME, XDG_RUNTIME_DIR=HOME, TMPDIR=HOME, QGIS_CUSTOM_CONFIG_PATH=PROFILE)
atexit.register(shutil.rmtree, HOME, ignore_errors=True)
for place in ('/usr/share/qgis/python/plugins', TOP / 'dgnkit' / 'tests', TOP / 'qgis'):
    sys.path.insert(0, str(place))

import ogr  # noqa: E402
import samples  # noqa: E402
from qgis.core import (  # noqa: E402
    QgsApplication,
    QgsFeature,
    QgsLayerTreeGroup,
    QgsProcessingContext,
    QgsProcessingFeedback,
    QgsProject,
    QgsVectorLayer,
)

__all__ = ['Feedback', 'InQgis', 'TOP', 'ogr', 'plain', 'samples']

APPLICATION = QgsApplication([], False)
APPLICATION.initQgis()
atexit.register(APPLICATION.exitQgis)

import processing  # noqa: E402
from processing.core.Processing import Processing  # noqa: E402

Processing.initialize()

from dgnedit.provider import DgneditProvider  # noqa: E402

PROVIDER = DgneditProvider()
QgsApplication.processingRegistry().addProvider(PROVIDER)


class Feedback(QgsProcessingFeedback):
    """What an algorithm says, kept; it is cancelled once it says what `stop_at` is, or comes so far."""

    def __init__(self, stop_at: Optional[str] = None) -> None:
        super().__init__(False)
        self.lines: List[str] = []
        self.warnings: List[str] = []
        self.shares: List[float] = []
        self.errors: List[str] = []
        self.stop_at = stop_at
        self.progressChanged.connect(self.shares.append)

    def pushInfo(self, info: str) -> None:
        self.lines.append(info)

    def reportError(self, error: str, fatalError: bool = False) -> None:
        self.errors.append(error)

    def pushWarning(self, warning: str) -> None:
        self.warnings.append(warning)

    def setProgressText(self, text: str) -> None:
        self.lines.append(text)
        if self.stop_at is not None and text.startswith(self.stop_at):
            self.cancel()


class InQgis(samples.WithProgram):
    """A test in an empty project."""

    def setUp(self) -> None:
        super().setUp()
        self.project = QgsProject.instance()
        self.project.clear()
        self.feedback = Feedback()

    def tearDown(self) -> None:
        self.project.clear()

    def run_algorithm(self, name: str, **parameters: Any) -> Dict[str, Any]:
        """Runs an algorithm of the plugin, and gives its results. What it says is kept."""
        context = QgsProcessingContext()
        context.setProject(self.project)
        self.context = context
        made: Dict[str, Any] = processing.run(
            'dgnedit:' + name, parameters, feedback=self.feedback, context=context, is_child_algorithm=False
        )
        return made

    def fails(self, name: str, **parameters: Any) -> str:
        """What an algorithm says that can't be done."""
        try:
            self.run_algorithm(name, **parameters)
        except Exception as why:
            self.assertEqual(type(why).__name__, 'QgsProcessingException', why)
            return str(why).replace('There were errors executing the algorithm.', '')
        raise AssertionError('%s was done' % name)

    def open(self, drawing: str, **more: Any) -> Dict[str, Any]:
        names = (self.path('layers%s.gpkg' % it) for it in ('', *range(2, 99)))
        package = next(it for it in names if not os.path.exists(it))
        return self.run_algorithm('open', **{'DRAWING': drawing, 'OUTPUT': package, **more})

    def table(self, source: Any) -> List[QgsFeature]:
        """The rows of a layer, or of the file that holds one."""
        layer = self.context.getMapLayer(source) if isinstance(source, str) else source
        layer = layer or QgsVectorLayer(source, 'table', 'ogr')
        self.assertTrue(layer.isValid(), source)
        return list(layer.getFeatures())

    def rows(self, source: Any, *names: str) -> List[Tuple[Any, ...]]:
        """Fields of the rows of a layer."""
        return [tuple(plain(it[name]) for name in names) for it in self.table(source)]

    def groups(self) -> List[str]:
        """The groups of drawings in the project, the topmost first."""
        return [it.name() for it in self.project.layerTreeRoot().children() if isinstance(it, QgsLayerTreeGroup)]

    def layer(self, name: str) -> QgsVectorLayer:
        """The one layer of this name in the project."""
        found = self.project.mapLayersByName(name)
        self.assertEqual(len(found), 1, '%s: there are %s' % (name, self.layer_names()))
        return found[0]

    def layer_names(self) -> List[str]:
        return sorted(it.name() for it in self.project.mapLayers().values())

    def select(self, name: str, expression: str) -> None:
        """Selects features of a layer."""
        layer = self.layer(name)
        layer.selectByExpression(expression)
        self.assertGreater(layer.selectedFeatureCount(), 0, expression)

    def changes(self, old: str, new: str) -> List[Tuple[str, Dict[str, Any]]]:
        """What dgnkit says of two drawings: each element that differs, and its changes."""
        found = json.loads(self.said('diff', '--json', old, new, status=1))['elements']
        return [(it['is'].split(' on ')[0], it['changes']) for it in found]

    def sentence(self, *words: str) -> str:
        """What dgnkit says that can't be done."""
        status, _, said = self.kit(*words)
        self.assertEqual(status, 2, said)
        return said.strip().replace('dgnkit: ', '', 1)

    def mended(self, drawing: str) -> str:
        """The drawing with its broken trees mended, by dgnkit itself."""
        self.said('mend', drawing, self.path('mend.patch'))
        self.program.apply(drawing, self.path('mend.patch'), self.path('mended.dgn'))
        return self.path('mended.dgn')


def plain(value: Any) -> Any:
    """A value of a field, none where there is none."""
    return None if value is None or str(value) == 'NULL' else value
