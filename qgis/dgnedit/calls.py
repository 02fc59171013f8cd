"""A run of an algorithm: its parameters as values, its progress, and whether it was cancelled."""

from typing import Any, Dict, List, Optional

from dgnkit.errors import Mistake
from dgnkit.format.units import shortest
from qgis.core import (
    QgsCoordinateReferenceSystem,
    QgsProcessingAlgorithm,
    QgsProcessingContext,
    QgsProcessingFeedback,
    QgsProject,
)

from .translation import tr

Parameters = Dict[str, Any]


class Stopped(Mistake):
    """The run was cancelled."""


class Call:
    """The parameters of a run, its context and its feedback."""

    def __init__(
        self,
        algorithm: QgsProcessingAlgorithm,
        parameters: Parameters,
        context: QgsProcessingContext,
        feedback: QgsProcessingFeedback,
    ) -> None:
        self.algorithm, self.parameters, self.context, self.feedback = algorithm, parameters, context, feedback
        self.targets: Dict[str, str] = {}  # the files that are written, of which a temporary one is named only once

    def text(self, name: str) -> str:
        """A text, or nothing."""
        return str(self.algorithm.parameterAsString(self.parameters, name, self.context) or '').strip()

    def file(self, name: str) -> str:
        """The name of a file that is read, or nothing."""
        return str(self.algorithm.parameterAsFile(self.parameters, name, self.context) or '')

    def target(self, name: str) -> str:
        """The name of a file that is written, or nothing."""
        if self.parameters.get(name) in (None, ''):
            return ''
        if name not in self.targets:
            named = self.algorithm.parameterAsFileOutput(self.parameters, name, self.context)
            self.targets[name] = str(named or '')
        return self.targets[name]

    def flag(self, name: str) -> bool:
        """Whether something is wished."""
        return bool(self.algorithm.parameterAsBool(self.parameters, name, self.context))

    def whole(self, name: str) -> Optional[int]:
        """A whole number, none where none is given."""
        if self.parameters.get(name) is None:
            return None
        return int(self.algorithm.parameterAsInt(self.parameters, name, self.context))

    def decimal(self, name: str) -> str:
        """A number as a person writes it, nothing where none is given."""
        if self.parameters.get(name) is None:
            return ''
        return shortest(float(self.algorithm.parameterAsDouble(self.parameters, name, self.context)))

    def choice(self, name: str, options: List[str]) -> str:
        """Which one of some options is chosen."""
        return options[int(self.algorithm.parameterAsEnum(self.parameters, name, self.context))]

    def system(self, name: str = 'CRS') -> QgsCoordinateReferenceSystem:
        """A coordinate reference system, which isn't valid where none is given."""
        return self.algorithm.parameterAsCrs(self.parameters, name, self.context)

    @property
    def project(self) -> Optional[QgsProject]:
        """The project that layers are added to, none where there is none."""
        return self.context.project()

    def say(self, text: str) -> None:
        """Says a line."""
        self.feedback.pushInfo(text)

    def warn(self, text: str) -> None:
        """Says a line that one should read."""
        self.feedback.pushWarning(text)

    def error(self, text: str) -> None:
        """Says a line on what went wrong."""
        self.feedback.reportError(text)

    def doing(self, text: str, share: float) -> None:
        """Says what is done next, and which share of all is done. It raises Stopped where the run was cancelled."""
        self.feedback.setProgressText(text)
        self.done(share)

    def done(self, share: float) -> None:
        """Says which share of all is done. It raises Stopped where the run was cancelled."""
        self.ask()
        self.feedback.setProgress(100 * share)

    def ask(self) -> None:
        """It raises Stopped where the run was cancelled."""
        if self.feedback.isCanceled():
            raise Stopped(tr('Stopped: nothing was written.'))
