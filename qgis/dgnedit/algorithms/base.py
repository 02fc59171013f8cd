"""What all algorithms share: their names, the parameters that several have, and errors as sentences."""

import os
from dataclasses import replace
from typing import Any, List, Optional, Sequence, Set, Tuple

from dgnkit import files
from dgnkit.cli import reason_of, shortened
from dgnkit.drawing.drawing import Drawing
from dgnkit.errors import Mistake
from qgis.core import (
    QgsProcessingAlgorithm,
    QgsProcessingContext,
    QgsProcessingException,
    QgsProcessingFeedback,
    QgsProcessingOutputNumber,
    QgsProcessingParameterBoolean,
    QgsProcessingParameterCrs,
    QgsProcessingParameterDefinition,
    QgsProcessingParameterEnum,
    QgsProcessingParameterFile,
    QgsProcessingParameterFileDestination,
    QgsProcessingParameterNumber,
)
from qgis.PyQt.QtGui import QIcon

from ..calls import Call, Parameters, Stopped
from ..layers import Known, known_drawings, wishes_for
from ..package import ask_package
from ..program import ICON, find_program
from ..rows import Wishes
from ..translation import tr
from ..wording import here
from .pages import address, page_of

Results = Parameters
DRAWINGS = tr('Design files (*.dgn *.DGN);;All files (*)')
PACKAGES = tr('GeoPackage (*.gpkg)')
REPLACES = tr('Otherwise nothing is written where a file has the name. A drawing that is open is never replaced.')
UNITS = ['auto', 'master', 'resolution']
UNITS_SAID = [tr('master units, if the drawing defines them'), tr('master units'), tr('units of resolution')]


class DgnAlgorithm(QgsProcessingAlgorithm):
    """An algorithm of the plugin. A class has its texts, `define` and `work`, and may have `prepare` and `finish`,
    which run in the main thread."""

    NAME = ''
    TITLE = ''
    GROUP: Tuple[str, str] = ('drawing', tr('Drawings'))
    SHORT = ''
    HELP = ''
    CHANGES = ''  # what it changes, and what stays
    TAGS = ''
    call: Optional[Call] = None  # the run that goes on, none where it was cancelled
    known: Sequence[Known] = ()  # the drawings that are open in the project
    in_use: Set[str] = set()  # the files of the project's layers

    def name(self) -> str:
        return self.NAME

    def displayName(self) -> str:
        return self.TITLE

    def groupId(self) -> str:
        return self.GROUP[0]

    def group(self) -> str:
        return self.GROUP[1]

    def shortDescription(self) -> str:
        return self.SHORT

    def shortHelpString(self) -> str:
        return page_of(self, self.texts())

    def texts(self) -> Tuple[str, ...]:
        """What is said of it, besides its parameters."""
        return self.SHORT, self.HELP

    def helpUrl(self) -> str:
        return address()

    def tags(self) -> List[str]:
        return ['dgn', 'microstation', *self.TAGS.split()]

    def icon(self) -> QIcon:
        return QIcon(ICON)

    def svgIconPath(self) -> str:
        return ICON

    def createInstance(self) -> QgsProcessingAlgorithm:
        return type(self)()

    def initAlgorithm(self, configuration: Any = None) -> None:
        self.define()

    def define(self) -> None:
        """Adds the parameters and the outputs."""
        raise NotImplementedError

    def prepare(self, call: Call) -> None:
        """What has to be asked of layers and of the project, in the main thread."""

    def work(self, call: Call) -> Results:
        """Does it. It raises Mistake where it can't be done."""
        raise NotImplementedError

    def finish(self, call: Call) -> None:
        """What has to be done with layers and the project, in the main thread."""

    def leave(self) -> None:
        """Leaves what was prepared for that undone."""

    def prepareAlgorithm(
        self, parameters: Parameters, context: QgsProcessingContext, feedback: QgsProcessingFeedback
    ) -> bool:
        call = Call(self, parameters, context, feedback)
        self.known = known_drawings(call.project)
        layers = call.project.mapLayers().values() if call.project is not None else ()
        self.in_use = {os.path.realpath(str(it.source()).split('|')[0]) for it in layers}
        said(lambda: self.prepare(call))
        return True

    def processAlgorithm(
        self, parameters: Parameters, context: QgsProcessingContext, feedback: QgsProcessingFeedback
    ) -> Results:
        files.READ.clear()
        self.call = call = Call(self, parameters, context, feedback)
        try:
            made: Results = said(lambda: self.work(call))
            return made
        except Stopped as why:
            feedback.pushInfo(str(why))
            self.leave()
            self.call = None
            return {}
        except QgsProcessingException:
            self.leave()
            raise

    def postProcessAlgorithm(self, context: QgsProcessingContext, feedback: QgsProcessingFeedback) -> Results:
        if self.call is not None:
            call = Call(self, self.call.parameters, context, feedback)
            said(lambda: self.finish(call))
        return {}

    def add(self, parameter: QgsProcessingParameterDefinition, text: str = '', is_advanced: bool = False) -> None:
        """Adds a parameter, with a text that is shown beside it."""
        if text:
            parameter.setHelp(text)
        if is_advanced:
            parameter.setFlags(parameter.flags() | QgsProcessingParameterDefinition.Flag.FlagAdvanced)
        self.addParameter(parameter)

    def add_drawing(
        self, name: str = 'DRAWING', said: str = tr('Drawing'), is_optional: bool = False, is_advanced: bool = False
    ) -> None:
        """A drawing that is read."""
        self.add(
            QgsProcessingParameterFile(name, said, fileFilter=DRAWINGS, optional=is_optional),
            tr('A MicroStation design file of version 7. It is only read, never changed.'),
            is_advanced,
        )

    def add_result(self) -> None:
        """The drawing that is written, and whether it is opened."""
        self.add(
            QgsProcessingParameterFileDestination('OUTPUT', tr('New drawing'), tr('Design files (*.dgn)')),
            tr('A file of its own: the old drawing is never overwritten.'),
        )
        self.add_flag(
            'OPEN', tr('Show the new drawing'), True, tr('The layers of the old drawing become those of the new one.')
        )
        self.add_file(
            'LAYERS_FILE',
            tr('Save layers to'),
            PACKAGES,
            tr(
                'A GeoPackage. The new drawing is then opened beside the old one, in layers that stay when QGIS is '
                'closed.'
            ),
            True,
        )
        self.add_flag('OVERWRITE', tr('Replace files that are already there'), False, REPLACES, True)
        self.addOutput(QgsProcessingOutputNumber('ACCEPTED', tr('How many edits were made')))

    def add_file(self, name: str, said: str, kinds: str, text: str = '', is_advanced: bool = False) -> None:
        """A file that is written where it is wished."""
        file = QgsProcessingParameterFileDestination(name, said, kinds, optional=True, createByDefault=False)
        self.add(file, text, is_advanced)

    def layers_file(self, call: Call, name: str) -> str:
        """The file that layers are to be saved to, or nothing. It raises Mistake where it may not be written."""
        package = call.target(name)
        if package and os.path.realpath(package) in self.in_use:
            raise Mistake(tr('%s holds layers of this project: name another file, or remove these first') % package)
        if package:
            ask_package(package, call.flag('OVERWRITE'))
        return package

    def add_system(self) -> None:
        """The coordinate reference system of layers, and the units of their coordinates."""
        self.add(
            QgsProcessingParameterCrs('CRS', tr('Coordinate reference system'), optional=True),
            tr("The system of the drawing's coordinates. The drawing itself doesn't name one."),
        )
        self.add(
            QgsProcessingParameterEnum('UNITS', tr('Units of the coordinates'), UNITS_SAID, defaultValue=0),
            tr('Units of resolution are the whole numbers that the drawing stores.'),
            True,
        )

    def wishes(self, call: Call, drawing: Drawing) -> Wishes:
        """How the layers of a drawing are, with the units and the system of coordinates that are given where such
        are."""
        made = replace(wishes_for(self.known, drawing))
        if self.parameterDefinition('CRS') is not None and call.system().isValid():
            made.system = call.system()
        if self.parameterDefinition('UNITS') is not None and call.choice('UNITS', UNITS) != UNITS[0]:
            made.units = call.choice('UNITS', UNITS)
        return made

    def add_flag(self, name: str, said: str, is_set: bool, text: str = '', is_advanced: bool = False) -> None:
        """A yes or no."""
        self.add(QgsProcessingParameterBoolean(name, said, is_set), text, is_advanced)

    def add_number(self, name: str, said: str, most: int, text: str = '', is_optional: bool = True) -> None:
        """A whole number from 0 on."""
        kind = QgsProcessingParameterNumber.Type.Integer
        self.add(QgsProcessingParameterNumber(name, said, kind, None, is_optional, 0, most), text)


def said(run: Any) -> Any:
    """Runs something; what dgnkit says of a mistake becomes the error of the algorithm."""
    try:
        return run()
    except Stopped:
        raise
    except Exception as why:  # of which QGIS would say nothing in the window
        told = here(shortened(reason_of(why)))
    raise QgsProcessingException(told)  # here, so that it doesn't keep alive what was being made


def opened(path: str) -> Drawing:
    """A drawing that is to be read. It raises Mistake where none is named, it can't be read, or there is no program."""
    if not path:
        raise Mistake(tr('No drawing is named.'))
    return Drawing(path, find_program())
