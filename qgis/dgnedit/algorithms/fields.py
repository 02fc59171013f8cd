"""Edits of single fields: another level, other text, locked or not, no longer deleted."""

import re
from typing import List

from dgnkit.drawing.conditions import form_of, word_form
from dgnkit.drawing.drawing import Drawing
from dgnkit.errors import Mistake
from dgnkit.format.limits import LEVEL_MOST
from dgnkit.propose.field_edits import FieldEdits, Replacement, relevel, retext, set_lock, undelete
from dgnkit.waiting import Matcher
from qgis.core import QgsProcessingParameterEnum, QgsProcessingParameterString

from ..calls import Call
from ..translation import tr
from .base import DgnAlgorithm
from .edits import FieldAlgorithm

ENCODINGS = ['', 'utf-8', 'latin-1']
ENCODINGS_SAID = [tr('that of the other texts of the drawing'), 'UTF-8', 'Latin-1']
WHOLE = re.compile(r'\A.*\Z', re.S)


def add_encoding(algorithm: DgnAlgorithm) -> None:
    """Adds a parameter for the encoding of a text."""
    algorithm.add(
        QgsProcessingParameterEnum('ENCODING', tr('Encoding of characters beyond ASCII'), ENCODINGS_SAID, False, 0),
        tr('Such as ä and ß, if the text that changes has none yet.'),
        True,
    )


class Relevel(FieldAlgorithm):
    """Another level."""

    NAME = 'relevel'
    TITLE = tr('Put on another level')
    SHORT = tr('Puts what is selected on another level.')
    CHANGES = tr('The level of what is selected. All else stays, such as where it is and how it looks.')
    TAGS = 'level layer'

    def define_edit(self) -> None:
        self.add_number(
            'LEVEL', tr('Level'), LEVEL_MOST, tr('From 1 to 63, or 0, which members of cells may have.'), False
        )

    def fields(self, call: Call, drawing: Drawing, numbers: List[int]) -> FieldEdits:
        return relevel(drawing, numbers, call.whole('LEVEL') or 0)


class Retext(FieldAlgorithm):
    """Other text."""

    NAME = 'retext'
    TITLE = tr('Change texts')
    SHORT = tr('Replaces a word in the texts that are selected, or the whole of each.')
    HELP = tr("A text can become shorter, or stay as long as it was. It can't become longer: there is no room for it.")
    CHANGES = tr('The characters of the texts. Their places, heights and angles stay, and so does all else.')
    TAGS = 'text label replace'

    def define_edit(self) -> None:
        self.add(
            QgsProcessingParameterString('OLD', tr('Word to replace (empty: the whole text)'), None, False, True),
            tr('Only as a whole word.'),
        )
        self.add(QgsProcessingParameterString('NEW', tr('New text')), tr('It replaces the word, or the whole text.'))
        add_encoding(self)
        said = tr('Then the new text may name its groups, such as \\1.')
        self.add_flag('REGEX', tr('The word is a regular expression'), False, said, True)
        self.add_flag('IGNORE_CASE', tr('Ignore case'), False, tr('In the word to replace.'), True)

    def fields(self, call: Call, drawing: Drawing, numbers: List[int]) -> FieldEdits:
        old, new = call.text('OLD'), call.text('NEW')
        if not new:
            raise Mistake(tr('Give a new text. To remove a text, delete it.'))
        form = WHOLE
        if old:
            form = (form_of if call.flag('REGEX') else word_form)(old, call.flag('IGNORE_CASE'))
        is_plain = not (old and call.flag('REGEX'))
        encoding = call.choice('ENCODING', ENCODINGS) or None
        wanted = Replacement(Matcher(form), new.replace('\\', '\\\\') if is_plain else new, encoding)
        return retext(drawing, numbers, wanted)


class Lock(FieldAlgorithm):
    """Locks."""

    NAME = 'lock'
    TITLE = tr('Lock')
    SHORT = tr('Locks what is selected, so that edits of it are refused.')
    CHANGES = tr('The lock of what is selected. All else stays.')
    TAGS = 'lock protect'
    IS_LOCKED = True

    def fields(self, call: Call, drawing: Drawing, numbers: List[int]) -> FieldEdits:
        return set_lock(drawing, numbers, self.IS_LOCKED)


class Unlock(Lock):
    """Unlocks."""

    NAME = 'unlock'
    TITLE = tr('Unlock')
    SHORT = tr('Unlocks what is selected.')
    TAGS = 'unlock'
    IS_LOCKED = False


class Undelete(FieldAlgorithm):
    """Takes a deletion back."""

    NAME = 'undelete'
    TITLE = tr('Take a deletion back')
    SHORT = tr('Takes the deletion of what is selected back.')
    HELP = tr('To see what is deleted, open the drawing with "Also what is marked deleted".')
    CHANGES = tr('The mark in each element that is selected, which is shown again. All else stays.')
    TAGS = 'undelete restore'

    def fields(self, call: Call, drawing: Drawing, numbers: List[int]) -> FieldEdits:
        return undelete(drawing, numbers)
