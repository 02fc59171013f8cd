"""Edits of single fields, which the editor has no command for: level, characters in place, and the lock bit. Elements
that they leave out come with the reason."""

from __future__ import annotations

import re
import struct
from dataclasses import dataclass, field
from typing import List, Optional, Sequence, Tuple

from ..drawing.changes import Change
from ..drawing.drawing import Drawing
from ..errors import Mistake
from ..format import classes
from ..format.element import LOCK_BYTE, Element
from ..format.radix50 import name_of
from ..waiting import Matcher

NAME_PLACE = 38  # where a cell's name stands
SILENT = 'of a type without a level or a lock'
IS_LOCKED = 'locked; `dgnkit unlock` unlocks'


@dataclass
class FieldEdits:
    """The changes of elements, and those that are left out with the reason."""

    changes: List[Change] = field(default_factory=list)
    left: List[Tuple[int, str]] = field(default_factory=list)

    def leave(self, element: Element, reason: str) -> None:
        """Leaves an element out, with the reason."""
        self.left.append((element.number, reason))

    def change(self, element: Element, place: int, new: bytes, words: str) -> None:
        """Puts bytes at a place of an element."""
        edits = {element.offset + place + index: byte for index, byte in enumerate(new)}
        self.changes.append(Change(element, edits, [words]))


def may_edit(made: FieldEdits, element: Element) -> bool:
    """Whether an element has what is edited, and isn't locked; else it is left out."""
    if element.is_silent:
        made.leave(element, SILENT)
    elif element.is_locked:
        made.leave(element, IS_LOCKED)
    return not element.is_silent and not element.is_locked


def relevel(drawing: Drawing, numbers: Sequence[int], level: int) -> FieldEdits:
    """Puts elements on another level: six bits of their first byte."""
    made = FieldEdits()
    for element in (drawing.elements[it] for it in numbers):
        if not may_edit(made, element):
            continue
        if element.level == level:
            made.leave(element, 'already on level %d' % level)
        else:
            first = element.content[0] & 0xC0 | level
            made.change(element, 0, bytes([first]), 'level %d becomes %d' % (element.level, level))
    return made


def set_lock(drawing: Drawing, numbers: Sequence[int], is_locked: bool) -> FieldEdits:
    """Locks or unlocks elements: one bit of their properties."""
    made = FieldEdits()
    for element in (drawing.elements[it] for it in numbers):
        if element.is_silent:
            made.leave(element, SILENT)
        elif element.is_locked == is_locked:
            made.leave(element, 'already %s' % ('locked' if is_locked else 'unlocked'))
        else:
            byte = element.content[LOCK_BYTE] & 0xFE | int(is_locked)
            made.change(element, LOCK_BYTE, bytes([byte]), 'locked' if is_locked else 'unlocked')
    return made


def undelete(drawing: Drawing, numbers: Sequence[int]) -> FieldEdits:
    """Takes the deletion of elements back, and of the headers above them, without which they wouldn't be shown: one bit
    of the second byte of each."""
    made, nesting = FieldEdits(), drawing.nesting
    wanted = set(numbers)
    for number in numbers:
        wanted.update(nesting.above(number))
    for element in (drawing.elements[it] for it in sorted(wanted)):
        if not element.is_deleted:
            continue
        if element.is_locked:
            made.leave(element, IS_LOCKED)
        else:
            made.change(element, 1, bytes([element.type]), 'no longer deleted')
    return made


def rename(drawing: Drawing, numbers: Sequence[int], words: Tuple[int, int]) -> FieldEdits:
    """Gives cells another name: two words of their body."""
    made = FieldEdits()
    spelled, name = struct.pack('<HH', *words), name_of(*words)
    for element in (drawing.elements[it] for it in numbers):
        if not may_edit(made, element):
            continue
        if element.cell_name == name:
            made.leave(element, 'already called %s' % name)
        else:
            made.change(element, NAME_PLACE, spelled, 'name becomes %s' % name)
    return made


@dataclass(frozen=True)
class Replacement:
    """What is looked for in a text, what is put in its place, and the encoding of signs that aren't ASCII."""

    form: Matcher
    new: str
    encoding: Optional[str]


def retext(drawing: Drawing, numbers: Sequence[int], wanted: Replacement) -> FieldEdits:
    """Exchanges characters of texts in place. A text may get shorter, and bytes behind its count stay; it may get as
    long as it was and no longer."""
    made = FieldEdits()
    for element in (drawing.elements[it] for it in numbers):
        old = element.text
        new = None if old is None else replaced(wanted, old)
        if new is None or new == old or not may_edit(made, element):
            continue
        exchange(made, drawing, element, new, wanted.encoding)
    return made


def exchange(made: FieldEdits, drawing: Drawing, element: Element, new: str, encoding: Optional[str]) -> None:
    """Gives a text other characters, or leaves it out where there are too many of these, or none."""
    spelled = spelled_as(drawing, encoding, element, new)
    if len(spelled) > len(element.characters or b''):
        made.leave(element, 'the new text is longer than the old one')
    elif not spelled:
        made.leave(element, 'nothing would be left of the text; delete it instead')
    else:
        _put_text(made, element, spelled, new)


def _put_text(made: FieldEdits, element: Element, spelled: bytes, new: str) -> None:
    """The count of the characters and these."""
    place = element.text_place
    edits = {element.offset + place + index: byte for index, byte in enumerate(spelled)}
    edits[element.offset + place - 2] = len(spelled)
    made.changes.append(Change(element, edits, ['text becomes %r' % new]))


def replaced(wanted: Replacement, old: str) -> str:
    """A text with all that is looked for exchanged. It raises Mistake where the new text names a group that isn't."""
    try:
        return wanted.form.replaced(wanted.new, old)
    except (re.error, IndexError) as why:
        raise Mistake("%r can't replace what the pattern finds: %s" % (wanted.new, why))


def spelled_as(drawing: Drawing, wanted: Optional[str], element: Element, text: str) -> bytes:
    """The bytes of a text. Signs beyond ASCII are spelled as the element's old ones are, or else in the encoding that
    is given, or else as in other texts. It raises Mistake where none of these is, or a sign can't be spelled so."""
    if text.isascii():
        return text.encode('ascii')
    encoding = encoding_of([element]) or wanted or encoding_of(drawing.elements)
    if encoding is None:
        raise Mistake(
            '%r has characters beyond ASCII: name their encoding with --encoding, such as utf-8 or latin-1' % text
        )
    try:
        return text.encode(encoding)
    except (UnicodeEncodeError, LookupError) as why:
        raise Mistake("%r can't be written in %s: %s" % (text, encoding, why))


def encoding_of(elements: Sequence[Element]) -> Optional[str]:
    """How signs beyond ASCII are spelled in the first text of elements that has any."""
    for it in (it for it in elements if it.type == classes.TEXT):
        characters = it.characters or b''
        if not characters.isascii():
            try:
                characters.decode('utf-8')
                return 'utf-8'
            except UnicodeDecodeError:
                return 'latin-1'
    return None
