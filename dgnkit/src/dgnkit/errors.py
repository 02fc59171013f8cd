"""What keeps a call from its answer: a mistake of the user's, and the endings by which the program did nothing."""

from __future__ import annotations

import re
from typing import Sequence


class Mistake(Exception):
    """Something that was asked for can't be done: one clear line for standard error, and the status 2."""


class NothingThere(Mistake):
    """What was named isn't in the drawing, so there is nothing to change."""


class MissingProgram(Mistake):
    """The program dgnedit is nowhere to be found, or can't be started."""


class ListingError(Mistake):
    """The program said a line that isn't understood."""


class Ending(Mistake):
    """The program ended without doing what was asked. It has the status, and the lines that were said."""

    def __init__(self, text: str, status: int, said: Sequence[str]) -> None:
        super().__init__(text)
        self.status = status
        self.said = list(said)


class BadUsage(Ending):
    """The arguments are of no form, or a file to be written is named as one that is read."""


class BadScript(Ending):
    """A line of the script is bad; `line` is the first such line, counted from 1."""

    def __init__(self, text: str, status: int, said: Sequence[str], line: int) -> None:
        super().__init__(text, status, said)
        self.line = line


class BadDesign(Ending):
    """The file is no design file: `fault` says why, and `offset` is the byte at which the faulty element begins."""

    def __init__(self, text: str, status: int, said: Sequence[str], fault: str, offset: int) -> None:
        super().__init__(text, status, said)
        self.fault = fault
        self.offset = offset


class ReadFault(Ending):
    """A file couldn't be read."""


class WriteFault(Ending):
    """A file couldn't be written, or something couldn't be said."""

    STATUS = 6


class OutOfMemory(Ending):
    """There was no memory."""


class TooLong(Ending):
    """A file is too long; `what` is design, script, import or patch."""

    def __init__(self, text: str, status: int, said: Sequence[str], what: str) -> None:
        super().__init__(text, status, said)
        self.what = what


class BadPatch(Ending):
    """The patch file is none; `offset` is the byte at which its first bad piece begins."""

    def __init__(self, text: str, status: int, said: Sequence[str], offset: int) -> None:
        super().__init__(text, status, said)
        self.offset = offset


class PatchRefused(Ending):
    """An entry of the patch file doesn't stand on the drawing; `entry` is its number, counted from 1."""

    def __init__(self, text: str, status: int, said: Sequence[str], entry: int) -> None:
        super().__init__(text, status, said)
        self.entry = entry


FAULTS = {
    'not-design': "it isn't a design file of version 7",
    'cut': 'the element that begins at byte K reaches past the end of the file: it was cut off, or is damaged',
    'short': 'the element that begins at byte K is shorter than its type requires: the file is damaged there',
    'attributes': "the attribute data of the element that begins at byte K begin where they can't: the file is damaged "
    'there',
}


def fault_said(fault: str, offset: int) -> str:
    """What keeps a file from opening, in words."""
    return FAULTS[fault].replace('K', str(offset))


def ending_of(status: int, said: Sequence[str], drawing: str = 'the drawing') -> Ending:
    """The ending that a status and what was said stand for. It raises ListingError where they are of none."""
    last = said[-1] if said else ''
    if status == 2 and last.startswith('usage: '):
        return BadUsage("dgnedit was called with arguments that it doesn't accept", status, said)
    found = re.fullmatch(r'bad script line (\d+)', last)
    if status == 3 and found:
        return BadScript('line %s of the script is bad' % found[1], status, said, int(found[1]))
    found = re.fullmatch(r'bad design (not-design|cut|short|attributes) at (\d+)', last)
    if status == 4 and found:
        text = "%s doesn't open: %s" % (drawing, fault_said(found[1], int(found[2])))
        return BadDesign(text, status, said, found[1], int(found[2]))
    if status == 5:
        return ReadFault("a file couldn't be read", status, said)
    if status == WriteFault.STATUS:
        return WriteFault("a file couldn't be written", status, said)
    if status == 7:
        return OutOfMemory('there was not enough memory', status, said)
    found = re.fullmatch(r'too long (design|script|import|patch)', last)
    if status == 8 and found:
        return TooLong('too long: the %s has more bytes than dgnedit reads' % found[1], status, said, found[1])
    found = re.fullmatch(r'bad patch at (\d+)', last)
    if status == 10 and found:
        return BadPatch(
            "it isn't a patch file: the first bad piece begins at byte %s" % found[1], status, said, int(found[1])
        )
    found = re.fullmatch(r'refused entry (\d+)', last)
    if status == 11 and found:
        text = "entry %s of the patch file doesn't match %s" % (found[1], drawing)
        return PatchRefused(text, status, said, int(found[1]))
    raise ListingError("dgnedit ended with %d and last printed %r, which dgnkit doesn't understand" % (status, last))
