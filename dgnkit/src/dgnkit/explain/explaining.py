"""Why the program ended without doing what was asked: which file it is, and what of it."""

from __future__ import annotations

import os
import re
import struct
from typing import Iterator, List, Sequence

from ..drawing.drawing import Drawing
from ..errors import (
    BadDesign,
    BadPatch,
    BadScript,
    BadUsage,
    Ending,
    Mistake,
    OutOfMemory,
    PatchRefused,
    ReadFault,
    TooLong,
    WriteFault,
    fault_said,
)
from ..files import front_of, read_drawing, read_file
from ..format.element import described
from ..format.fields import field_name
from ..format.limits import DRAWING_LONGEST, PATCH_LONGEST, SCRIPT_LONGEST
from ..format.patch import Entry, Field, Patch
from ..format.places import Scale
from ..format.tcb import KIND_SAID, kind_of
from ..format.units import Units, rounded
from ..program.grammar import fault_of, kinds_of
from ..program.runs import Program
from ..program.script import Script

LIMITS = {
    'design': DRAWING_LONGEST,
    'import': DRAWING_LONGEST,
    'script': SCRIPT_LONGEST,
    'patch': PATCH_LONGEST,
}
DECIMAL_POINT = re.compile(r'-?\d{1,12}(\.\d{1,12})?', re.ASCII)


def why_ended(program: Program, ending: Ending, drawing: str, script: str, out: str) -> str:
    """Why an `edit` or an `apply` ended as it did; `script` is the script or the patch file."""
    if isinstance(ending, BadUsage):
        return "dgnedit doesn't accept these arguments: %s %s %s" % (drawing, script, out)
    if isinstance(ending, BadScript):
        return why_bad_line(drawing, script, ending.line)
    if isinstance(ending, BadDesign):
        return why_bad_design(drawing, ending)
    if isinstance(ending, ReadFault):
        return why_not_read([drawing, script, *imports_of(script)])
    if isinstance(ending, WriteFault):
        return "%s couldn't be written completely, perhaps because the disk is full: nothing is written" % out
    if isinstance(ending, TooLong):
        return why_too_long(ending.what, drawing, script)
    if isinstance(ending, BadPatch):
        said = "%s isn't a patch file, or is damaged: the first bad piece begins at byte %d"
        return said % (script, ending.offset)
    if isinstance(ending, PatchRefused):
        return why_refused(program, drawing, script, ending.entry)
    if isinstance(ending, OutOfMemory):
        return 'there was not enough memory for it'
    return str(ending)


def why_bad_line(drawing: str, script: str, number: int) -> str:
    """What makes the first bad line of a script bad."""
    lines = Script.read(script).lines
    if number > len(lines):
        return 'line %d of %s was bad, but the script has changed since: try again' % (number, script)
    line = lines[number - 1]
    said = line.decode('latin-1')
    return 'line %d of %s is bad, so nothing has run: %r: %s' % (
        number,
        script,
        said,
        (fault_of(line) or "it isn't a command") + in_units(drawing, line),
    )


def in_units(drawing: str, line: bytes) -> str:
    """What lengths and places of a line that have a point are in units of resolution, where the drawing says it."""
    try:
        units = Units.read(read_drawing(drawing))
    except (Mistake, struct.error, IndexError):
        return ''
    words = [it for it in line.decode('latin-1').split(' ') if it]
    pieces = [(word, kind) for word, kind in zip(words, kinds_of(words)) if kind in ('D', 'P', 'Q', 'M')]
    scale = Scale(units, 'auto')
    if not scale.is_master:
        return ''
    made = [it for word, kind in pieces for it in _in_units(scale, word, kind)]
    return ''.join('; ' + it for it in made[:2])


def _in_units(scale: Scale, word: str, kind: str) -> Iterator[str]:
    """A piece that has a point, as the script wants it."""
    numbers = word.split(',')
    if any(not DECIMAL_POINT.fullmatch(it) for it in numbers) or '.' not in word:
        return
    try:
        if kind == 'D':
            yield '%s %s is %d here' % (word, scale.name, rounded(scale.signed_length(word)))
        elif kind == 'M':
            yield 'a text of %s %s has the multiplier %d' % (word, scale.name, scale.multiplier(word))
        else:
            place = (str(scale.coordinate(it, axis)) for axis, it in enumerate(numbers))
            yield '%s %s is %s here' % (word, scale.name, ','.join(place))
    except (Mistake, IndexError):
        return


def why_bad_design(drawing: str, ending: BadDesign) -> str:
    """Why a file is no design file."""
    kind = kind_of(front_of(drawing, 4))
    if kind == 'empty' and not (os.path.isfile(drawing) and os.path.getsize(drawing) == 0):
        kind = 'design'
    if kind != 'design':
        return '%s is %s' % (drawing, KIND_SAID[kind])
    return "%s doesn't open: %s" % (drawing, fault_said(ending.fault, ending.offset))


def imports_of(script: str) -> List[str]:
    """The files that a script imports."""
    try:
        commands = Script.read(script).commands
    except Mistake:
        return []
    return [it.text.split()[1] for it in commands if it.name == 'import' and len(it.text.split()) > 1]


def why_not_read(names: Sequence[str]) -> str:
    """Which of these files can not be read, and why."""
    for name in names:
        try:
            with open(name, 'rb') as file:
                file.read(1)
        except OSError as why:
            return "%s can't be read: %s" % (name, (why.strerror or str(why)).lower())
    return 'reading failed, but %s can be read now' % ', '.join(names)


def why_too_long(what: str, drawing: str, script: str) -> str:
    """Which file is too long."""
    names = {'design': [drawing], 'import': imports_of(script)}.get(what, [script])
    for name in names:
        if os.path.exists(name) and os.path.getsize(name) > LIMITS[what]:
            return '%s has %d bytes, and the limit is %d' % (name, os.path.getsize(name), LIMITS[what])
    return 'the drawing would have more than %d bytes' % LIMITS[what]


def why_refused(program: Program, name: str, patch_name: str, number: int) -> str:
    """Why an entry of a patch file doesn't stand on a drawing: its length, or the first field with other bytes."""
    patch, drawing = Patch.from_bytes(read_file(patch_name, PATCH_LONGEST)), Drawing(name, program)
    body = bytearray(drawing.data[: drawing.body_length])
    for entry in patch.entries[: number - 1]:
        put_on(body, entry)
    if number > len(patch.entries):
        return 'entry %d of %s was refused, but the patch file has changed since: try again' % (
            number,
            patch_name,
        )
    entry = patch.entries[number - 1]
    front = "entry %d of %d doesn't match %s, so nothing was written: " % (number, len(patch.entries), name)
    if entry.length != len(body):
        return front + why_length(entry, len(body))
    for field in entry.fields:
        if body[field.place : field.place + len(field.old)] != field.old:
            return front + why_bytes(drawing, body, field)
    return front + 'so dgnedit says'


def put_on(body: bytearray, entry: Entry) -> None:
    """Puts an entry on a body."""
    for field in entry.fields:
        body[field.place : field.place + len(field.new)] = field.new
    body.extend(entry.appended)


def why_length(entry: Entry, length: int) -> str:
    """Why an entry does not stand on a body of another length."""
    said = 'it was made for a drawing whose elements have %d bytes, and here they have %d, %d %s. '
    said += 'This is another drawing, or elements were added to it'
    return said % (entry.length, length, abs(length - entry.length), 'more' if length > entry.length else 'fewer')


def why_bytes(drawing: Drawing, body: bytearray, field: Field) -> str:
    """Why an entry does not stand where a field has other bytes."""
    there = bytes(body[field.place : field.place + len(field.old)])
    said = 'at byte %d it expects %s, but finds %s' % (field.place, field.old.hex(' '), there.hex(' '))
    for element in drawing.elements:
        if element.offset <= field.place < element.offset + element.size:
            place = field.place - element.offset
            said += ', which is byte %d of %s (%s)' % (place, described(element), field_name(element, place))
    return said + '. This has changed since the patch file was made, or the patch file has already been applied'
