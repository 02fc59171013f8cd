"""The script that appends what is wished for, and the patch file behind it. A text that a script appends stands level,
and its range is a point: the patch file turns it, and sets its range to the box of its signs."""

from __future__ import annotations

import math
import os
import tempfile
from dataclasses import dataclass, field
from typing import Dict, List, Optional, Sequence, Tuple

from ..drawing.changes import Change
from ..drawing.drawing import Drawing
from ..errors import Mistake
from ..format.element import Element
from ..format.limits import TEXT_LONGEST, POINTS_MOST, is_on_plane
from ..format.numbers import Point, long_bytes, range_bytes
from ..format.patch import Patch
from ..format.places import Scale, decimal_of
from ..program.script import Script
from .field_edits import encoding_of
from .scripting import REASONS
from .wishes import Wish
from .writing import applied, patch_of

LOW, HIGH = 4, 16  # where the corners of a range stand in an element
ROTATION = 46
ONE = 2147483647  # what 1 is in a quaternion


@dataclass
class Appending:
    """A script, what each of its lines is for, and the patch file that is put on behind it, where one is wanted."""

    script: Script = field(default_factory=Script)
    wishes: List[Wish] = field(default_factory=list)
    words: List[str] = field(default_factory=list)
    patch: Optional[Patch] = None

    def add(self, wish: Wish, line: bytes, words: str) -> None:
        """Adds a line for a wish."""
        self.script.add(line)
        self.wishes.append(wish)
        self.words.append('row %d: %s' % (wish.row.line, words))


class Appender:
    """Makes the script and the patch file of wishes on a drawing."""

    def __init__(self, drawing: Drawing, scale: Scale, cuts: bool, encoding: str) -> None:
        """`cuts` is whether line strings that are too long are cut into pieces, else they are refused."""
        self.drawing, self.scale, self.cuts, self.encoding = drawing, scale, cuts, encoding

    def appending(self, wishes: Sequence[Wish]) -> Appending:
        """It raises Mistake with the row of what can't be drawn."""
        made = Appending()
        for wish in wishes:
            if wish.kind == 'text':
                self._text(made, wish)
            elif wish.kind == 'shape':
                self._shape(made, wish)
            else:
                self._string(made, wish)
        self._try(made)
        return made

    def _look(self, wish: Wish) -> str:
        return ' '.join(map(str, wish.look))

    def _string(self, made: Appending, wish: Wish) -> None:
        points = wish.points
        if len(points) < 2:
            raise wish.row.mistake('it is the only point of its line, and a line needs at least 2')
        if len(points) > POINTS_MOST and not self.cuts:
            said = 'its line has %d points, and a line string has at most %d: --cut cuts it into pieces'
            raise wish.row.mistake(said % (len(points), POINTS_MOST))
        for start in range(0, len(points) - 1, POINTS_MOST - 1):
            piece = points[start : start + POINTS_MOST]
            word = 'line' if len(piece) == 2 else 'string'
            line = '%s %s %s' % (word, self._look(wish), spelled(piece))
            made.add(wish, line.encode('ascii'), self._said('a line', wish, piece))

    def _shape(self, made: Appending, wish: Wish) -> None:
        points = wish.points
        ring = points if points[0] == points[-1] and len(points) > 1 else [*points, points[0]]
        if len(ring) < 4:
            raise wish.row.mistake('its shape has %d corners, and a shape needs at least 3' % (len(ring) - 1))
        if len(ring) > POINTS_MOST:
            said = "its shape has %d corners, and a shape has at most %d: it can't be cut"
            raise wish.row.mistake(said % (len(ring) - 1, POINTS_MOST - 1))
        line = 'shape %s %s' % (self._look(wish), spelled(ring))
        made.add(wish, line.encode('ascii'), self._said('a shape', wish, ring))

    def _text(self, made: Appending, wish: Wish) -> None:
        characters = self._characters(wish)
        size = self.scale.multiplier(wish.height)
        font, justification = wish.lettering
        front = 'text %s %d %d %d %d %s ' % (self._look(wish), font, justification, size, size, spelled(wish.points))
        said = 'a text %r, %s %s high' % (wish.text, wish.height, self.scale.name)
        made.add(wish, front.encode('ascii') + characters, self._said(said, wish, wish.points))

    def _said(self, what: str, wish: Wish, points: Sequence[Point]) -> str:
        more = '' if len(points) == 1 else ' of %d points' % len(points)
        return '%s on level %d%s, starting at %s' % (what, wish.look[0], more, self.scale.place_said(points[0]))

    def _characters(self, wish: Wish) -> bytes:
        """The bytes of a text, spelled as those of the drawing's own texts where it has signs beyond ASCII."""
        text = wish.text
        encoding = 'ascii' if text.isascii() else self.encoding or encoding_of(self.drawing.elements)
        if encoding is None:
            raise wish.row.mistake('%r has characters beyond ASCII: name their encoding with --encoding' % text)
        try:
            characters = text.encode(encoding)
        except (UnicodeEncodeError, LookupError) as why:
            raise wish.row.mistake("%r can't be written in %s: %s" % (text, encoding, why))
        if len(characters) > TEXT_LONGEST:
            raise wish.row.mistake('its text has %d bytes, and a text has at most %d' % (len(characters), TEXT_LONGEST))
        return characters

    def _try(self, made: Appending) -> None:
        """Runs the script into a temporary folder, and makes the patch file for the texts in what it makes."""
        with tempfile.TemporaryDirectory(prefix='dgnkit-') as folder:
            name = self.drawing.path
            for index, part in enumerate(made.script.parts()):
                out = os.path.join(folder, '%d.dgn' % index)
                answers = self.drawing.program.edit(name, part, out)
                refused = next((it.cause for it in answers if it.cause), None)
                if refused:
                    reason = REASONS.get(refused.split(' ')[0], refused)
                    raise Mistake('dgnedit refuses to draw it (%s): %s' % (refused, reason))
                name = out
            first = len(self.drawing.elements)
            texts = [(first + at, it) for at, it in enumerate(made.wishes) if it.kind == 'text']
            if texts:
                drawn = Drawing(name, self.drawing.program)
                changes = [text_change(drawn.elements[number], wish) for number, wish in texts]
                made.patch = patch_of(drawn, changes)
                applied(drawn, made.patch, changes)


def spelled(points: Sequence[Point]) -> str:
    """Points as a script has them."""
    return ' '.join(','.join(map(str, it)) for it in points)


def text_change(element: Element, wish: Wish) -> Change:
    """The turn of a text, and the range that holds its signs."""
    angle = float(decimal_of(wish.angle))
    low, high = text_box(element, angle)
    if not all(map(is_on_plane, (*low, *high))):
        raise wish.row.mistake('its text would reach off the design plane')
    edits: Dict[int, int] = {}
    for place, corner in ((LOW, low), (HIGH, high)):
        put(edits, element, place, b''.join(range_bytes(it) for it in corner))
    put(edits, element, ROTATION, rotation_bytes(element.axes, angle))
    return Change(element, edits, ['rotated by %s degrees' % wish.angle])


def put(edits: Dict[int, int], element: Element, place: int, content: bytes) -> None:
    """Puts bytes at a place of an element."""
    for at, byte in enumerate(content, element.offset + place):
        edits[at] = byte


def rotation_bytes(axes: int, angle: float) -> bytes:
    """The rotation of a text: in two axes an angle from -180 to 180 degrees in 360,000ths, in three a quaternion."""
    if axes == 2:
        return long_bytes(round(((angle + 180) % 360 - 180) * 360000))
    half = math.radians(angle) / 2
    return b''.join(long_bytes(round(it * ONE)) for it in (math.cos(half), 0.0, 0.0, -math.sin(half)))


def text_box(element: Element, angle: float) -> Tuple[Point, Point]:
    """The box around a text's signs, each as wide and as high as the multipliers say, on x and y."""
    wide, high = element.text_size or (0.0, 0.0)
    wide *= len(element.characters or b'')
    cos, sin = math.cos(math.radians(angle)), math.sin(math.radians(angle))
    corners = [(x * cos - y * sin, x * sin + y * cos) for x, y in ((0, 0), (wide, 0), (wide, high), (0, high))]
    origin = element.points[0]
    low = tuple(origin[axis] + math.floor(min(it[axis] for it in corners) + 1e-6) for axis in (0, 1))
    top = tuple(origin[axis] + math.ceil(max(it[axis] for it in corners) - 1e-6) for axis in (0, 1))
    return low, top
