"""The colours of elements: a drawing's own table where it has one, else the usual one of MicroStation."""

from __future__ import annotations

from typing import List, Optional, Tuple

Colour = Tuple[int, int, int]

FIRST: List[Colour] = [
    (255, 255, 255),
    (0, 0, 255),
    (0, 255, 0),
    (255, 0, 0),
    (255, 255, 0),
    (255, 0, 255),
    (255, 127, 0),
    (0, 255, 255),
    (64, 64, 64),
    (192, 192, 192),
    (254, 0, 96),
    (160, 224, 0),
    (0, 254, 160),
    (128, 0, 160),
    (176, 176, 176),
    (0, 240, 240),
]
LAST: List[Colour] = [(192, 192, 192), (28, 0, 100)]


def _octet(bright: int, orange: int, cyan: int) -> List[Colour]:
    """Eight colours of one brightness, in the order white, blue, green, red, yellow, magenta, orange, cyan."""
    return [
        (bright, bright, bright),
        (0, 0, bright),
        (0, bright, 0),
        (bright, 0, 0),
        (bright, bright, 0),
        (bright, 0, bright),
        (bright, orange, 0),
        (0, cyan, cyan),
    ]


def usual_colours() -> List[Colour]:
    """The usual table. Behind the first 16 colours each row of 16 is a row of eight twice, 15 darker than the row
    before it; its last colour is that of the next row already. The last two colours stand for themselves."""
    table = list(FIRST)
    for row in range(15):
        bright, orange = 240 - 15 * row, 122 - 5 * row
        table += _octet(bright, orange, bright) + _octet(bright, orange, bright - 15)
    return table[: 256 - len(LAST)] + LAST


NAMES = {
    (255, 255, 255): 'white',
    (0, 0, 255): 'blue',
    (0, 255, 0): 'green',
    (255, 0, 0): 'red',
    (255, 255, 0): 'yellow',
    (255, 0, 255): 'magenta',
    (255, 127, 0): 'orange',
    (0, 255, 255): 'cyan',
    (64, 64, 64): 'dark grey',
    (192, 192, 192): 'light grey',
}


class Palette:
    """The colours 0 to 255 of a drawing: those of its own table, or the usual ones where it has none."""

    def __init__(self, own: Optional[List[Colour]]) -> None:
        table = own or usual_colours()
        self.spelled = ['#%02x%02x%02x' % colour for colour in table]
        self.names = [NAMES.get(colour, '') for colour in table]

    def said(self, colour: int) -> str:
        """A colour in words: its number, its name where it has one, and its red, green and blue, as in
        `3 (red, #ff0000)`."""
        name = self.names[colour]
        return '%d (%s)' % (colour, ', '.join([*([name] if name else []), self.spelled[colour]]))
