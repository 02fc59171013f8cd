"""What the TCB, the first element of a drawing, says."""

from __future__ import annotations

from dataclasses import dataclass

from .tables import AXES_AT, AXES_BIT, TCB_FRONTS
from .units import Units

SIZE = 1536
FRONTS = [bytes(it) for it in TCB_FRONTS]
COMPOUND = b'\xd0\xcf\x11\xe0'
LIBRARY = b'\x08\x05\x17\x00'


@dataclass(frozen=True)
class Tcb:
    """The number of axes, the units, and whether the file says by its first byte that it is one of three axes."""

    axes: int
    units: Units
    first_byte: int

    @classmethod
    def read(cls, data: bytes) -> Tcb:
        """Reads it from the front of a design file."""
        return cls(3 if data[AXES_AT] & AXES_BIT else 2, Units.read(data), data[0])


def kind_of(data: bytes) -> str:
    """What a file's first bytes say that it is: `design`, `v8`, `library`, `empty` or `other`."""
    front = data[:4]
    if front in FRONTS:
        return 'design'
    if front == COMPOUND:
        return 'v8'
    if front == LIBRARY:
        return 'library'
    return 'other' if data else 'empty'


KIND_SAID = {
    'v8': 'a compound file, such as MicroStation V8 writes (DGN version 8): save it as V7 DGN',
    'library': 'a MicroStation cell library: attach it in MicroStation, and place its cells in a drawing',
    'empty': 'an empty file',
    'other': "not a design file of version 7: it doesn't begin like one",
}
