"""The names of reference files. The format's description leaves open where they stand in an element, so what reads as
a file's name among its bytes is said (README.md of dgnkit)."""

from __future__ import annotations

import re
from typing import List

from ..format.element import Element

FILE_NAME = re.compile(rb'[!-~](?:[ -~]{0,253}[!-~])?\.[A-Za-z0-9]{1,4}(?![A-Za-z0-9])')


def names_in(element: Element) -> List[str]:
    """What reads as the name of a file in an element, each once."""
    found = (it[0].decode('ascii') for it in FILE_NAME.finditer(element.content, 4))
    return list(dict.fromkeys(found))
