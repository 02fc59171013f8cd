"""The names of cells: two words of three signs each (docs/FORMAT.md, Radix-50)."""

from __future__ import annotations

from typing import Tuple

from .tables import SIGNLESS, SIGNS

LONGEST = 6


def signs_of(word: int) -> str:
    """The three signs of a word, or a backslash and its four hexadecimal digits where it stands for none."""
    if word >= SIGNLESS:
        return '\\%04x' % word
    return SIGNS[word // 1600] + SIGNS[word // 40 % 40] + SIGNS[word % 40]


def name_of(first: int, second: int) -> str:
    """A cell's name as a person writes it: its signs, without the blanks that fill it up."""
    return (signs_of(first) + signs_of(second)).rstrip()


def words_of(name: str) -> Tuple[int, int]:
    """The two words of a cell's name. It raises ValueError where it is none."""
    signs = name.strip().upper()
    if not 1 <= len(signs) <= LONGEST or any(it not in SIGNS[1:] for it in signs):
        raise ValueError("%r isn't a cell name: that has 1 to 6 of the characters A to Z, 0 to 9, $, . and %%" % name)
    codes = [SIGNS.index(it) for it in signs.ljust(LONGEST)]
    first, second = codes[:3], codes[3:]
    return first[0] * 1600 + first[1] * 40 + first[2], second[0] * 1600 + second[1] * 40 + second[2]
