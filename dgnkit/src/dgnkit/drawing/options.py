"""The options by which conditions on elements are given."""

from __future__ import annotations

import argparse
import re
from typing import Callable, List, Sequence

PLACE = re.compile(r'[-+]?[\d.]+,[-+\d.,]+', re.ASCII)
NAMES = (
    'number numbers_file level type color weight style size text pattern cell deleted locked broken wrong_range near '
    'inside overlap void crossing inside_element overlap_element void_element crossing_element duplicates'
).split()


class Corners(argparse.Action):
    """An option that takes as many places as stand behind it, each time that it is given. They come to it as one word,
    so that it takes no other word that stands behind them, such as the name of the drawing."""

    def __call__(self, parser: object, arguments: argparse.Namespace, values: object, option: object = None) -> None:
        setattr(arguments, self.dest, [*(getattr(arguments, self.dest) or []), values])


def corners(word: str) -> List[str]:
    """The places in a word. It raises ArgumentTypeError where there is one alone."""
    places = word.split()
    if len(places) < 2:
        raise argparse.ArgumentTypeError('give two corners X,Y of a box, or three or more of a polygon')
    return places


def with_corners(words: Sequence[str], takes: Callable[[str], bool]) -> List[str]:
    """Words in which the places behind each option that `takes` them are one word. The first two words behind it are
    taken for places, whatever they are, so that one of them that is none is told."""
    made: List[str] = []
    count = -1  # places taken for the option before, or -1 where no more are
    for word in words:
        is_place = count >= 0 and (bool(PLACE.fullmatch(word)) or (count < 2 and not word.startswith('-')))
        if is_place and count:
            made[-1] += ' ' + word
        else:
            made.append(word)
        count = count + 1 if is_place else 0 if takes(word) else -1
    return made


def add_conditions(parser: argparse.ArgumentParser, has_numbers: bool = True) -> None:
    """Adds the conditions to a parser; --numbers may be one of the command's own."""
    said = 'An element has to meet all that are given; one that is given more than once is met by any of these.'
    group = parser.add_argument_group('conditions', said)
    group.add_argument('--number', metavar='R', action='append', help='with these numbers, such as 12 or 3-5,9')
    if has_numbers:
        group.add_argument(
            '--numbers', metavar='FILE', dest='numbers_file', help='with the numbers listed in this file'
        )
    group.add_argument('--field', metavar='NAME', default='number', help='the field of that file with the numbers')
    group.add_argument('--level', metavar='R', action='append', help="on these levels, such as 12, 3-5,9 or '>20'")
    group.add_argument('--type', metavar='T', action='append', help='of these types, by number or name, such as 3,text')
    group.add_argument('--color', '--colour', metavar='R', action='append', help='of these colours')
    group.add_argument('--weight', metavar='R', action='append', help="of these weights, such as '>3'")
    group.add_argument('--style', metavar='R', action='append', help='of these styles')
    group.add_argument('--size', metavar='H', action='append', help="texts of this height, such as 2.5 or '>2.5'")
    add_words(group)
    group.add_argument('--deleted', action='store_true', help='marked deleted; otherwise such elements are left out')
    group.add_argument('--locked', action='store_true', help='locked')
    group.add_argument('--broken', action='store_true', help='in a broken tree')
    group.add_argument('--wrong-range', action='store_true', help='whose stored range is wrong')
    group.add_argument(
        '--duplicates', action='store_true', help='trees that repeat an earlier one, perhaps with other colours'
    )
    add_places(group)


def add_words(group: argparse._ArgumentGroup) -> None:
    """Adds the conditions on characters and names."""
    group.add_argument('--text', metavar='WORD', action='append', help='texts that contain this, as a whole word')
    group.add_argument('--pattern', metavar='REGEX', action='append', help='texts that this regular expression matches')
    group.add_argument(
        '--cell', metavar='NAME', action='append', help='cells with this name, in which * and ? are wildcards'
    )
    group.add_argument('--ignore-case', action='store_true', help='--text and --pattern ignore upper and lower case')


def add_places(group: argparse._ArgumentGroup) -> None:
    """Adds the conditions on places."""
    group.add_argument('--near', metavar='X,Y', help='near this position')
    group.add_argument('--within', metavar='D', help='at most this far away')
    group.add_argument('--nearest', metavar='N', help='the N that are nearest to it')
    boxes = [
        (
            ['--inside'],
            'in trees that lie inside the box with these two corners, or the polygon with these three or more',
        ),
        (['--overlap'], 'in trees with something inside the box or polygon, or on its edge'),
        (['--crossing'], 'in trees that cross an edge of the box or polygon, or touch one'),
        (['--void', '--outside'], 'in trees with nothing inside the box or polygon'),
    ]
    for names, text in boxes:
        group.add_argument(*names, metavar='X,Y', type=corners, action=Corners, help=text)
    for names, _ in boxes:
        words = [it + '-element' for it in names]
        text = 'the same, by the shape or complex shape of this number'
        group.add_argument(*words, metavar='N', action='append', help=text)
    which = group.add_mutually_exclusive_group()
    which.add_argument('--trees', action='store_true', help='take the whole tree of each')
    which.add_argument(
        '--members', action='store_true', help='take only the elements themselves, also members without their header'
    )
    units = ('auto', 'master', 'resolution')
    group.add_argument('--units', choices=units, default='auto', help='the units of positions, distances and sizes')


def has_conditions(arguments: argparse.Namespace) -> bool:
    """Whether at least one condition is given."""
    return any(getattr(arguments, name) not in (None, False) for name in NAMES)
