"""`dgnkit help [WORD]`: what the commands are, or one of them; and where the manual is."""

from __future__ import annotations

import argparse
import webbrowser
from typing import TYPE_CHECKING

from ..errors import Mistake
from ..output import say
from ..page.app import MANUAL, manual_place

if TYPE_CHECKING:
    from ..cli import Subparsers


def register(words: Subparsers) -> None:
    parser = words.add_parser('help', help='explain a command, or open the manual')
    parser.add_argument('command', metavar='WORD', nargs='?', help='the command; without it all are listed')
    parser.add_argument('--manual', action='store_true', help='open the manual in a browser')
    parser.set_defaults(run=run)


def run(arguments: argparse.Namespace) -> int:
    """It raises Mistake where there is no such command."""
    word = arguments.command
    return open_manual() if arguments.manual else explain(word) if word else list_all()


def open_manual() -> int:
    """Has the browser open the manual, and says where it is; 1 where there is no browser."""
    place = manual_place()
    if place is None:
        raise Mistake("%s isn't here: it comes with the programs, and `make manual` makes it of the sources" % MANUAL)
    is_open = webbrowser.open(place.as_uri())
    say('%s: %s' % (place, 'opened in a browser' if is_open else 'no browser was found; open it in one'))
    return 0 if is_open else 1


def explain(word: str) -> int:
    """Prints what a command does, and its options."""
    from ..cli import module_names, parser_of

    if word not in module_names():
        raise Mistake("there is no command %r: `dgnkit help` lists all" % word)
    parser_of([word]).parse_args([word, '--help'])
    return 0


def list_all() -> int:
    """Prints all commands, and where the manual is."""
    from ..cli import module_names, parser_of

    parser_of(module_names()).print_help()
    place = manual_place()
    if place is not None:
        say('\nmanual: %s; `dgnkit help --manual` opens it' % place)
    return 0
