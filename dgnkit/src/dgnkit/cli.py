"""The command: `dgnkit WORD ..`, where each word has a module of its own under `commands`.

Such a module has a function `register`, which is given what `add_parser` is called on: it adds its parser with its
arguments, and sets the default `run` to a function of the parsed arguments that gives the status."""

from __future__ import annotations

import argparse
import gc
import io
import os
import pkgutil
import re
import sys
import traceback
from importlib import import_module
from typing import TYPE_CHECKING, Any, Callable, List, NoReturn, Optional, Sequence

from . import __version__, commands, files
from .drawing.options import Corners, with_corners
from .errors import Mistake
from .output import note, printable
from .stopping import catch_signals

if TYPE_CHECKING:
    Subparsers = argparse._SubParsersAction['Parser']

NO_OPTION = re.compile(r'^-([\d.][\d.,]*-?[\d.,]*|[xy])$')
ORDER = (
    'info health find why run diff mend relevel retext rename lock unlock undelete draw text merge place clip each '
    'journal split purge geojson script page open help completion'
).split()
ABOUT = (
    'Finds elements in design files, explains, mends and compares them, and writes scripts and patch files, from which '
    'dgnedit makes drawings.'
)
ENDED = 2  # the status of what can't be done
STOPPED = 130
LONGEST = 700  # characters of a line that says why


class Parser(argparse.ArgumentParser):
    """A parser that says what is wrong in one line, and takes a place such as -5,3 and an axis such as -x for no
    option."""

    def __init__(self, *words: Any, **more: Any) -> None:
        super().__init__(*words, **more)
        self._negative_number_matcher = NO_OPTION

    def parse_known_args(self, args: Any = None, namespace: Any = None) -> Any:
        """As it is, where an option takes as many places as there are, and no word behind these."""
        options = self._option_string_actions
        words = None if args is None else with_corners(args, lambda it: isinstance(options.get(it), Corners))
        return super().parse_known_args(words, namespace)

    def _print_message(self, message: str, file: Any = None) -> None:
        """Says something, and keeps no failure of that to itself. Where a stream is closed there is none."""
        if file is None and sys.stdout is None and sys.stderr is not None:
            raise OSError('standard output is closed')
        if file is not None and message:
            file.write(message)

    def error(self, message: str) -> NoReturn:
        """Says what is wrong with the words, and ends with 2."""
        self.exit(ENDED, printable('%s: %s' % (self.prog, message)) + '\n')


def module_names() -> List[str]:
    """The names of the commands' modules, in the order in which they are told."""
    names = [it.name for it in pkgutil.iter_modules(commands.__path__) if not it.name.startswith('_')]
    return sorted(names, key=lambda it: (ORDER.index(it) if it in ORDER else len(ORDER), it))


def parser_of(names: Sequence[str]) -> Parser:
    """The parser of these commands."""
    parser = Parser(prog='dgnkit', description=ABOUT)
    parser.add_argument('--version', action='version', version='dgnkit ' + __version__)
    words = parser.add_subparsers(dest='word', metavar='WORD', required=True)
    for name in names:
        import_module('dgnkit.commands.' + name).register(words)
    return parser


def main(words: Optional[Sequence[str]] = None) -> int:
    """Runs a command, and gives its status: 0 and 1 as the command says, and 2 where it can't be done, with one line
    on standard error that says why."""
    for stream in (sys.stdout, sys.stderr):
        if isinstance(stream, io.TextIOWrapper):
            stream.reconfigure(errors='backslashreplace')  # of texts a terminal may lack some signs
    gc.disable()  # a drawing is many small objects without cycles: to look for some again and again takes half the time
    files.READ.clear()
    catch_signals()
    try:
        return run_words(list(sys.argv[1:] if words is None else words))
    except KeyboardInterrupt:
        return STOPPED
    except Exception as why:
        return ended(why)


def run_words(given: List[str]) -> int:
    """Runs the command that these words are."""
    names = module_names()
    try:
        arguments = parser_of([given[0]] if given and given[0] in names else names).parse_args(given)
        run: Callable[[argparse.Namespace], int] = arguments.run
        status = run(arguments)
    except SystemExit as told:  # of --help, --version, and words that can't be read
        status = int(told.code or 0)
    if sys.stdout is not None:
        sys.stdout.flush()
    return status


def ended(why: Exception) -> int:
    """Says why a command couldn't be done, in one line, and gives the status."""
    if isinstance(why, BrokenPipeError):
        drop_output()
        return ENDED
    try:
        note('dgnkit: ' + shortened(reason_of(why)))
        if not isinstance(why, (Mistake, *EXPECTED)) and sys.stderr is not None:
            traceback.print_exception(type(why), why, why.__traceback__)
    except (OSError, ValueError):
        pass
    if isinstance(why, OSError) and why.filename is None:
        drop_output()
    return ENDED


def shortened(text: str) -> str:
    """A line that isn't too long to be read: of a longer one the front and the end."""
    return text if len(text) <= LONGEST else '%s .. %s' % (text[: LONGEST // 2], text[-LONGEST // 2 :])


EXPECTED = (OSError, MemoryError, RecursionError, ValueError, OverflowError)


def reason_of(why: Exception) -> str:
    """An exception in a line."""
    if isinstance(why, Mistake):
        return str(why)
    if isinstance(why, MemoryError):
        return 'there is not enough memory for it'
    if isinstance(why, RecursionError):
        return 'the input is nested too deeply'
    if isinstance(why, UnicodeError):
        return "a name or a text has characters that can't be written: %s" % why
    if isinstance(why, OSError):
        reason = (why.strerror or str(why)).lower()
        return reason if why.filename is None else '%s: %s' % (why.filename, reason)
    if isinstance(why, EXPECTED):
        return str(why).split('\n')[0]
    return 'a fault in dgnkit itself: %r' % why


def drop_output() -> None:
    """Lets what standard output still holds go nowhere: nothing can be said there any more."""
    try:
        os.dup2(os.open(os.devnull, os.O_WRONLY), sys.stdout.fileno())
    except (OSError, ValueError, AttributeError):
        pass
