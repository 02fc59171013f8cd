"""What dgnkit says, with the commands and the parameters of this plugin in place of the words of the command line."""

import re
from typing import Dict, Match

from .translation import tr

# A command of dgnkit, and what is said of it where the plugin needs no patch file in between.
COMMAND = re.compile(r'`dgnkit (\w+)[^`]*`(?: writes a patch file that (\w+ it)\b)?')
OPTION = re.compile(r'(?<![\w-])--[a-z][a-z-]*(?: X,Y)?')
OTHERS = {'health': 'check', 'diff': 'compare', 'run': 'script'}  # commands that are called otherwise here
OPTIONS = {
    '--encoding': tr('Encoding of characters beyond ASCII'),
    '--force': tr('Replace files that are already there'),
    '--members': tr('Whole trees'),
    '--near': tr('Near this place'),
    '--near X,Y': tr('Near this place'),
    '--nearest': tr('Only the nearest, this many'),
    '--within': tr('Within this distance'),
}


def titles() -> Dict[str, str]:
    """By its name what each command is called in the menu."""
    from .algorithms import ALGORITHMS

    return {it.NAME: it.TITLE for it in ALGORITHMS}


def here(said: str) -> str:
    """A sentence as it is said in QGIS."""
    named = titles()

    def command(found: Match[str]) -> str:
        title = named.get(OTHERS.get(found[1], found[1]))
        return found[0] if title is None else ' '.join(['"%s"' % title, *filter(None, [found[2]])])

    def option(found: Match[str]) -> str:
        return '"%s"' % OPTIONS[found[0]] if found[0] in OPTIONS else found[0]

    return OPTION.sub(option, COMMAND.sub(command, said))
