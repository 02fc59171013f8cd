"""What was asked for where nothing meets it, and what there is instead."""

from __future__ import annotations

from typing import Sequence

from ..format import classes
from ..format.classes import type_name
from ..output import few, listed
from .cells import names_said
from .conditions import Conditions
from .options import NAMES

OPTIONS = {'numbers_file': 'numbers'}


def nothing_said(conditions: Conditions) -> str:
    """Which conditions nothing meets, and what levels, types or cells there are where these were asked for."""
    arguments, elements = conditions.arguments, conditions.drawing.elements
    asked = [name for name in NAMES if getattr(arguments, name) not in (None, False, '')]
    said = ['nothing matches ' + (' '.join(asked_said(name, getattr(arguments, name)) for name in asked) or 'that')]
    if arguments.level:
        said.append('there are elements on levels %s' % few(sorted(set(elements.levels)), 20))
    if arguments.type:
        said.append('the types are %s' % listed([type_name(it) for it in sorted(set(elements.types))]))
    if arguments.cell:
        said.append(names_said(conditions.drawing))
    if (arguments.text or arguments.pattern) and classes.TEXT not in elements.types:
        said.append('there are no texts')
    return '; '.join(said)


def asked_said(name: str, value: object) -> str:
    """A condition as it was asked, as often as it was."""
    option = '--' + OPTIONS.get(name, name.replace('_', '-'))
    if isinstance(value, str):
        return '%s %s' % (option, value)
    if isinstance(value, Sequence):
        return ' '.join(' '.join([option, *([it] if isinstance(it, str) else it)]) for it in value)
    return option
