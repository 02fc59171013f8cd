"""The help page of an algorithm: what it says of itself, and the words that stand beside its parameters and results."""

from configparser import ConfigParser, Error
from typing import Any, Iterator, Tuple

from qgis.core import QgsApplication

from ..kit import PLUGIN
from ..translation import tr

ADDRESSES = ('homepage', 'repository')  # of the metadata, the first one that is there
PLAIN, STRONG = '%s', '<b>%s</b>'


def page_of(algorithm: Any, texts: Tuple[str, ...]) -> str:
    """The page, a paragraph a line: what it does, what changes and what stays, the parameters, and the results."""
    is_plain = QgsApplication.platform() == 'qgis_process'
    title = PLAIN if is_plain else STRONG
    lines = [line for text in texts for line in text.split('\n') if line]
    lines += [title % tr('What changes, and what stays'), algorithm.CHANGES]
    lines += [title % tr('Parameters'), *(named(title, *it) for it in parameters_of(algorithm))]
    lines += [title % tr('Results'), *(named(title, *it) for it in results_of(algorithm))]
    return '\n'.join(lines)


def named(title: str, name: str, said: str) -> str:
    """A line on something that has a name."""
    return '%s: %s' % (title % name, said)


def parameters_of(algorithm: Any) -> Iterator[Tuple[str, str]]:
    """What each parameter is called, and what is said of it."""
    for it in algorithm.parameterDefinitions():
        yield it.description(), it.help()


def results_of(algorithm: Any) -> Iterator[Tuple[str, str]]:
    """Each result that isn't a parameter, as models and scripts call it, and what it is."""
    for it in algorithm.outputDefinitions():
        if algorithm.parameterDefinition(it.name()) is None:
            yield it.name(), it.description()


def address() -> str:
    """Where the documentation is, nothing where the metadata don't say it."""
    metadata = ConfigParser(interpolation=None)
    try:
        metadata.read(PLUGIN / 'metadata.txt', encoding='utf-8')
    except Error:
        return ''
    found = (metadata.get('general', it, fallback='').strip() for it in ADDRESSES)
    return next(filter(None, found), '')
