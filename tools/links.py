"""Links of the documents: those that lead nowhere, to a file that isn't there or to a heading that no file has; and
pages that are far from README."""

from __future__ import annotations

import glob
import os
import re
from collections.abc import Iterator

LINK = re.compile(r'\]\(([^)\s]+)\)')
TEXT_AND_LINK = re.compile(r'(?<!!)\[([^]]*)\]\(([^)\s]+)\)')
FIRST = 'README.md'
CLICKS = 2


def documents(top: str) -> list[str]:
    """All documents by their places below `top`, those of the crates and the companion too."""
    found = [os.path.relpath(it, top) for form in ('*.md', 'docs/*.md', 'dgnkit/*.md', 'crates/*/*.md')
             for it in glob.glob(os.path.join(top, form))]
    return sorted(found)


def prose_of(path: str) -> Iterator[tuple[int, str]]:
    """Yields the lines of a document that stand in no fenced block, with their numbers."""
    fenced = False
    with open(path, encoding='utf-8') as lines:
        for number, line in enumerate(lines, 1):
            if line.startswith('```'):
                fenced = not fenced
            elif not fenced:
                yield number, line


def anchor_of(heading: str) -> str:
    """What a link names a heading by: its letters, digits, dashes and underscores, and a dash for each blank."""
    text = re.sub(r'\[([^]]*)\]\([^)]*\)', r'\1', heading.lstrip('#').strip())
    return ''.join('-' if it == ' ' else it for it in text.lower() if it.isalnum() or it in ' -_')


def anchors_of(path: str) -> set[str]:
    return {anchor_of(line) for _, line in prose_of(path) if line.startswith('#')}


def links_of(path: str) -> Iterator[tuple[int, str, str, str]]:
    """Yields each link of a document that stays on this disk: its line, itself, its file and its anchor."""
    for number, line in prose_of(path):
        for link in LINK.findall(line):
            if '://' not in link:
                place, _, anchor = link.partition('#')
                file = os.path.normpath(os.path.join(os.path.dirname(path), place)) if place else path
                yield number, link, file, anchor


def without_links(text: str, name: str, there: set[str]) -> str:
    """A document with the text alone of each link to a file that isn't among those that are there."""

    def kept(it: 're.Match[str]') -> str:
        place = it[2].partition('#')[0]
        file = os.path.normpath(os.path.join(os.path.dirname(name), place)) if place else name
        return it[0] if '://' in it[2] or file in there else it[1]

    return TEXT_AND_LINK.sub(kept, text)


def broken_links(top: str, names: list[str]) -> Iterator[str]:
    """Yields a line for each link of these documents, by their places below `top`, that leads nowhere."""
    for document in names:
        for number, link, file, anchor in links_of(os.path.join(top, document)):
            if not os.path.exists(file):
                yield '%s:%d: no file is at %s' % (document, number, link)
            elif anchor and anchor not in anchors_of(file):
                yield '%s:%d: no heading is at %s' % (document, number, link)


def far_pages(top: str, names: list[str]) -> Iterator[str]:
    """Yields a line for each page of docs/ that isn't reached from README by two clicks, one for each link."""
    near = {os.path.join(top, FIRST)}
    for _ in range(CLICKS):
        near |= {file for page in near if page.endswith('.md') for _, _, file, _ in links_of(page)}
        near = {it for it in near if os.path.isfile(it)}
    for name in names:
        if name.startswith('docs' + os.sep) and os.path.join(top, name) not in near:
            yield '%s: it takes more than %d clicks from %s' % (name, CLICKS, FIRST)
