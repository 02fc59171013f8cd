"""The pages of the manual: Markdown as HTML by pandoc, with links among them and pictures inside."""

from __future__ import annotations

import base64
import html
import os
import re
import shutil
import subprocess
from typing import List, NamedTuple, Tuple

import links

TOP = os.path.dirname(os.path.dirname(os.path.abspath(__file__)))
CONVERTER = 'pandoc'
PAGES = {
    'For everyone': ['README.md', 'docs/START.md', 'docs/QUESTIONS.md', 'docs/TERMS.md'],
    'To work with': ['docs/COMPANION.md', 'docs/EDITING.md', 'docs/PAGE.md', 'docs/QGIS.md', 'docs/LIBRARY.md'],
    'To decide by': ['docs/DECIDE.md', 'docs/COMPARED.md', 'docs/TESTED.md', 'docs/SPEED.md', 'CHANGELOG.md'],
    'To look behind': ['docs/FORMAT.md', 'docs/PROOFS.md', 'docs/DEFINITIONS.md', 'docs/PORTS.md',
                       'docs/ARCHITECTURE.md'],
}
KINDS = {'.png': 'image/png', '.svg': 'image/svg+xml'}
HEADING = re.compile(r'<h([1-6])[^>]*>(.*?)</h\1>', re.S)
HREF = re.compile(r'<a\b[^>]*?\bhref="([^"]*)"[^>]*>(.*?)</a>', re.S)
PICTURE = re.compile(r'<img\b[^>]*?\bsrc="([^"]*)"([^>]*?)/?>', re.S)


class Lost(Exception):
    """Something isn't where a page says that it is, or can't be converted."""


class Heading(NamedTuple):
    """A heading of a page: how deep it is, its anchor in the manual, and its text as HTML."""

    depth: int
    anchor: str
    text: str


class Page(NamedTuple):
    """A page as HTML."""

    name: str
    headings: List[Heading]
    body: str

    @property
    def title(self) -> str:
        return self.headings[0].text


def has_converter() -> bool:
    return shutil.which(CONVERTER) is not None


def names() -> List[str]:
    return [name for group in PAGES.values() for name in group]


def anchor_in_manual(name: str, anchor: str) -> str:
    """What a heading is named by: the page, and behind it the anchor that it has in the Markdown."""
    return os.path.basename(name) + ('#' + anchor if anchor else '')


def converted(path: str) -> str:
    """A page as the converter makes it."""
    words = [CONVERTER, '--from=gfm', '--to=html5', '--wrap=none', '--no-highlight', path]
    ran = subprocess.run(words, capture_output=True, timeout=120)
    if ran.returncode != 0:
        raise Lost('%s: %s says %s' % (path, CONVERTER, ran.stderr.decode('utf-8', 'replace').strip()))
    return ran.stdout.decode('utf-8')


def distinct(anchors: List[str]) -> List[str]:
    """The anchors, each that was there before with a number behind it."""
    return [it if it not in anchors[:at] else '%s-%d' % (it, anchors[:at].count(it)) for at, it in enumerate(anchors)]


def with_anchors(name: str, text: str) -> Tuple[str, List[Heading]]:
    """The page with the anchors of the manual in its headings, and these."""
    lines = [line for _, line in links.prose_of(os.path.join(TOP, name)) if line.startswith('#')]
    anchors = iter([''] + distinct([links.anchor_of(line) for line in lines[1:]]))
    found: List[Heading] = []

    def anchored(it: 're.Match[str]') -> str:
        anchor = anchor_in_manual(name, next(anchors, ''))
        found.append(Heading(int(it[1]), anchor, it[2]))
        return '<h%s id="%s" tabindex="-1">%s</h%s>' % (it[1], html.escape(anchor), it[2], it[1])

    made = HEADING.sub(anchored, text)
    if len(found) != len(lines):
        raise Lost('%s has %d headings, and %d as HTML' % (name, len(lines), len(found)))
    return made, found


def with_links(name: str, text: str) -> str:
    """The page with links that lead to places of the manual; what isn't in it is named without a link."""

    def linked(it: 're.Match[str]') -> str:
        href, said = html.unescape(it[1]), it[2]
        if '://' in href:
            return '<a href="%s" rel="noreferrer">%s</a>' % (html.escape(href), said)
        place, _, anchor = href.partition('#')
        there = os.path.normpath(os.path.join(os.path.dirname(name), place)) if place else name
        if there in names():
            return '<a href="#%s">%s</a>' % (html.escape(anchor_in_manual(there, anchor)), said)
        return '<span class="elsewhere" title="%s, in the sources">%s</span>' % (html.escape(there), said)

    return HREF.sub(linked, text)


def with_pictures(name: str, text: str) -> str:
    """The page with its pictures inside."""

    def pictured(it: 're.Match[str]') -> str:
        path = os.path.normpath(os.path.join(TOP, os.path.dirname(name), it[1]))
        kind = KINDS.get(os.path.splitext(path)[1])
        if kind is None or not os.path.exists(path):
            raise Lost('%s has a picture %s that is not there, or of another kind' % (name, it[1]))
        with open(path, 'rb') as file:
            data = base64.b64encode(file.read()).decode('ascii')
        return '<img src="data:%s;base64,%s"%s>' % (kind, data, it[2].rstrip())

    return PICTURE.sub(pictured, text)


def page_of(name: str) -> Page:
    """A page of the sources for the manual."""
    path = os.path.join(TOP, name)
    if not os.path.exists(path):
        raise Lost('no page is at %s' % name)
    text, headings = with_anchors(name, converted(path))
    return Page(name, headings, with_pictures(name, with_links(name, text)))
