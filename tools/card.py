"""The quick card: the tables of docs/EDITING.md that one wants at hand, and an example of each command that runs there,
as HTML for two pages of A4."""

from __future__ import annotations

import html
import os
import re
from collections.abc import Iterator

import links

TOP = os.path.dirname(os.path.dirname(os.path.abspath(__file__)))
SOURCE = os.path.join(TOP, 'docs', 'EDITING.md')
STYLE = """
@page { size: A4; margin: 10mm 11mm; }
* { box-sizing: border-box; }
body { font: 8pt/1.2 "Liberation Sans", Arial, sans-serif; color: #000; margin: 0 auto; max-width: 188mm; }
header { display: flex; justify-content: space-between; align-items: baseline; border-bottom: 1.2pt solid #000; }
h1 { font-size: 15pt; margin: 0; }
h2 { font-size: 9.6pt; margin: 2.6mm 0 0.8mm; break-after: avoid; }
p { margin: 0.8mm 0; }
table { border-collapse: collapse; width: 100%; }
td { border-bottom: 0.4pt solid #bbb; padding: 0.4mm 2mm 0.4mm 0; vertical-align: top; }
tr { break-inside: avoid; }
code { font: 7.8pt "Liberation Mono", Consolas, monospace; }
td:first-child code { white-space: nowrap; }
.turn { break-before: page; }
"""


class Lost(Exception):
    """A table or an example isn't where it is looked for."""


class Document:
    """A document's sections, each by the anchor of its heading, with its lines."""

    def __init__(self, lines: list[str]) -> None:
        self.sections: dict[str, list[str]] = {}
        current: list[str] = []
        is_fenced = False
        for line in lines:
            if line.startswith('```'):
                is_fenced = not is_fenced
            if line.startswith('#') and not is_fenced:
                current = self.sections.setdefault(links.anchor_of(line), [])
            current.append(line)

    def section(self, anchor: str) -> list[str]:
        if anchor not in self.sections:
            raise Lost('no heading %r' % anchor)
        return self.sections[anchor]

    def table(self, anchor: str, *head: str) -> list[list[str]]:
        """The rows of the table of a section whose head has these names; of each the fields below them."""
        rows = [[it.strip() for it in line.strip('|').split('|')] for line in self.section(anchor) if line[:1] == '|']
        for at, row in enumerate(rows):
            if all(name in row for name in head):
                columns = [row.index(name) for name in head]
                return [[it[column] for column in columns] for it in rows_until_head(rows[at + 2:])]
        raise Lost('no table of %s below %r' % (', '.join(head), anchor))

    def example(self, anchor: str, word: str) -> str:
        """The first line of a script in a section that begins with a command's word."""
        found = [it for line in self.section(anchor) for it in commands_in(line) if it.split(' ')[0] == word]
        if not found:
            raise Lost('no example of %s below %r' % (word, anchor))
        return found[0]


def rows_until_head(rows: list[list[str]]) -> list[list[str]]:
    """The rows up to the next table, which begins with its head and a row of dashes."""
    ends = [at - 1 for at, row in enumerate(rows) if at and all(set(it) <= {'-'} for it in row)]
    return rows[:ends[0]] if ends else rows


def commands_in(line: str) -> Iterator[str]:
    """The lines of a script that stand in a line of an example: as such, or printed by a shell."""
    if line.startswith('> '):
        yield line[2:]
    elif line.startswith('$ '):
        for told in re.findall(r"printf '([^']*)'", line):
            yield from told.split('\\n')


def marked_up(text: str) -> str:
    """A field of a table as HTML: code, bold type, and links as their text."""
    plain = re.sub(r'\[([^]]*)\]\([^)]*\)', r'\1', text)
    pieces = plain.split('`')
    made = [html.escape(it, quote=False) for it in pieces]
    made[1::2] = ['<code>%s</code>' % it for it in made[1::2]]
    return re.sub(r'\*\*(.+?)\*\*', r'<b>\1</b>', ''.join(made)).replace('\n', '<br>')


def table_html(rows: list[list[str]]) -> str:
    return '<table>\n%s\n</table>' % '\n'.join(
        '<tr>%s</tr>' % ''.join('<td>%s</td>' % marked_up(it) for it in row) for row in rows)


def commands_of(document: Document) -> list[list[str]]:
    """A row for each command: its forms, what it does, and an example."""
    made = []
    for form, does in document.table('the-commands', 'command', 'does'):
        found = re.fullmatch(r'\[(.*)\]\(#(.*)\)', form)
        if found is None:
            raise Lost('no link to the command %s' % form)
        word = found[1].strip('`').split('`')[0].split(' ')[0]
        made.append([found[1].replace('`, `', '`\n`'), does, '`%s`' % document.example(found[2], word)])
    return made


def card(version: str) -> str:
    """The card as HTML. It raises Lost where something isn't in the document any more."""
    with open(SOURCE, encoding='utf-8') as file:
        document = Document(file.read().split('\n'))
    endings = document.table('how-the-program-ends', 'number', 'prints', 'means')
    parts = [
        ('Command line', document.table('the-command-line', 'form', 'does')),
        ('Commands of a script, and an example of each', commands_of(document)),
        ('Numbers', document.table('numbers', 'place', 'is', 'from', 'to')),
        ('Fences', document.table('fences', 'mode', 'chooses the trees')),
        ('Refusals', document.table('refusals', 'answer', 'where', 'what to do')),
        ('Exit numbers', [[*row, means.partition(':')[0]] for *row, means in endings]),
    ]
    body = ['<h2%s>%s</h2>\n%s' % (' class="turn"' if title == 'Numbers' else '', title, table_html(rows))
            for title, rows in parts]
    front = '<!doctype html>\n<html lang="en"><head><meta charset="utf-8"><title>dgnedit: quick card</title>'
    head = '<header><h1>dgnedit</h1><p>quick card, version %s</p></header>' % html.escape(version)
    return '\n'.join([front + '<style>%s</style></head><body>' % STYLE, head, *body, '</body></html>\n'])
