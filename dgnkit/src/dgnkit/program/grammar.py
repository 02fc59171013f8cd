"""The language of scripts: what of a line is bad (docs/EDITING.md)."""

from __future__ import annotations

import re
from dataclasses import dataclass
from typing import Dict, List, Optional, Sequence

from ..format import tables
from ..format.limits import (
    COLOUR_MOST,
    FARTHEST,
    FONT_MOST,
    JUSTIFICATION_MOST,
    LEVEL_MOST,
    MULTIPLIER_MOST,
    NAME_LONGEST,
    NUMBER_MOST,
    PLANE_HIGH,
    PLANE_LOW,
    STYLE_MOST,
    TEXT_LONGEST,
    WEIGHT_MOST,
)

PLAIN = re.compile(r'0|[1-9]\d*')
SIGNED = re.compile(r'0|-?[1-9]\d*')
BYTE_ORDER_MARK = b'\xef\xbb\xbf'
DIGITS_MOST = 20  # no number that may stand in a script has more
MODES = tuple(tables.MODES)


# What people look for and the editor has no command for, and what there is for it.
CAN_NOT = ": dgnedit and dgnkit can't %s"
ADVICE = {
    'rotate': CAN_NOT % 'rotate elements',
    'scale': CAN_NOT % 'scale elements',
    'mirror': CAN_NOT % 'mirror elements',
    'rename': ': `dgnkit rename` gives cells another name',
    'level': ': `dgnkit relevel` puts elements on another level',
    'relevel': ': `dgnkit relevel` puts elements on another level',
    'lock': ': `dgnkit lock` locks elements',
    'unlock': ': `dgnkit unlock` unlocks elements',
    'undelete': ': `dgnkit undelete` takes deletions back',
    'retext': ': `dgnkit retext` changes the characters of texts',
}


@dataclass(frozen=True)
class Kind:
    """A place of a command: what it is, and the least and the greatest number there."""

    what: str
    low: int
    high: int


KINDS = {
    'N': Kind('an element number', 0, NUMBER_MOST),
    'C': Kind('a colour', 0, COLOUR_MOST),
    'W': Kind('a weight', 0, WEIGHT_MOST),
    'S': Kind('a style', 0, STYLE_MOST),
    'D': Kind('a displacement', -FARTHEST, FARTHEST),
    'LV': Kind('a level', 0, LEVEL_MOST),
    'F': Kind('a font', 0, FONT_MOST),
    'J': Kind('a justification', 0, JUSTIFICATION_MOST),
    'M': Kind('a multiplier', 0, MULTIPLIER_MOST),
    'P': Kind('a coordinate', PLANE_LOW, PLANE_HIGH),
}


@dataclass(frozen=True)
class Form:
    """What stands behind a command's name: kinds of pieces in their order, and then from `least` to `most` more of one
    kind (where `most` is none, as many as one likes). Where the command lists, `end` is the word of the line that ends
    what it lists."""

    kinds: Sequence[str]
    more: str = ''
    least: int = 0
    most: Optional[int] = 0
    end: str = ''


MANY = '..'  # behind a piece of which there may be more
REPEATED = ('D', 'P', 'Q')  # pieces of which several stand at the end
# Of the commands that list, the word of the line that ends what they list.
LISTS = {it: it for it in ('tree', 'elements', 'refs', 'links', 'audit')}
LISTS.update(show='shown', select='selected')


def form_of(name: str, forms: Sequence[str]) -> Form:
    """The form of a command, of the forms that it may have."""
    rows = [[it for it in form.split() if it != MANY] for form in forms]
    kinds = [it for it in rows[0] if it not in REPEATED]
    counts = [len(it) - len(kinds) for it in rows]
    least, most = min(counts), None if MANY in forms[0] else max(counts)
    if name in tables.POINTS_OF:
        least, most = tables.POINTS_OF[name]
    return Form(kinds, rows[0][-1] if counts[0] else '', least, most, LISTS.get(name, ''))


OWN_FORMS = ('text', 'import', 'levels')  # commands whose pieces have rules of their own
FORMS: Dict[str, Form] = {name: form_of(name, it) for name, it in tables.COMMANDS.items() if name not in OWN_FORMS}
TEXT = Form(tables.COMMANDS['text'][0].split()[:-1])  # and then its characters
IMPORT = Form(('',), 'D', 0, 3)


def kinds_of(words: Sequence[str]) -> List[str]:
    """What each piece of a line is, the command's name first; nothing of a piece that is none of it, as the characters
    of a text."""
    if not words:
        return []
    form = TEXT if words[0] == 'text' else IMPORT if words[0] == 'import' else FORMS.get(words[0], Form(()))
    kinds = ['', *form.kinds, *[form.more] * (len(words) - 1 - len(form.kinds))]
    return kinds[: len(words)]


def fault_of(line: bytes) -> Optional[str]:
    """What makes a line bad, in words, or none where it is a command, a comment or empty."""
    bare = line.strip(b' ')
    if not bare or bare.startswith(b'#'):
        return None
    if line.startswith(BYTE_ORDER_MARK):
        return 'it begins with a byte order mark (BOM): save the script without one'
    words = [it.decode('latin-1') for it in bare.split(b' ') if it]
    if '\t' in bare.decode('latin-1').split('\n')[0] and words[0] != 'text':
        return 'it contains a tab: use spaces'
    if words[0] == 'text':
        return _fault_of_text(line)
    if words[0] == 'import':
        return _fault_of_import(words[1:])
    if words[0] == 'levels':
        return _fault_of_levels(words[1:])
    form = FORMS.get(words[0])
    if form is None:
        return _no_command(words[0])
    return _fault_of_form(words[0], form, words[1:])


def _no_command(word: str) -> str:
    if word.lower() in FORMS or word.lower() in OWN_FORMS:
        return "%r isn't a command: commands are in lower case" % word
    return "%r isn't a command" % word + ADVICE.get(word.lower(), '')


def _fault_of_form(name: str, form: Form, words: List[str]) -> Optional[str]:
    least, most = len(form.kinds) + form.least, None if form.most is None else len(form.kinds) + form.most
    if len(words) < least or (most is not None and len(words) > most):
        if form.more == 'P' and len(words) >= len(form.kinds):
            return _fault_of_count(name, form, len(words) - len(form.kinds))
        span = 'at least %d' % least if most is None else str(least) if least == most else '%d to %d' % (least, most)
        what = 'value' if span == '1' else 'values'
        return '%s takes %s %s, not %d' % (name, span, what, len(words))
    kinds = [*form.kinds, *[form.more] * (len(words) - len(form.kinds))]
    for word, kind in zip(words, kinds):
        fault = _fault_of_piece(word, kind)
        if fault:
            return fault
    return _fault_of_axes([word for word, kind in zip(words, kinds) if kind == 'P'])


def _fault_of_count(name: str, form: Form, count: int) -> str:
    span = str(form.least) if form.least == form.most else '%d to %d' % (form.least, form.most or 0)
    return 'a %s has %s points, not %d' % ({'string': 'line string'}.get(name, name), span, count)


def _fault_of_piece(word: str, kind: str) -> Optional[str]:
    if kind == 'MODE':
        return None if word in MODES else "%r isn't a mode: use inside, overlap or void" % word
    if kind == 'P':
        return _fault_of_point(word, (2, 3))
    if kind == 'Q':
        return _fault_of_point(word, (2,))
    if kind.endswith('-') and word == '-':
        return None
    return _fault_of_number(word, KINDS[kind.rstrip('-')])


def _fault_of_number(word: str, kind: Kind) -> Optional[str]:
    if not (SIGNED if kind.low < 0 else PLAIN).fullmatch(word):
        why = ', without + or 0 in front' if re.fullmatch(r'[-+]?\d+', word) else ''
        return "%r isn't %s: give a whole number from %d to %d%s" % (word, kind.what, kind.low, kind.high, why)
    if len(word) > DIGITS_MOST or not kind.low <= int(word) <= kind.high:
        return '%s is out of range: %s is from %d to %d' % (word, kind.what, kind.low, kind.high)
    return None


def _fault_of_point(word: str, axes: Sequence[int]) -> Optional[str]:
    numbers = word.split(',')
    if len(numbers) not in axes:
        return "%r isn't a point: write x,y%s without spaces" % (word, ' or x,y,z' if 3 in axes else '')
    return next((it for it in (_fault_of_number(number, KINDS['P']) for number in numbers) if it), None)


def _fault_of_axes(points: Sequence[str]) -> Optional[str]:
    if len({it.count(',') for it in points}) > 1:
        return 'its points have different numbers of coordinates'
    return None


def _fault_of_levels(words: List[str]) -> Optional[str]:
    if not words:
        return 'levels takes at least one level, or all, or none'
    if words in (['all'], ['none']):
        return None
    for word in words:
        low, dash, high = word.partition('-')
        fault = _fault_of_number(low, KINDS['LV']) or (_fault_of_number(high, KINDS['LV']) if dash else None)
        if fault:
            return fault
        if dash and int(low) > int(high):
            return "%r isn't a range of levels: its first is greater than its last" % word
    return None


def _fault_of_import(words: List[str]) -> Optional[str]:
    if len(words) not in (1, 3, 4):
        return 'import takes a file name, alone or with a displacement of two or three numbers'
    name = words[0]
    if len(name) > NAME_LONGEST or any(not '!' <= sign <= '~' for sign in name):
        return 'a file name has 1 to %d ASCII letters, digits and punctuation characters, and no spaces' % NAME_LONGEST
    return next((it for it in (_fault_of_number(word, KINDS['D']) for word in words[1:]) if it), None)


def _fault_of_text(line: bytes) -> Optional[str]:
    kinds = TEXT.kinds
    found = re.match(rb' *text' + rb' +([^ ]+)' * len(kinds), line)
    if not found:
        return 'text takes %d values before its characters' % len(kinds)
    for word, kind in zip(found.groups(), kinds):
        fault = _fault_of_piece(word.decode('latin-1'), kind)
        if fault:
            return fault
    characters = line[found.end() :]
    if not characters.startswith(b' ') or not 2 <= len(characters) <= TEXT_LONGEST + 1:
        return 'a text has 1 to %d characters, after exactly one space' % TEXT_LONGEST
    return None
