"""`dgnkit diff A B`: in words, element by element, how two drawings differ; or what of it a script can do."""

from __future__ import annotations

import argparse
from typing import TYPE_CHECKING, Any, Dict, List

from ..drawing.drawing import Drawing
from ..errors import Mistake
from ..explain.comparing import Difference, differences
from ..explain.wording import command_said
from ..output import counted, note, say, say_csv, say_json
from ..program.runs import Program
from ..propose.redoing import redoing_of
from ..propose.scripting import give_script
from ..saving import Target
from ._options import add_output, target_of

if TYPE_CHECKING:
    from ..cli import Subparsers

COUNTED = {
    'bit_c': 'with another member mark (bit C)',
    'bytes': 'with other bytes',
    'level': 'on another level',
    'looks': 'of another weight or style',
    'name': 'with another name',
    'points': 'with single points moved',
    'range': 'with another range',
    'reordered': 'in another order',
    'text': 'with another text',
    'total': 'with another total',
}
BACK = {'deleted': 'no longer deleted', 'locked': 'unlocked'}


def register(words: Subparsers) -> None:
    parser = words.add_parser('diff', help='say in words how two drawings differ')
    parser.add_argument('first', metavar='A', help='the first drawing')
    parser.add_argument('second', metavar='B', help='the second drawing')
    form = parser.add_mutually_exclusive_group()
    form.add_argument('--json', action='store_true', help='print it as JSON')
    form.add_argument('--csv', action='store_true', help='print it as CSV')
    form.add_argument('--script', action='store_true', help='write the script that makes A as much like B as it can')
    add_output(parser, 'the file for --script')
    parser.set_defaults(run=run)


def run(arguments: argparse.Namespace) -> int:
    """The status is 0 where the drawings are the same, byte by byte, else 1; with --script 0."""
    if arguments.output and not arguments.script:
        raise Mistake('-o needs --script')
    program = Program.find()
    first, second = Drawing(arguments.first, program), Drawing(arguments.second, program)
    found = differences(first, second)
    tails = tail_said(first, second)
    if arguments.script:
        give_redoing(first, second, found, target_of(arguments, arguments.output))
        return 0
    if arguments.json:
        say_json({'elements': [facts_of(it) for it in found], 'tail': tails})
    elif arguments.csv:
        rows = [[it.before, it.after, it.described, '; '.join(it.words)] for it in found]
        say_csv(['before', 'after', 'is', 'words'], rows)
    else:
        for it in found:
            say('%s: %s' % (name_of(it), '; '.join(it.words)))
        for line in tails:
            say(line)
        say(summary(found) if found or tails else 'no difference')
    return 1 if found or tails else 0


def give_redoing(first: Drawing, second: Drawing, found: List[Difference], target: Target) -> None:
    """Gives the script, and says what still differs once it has run."""
    made = redoing_of(first, second, found)
    for it in made.left[:20]:
        note('not covered: %s: %s' % (name_of(it), '; '.join(it.words)))
    if len(made.left) > 20:
        note('not covered: and %d more' % (len(made.left) - 20))
    note('after the script %s' % (summary(made.left) if made.left else 'no element differs'))
    words = (command_said(first, it.text) for it in made.script.commands)
    give_script(first.path, made.script, words, target)


def facts_of(it: Difference) -> Dict[str, Any]:
    return {'before': it.before, 'after': it.after, 'is': it.described, 'changes': it.changes, 'words': it.words}


def name_of(it: Difference) -> str:
    if it.before is not None and it.after is not None and it.before != it.after:
        return '%s (%d in the second)' % (it.described, it.after)
    return it.described


def tail_said(first: Drawing, second: Drawing) -> List[str]:
    """How what stands behind the elements differs."""
    if first.tail == second.tail:
        return []
    return [
        'after the elements: %s in the first, %s in the second'
        % tuple(counted(len(it.tail), 'byte') for it in (first, second))
    ]


def summary(found: List[Difference]) -> str:
    counts: Dict[str, int] = {}
    for it in found:
        for name, facts in it.changes.items():
            said = BACK[name] if name in BACK and facts is False else COUNTED.get(name, name)
            counts[said] = counts.get(said, 0) + 1
    if set(counts) == {COUNTED['reordered']}:
        return 'the same elements, %d of them in another order' % len(found)
    words = ', '.join('%d %s' % (counts[said], said) for said in counts)
    return '%s: %s' % (counted(len(found), 'element differs', 'elements differ'), words or 'none')
