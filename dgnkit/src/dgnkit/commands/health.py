"""`dgnkit health IN ..`: whether drawings open, and what in them isn't as it should be."""

from __future__ import annotations

import argparse
from typing import TYPE_CHECKING, Any, Dict, List, Optional, Sequence, Tuple

from ..drawing.broken import why_broken
from ..drawing.damage import Stretch, bytes_behind, elements_of_nothing, runs_of_zeros
from ..drawing.drawing import Drawing
from ..drawing.duplicates import duplicates
from ..drawing.fencing import corners_of, trees_of
from ..errors import BadDesign, Mistake
from ..format.element import described
from ..format.places import Scale
from ..output import counted, listed, note, say, say_csv, say_json
from ..program.runs import Program

if TYPE_CHECKING:
    from ..cli import Subparsers

Facts = Dict[str, Any]
COUNTS = 'broken_trees type_0 zeros audit twice outside end_mark behind deleted locked'.split()


def register(words: Subparsers) -> None:
    parser = words.add_parser('health', help='report what is damaged, broken or odd in drawings')
    parser.add_argument('drawings', metavar='IN', nargs='+', help='the drawings')
    parser.add_argument(
        '--frame', metavar='X,Y', nargs=2, help="also report what isn't inside the box with these corners"
    )
    parser.add_argument(
        '--units', choices=('auto', 'master', 'resolution'), default='auto', help='the units of positions'
    )
    parser.add_argument('-v', '--verbose', action='store_true', help='print each finding')
    form = parser.add_mutually_exclusive_group()
    form.add_argument('--json', action='store_true', help='print it as JSON')
    form.add_argument('--csv', action='store_true', help='print it as CSV, a row for each drawing')
    parser.set_defaults(run=run)


def run(arguments: argparse.Namespace) -> int:
    program = Program.find()
    told: List[Facts] = []
    status = 0
    for name in arguments.drawings:
        try:
            facts, scale = facts_of(name, program, arguments)
        except Mistake as why:
            note('dgnkit: %s' % why)
            status = 2
            continue
        status = max(status, int(facts['found']))
        told.append(facts)
        if not arguments.json and not arguments.csv:
            say(line_of(facts))
            for line in details_of(facts, scale) if arguments.verbose else []:
                say('  ' + line)
    if arguments.json:
        say_json(told)
    elif arguments.csv:
        say_csv(['file', 'opens', 'elements', *COUNTS, 'findings'], [csv_row(it) for it in told])
    return status


def facts_of(name: str, program: Program, arguments: argparse.Namespace) -> Tuple[Facts, Optional[Scale]]:
    """All that is said of a file, as JSON has it, and how its places are written. `found` is whether something isn't as
    it should be."""
    try:
        drawing = Drawing(name, program)
        elements = drawing.elements
    except BadDesign as why:
        facts = {'file': name, 'found': True, 'opens': False, 'fault': why.fault, 'byte': why.offset, 'why': str(why)}
        return facts, None
    scale = Scale(drawing.units, arguments.units)
    facts = {
        'file': name,
        'opens': True,
        'elements': len(elements),
        'broken_trees': len(drawing.nesting.broken_roots),
        'broken': [broken_facts(drawing, it) for it in drawing.nesting.broken],
        'type_0': [stretch_facts(it) for it in elements_of_nothing(drawing)],
        'zeros': [stretch_facts(it) for it in runs_of_zeros(drawing)],
        'audit': [
            {'element': it.number, 'stored': [it.low, it.high], 'hull': [it.hull_low, it.hull_high]}
            for it in drawing.findings
        ],
        'twice': [{'elements': it, 'is': described(elements[it[0]])} for it in duplicates(drawing)],
        'outside': [described(elements[it]) for it in outside_of(drawing, arguments.frame, scale)],
        'end_mark': bool(drawing.tail),
        'behind': bytes_behind(drawing),
        'deleted': len(elements.deleted()),
        'locked': elements.locked_count(),
    }
    facts['found'] = bool(findings_said(facts))
    return facts, scale


def outside_of(drawing: Drawing, frame: Optional[Sequence[str]], scale: Scale) -> List[int]:
    """The roots of the trees that aren't inside a frame."""
    if not frame:
        return []
    corners = corners_of(frame, scale)
    return sorted(trees_of(drawing, corners, 'void', False) | trees_of(drawing, corners, 'crossing', False))


def broken_facts(drawing: Drawing, number: int) -> Facts:
    root, element = drawing.nesting.roots[number], drawing.elements[number]
    return {'element': number, 'root': root, 'is': described(element), 'why': why_broken(drawing, number)}


def stretch_facts(it: Stretch) -> Dict[str, int]:
    return {'first': it.first, 'last': it.last, 'byte': it.start, 'bytes': it.end - it.start}


def findings_said(facts: Facts) -> List[str]:
    """What isn't as it should be, each with its count."""
    of_nothing = sum(it['last'] - it['first'] + 1 for it in facts['type_0'])
    twice = sum(len(it['elements']) - 1 for it in facts['twice'])
    said = [
        (facts['broken_trees'], counted(facts['broken_trees'], 'broken tree')),
        (of_nothing, counted(of_nothing, 'element') + ' of type 0'),
        (len(facts['zeros']), counted(len(facts['zeros']), 'run') + ' of zeros'),
        (len(facts['audit']), counted(len(facts['audit']), 'wrong range')),
        (twice, counted(twice, 'duplicate tree')),
        (len(facts['outside']), counted(len(facts['outside']), 'tree') + ' outside the frame'),
        (not facts['end_mark'], 'no end mark'),
        (facts['behind'], counted(facts['behind'], 'byte') + ' after the end mark'),
    ]
    return [text for count, text in said if count]


def csv_row(facts: Facts) -> List[object]:
    """The facts of a drawing as a row, lists by their lengths."""
    if not facts['opens']:
        return [facts['file'], 0, *[''] * (1 + len(COUNTS)), facts['why']]
    values = [len(it) if isinstance(it, list) else int(it) for it in (facts[name] for name in COUNTS)]
    return [facts['file'], 1, facts['elements'], *values, ', '.join(findings_said(facts)) or 'ok']


def line_of(facts: Facts) -> str:
    """The one line of a drawing."""
    if not facts['opens']:
        return str(facts['why'])
    said = ', '.join(findings_said(facts)) or 'ok'
    counts = '%s, %d deleted, %d locked' % (counted(facts['elements'], 'element'), facts['deleted'], facts['locked'])
    return '%s: %s (%s)' % (facts['file'], said, counts)


def details_of(facts: Facts, scale: Optional[Scale]) -> List[str]:
    """A line for each finding."""
    if scale is None:
        return []
    lines = ['%s: %s' % (it['is'], it['why']) for it in facts['broken']]
    for what, stretches in [('of type 0', facts['type_0']), ('with a run of zeros', facts['zeros'])]:
        lines += [stretch_said(it, what) for it in stretches]
    for it in facts['audit']:
        said = 'element %d: its range is %s, and should be %s %s'
        lines.append(said % (it['element'], box_said(it['stored'], scale), box_said(it['hull'], scale), scale.name))
    for it in facts['twice']:
        lines.append('%s is there %d times: %s' % (it['is'], len(it['elements']), listed(it['elements'])))
    lines += ["%s isn't inside the frame" % it for it in facts['outside']]
    if not facts['end_mark']:
        lines.append('no end mark: the file ends between two elements, and may have been cut off there')
    if facts['behind']:
        lines.append('%s after the end mark, which programs ignore' % counted(facts['behind'], 'byte'))
    return lines


LISTS = 'broken type_0 zeros audit twice outside'.split()  # findings of which there may be several


def findings_of(facts: Facts, scale: Optional[Scale]) -> List[Tuple[str, List[int], str]]:
    """Each finding by itself: what it is, as it is called in JSON, the elements that it is of, and its line."""
    nothing: Facts = {**{name: [] for name in LISTS}, 'end_mark': True, 'behind': 0}
    made = [(name, it, {**nothing, name: [it]}) for name in LISTS for it in facts[name]]
    made += [(name, None, {**nothing, name: facts[name]}) for name in ('end_mark', 'behind')]
    return [(name, elements_of(it), line) for name, it, alone in made for line in details_of(alone, scale)]


def elements_of(it: Any) -> List[int]:
    """The elements that a finding is of."""
    if not isinstance(it, dict):
        return []
    return list(it['elements']) if 'elements' in it else [it['element' if 'element' in it else 'first']]


def stretch_said(it: Dict[str, int], what: str) -> str:
    last = '' if it['first'] == it['last'] else ' to %d' % it['last']
    return 'element %d%s %s: %s at byte %d' % (it['first'], last, what, counted(it['bytes'], 'byte'), it['byte'])


def box_said(corners: List[Any], scale: Scale) -> str:
    return ' '.join(scale.place_said(tuple(corner), False) for corner in corners)
