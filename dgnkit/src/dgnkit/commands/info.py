"""`dgnkit info IN ..`: what drawings are, and what they have."""

from __future__ import annotations

import argparse
from collections import Counter
from typing import TYPE_CHECKING, Any, Dict, List, Optional, Tuple

from ..drawing.attachments import names_in
from ..drawing.drawing import Drawing
from ..drawing.measuring import Measures, Sums, measures_of
from ..errors import Mistake
from ..format import classes
from ..format.classes import type_name
from ..format.limits import PLANE_HIGH, PLANE_LOW
from ..format.numbers import Point
from ..format.units import Units, metres_of, shortest
from ..output import counted, note, say, say_csv, say_json, table
from ..program.runs import Program

if TYPE_CHECKING:
    from ..cli import Subparsers

MEASURES = ['lines', 'length', 'shapes', 'outline', 'area']
FONTS = ['font', 'texts']


def register(words: Subparsers) -> None:
    parser = words.add_parser('info', help='report the units and the contents of drawings')
    parser.add_argument('drawings', metavar='IN', nargs='+', help='the drawings')
    parser.add_argument('--lengths', action='store_true', help='add up lengths and areas by level')
    parser.add_argument('--fonts', action='store_true', help='list the fonts of texts')
    form = parser.add_mutually_exclusive_group()
    form.add_argument('--json', action='store_true', help='print it as JSON')
    form.add_argument('--csv', action='store_true', help='print the table of levels, or of fonts, as CSV')
    parser.set_defaults(run=run)


def run(arguments: argparse.Namespace) -> int:
    if arguments.csv and arguments.lengths and arguments.fonts:
        raise Mistake('--csv prints one table: ask for --lengths or for --fonts')
    program = Program.find()
    told: List[Dict[str, Any]] = []
    status = 0
    for name in arguments.drawings:
        try:
            facts = facts_of(Drawing(name, program), arguments.lengths, arguments.fonts)
        except Mistake as why:
            note('dgnkit: %s' % why)
            status = 2
            continue
        told.append(facts)
        if arguments.csv and facts['not_in_lengths']:
            note('%s: not in the sums: %s' % (name, left_said(facts)))
        if not arguments.json and not arguments.csv:
            for line in lines_of(facts):
                say(line)
    if arguments.json:
        say_json(told)
    elif arguments.csv and arguments.fonts:
        say_csv(['file', *FONTS], [[it['file'], *row] for it in told for row in it['fonts'].items()])
    elif arguments.csv:
        head = ['file', 'level', 'elements', 'types', *(MEASURES if arguments.lengths else [])]
        say_csv(head, [[it['file'], *row] for it in told for row in rows_of(it)])
    return status


def facts_of(drawing: Drawing, has_lengths: bool = False, has_fonts: bool = False) -> Dict[str, Any]:
    """All that is said of a drawing, as JSON has it."""
    units, elements = drawing.units, drawing.elements
    extent = drawing.extent
    sums = measures_of(drawing) if has_lengths else None
    by_level = {level: {type_name(it): kinds[it] for it in kinds} for level, kinds in elements.counts().items()}
    return {
        'file': drawing.path,
        'bytes': len(drawing.data),
        'dimension': drawing.axes,
        'units': units_facts(units),
        'origin': [float(it) for it in units.origin[: drawing.axes]],
        'plane': [corner(units, PLANE_LOW, drawing.axes), corner(units, PLANE_HIGH, drawing.axes)],
        'extent': None if extent is None else extent_facts(units, extent),
        'elements': len(elements),
        'deleted': len(elements.deleted()),
        'locked': elements.locked_count(),
        'references': len(drawing.references),
        'reference_files': [
            {'element': it.number, 'deleted': it.is_deleted, 'names': names_in(elements[it.number])}
            for it in drawing.references
        ],
        'own_colours': drawing.colours is not None,
        'first_byte': drawing.tcb.first_byte,
        'levels': {str(level): by_level[level] for level in sorted(by_level)},
        'lengths': None if sums is None else lengths_facts(sums, units.in_master or 1),
        'not_in_lengths': None if sums is None else sums.left,
        'fonts': fonts_facts(drawing) if has_fonts else None,
    }


def lengths_facts(sums: Sums, scale: int) -> Dict[str, Dict[str, float]]:
    """The sums of each level, in units of which one has so many units of resolution."""

    def facts(it: Measures) -> Dict[str, float]:
        lengths = {'length': it.length / scale, 'outline': it.outline / scale, 'area': it.area / scale**2}
        return {'lines': it.lines, 'shapes': it.shapes, **{name: round(lengths[name], 6) for name in lengths}}

    return {str(level): facts(it) for level, it in sorted(sums.levels.items())}


def fonts_facts(drawing: Drawing) -> Dict[str, int]:
    """How many texts have each font. What is marked deleted doesn't count."""
    texts = (drawing.elements[it] for it in drawing.elements.of_types(classes.WORDS) if it not in drawing.dead)
    counts = Counter(it.font or 0 for it in texts)
    return {str(font): counts[font] for font in sorted(counts)}


def units_facts(units: Units) -> Dict[str, Any]:
    """The units; `metres` of a unit is none where its name isn't known."""
    master, sub = metres_of(units.master_name), metres_of(units.sub_name)
    return {
        'known': units.is_known,
        'said': units.said,
        'master': units.master_name,
        'master_metres': None if master is None else float(master),
        'sub': units.sub_name,
        'sub_metres': None if sub is None else float(sub),
        'subunits_in_master': units.subunits,
        'resolution_in_subunit': units.resolution,
    }


def corner(units: Units, value: int, axes: int) -> Optional[List[float]]:
    return list(units.to_master((value,) * axes)) if units.is_known else None


def extent_facts(units: Units, extent: Tuple[Point, Point]) -> Dict[str, Any]:
    low, high = extent
    facts: Dict[str, Any] = {'low_resolution': list(low), 'high_resolution': list(high), 'low': None, 'high': None}
    if units.is_known:
        facts.update(low=list(units.to_master(low)), high=list(units.to_master(high)))
    return facts


def lines_of(facts: Dict[str, Any]) -> List[str]:
    """The same in words."""
    units = facts['units']
    lines = [
        '%s: design file of version 7, %d dimensions, %d bytes' % (facts['file'], facts['dimension'], facts['bytes']),
        '  units      ' + facts['units']['said'],
        '  origin     %s units of resolution' % ','.join(map(shortest, facts['origin'])),
    ]
    name = units['master'] or 'master units'
    if facts['plane'][0] is not None:
        lines.append('  plane      from %s to %s %s' % (*map(place_said, facts['plane']), name))
    lines.append('  extent     ' + extent_said(facts['extent'], name))
    more = [counted(facts['deleted'], 'is', 'are') + ' marked deleted', '%d locked' % facts['locked']]
    more += ['%d may attach a reference' % facts['references']] if facts['references'] else []
    lines.append('  elements   %d, of which %s' % (facts['elements'], ', '.join(more)))
    for it in facts['reference_files']:
        names = ', '.join(it['names']) or 'no file name found in it'
        lines.append('  reference  element %d%s: %s' % (it['element'], ', deleted' * it['deleted'], names))
    lines.append(
        '  colours    %s' % ('its own colour table' if facts['own_colours'] else "MicroStation's default table")
    )
    lines += ['  ' + line for line in table(['level', 'elements', 'types'], [it[:3] for it in rows_of(facts)])]
    if facts['fonts'] is not None:
        lines += ['  ' + line for line in table(FONTS, facts['fonts'].items())]
    return lines + measures_said(facts, name if units['known'] else 'units of resolution')


def rows_of(facts: Dict[str, Any]) -> List[List[object]]:
    """A row for each level: how many elements there are of each type, and the sums where they were asked for."""
    made = []
    for level, types in facts['levels'].items():
        row: List[object] = [level, sum(types.values()), ', '.join('%d %s' % (types[it], it) for it in types)]
        if facts['lengths'] is not None:
            found = facts['lengths'].get(level, {})
            row += [found.get(name) if name in found else None for name in MEASURES]
        made.append(row)
    return made


def measures_said(facts: Dict[str, Any], name: str) -> List[str]:
    """The sums in words: a table of the levels that have any."""
    if facts['lengths'] is None:
        return []
    rows = [
        [level, it['lines'], *(shortest(round(it[word], 3)) for word in ('length',)), it['shapes']]
        + [shortest(round(it[word], 3)) for word in ('outline', 'area')]
        for level, it in facts['lengths'].items()
    ]
    head = ['level', *MEASURES]
    lines = ['  lengths in %s and areas in square %s; outlines and areas are those of shapes' % (name, name)]
    lines += ['  ' + line for line in table(head, rows)]
    return lines + (['  not in the sums: ' + left_said(facts)] if facts['not_in_lengths'] else [])


def left_said(facts: Dict[str, Any]) -> str:
    """What isn't in the sums, each with its count."""
    return '; '.join('%s: %d' % it for it in sorted(facts['not_in_lengths'].items()))


def place_said(place: List[float]) -> str:
    return ','.join(map(shortest, place))


def extent_said(extent: Optional[Dict[str, Any]], name: str) -> str:
    if extent is None:
        return 'nothing is drawn'
    plain = '%s to %s' % tuple(','.join(map(str, extent[it])) for it in ('low_resolution', 'high_resolution'))
    if extent['low'] is None:
        return plain + ' units of resolution'
    return '%s to %s %s (%s units of resolution)' % (place_said(extent['low']), place_said(extent['high']), name, plain)
