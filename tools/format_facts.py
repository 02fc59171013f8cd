"""The facts of the format and of the language of scripts, read out of the sources in crates/: each in one place, where
it is defined, and in one form; a few are read of the code, which has them as constants. Where one doesn't stand there
just once, or has another form, Broken says so."""

import re
from pathlib import Path
from typing import Callable, Dict, Iterable, Iterator, List, Match, NamedTuple, Optional, Tuple, Union

TOP = Path(__file__).resolve().parent.parent
TYPES = range(128)
BY_WORD = 255  # as many points as a word of the element says

AMONG = r'\((?:\d+ ∷ )+\[\]\)'
POINTS = r'record \{ count = (?:word_at b )?\d+; start = (?:\d+|\w+ dim) \}'
BYTE = r'(0x[0-9A-F]{2})'

Value = Union[  # bytes: a table of all types
    int, str, bytes, List[int], List[str], List[List[int]], Dict[str, int], Dict[str, List[int]], Dict[str, List[str]]
]


class Broken(Exception):
    """A fact hasn't the form that is read, or the module isn't what is made of the sources."""


class Mask(int):
    """A number of which the bits count."""


class Fact(NamedTuple):
    """A constant of the module: its name, its value and what it says."""

    name: str
    value: Value
    said: str


class Source:
    """A file of a crate as its clauses, without comments: each line that isn't indented, with the indented ones behind
    it, in one line."""

    def __init__(self, path: str) -> None:
        self.path = 'crates/' + path
        comment = '//' if path.endswith('.rt') else '--'
        self.lines = (TOP / self.path).read_text(encoding='utf-8').splitlines()
        self.clauses: List[str] = []
        for line in self.lines:
            code = line.partition(comment)[0].rstrip()
            if code.startswith(' ') and self.clauses:
                self.clauses[-1] += ' ' + code.strip()
            elif code:
                self.clauses.append(code)

    def all(self, front: str, form: str) -> List[Match[str]]:
        """The clauses that begin so, each of which must have the form behind that."""
        found = [re.fullmatch(form, it[len(front) :]) for it in self.clauses if it.startswith(front)]
        read = [it for it in found if it is not None]
        if len(read) != len(found):
            raise Broken(f'{self.path}: what begins {front.strip()!r} has a form that is not read')
        return read

    def one(self, front: str, form: str) -> Match[str]:
        """The one clause that begins so, which must have the form behind that."""
        found = self.all(front, form)
        if len(found) != 1:
            raise Broken(f'{self.path}: what begins {front.strip()!r} stands there {len(found)} times, not once')
        return found[0]

    def number(self, front: str, form: str) -> int:
        """The number in the form of the one clause that begins so."""
        return int(self.one(front, form)[1])

    def bit(self, front: str, form: str) -> Mask:
        """The same, which has to be a single bit."""
        found = self.number(front, form)
        if found.bit_length() != (found - 1).bit_length() + 1:
            raise Broken(f'{self.path}: what begins {front.strip()!r} has {found}, which is no single bit')
        return Mask(found)

    def usages(self, name: str) -> List[str]:
        """The forms of a command that stand in the comment right above its definition."""
        at = next((at for at, line in enumerate(self.lines) if line.startswith(f'abbrev pub {name} ')), 0)
        found = re.match(r'-- ((?:`[^`]+`(?:, )?)+)', self.lines[at - 1] if at else '')
        if found is None:
            raise Broken(f'{self.path}: no form of {name} stands in a comment above it')
        return re.findall(r'`([^`]+)`', found[1])

    def by_axes(self, name: str) -> Tuple[int, int]:
        """What a definition gives with two axes and with three."""
        found = self.one(name + ' dim = ', r'if dim == 2 then (\d+) else (\d+)')
        return int(found[1]), int(found[2])


class Sources(Dict[str, Source]):
    """The files by their paths in crates/, each read when it is asked for."""

    def __missing__(self, path: str) -> Source:
        self[path] = Source(path)
        return self[path]


def numbers(text: str) -> List[int]:
    """The numbers in a text."""
    return [int(it) for it in re.findall(r'\d+', text)]


def classes(sources: Sources) -> Tuple[List[str], List[str]]:
    """The names of the classes, and that of each of the 128 types."""
    enum, table = sources['dgn_layout/src/types.rt'], sources['dgn_layout/specs/Classes.antt']
    names = re.findall(r'\w+', enum.one('pub enum Class {', r'((?: \w+,)+)')[1])
    rule = table.one('class_of kind = ', rf'((?:if is_among kind {AMONG} then \w+ else )+)(\w+)')
    found: Dict[int, str] = {}
    for listed, name in re.findall(rf'({AMONG}) then (\w+)', rule[1]):
        for kind in numbers(listed):
            if kind not in TYPES:
                raise Broken(f'{table.path}: {kind} is no type')
            if kind in found:
                raise Broken(f'{table.path}: the type {kind} is listed twice')
            found[kind] = name
    if sorted({rule[2], *found.values()}) != sorted(names):
        raise Broken(f'{table.path}: the classes are not those of {enum.path}')
    return names, [found.get(kind, rule[2]) for kind in TYPES]


def points(spots: Source, class_of: List[str]) -> Iterator[Tuple[str, Tuple[int, int]]]:
    """Of each type how many points it has, in the definition's words, and where they begin with two axes and with
    three."""
    form = rf'(?:Class\.(\w+)|other) dim kind b = ((?:if kind == \d+ then {POINTS} else )*)({POINTS})'
    found = spots.all('points_in ', form)
    rules = {it[1] or 'other': it for it in found}
    if len(rules) != len(found) or 'other' not in rules or not set(rules) <= {'other', *class_of}:
        raise Broken(f"{spots.path}: 'points_in' should say it once of a class, and of all others")
    for kind in TYPES:
        rule = rules.get(class_of[kind], rules['other'])
        own = re.search(rf'if kind == {kind} then ({POINTS})', rule[2])
        count, start = re.findall(r' = ([^;}]+)(?:;| })', own[1] if own else rule[3])
        yield count, spots.by_axes(start.split()[0]) if 'dim' in start else (int(start), int(start))


def table(source: Source, values: Iterable[Optional[int]]) -> bytes:
    """A number for each type, in a byte, which is BY_WORD where there is none."""
    found = list(values)
    most = max(it for it in found if it is not None)
    if most >= BY_WORD:
        raise Broken(f'{source.path}: {most} is past what a table of bytes holds')
    return bytes(BY_WORD if it is None else it for it in found)


def facts_of_types(sources: Sources) -> Iterator[Fact]:
    """What is read of each type, and where."""
    names, class_of = classes(sources)
    numbered = {it.lower(): at for at, it in enumerate(names)}
    yield Fact('CLASS', numbered, "What a type's class says of an element: which of it is read.")
    yield Fact('CLASS_OF', bytes(map(names.index, class_of)), 'The class of each type.')

    spots = sources['dgn_layout/specs/Spots.antt']
    read = list(points(spots, class_of))
    places = {count for count, _ in read if count.startswith('word_at')}
    if len(places) != 1:
        raise Broken(f'{spots.path}: the word that counts points should have one place')
    counts = table(spots, (None if count in places else int(count) for count, _ in read))
    yield Fact('COUNTS', counts, 'How many points each type has, its origin being one, or BY_WORD.')
    yield Fact('BY_WORD', BY_WORD, 'As many as the word at COUNT_AT says.')
    yield Fact('COUNT_AT', numbers(places.pop())[0], 'Where the word stands that counts points.')
    texts = sources['dgn_layout/specs/Ends.antt'].by_axes('chars_start')
    for at, (name, axes) in enumerate([('PLANE', 'two'), ('SPACE', 'three')]):
        starts = table(spots, (start[at] for _, start in read))
        said = f'Where with {axes} axes the points of each type begin, and the body ends of one that has none.'
        yield Fact('POINTS_IN_' + name, starts, said)
        yield Fact('TEXT_IN_' + name, texts[at], f'Where with {axes} axes the characters of a text begin.')


def facts_of_nesting(sources: Sources) -> Iterator[Fact]:
    """How headers and what stands below them are known."""
    nesting, layout = sources['dgn_drawing/specs/Nesting.antt'], sources['dgn_layout/src/lib.rt']
    shape = nesting.one(
        'shape_of scope h members spline_parts parts = ',
        r'if is_parts scope then leaf else if is_counted \(class_of h\.kind\) then group_or_loose members '
        rf'else if is_among h\.kind ({AMONG}) then run_over Parts spline_parts '
        r'else if h\.kind == SHARED_CELL && is_all scope then run_over Members parts else leaf',
    )
    parts = nesting.one('is_spline_part r = ', rf'r\.cbit && is_among r\.kind ({AMONG})')
    yield Fact('SPLINES', numbers(shape[1]), 'Types of the headers of B-splines.')
    yield Fact('SPLINE_PARTS', numbers(parts[1]), 'Types of the parts of B-splines.')
    shared = layout.number('pub const SHARED_CELL: u8 = ', r'(\d+);')
    yield Fact('SHARED_CELL', shared, 'The type of a shared cell definition.')
    before = nesting.number('whole_of h = ', r'(\d+) \+ 2 \* h\.total')
    yield Fact('BEFORE_TOTAL', before, 'Bytes of a counted header up to the end of its total.')


def facts_of_values(sources: Sources) -> Iterator[Fact]:
    """Bits, the bytes that a drawing begins with, and the design plane."""
    linked = sources['elem_head/specs/Head.antt'].bit('has_attributes b = ', r'properties_of b / (\d+) % 2 == 1')
    yield Fact('LINKED', linked, 'The bit of the properties that says that attribute data follow.')
    locked = sources['edit_ops/specs/Causes.antt'].bit('says_locked properties = ', r'properties / (\d+) % 2 == 1')
    yield Fact('LOCKED', locked, 'The bit of the properties that says that an element is locked.')

    opening = sources['dgn_drawing/specs/Opening.antt']
    rest = ''.join(rf' && slice_index b {at} == {BYTE}' for at in (1, 2, 3))
    tcb = opening.one('is_tcb b = ', rf'\(slice_index b 0 == {BYTE} \|\| slice_index b 0 == {BYTE}\){rest}')
    fronts = [[int(it, 16) for it in (first, *tcb.groups()[2:])] for first in tcb.groups()[:2]]
    yield Fact('TCB_FRONTS', fronts, 'The bytes that a drawing begins with, one of these.')
    place = opening.number('dimension f = ', r'if slice_index f (\d+) / \d+ % 2 == 1 then 3 else 2')
    yield Fact('AXES_AT', place, 'Where the byte stands that says how many axes a drawing has.')
    axes = opening.bit('dimension f = ', r'if slice_index f \d+ / (\d+) % 2 == 1 then 3 else 2')
    yield Fact('AXES_BIT', axes, 'The bit of it that says that they are three.')

    plane = sources['range_code/specs/Plane.antt']
    ends = plane.one('is_on_plane v = ', r'int_le \(neg_ℤ \(pos (\d+)\)\) v && int_le v \(pos (\d+)\)')
    yield Fact('LEAST', -int(ends[1]), 'The least coordinate.')
    yield Fact('GREATEST', int(ends[2]), 'The greatest coordinate.')


def facts_of_spellings(sources: Sources) -> Iterator[Fact]:
    """Linkages, Radix-50 and the patch file."""
    links = sources['dgn_linkage/src/first.rt']
    yield Fact('LINKAGE_LEAST', links.number('const FEWEST: usize = ', r'(\d+);'), 'The fewest bytes of a linkage.')
    yield Fact('DMRS_LENGTH', links.number('const DMRS: usize = ', r'(\d+);'), 'How many bytes a Dmrs has.')
    user = 1 << links.number('const USER_BIT: u8 = ', r'([0-7]);')
    yield Fact('USER_BIT', Mask(user), "The bit of a linkage's second byte that marks a User.")

    words = sources['dgn_radix50/src/lib.rt']
    signs = sources['dgn_radix50/specs/Signs.antt'].one('signs = ', r'codes "([ $%.0-9A-Z]+)"')[1]
    signless = words.number('const WORDS: u16 = ', r'(\d+);')
    if len(set(signs)) != len(signs) or len(signs) ** 3 != signless:
        raise Broken(f'{words.path}: {signless} is not how many words three of {len(set(signs))} signs make')
    yield Fact('SIGNS', signs, 'The signs of Radix-50 in the order of their codes.')
    yield Fact('SIGNLESS', signless, 'The least word that stands for no signs.')

    mark = sources['patch_file/specs/Spelling.antt'].one('mark = ', r'codes "([0-9A-Z]{8})"')
    yield Fact('PATCH_MARK', mark[1], 'What a patch file begins with.')
    rules = sources['patch_file/specs/Exchanges.antt']
    longest = rules.number('pub record KeepsRules ', r'.* pub most : length f\.was ≤ (\d+) .*')
    yield Fact('FIELD_LONGEST', longest, 'The most bytes that a field of a patch file exchanges.')


def facts_of_limits(sources: Sources) -> Iterator[Fact]:
    """The least and the greatest of what a script says, and of files."""
    edits, appends = sources['edit_script/specs/Edits.antt'], sources['edit_script/specs/Appends.antt']
    number = edits.number('element_named word = ', r'number_within (\d+) word')
    yield Fact('NUMBER_MOST', number, "The greatest number of an element.")
    farthest = edits.number('distance_named word = ', r'signed_within (\d+) word')
    yield Fact('FARTHEST', farthest, 'The greatest displacement, either way.')
    pen = appends.one(
        'pen_named (lv ',
        r'.*\) = pen_of \(number_within (\d+) lv\) \(number_within (\d+) c\) '
        r'\(number_within (\d+) w\) \(number_within (\d+) s\)',
    )
    for at, name in enumerate(('level', 'colour', 'weight', 'style'), 1):
        yield Fact(f'{name.upper()}_MOST', int(pen[at]), f'The greatest {name}.')
    lettering = appends.one(
        'lettering_named (f ',
        r'.*\) = lettering_of \(number_within (\d+) f\) \(number_within (\d+) j\) .*',
    )
    yield Fact('FONT_MOST', int(lettering[1]), 'The greatest font.')
    yield Fact('JUSTIFICATION_MOST', int(lettering[2]), 'The greatest justification.')
    multiplier = appends.number('multiplier_named word = ', r'option_map pos \(number_within (\d+) word\)')
    yield Fact('MULTIPLIER_MOST', multiplier, "The greatest multiplier of a text's length or height.")
    chars = appends.number('chars_given bytes = ', r'if nat_le 1 .* && nat_le \(length bytes\) (\d+) then .*')
    yield Fact('TEXT_LONGEST', chars, 'The most characters of a text.')
    imports = sources['edit_script/specs/Imports.antt']
    longest = imports.number('is_name word = ', r'.*\(nat_le \(length word\) (\d+) && .*')
    yield Fact('NAME_LONGEST', longest, 'The most bytes of the name of a file to import.')
    most = imports.number('limited imports reading = ', r'if nat_le (\d+) imports && .*')
    yield Fact('IMPORTS_MOST', most, 'The most lines of a script that import.')
    corners = sources['dgn_answers/specs/Texts.antt']
    yield Fact('CORNERS_LEAST', corners.number('has_few corners = ', r'nat_lt \(length corners\) (\d+)'), 'Of a fence.')
    yield Fact('CORNERS_MOST', corners.number('has_many corners = ', r'nat_lt (\d+) \(length corners\)'), 'Of a fence.')
    for file, crate in (('DESIGN', 'dgn_drawing'), ('SCRIPT', 'edit_script'), ('PATCH', 'patch_file')):
        longest = sources[crate + '/src/limits.rt'].number(f'pub const MOST_{file}: usize = ', r'(\d+);')
        yield Fact(f'{file}_LONGEST', longest, f'The most bytes of a {file.lower()} file.')


def facts_of_commands(sources: Sources) -> Iterator[Fact]:
    """The words of scripts: each command's forms as the grammar has them, and the modes of a fence."""
    names, grammar = sources['edit_script/specs/CommandNames.antt'], sources['edit_script/specs/Grammar.antt']
    words = names.one('command_words = ', r'((?:\(codes "\w+", names\.\w+\) ∷ )+)\[\]')[1]
    forms = {word: forms_of(sources, grammar, name) for word, name in re.findall(r'"(\w+)", names\.(\w+)', words)}
    yield Fact('COMMANDS', forms, 'The forms of what stands behind the word of each command.')
    appends = sources['edit_script/specs/Appends.antt']
    counts = {}
    for word in ('line', 'string', 'shape'):
        form = r'path_appending shapes\.\w+ \(pen_named words\) \(path_named (\d+) (\d+) \(drop 4 words\)\)'
        found = appends.one(f'{word}_command words = ', form)
        counts[word] = [int(found[1]), int(found[2])]
    yield Fact('POINTS_OF', counts, 'The fewest and the most points of what a script appends.')
    modes = sources['edit_script/specs/Fences.antt'].one('mode_named word = ', r'(if bytes_eq .*) else None')
    yield Fact('MODES', re.findall(r'codes "(\w+)"', modes[1]), 'How a fence chooses.')


def forms_of(sources: Sources, grammar: Source, name: str) -> List[str]:
    """The forms of what stands behind a command's word: letters as the documents have them, with a dash behind one in
    whose place a dash may stand."""
    rule = grammar.one(f'command_named names.{name} rest = ', r'(.*)')[1]
    if rule.startswith('alone '):
        return ['']
    if '(one_element ' in rule:
        return ['N']
    called = rule.split(' ')[0]
    source = defining(sources, grammar, called)
    found = [it.partition(' ')[2] for it in source.usages(called)]
    may_dash = any(it.startswith(called + ' ') and 'look_named' in it for it in source.clauses)
    return [re.sub(r'\b([CWS])\b', r'\1-', it) if may_dash else it for it in found]


def defining(sources: Sources, grammar: Source, name: str) -> Source:
    """The file that the grammar has a name from, or the grammar itself."""
    form = r'use Rattle\.edit_script\.specs\.(\w+)\.\{(.*)\}'
    used = (re.fullmatch(form, it) for it in grammar.clauses)
    files = [it[1] for it in used if it is not None and name in it[2].split(', ')]
    return sources[f'edit_script/specs/{files[0]}.antt'] if files else grammar


def facts_of_causes(sources: Sources) -> Iterator[Fact]:
    """The words by which the program says why it refuses a command."""
    causes: Dict[str, None] = {}
    for path in ('dgn_listing/specs/CauseTexts.antt', 'dgn_answers/specs/Texts.antt', 'dgn_answers/specs/Imports.antt'):
        found = re.findall(r'codes "refused ([a-z-]+)', ' '.join(sources[path].clauses))
        if not found:
            raise Broken(f'crates/{path}: no cause of a refusal stands there')
        causes.update(dict.fromkeys(found))
    yield Fact('CAUSES', list(causes), 'What the program says behind refused, its first word.')


READ_FACTS = (facts_of_types, facts_of_nesting, facts_of_values, facts_of_spellings)
SCRIPT_FACTS = (facts_of_limits, facts_of_commands, facts_of_causes)


def facts(sources: Sources, groups: Iterable[Callable[[Sources], Iterator[Fact]]]) -> List[Fact]:
    """The facts of some groups, in their order."""
    return [fact for group in groups for fact in group(sources)]
