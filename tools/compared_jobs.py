"""The jobs of docs/COMPARED.md: what does each with dgnkit and dgnedit, and with GDAL's tools, and what has to be there
then. All work on town.dgn, which is examples/town.dgn mended, and write out.dgn where they write a drawing."""

from __future__ import annotations

from typing import FrozenSet, List, NamedTuple, Optional, Tuple

FIELDS = ['Type', 'Level', 'GraphicGroup', 'ColorIndex', 'Weight', 'Style', 'EntityNum', 'MSLink', 'Text']
ROADS = frozenset(range(12, 35))            # all of level 12, with the members of chains
BUILDING, PIPE, MILL, CELL = 44, 45, 49, 51
LABELS = frozenset([46, 47])
PACKED = ['rm -f t.gpkg', 'ogr2ogr -f GPKG -a_srs EPSG:25832 t.gpkg town.dgn']
POLYGON = '1015,2000 1200,2000 1200,2055 1015,2055'

Found = Tuple[str, int, int]    # conditions of `dgnkit find`, and the fewest and the most that they find in out.dgn


class Job(NamedTuple):
    """A job. A tool that can't do it has no commands. `asked` are the elements that the job is about; the others are to
    stay, or only those of `stay`."""

    name: str
    kit: List[str]
    gdal: List[str]
    said: str = ''                          # what has to be said, where no drawing is written
    found: Tuple[Found, ...] = ()
    asked: FrozenSet[int] = frozenset()
    stay: Optional[FrozenSet[int]] = None


def script(*lines: str) -> List[str]:
    """A script, and its run."""
    told = '\\n'.join(lines)
    return ["printf '%s\\n' > s.txt" % told, 'dgnkit run town.dgn s.txt out.dgn']


def proposed(command: str) -> List[str]:
    """A patch file that dgnkit proposes, and its run."""
    return [command, 'dgnkit run town.dgn p.patch out.dgn']


def rewritten(geometry: str = 'geom', where: str = '', more: str = '', **fields: str) -> List[str]:
    """A drawing that ogr2ogr makes of what a query gives, with these fields otherwise. The query is of a GeoPackage of
    all that GDAL reads, since one of the drawing itself ends early."""
    told = ', '.join('%s AS %s' % (fields[it], it) if it in fields else it for it in FIELDS)
    query = 'SELECT %s AS geom, %s FROM elements%s%s' % (geometry, told, where, more)
    return [*PACKED, 'ogr2ogr -f DGN out.dgn t.gpkg -dialect SQLite -sql "%s"' % query]


def of_level(level: int, then: str, otherwise: str) -> str:
    return 'CASE WHEN Level=%d THEN %s ELSE %s END' % (level, then, otherwise)


COPIED = ' UNION ALL SELECT ShiftCoords(geom, 20, 0) AS geom, %s FROM elements WHERE Level=5' % ', '.join(FIELDS)
TURNED = of_level(30, 'ShiftCoords(RotateCoords(ShiftCoords(geom, -1100, -2030), 90), 1100, 2030)', 'geom')

JOBS = [
    Job('list what is on each level', ['dgnkit info town.dgn'],
        [*PACKED, 'ogrinfo t.gpkg -sql "SELECT Level, COUNT(*) FROM elements GROUP BY Level"'], '41'),
    Job('find a text', ['dgnkit find town.dgn --text OLD'],
        ['ogrinfo -al town.dgn -where "Text LIKE \'%OLD%\'"'], 'OLD MILL'),
    Job('say what is damaged or broken', ['dgnkit health -v raw.dgn || true'], [], 'orphan'),
    Job('say what differs in a second drawing', script('delete 49') + ['dgnkit diff town.dgn out.dgn || true'], [],
        "'OLD MILL' on level 41: deleted"),
    Job('move an element', script('move 44 2500 0'),
        rewritten(of_level(5, 'ShiftCoords(geom, 2.5, 0)', 'geom')),
        found=(('--level 5 --inside 1142,2079 1158,2093', 1, 1),), asked=frozenset([BUILDING])),
    Job('recolour a level', ["dgnkit find town.dgn --level 12 --script 'color {n} 5' -o s.txt",
                             'dgnkit run town.dgn s.txt out.dgn'],
        rewritten(ColorIndex=of_level(12, '5', 'ColorIndex')),
        found=(('--level 12 --color 0-4', 0, 0), ('--level 12 --color 5', 1, 99)), asked=ROADS),
    Job('put a level on another', proposed('dgnkit relevel town.dgn p.patch --to 31 --level 30'),
        rewritten(Level=of_level(30, '31', 'Level')),
        found=(('--level 30', 0, 0), ('--level 31', 1, 1)), asked=frozenset([PIPE])),
    Job('delete a text', script('delete 49'), rewritten(where=" WHERE Text IS NULL OR Text <> 'OLD MILL'"),
        found=(('--text OLD', 0, 0), ("--text 'DN 150'", 2, 2)), asked=frozenset([MILL])),
    Job('change a text', proposed("dgnkit retext town.dgn p.patch 'DN 150' 'DN 200'"),
        rewritten(Text="replace(Text, 'DN 150', 'DN 200')"),
        found=(("--text 'DN 200'", 2, 2),), asked=LABELS),
    Job('copy an element', script('copy 44 20000 0'), rewritten(more=COPIED), found=(('--level 5', 2, 2),)),
    Job('append a line', script('line 50 0 0 0 0,0 100000,0'),
        ['cp town.dgn out.dgn', 'ogr2ogr -append -nln elements out.dgn line.geojson'], found=(('--level 50', 1, 1),)),
    Job('append a second drawing', script('import street.dgn'),
        ['cp town.dgn out.dgn', 'ogr2ogr -append -nln elements out.dgn street.dgn'], found=(('--level 13', 1, 99),)),
    Job('make a drawing of one level', ['dgnkit split town.dgn --by level sheets', 'cp sheets/level-30.dgn out.dgn'],
        ['ogr2ogr -f DGN out.dgn town.dgn -where Level=30'], found=(('--type 4', 1, 1),), stay=frozenset([PIPE])),
    Job('delete all outside of a polygon',
        ['dgnkit clip town.dgn %s -o s.txt' % POLYGON, 'dgnkit run town.dgn s.txt out.dgn'],
        ['ogr2ogr -f DGN out.dgn town.dgn -spat 1015 2000 1200 2055'],
        found=(('--level 30', 1, 1), ('--text OLD', 0, 0)), stay=frozenset([PIPE, *LABELS])),
    Job('lock elements', proposed('dgnkit lock town.dgn p.patch --level 30'), [],
        found=(('--locked', 1, 1),), asked=frozenset([PIPE])),
    Job('rename a cell', proposed('dgnkit rename town.dgn p.patch VLV PUMP'), [],
        found=(('--cell PUMP', 1, 1),), asked=frozenset([CELL])),
    Job('send a correction to one who has a copy', script('move 44 2500 0')[:1] + [
        'dgnedit pack town.dgn s.txt p.patch', 'dgnedit apply town.dgn p.patch out.dgn'], [],
        found=(('--level 5 --inside 1142,2079 1158,2093', 1, 1),), asked=frozenset([BUILDING])),
    Job('rotate an element', [], rewritten(TURNED),
        found=(('--level 30 --near 1100,2125 --within 8', 1, 1),), asked=frozenset([PIPE])),
    Job('write it as GeoJSON', ['dgnkit geojson town.dgn'], ['ogr2ogr -f GeoJSON /vsistdout/ town.dgn'], 'OLD MILL'),
    Job('write it in another format, such as DXF', [], ['ogr2ogr -f DXF out.dxf town.dgn', 'cat out.dxf'], 'MILL'),
]

# An edit in its place by GDAL's own interface, as a program makes it that edits what GDAL opens.
IN_PLACE = [
    'UPDATE elements SET ColorIndex=5 WHERE Level=12',
    "DELETE FROM elements WHERE Text='OLD MILL'",
]
LINE = ('{"type":"FeatureCollection","features":[{"type":"Feature","properties":{"Level":50},"geometry":'
        '{"type":"LineString","coordinates":[[1000,2000],[1100,2000]]}}]}')
