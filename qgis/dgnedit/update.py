"""Changes the rows of a GeoPackage in one transaction, after which it holds the layers of another drawing."""

import sqlite3
from typing import Any, Dict, Iterable, List, Optional, Set, Tuple
from urllib.parse import quote

from dgnkit.errors import Mistake
from qgis.core import QgsGeometry

from .opening import KINDS
from .package import GEOMETRY, NUMBER, Filling, held_in, not_written, set_digest
from .rows import FIELDS, LOOK, Row
from .translation import tr

PATIENCE = 2.0  # so many seconds another program may keep the file for itself
HELD = tr('its layers are those of another drawing, or of another version of this plugin')
COLUMNS = [NUMBER, GEOMETRY, *(it[0] for it in FIELDS)]
INDEX = 'rtree_%s_' + GEOMETRY  # the index of places of a table
TRIGGERS = (INDEX + '_', 'trigger_insert_feature_count_%s', 'trigger_delete_feature_count_%s')
CHANGED = '%s IN (SELECT number FROM changed)'
# What GDAL finds anew where it isn't there, as in a file that was just written.
NOT_KNOWN = (
    'UPDATE gpkg_contents SET min_x = NULL, min_y = NULL, max_x = NULL, max_y = NULL',
    'UPDATE gpkg_ogr_contents SET feature_count = NULL',
)
Place = Tuple[int, str]  # a level and a table


class Update:
    """Rows of a GeoPackage that are exchanged: others see that once it is kept, or never where it is dropped. What goes
    wrong meanwhile is a sqlite3.Error."""

    is_all = False

    def __init__(self, path: str, digest: str) -> None:
        """Begins it. It raises Mistake where the file can't be changed, or doesn't hold the layers of the drawing that
        has this digest."""
        self.path = path
        there = 'file:%s?mode=rw' % quote(path)
        try:
            # it is begun in one thread and kept in another
            self.base = sqlite3.connect(
                there, timeout=PATIENCE, isolation_level=None, check_same_thread=False, uri=True
            )
        except sqlite3.Error as why:
            raise not_written(path, why)
        self.is_open = True
        try:
            self.begin(digest)
        except sqlite3.Error as why:
            self.drop()
            raise not_written(path, why)
        except BaseException:
            self.drop()
            raise

    def begin(self, digest: str) -> None:
        """Begins the transaction, of which nothing is in the file before it is kept."""
        self.base.execute('PRAGMA cache_spill = OFF')
        self.base.execute('CREATE TEMP TABLE changed (number INTEGER PRIMARY KEY)')
        self.base.execute('BEGIN IMMEDIATE')
        if held_in(self.base) != digest or any(columns_of(self.base, it) != COLUMNS for it in KINDS):
            raise Mistake('%s: %s' % (self.path, HELD))
        self.filling = Filling(self.path, self.base, KINDS, [it[0] for it in FIELDS])

    def places(self, numbers: Optional[Iterable[int]]) -> Set[Place]:
        """The levels and tables that have rows of the elements that differ, whose numbers these are, or none where all
        rows are to be written anew."""
        self.is_all = numbers is None
        self.base.executemany('INSERT INTO changed VALUES (?)', ((it,) for it in numbers or ()))
        order = 'SELECT DISTINCT level FROM %s'
        order = order if self.is_all else '%s WHERE %s' % (order, CHANGED % NUMBER)
        return {(int(level), kind) for kind in KINDS for (level,) in self.base.execute(order % kind)}

    def looks(self, places: Iterable[Place]) -> Dict[Place, Dict[int, int]]:
        """How many rows of some levels of tables have which look; nothing of one that has no rows."""
        order = 'SELECT %s, count(*) FROM %s WHERE level = ? GROUP BY 1'
        return {it: dict(self.base.execute(order % (LOOK, it[1]), it[:1])) for it in places}

    def exchange(self, rows: Iterable[Row], digest: str) -> None:
        """Takes the rows of all that differs out, puts others in, and marks all as that of a drawing."""
        triggers = triggers_of(self.base)
        for name, _ in triggers:
            self.base.execute('DROP TRIGGER "%s"' % name)
        for kind in KINDS:
            self.take_out(kind)
        self.put(rows)
        for _, order in triggers:
            self.base.execute(order)
        set_digest(self.base, digest)
        for order in NOT_KNOWN:
            self.base.execute(order)

    def take_out(self, kind: str) -> None:
        """Takes the rows of all that differs out of a table, or all rows, which is faster where most of them go."""
        index = INDEX % kind
        if self.is_all:
            order = str(self.base.execute('SELECT sql FROM sqlite_master WHERE name = ?', (index,)).fetchone()[0])
            for it in ('DELETE FROM ' + kind, 'DROP TABLE ' + index, order):
                self.base.execute(it)
        else:
            self.base.execute('DELETE FROM %s WHERE %s' % (kind, CHANGED % NUMBER))
            self.base.execute('DELETE FROM %s WHERE %s' % (index, CHANGED % 'id'))

    def put(self, rows: Iterable[Row]) -> None:
        """Puts rows in, and into the indexes of places."""
        boxes: Dict[str, List[Tuple[Any, ...]]] = {it: [] for it in KINDS}
        for row in rows:
            self.filling.put(row.kind, row.number, row.geometry, row.values)
            geometry = QgsGeometry()
            geometry.fromWkb(row.geometry)
            box = geometry.boundingBox()
            boxes[row.kind].append((row.number, box.xMinimum(), box.xMaximum(), box.yMinimum(), box.yMaximum()))
        self.filling.flush_all()
        for kind in KINDS:
            self.base.executemany('INSERT INTO %s VALUES (?, ?, ?, ?, ?)' % INDEX % kind, boxes[kind])

    def keep(self) -> None:
        """Writes it all into the file. It raises Mistake where that can't be done; the file is as it was then."""
        try:
            self.base.execute('COMMIT')
        except sqlite3.Error as why:
            raise not_written(self.path, why)
        finally:
            self.drop()

    def drop(self) -> None:
        """Leaves the file as it is, unless it is kept already."""
        if self.is_open:
            self.is_open = False
            self.base.close()  # which takes a transaction back that is open


def columns_of(base: sqlite3.Connection, table: str) -> List[str]:
    """The columns of a table."""
    return [str(it[1]) for it in base.execute('PRAGMA table_info("%s")' % table)]


def triggers_of(base: sqlite3.Connection) -> List[Tuple[str, str]]:
    """The triggers by which GDAL keeps the indexes of places, by functions that SQLite alone hasn't, and the counts of
    rows: their names, and the orders that make them."""
    found = base.execute("SELECT name, sql FROM sqlite_master WHERE type = 'trigger' ORDER BY rowid").fetchall()
    fronts = tuple(it % kind for kind in KINDS for it in TRIGGERS)
    return [(str(name), str(order)) for name, order in found if str(name).startswith(fronts)]
