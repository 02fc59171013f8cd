"""Writes a GeoPackage: GDAL makes the file, its tables and their indexes, and SQLite puts the rows in, of which there
may be a million."""

import os
import sqlite3
import struct
import tempfile
from contextlib import closing
from typing import Any, Dict, List, Optional, Sequence, Tuple
from urllib.parse import quote

from dgnkit.errors import Mistake
from osgeo import gdal, ogr, osr
from qgis.core import QgsCoordinateReferenceSystem

from .translation import tr

NUMBER, GEOMETRY = 'fid', 'geom'  # how GDAL calls the number of a row, and what we call its place
FRONT = struct.Struct('<2sBBi')  # what stands in front of a geometry: GP, version, flags, its system
LITTLE = 1  # the flag that numbers have their low byte first
MANY = 4096  # so many rows are put in at once
Field = Tuple[str, int, int]  # a name, a type and a subtype of GDAL
BESIDE = ('-wal', '-shm', '-journal')  # what SQLite may leave beside a file
MARK = 'layers of a design file by dgnedit, SHA-256 '  # how the tables of a drawing are described, with its digest


class Filling:
    """The tables of an open GeoPackage, into which rows are put, many at once."""

    def __init__(self, path: str, base: sqlite3.Connection, tables: Sequence[str], fields: Sequence[str]) -> None:
        """It raises sqlite3.Error where a table isn't there."""
        self.path, self.base, self.tables = path, base, tables
        self.rows: Dict[str, List[Tuple[Any, ...]]] = {name: [] for name in tables}
        self.fronts = {name: FRONT.pack(b'GP', 0, LITTLE, self.system_of(name)) for name in tables}
        names = ', '.join('"%s"' % it for it in (NUMBER, GEOMETRY, *fields))
        marks = ', '.join('?' * (len(fields) + 2))
        self.orders = {it: 'INSERT INTO "%s" (%s) VALUES (%s)' % (it, names, marks) for it in tables}

    def system_of(self, table: str) -> int:
        """The number of the system of a table's coordinates."""
        order = 'SELECT srs_id FROM gpkg_geometry_columns WHERE table_name = ?'
        found = self.base.execute(order, (table,)).fetchone()
        if found is None:
            raise sqlite3.DatabaseError('there is no table %s' % table)
        return int(found[0])

    def put(self, table: str, number: int, geometry: bytes, values: Sequence[Any]) -> None:
        """Puts a row in, with the number of its element, which is that of the row."""
        rows = self.rows[table]
        rows.append((number, self.fronts[table] + geometry, *values))
        if len(rows) >= MANY:
            self.flush(table)

    def flush(self, table: str) -> None:
        """Writes the rows of a table that wait. It raises Mistake where they can't be written."""
        try:
            self.base.executemany(self.orders[table], self.rows[table])
        except sqlite3.Error as why:
            raise not_written(self.path, why)
        self.rows[table].clear()

    def flush_all(self) -> None:
        """Writes all rows that wait."""
        for table in self.tables:
            self.flush(table)


def not_written(path: str, why: Exception) -> Mistake:
    """What is wrong with a file that can't be written."""
    return Mistake(tr("%s can't be written: %s") % (path, why))


class Package:
    """A GeoPackage that is written, beside its place, to which it comes when it is whole."""

    def __init__(
        self, path: str, system: QgsCoordinateReferenceSystem, tables: Dict[str, int], fields: Sequence[Field]
    ) -> None:
        """Makes it with these tables by their types of geometry. It raises Mistake where it can't be made."""
        self.path, self.tables = path, list(tables)
        self.is_open = False
        self.made = name_beside(path)
        try:
            make_tables(self.made, system, tables, fields)
            self.base = sqlite3.connect(self.made, isolation_level=None)
            self.is_open = True
            self.filling = Filling(path, self.base, self.tables, [it[0] for it in fields])
            for order in ('PRAGMA synchronous = OFF', 'PRAGMA journal_mode = MEMORY', 'BEGIN'):
                self.base.execute(order)
        except (sqlite3.Error, RuntimeError) as why:
            self.drop()
            raise not_written(path, why)

    def close(self, indexed: str, digest: str) -> None:
        """Writes what waits, makes an index of the places of each table and one of a field, marks it as that of a
        drawing, and puts it in its place."""
        self.filling.flush_all()
        try:
            for table in self.tables:
                self.base.execute('CREATE INDEX "%s_%s" ON "%s" ("%s")' % (table, indexed, table, indexed))
            set_digest(self.base, digest)
            self.base.execute('COMMIT')
        except sqlite3.Error as why:
            raise not_written(self.path, why)
        self.base.close()
        self.is_open = False
        make_indexes(self.made, self.tables)
        try:
            os.replace(self.made, self.path)
        except OSError as why:
            raise not_written(self.path, why)

    def drop(self) -> None:
        """Leaves nothing of it; what was in its place stays."""
        if self.is_open:
            self.base.close()
        for name in (self.made, *(self.made + it for it in BESIDE)):
            if os.path.exists(name):
                os.remove(name)


def make_tables(
    path: str, system: QgsCoordinateReferenceSystem, tables: Dict[str, int], fields: Sequence[Field]
) -> None:
    """Makes the file with empty tables. It raises Mistake where it can't be made."""
    gdal.PushErrorHandler('CPLQuietErrorHandler')
    try:
        source = ogr.GetDriverByName('GPKG').CreateDataSource(path)
    finally:
        gdal.PopErrorHandler()
    if source is None:
        raise Mistake(tr("%s can't be written: %s") % (path, gdal.GetLastErrorMsg() or tr('no reason is said')))
    options = ['SPATIAL_INDEX=NO', 'GEOMETRY_NAME=' + GEOMETRY]
    for name, geometry in tables.items():
        layer = source.CreateLayer(name, reference_of(system), geometry, options)
        for field, kind, subtype in fields:
            definition = ogr.FieldDefn(field, kind)
            definition.SetSubType(subtype)
            layer.CreateField(definition)


def make_indexes(path: str, tables: Sequence[str]) -> None:
    """Makes the indexes of places."""
    source = ogr.Open(path, 1)
    for name in tables:
        source.ExecuteSQL("SELECT CreateSpatialIndex('%s', '%s')" % (name, GEOMETRY))


def name_beside(path: str) -> str:
    """A name that isn't there yet, in the folder of a file. It raises Mistake where none can be made there."""
    try:
        handle, name = tempfile.mkstemp(prefix='.dgnedit-', suffix='.gpkg', dir=os.path.dirname(os.path.abspath(path)))
    except OSError as why:
        raise Mistake(tr("%s can't be written: %s") % (path, why.strerror or why))
    os.close(handle)
    os.remove(name)
    return name


def set_digest(base: sqlite3.Connection, digest: str) -> None:
    """Marks the tables of an open GeoPackage as those of a drawing."""
    base.execute('UPDATE gpkg_contents SET description = ?', (MARK + digest,))


def digest_in(path: str) -> str:
    """The digest of the drawing whose layers a GeoPackage holds, nothing where it isn't one of this plugin's."""
    try:
        with closing(sqlite3.connect('file:%s?mode=ro' % quote(path), uri=True)) as base:
            return held_in(base)
    except sqlite3.Error:
        return ''


def held_in(base: sqlite3.Connection) -> str:
    """The digest of the drawing whose layers an open GeoPackage holds, nothing where it isn't one of this plugin's."""
    order = "SELECT DISTINCT description FROM gpkg_contents WHERE data_type = 'features'"
    found = [str(it[0]) for it in base.execute(order)]
    return found[0][len(MARK) :] if len(found) == 1 and found[0].startswith(MARK) else ''


def ask_package(path: str, may_replace: bool) -> None:
    """It raises Mistake where a GeoPackage may not be written: a file is there that this plugin hasn't written, or that
    isn't to be replaced, or that a program has open."""
    if not os.path.lexists(path):
        return
    if os.path.isdir(path):
        raise Mistake(tr("%s can't be written: it is a folder") % path)
    if os.path.getsize(path) == 0:
        return
    if not is_database(path) or (not is_locked(path) and not digest_in(path)):
        raise Mistake(tr("%s wasn't written by this plugin, so it isn't replaced: name another file") % path)
    if not may_replace:
        raise Mistake(tr("%s already exists: name another file, or allow that it is replaced") % path)
    if is_locked(path):
        raise Mistake(tr("%s is open in another program: close it there, or name another file") % path)


def is_database(path: str) -> bool:
    """Whether a file is a database of SQLite."""
    with open(path, 'rb') as file:
        return file.read(16).startswith(b'SQLite format 3')


def is_locked(path: str) -> bool:
    """Whether a program has a GeoPackage open."""
    if any(os.path.exists(path + it) for it in BESIDE):
        return True
    try:
        with closing(sqlite3.connect(path, timeout=0, isolation_level=None)) as base:
            base.execute('BEGIN EXCLUSIVE')
            base.execute('ROLLBACK')
    except sqlite3.Error:
        return True
    return False


def reference_of(system: QgsCoordinateReferenceSystem) -> Optional[Any]:
    """A coordinate reference system as GDAL has it, none where it isn't valid."""
    if not system.isValid():
        return None
    made = osr.SpatialReference()
    made.ImportFromWkt(system.toWkt(QgsCoordinateReferenceSystem.WktVariant.WKT_PREFERRED_GDAL))
    return made
