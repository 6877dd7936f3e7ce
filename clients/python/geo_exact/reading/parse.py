"""Texts and bytes as GeoJSON objects: GeoJSON, GeoJSON text sequences, WKT and WKB, each with an SRID if it has one."""
from __future__ import annotations

import json
import re
import struct
from decimal import Decimal
from typing import Any, Iterator, List, NamedTuple, Optional, Tuple, Union

from ..errors import NotReadable
from ..exact import NUMBER

KINDS = ('Point', 'LineString', 'Polygon', 'MultiPoint', 'MultiLineString', 'MultiPolygon', 'GeometryCollection')
NAMES = {kind.upper(): kind for kind in KINDS}
MARKS = {b'\xff\xfe': 'UTF-16', b'\xfe\xff': 'UTF-16', b'\x1f\x8b': 'gzip', b'PK': 'a ZIP archive', b'SQLite': 'an SQLite database',
         b'\x00\x00\x27\x0a': 'a Shapefile'}
SRID = re.compile(r'\s*SRID\s*=\s*(\d{1,9})\s*;', re.ASCII | re.IGNORECASE)
TOKEN = re.compile(r'\s*(?:([A-Za-z_]\w*)|\((?!\s*[A-Za-z_])([^()]*)\)|([(),;]))', re.ASCII)
KNOWN = re.compile(r'srid|(multi)?(point|linestring|polygon|curve|surface)|geometrycollection|circularstring|compoundcurve|tin|triangle|polyhedral',
                   re.IGNORECASE)
HEX = re.compile(r'(\s*0[01][0-9A-Fa-f]{8,})+\s*', re.ASCII)
DEEP = 20


class Parsed(NamedTuple):
    """The objects of a text with their places in it. A text of a sequence that is not JSON is an error in the place of an object."""

    form: str
    objects: List[Tuple[str, Any]]


def parse(source: Union[str, bytes]) -> Parsed:
    """Returns the objects of a text or of bytes. Raises NotReadable."""
    if isinstance(source, bytes) and is_wkb(source):
        return Parsed('WKB', [('the geometry', of_wkb(source))])
    text = decoded(source) if isinstance(source, bytes) else source
    first = text.lstrip()[:1]
    if not first:
        raise NotReadable(cause='is empty', where='the data')
    if first in '{["\x1e':
        return Parsed('GeoJSON', of_json(text))
    if HEX.fullmatch(text):
        words = [word[:len(word) // 2 * 2] for word in text.split()]
        return Parsed('WKB', [(f'geometry {k}', of_wkb(bytes.fromhex(word))) for k, word in enumerate(words, 1)])
    return Parsed('WKT', [(f'geometry {k}', geometry) for k, geometry in enumerate(Wkt(text).geometries(), 1)])


def decoded(source: bytes) -> str:
    """Returns the text of a file in UTF-8."""
    for mark, kind in MARKS.items():
        if source.startswith(mark):
            raise NotReadable(cause=f'is {kind}', where='the data', remedy='convert it to GeoJSON, as with ogr2ogr')
    try:
        return source.decode('utf-8-sig')
    except UnicodeDecodeError as error:
        line = source.count(b'\n', 0, error.start) + 1
        raise NotReadable(cause=f'is not in UTF-8: byte {source[error.start]:#04x}', where=f'line {line}') from None


def of_json(text: str) -> List[Tuple[str, Any]]:
    """Returns the object of a text in GeoJSON, or those of a sequence: a text a line, or what the separators of RFC 8142 part."""
    if '\x1e' not in text:
        try:
            return [('', loaded(text))]
        except NotReadable as error:
            lines = [(k, line) for k, line in enumerate(text.split('\n'), 1) if line.strip()]
            if 'Extra data' not in error.cause or len(lines) < 2:
                raise
    else:
        lines = [(k, part) for k, part in enumerate(text.split('\x1e')) if part.strip()]
    found: List[Tuple[str, Any]] = []
    for count, (_, line) in enumerate(lines, 1):
        try:
            found.append((f'feature {count}', loaded(line)))
        except NotReadable as error:
            found.append((f'feature {count}', error))
    return found


def loaded(text: str) -> Any:
    """Returns what a text in JSON has. Its numbers are integers and Decimals, so that none is rounded."""
    try:
        return json.loads(text, parse_float=Decimal)
    except json.JSONDecodeError as error:
        raise NotReadable(cause=f'is not JSON: {error.msg}', where=f'line {error.lineno}, column {error.colno}') from None
    except RecursionError:
        raise NotReadable(cause='is not GeoJSON: it is nested too deep', where='the data') from None
    except (ValueError, ArithmeticError):
        raise NotReadable(cause='a number has thousands of digits', where='the data') from None


def crs_of(srid: int) -> Any:
    """Returns the CRS of an SRID as GeoJSON names one."""
    return {'type': 'name', 'properties': {'name': f'urn:ogc:def:crs:EPSG::{srid}'}}


class Wkt:
    """A text with any number of geometries, which is read token by token: `kind` is `word`, `points`, a sign, or '' at the end."""

    def __init__(self, text: str):
        self.text, self.at, self.end = text, 0, 0
        self.kind = self.token = ''
        self.next()

    def next(self) -> str:
        """Goes on to the next token, and returns the one before."""
        before, self.at = self.token, self.end
        found = TOKEN.match(self.text, self.end)
        self.kind, self.token = '', ''
        if found:
            self.kind = 'word' if found[1] else found[3] or 'points'
            self.token, self.end = found[1] or found[3] or found[2], found.end()
        return before

    def wrong(self, cause: str) -> NotReadable:
        place = self.at + len(self.text[self.at:]) - len(self.text[self.at:].lstrip())
        column = place - self.text.rfind('\n', 0, place)
        here = self.text[place:place + 24].split()[:1]
        where = f'line {self.text.count(chr(10), 0, place) + 1}, column {column}'
        remedy = 'ogr2ogr converts other formats to GeoJSON' if 'neither' in cause else ''
        return NotReadable(cause=f'{cause}: {repr(here[0]) if here else "the end of the text"}', where=where, remedy=remedy)

    def must(self, kind: str) -> str:
        if self.kind != kind and self.text.count('(') > self.text.count(')'):
            raise self.wrong('WKT breaks off, since a parenthesis is not closed')
        if self.kind != kind:
            raise self.wrong(f'WKT is cut or wrong: {kind if len(kind) > 1 else repr(kind)} is expected')
        return self.next()

    def geometries(self) -> Iterator[Any]:
        while self.kind or self.text[self.at:].strip():
            yield self.geometry()
            while self.kind == ';':
                self.next()

    def geometry(self, depth: int = 0) -> Any:
        srid = SRID.match(self.text, self.at)
        if srid:
            self.end = srid.end()
            self.next()
        if self.kind != 'word':
            raise self.wrong('is neither GeoJSON nor WKT')
        if not KNOWN.match(self.token):
            raise self.wrong('is neither GeoJSON nor WKT')
        name = self.next().upper()
        kind = re.sub(r'(?<=.)Z?M?$', '', name)
        if self.kind == 'word' and self.token.upper() in ('Z', 'M', 'ZM'):
            self.next()
        is_collection = kind == 'GEOMETRYCOLLECTION'
        inside = self.body(depth, is_collection)
        if kind == 'POINT':
            inside = inside[0] if inside else []
        elif kind == 'MULTIPOINT':  # each point may have parentheses of its own
            inside = [it[0] if it and isinstance(it[0], list) else it for it in inside]
        found = {'type': NAMES.get(kind, name), 'geometries' if is_collection else 'coordinates': inside}
        return {**found, 'crs': crs_of(int(srid[1]))} if srid else found

    def body(self, depth: int, is_collection: bool = False) -> List[Any]:
        """Reads what is between parentheses: points, lists as deep as they are, or geometries; or the word EMPTY."""
        if self.kind == 'word' and self.token.upper() == 'EMPTY':
            self.next()
            return []
        if depth > DEEP:
            raise self.wrong('is nested too deep')
        if self.kind == 'points' and not is_collection:
            return [[number(field) for field in point.split()] for point in self.next().split(',')]
        self.must('(')
        parts = [self.part(depth + 1, is_collection)]
        while self.kind == ',':
            self.next()
            parts.append(self.part(depth + 1, is_collection))
        self.must(')')
        return parts

    def part(self, depth: int, is_collection: bool) -> Any:
        is_curve = self.kind == 'word' and self.token.upper() != 'EMPTY'
        return self.geometry(depth) if is_collection or is_curve else self.body(depth)


def number(field: str) -> Union[Decimal, str]:
    """Returns the number of a text, or the text if it is none."""
    try:
        return Decimal(field) if NUMBER.fullmatch(field) else field
    except ArithmeticError:
        return field


def is_wkb(source: bytes) -> bool:
    order = {0: '>', 1: '<'}.get(source[0]) if len(source) > 8 else None
    return order is not None and 1 <= (struct.unpack_from(order + 'I', source, 1)[0] & 0x1fff_ffff) % 1000 <= 17 and source[:4] not in MARKS


def of_wkb(source: bytes) -> Any:
    """Returns the geometry of WKB or EWKB."""
    try:
        return Wkb(source).geometry()
    except (struct.error, IndexError, OverflowError):
        raise NotReadable(cause=f'WKB breaks off: it has {len(source):,} bytes', where='the data') from None
    except RecursionError:
        raise NotReadable(cause='WKB is nested too deep', where='the data') from None


class Wkb:
    """Bytes, and how far they are read."""

    def __init__(self, source: bytes):
        self.source, self.at, self.order = source, 0, '<'

    def read(self, form: str) -> Tuple[Any, ...]:
        found = struct.unpack_from(self.order + form, self.source, self.at)
        self.at += struct.calcsize(self.order + form)
        return found

    def geometry(self) -> Any:
        self.order = '<' if self.source[self.at] else '>'
        self.at += 1
        code: int = self.read('I')[0]
        srid: Optional[int] = self.read('I')[0] if code & 0x2000_0000 else None
        more, kind = divmod(code & 0x1fff_ffff, 1000)
        size = 2 + bool(code & 0x8000_0000 or more in (1, 3)) + bool(code & 0x4000_0000 or more in (2, 3))
        if not 1 <= kind <= 7:
            raise NotReadable(cause=f'WKB has a geometry of type {kind}, which is curved or unknown', where='the geometry',
                              remedy='ogr2ogr -nlt CONVERT_TO_LINEAR makes curves straight')
        found: Any = {'type': KINDS[kind - 1], 'geometries' if kind == 7 else 'coordinates': self.inside(kind, size)}
        return found if srid is None else {**found, 'crs': crs_of(srid)}

    def inside(self, kind: int, size: int) -> Any:
        if kind == 1:
            return self.points(1, size)[0]
        count = self.read('I')[0]
        if kind == 2:
            return self.points(count, size)
        if kind == 3:
            return [self.points(self.read('I')[0], size) for _ in range(count)]
        parts = [self.geometry() for _ in range(count)]
        return parts if kind == 7 else [part.get('coordinates') for part in parts]

    def points(self, count: int, size: int) -> List[Tuple[float, ...]]:
        each = iter(self.read(f'{count * size}d'))
        return list(zip(*[each] * size))
