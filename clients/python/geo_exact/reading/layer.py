"""The polygons of a file, a text, bytes or an object, whatever form they come in, and what of it is none or can't be used."""
from __future__ import annotations

import json
import re
from collections import Counter
from collections.abc import Iterator, Mapping
from contextlib import contextmanager
from dataclasses import dataclass, field
from decimal import Decimal
from numbers import Real
from typing import Any, List, Optional, Sequence, Tuple, Union

from ..errors import NotANumber, NotAPoint, NotAShape, NotTaken
from ..exact import REACH
from ..fault import shown
from .given import geojson
from .parse import parse

OTHERS = ('Point', 'MultiPoint', 'LineString', 'MultiLineString', 'LinearRing')
MEMBERS = {'FeatureCollection': 'features', 'GeometryCollection': 'geometries'}
CURVES = ('CIRCULARSTRING', 'COMPOUNDCURVE', 'CURVEPOLYGON', 'MULTICURVE', 'MULTISURFACE')
GEOGRAPHIC = re.compile(r'(CRS:?84|EPSG:+(4326|4258|4269|4267|4979|4148|4283))$')
FAR = 10**REACH

GivenPoint = Tuple[Any, Any]


@dataclass
class Shape:
    """A polygon: its outer ring, without the point that closes it, and its holes. `number` counts the polygons of the layer from 1."""

    number: int
    where: str
    rings: List[List[GivenPoint]]
    name: Optional[str] = None
    ident: Union[str, int, None] = None
    properties: Mapping[str, Any] = field(default_factory=dict)

    def __str__(self) -> str:
        details = [self.where] * (self.where not in ('', f'feature {self.number}', f'geometry {self.number}')) + [self.name or '']
        shown = ', '.join(printable(it) for it in details if it)
        return f'polygon {self.number}' + (f' ({shown})' if shown else '')


@dataclass
class Unusable:
    """Something that can't be used: where it is, the name of its feature, why, and what would help."""

    where: str
    name: Optional[str]
    cause: str
    remedy: str = ''

    def __str__(self) -> str:
        name = f' ({printable(self.name)})' if self.name else ''
        return f'{self.where}{name}: {self.cause}' + (f'; {self.remedy}' if self.remedy else '')


Feature = Tuple[Optional[str], Union[str, int, None], Mapping[str, Any]]  # name, id, properties


@dataclass
class Layer:
    """What was read: polygons, MultiPolygons taken apart; the CRS as GeoJSON names one; what is no polygon, counted; and what is broken."""

    form: str
    shapes: List[Shape] = field(default_factory=list)
    crs: Any = None
    passed: Counter[str] = field(default_factory=Counter)
    unusable: List[Unusable] = field(default_factory=list)
    count: int = 0

    def note(self) -> str:
        """What was passed over."""
        return f'passed over: {", ".join(counted(count, kind) for kind, count in self.passed.items())}' if self.passed else ''

    @contextmanager
    def listed(self, where: str, name: Optional[str] = None) -> Iterator[None]:
        """Lists what can't be used, and goes on."""
        try:
            yield
        except NotTaken as error:
            self.unusable.append(Unusable(error.where or where, name, error.what, error.remedy))

    def add(self, value: Any, where: str = '', of: Feature = (None, None, {})) -> None:
        """Adds the polygons of a GeoJSON object, or of an object with a `__geo_interface__`."""
        if isinstance(value, NotTaken):
            raise value
        value = geojson(value)
        kind = value.get('type') if isinstance(value, Mapping) else None
        if not isinstance(kind, str):
            raise NotAShape(cause='is not GeoJSON: it has no type', where=where or 'the data')
        self.note_crs(value.get('crs'))
        if kind == 'Feature':
            self.feature(value, where or 'the feature')
        elif kind in MEMBERS:
            one = 'feature' if kind == 'FeatureCollection' else 'geometry'
            for k, part in enumerate(member(value, MEMBERS[kind], where), 1):
                place = ', '.join(filter(None, [where, f'{one} {k}']))
                with self.listed(place, of[0]):
                    self.add(part, place, of)
        elif kind == 'Polygon':
            self.polygon(member(value, 'coordinates', where), where, of)
        elif kind == 'MultiPolygon':
            self.parts(member(value, 'coordinates', where), where, of)
        elif kind in OTHERS:
            self.passed[kind] += 1
        elif kind.upper() in CURVES:
            raise NotAShape(cause=f'is curved, a {kind}', where=where, remedy='ogr2ogr -nlt CONVERT_TO_LINEAR makes it straight')
        else:
            raise NotAShape(cause=f'there is no type {printable(kind)!r} of geometry', where=where or 'the data')

    def parts(self, given: Sequence[Any], where: str, of: Feature) -> None:
        if len(given) == 0:
            raise NotAShape(cause='the MultiPolygon is empty', where=where or 'the data')
        for k, rings in enumerate(given, 1):
            place = ', '.join(filter(None, [where, f'part {k}']))
            with self.listed(place, of[0]):
                self.polygon(rings, place, of)

    def feature(self, value: Mapping[str, Any], where: str) -> None:
        properties = value.get('properties') or {}
        if not isinstance(properties, Mapping):
            raise NotAShape(cause='the properties are no object', where=where)
        lowered = {key.lower(): item for key, item in properties.items() if isinstance(key, str)}
        name, ident = label(lowered.get('name')), identity(value.get('id', lowered.get('id')))
        if 'geometry' not in value:
            raise NotAShape(cause='has no geometry, nor null for none', where=where)
        if value['geometry'] is None:
            self.passed['feature without a geometry'] += 1
            return
        with self.listed(where, name):
            self.add(value['geometry'], where, (name, ident, plain(properties)))

    def polygon(self, rings: Any, where: str, of: Feature) -> None:
        self.count += 1
        where = where or 'the polygon'
        if not is_list(rings) or len(rings) == 0:
            raise NotAShape(cause='the polygon has no ring', where=where)
        found = [self.ring(ring, f'{where}, ring {k}') for k, ring in enumerate(rings, 1)]
        self.shapes.append(Shape(self.count, where, found, *of))

    def ring(self, ring: Any, where: str) -> List[GivenPoint]:
        if not is_list(ring) or len(ring) == 0:
            raise NotAShape(cause='the ring is empty', where=where)
        points = []
        for k, point in enumerate(ring):
            if not is_list(point) or len(point) < 2:
                raise NotAPoint(cause=f'{in_json(point)} {NotAPoint.cause}', where=f'{where}, vertex {k}')
            for number in point[:2]:
                if not is_number(number):
                    is_far = isinstance(number, (int, Decimal)) and is_real(number)
                    cause = f'has more than {REACH} digits' if is_far else NotANumber.cause
                    raise NotANumber(cause=f'{in_json(number)} {cause}', where=f'{where}, vertex {k}')
            points.append((point[0], point[1]))
        self.passed['height'] += sum(len(point) > 2 for point in ring)
        return points[:-1] if len(points) > 1 and points[0] == points[-1] else points

    def note_crs(self, crs: Any) -> None:
        if crs is not None and self.crs not in (None, crs):
            raise NotAShape(cause='names another CRS than the data before it', remedy='ogr2ogr -t_srs projects it to one')
        self.crs = self.crs or crs


def read(source: Any, name: str = '') -> Layer:
    """Returns the polygons of bytes, a text, a GeoJSON object or an object with a `__geo_interface__`. Raises NotTaken, with the name, if
    nothing of it can be read; a part that can't be used is listed in the layer."""
    try:
        form, objects = parse(source) if isinstance(source, (str, bytes)) else ('GeoJSON', [('', source)])
        layer = Layer(form)
        for where, value in objects:
            if len(objects) == 1:
                layer.add(value, where)
            else:
                with layer.listed(where):
                    layer.add(value, where)
    except NotTaken as error:
        error.where = ', '.join(filter(None, [name, '' if name and error.where == 'the data' else error.where]))
        raise
    if not layer.passed['height']:
        del layer.passed['height']
    return layer


def is_geographic(layer: Layer) -> bool:
    """Whether the coordinates are longitude and latitude: by the CRS, or in GeoJSON without one by their sizes and their decimals."""
    if layer.crs is not None:
        return bool(GEOGRAPHIC.search(crs_name(layer.crs)))
    if layer.form != 'GeoJSON' or not layer.shapes:
        return False
    points = [point for shape in layer.shapes for ring in shape.rings for point in ring]
    return (all(-180 <= x <= 180 and -90 <= y <= 90 for x, y in points)
            and any(round(c, 3) != c for point in points for c in point))


def crs_name(crs: Any) -> str:
    """Returns the name of a CRS of GeoJSON."""
    found = crs.get('properties', crs) if isinstance(crs, Mapping) else crs
    return str(found.get('name', found) if isinstance(found, Mapping) else found)


def member(value: Mapping[str, Any], key: str, where: str) -> Sequence[Any]:
    """Returns a list that an object must have."""
    found: Any = value.get(key)
    if not is_list(found):
        what = 'are no list' if key in value else 'are missing'
        raise NotAShape(cause=f'the {key} of the {value["type"]} {what}', where=where or 'the data')
    listed: Sequence[Any] = found
    return listed


def is_list(given: Any) -> bool:
    return isinstance(given, (list, tuple))


def is_number(value: Any) -> bool:
    """Whether a value is a finite number of a size that can be computed with."""
    if type(value) is Decimal:
        return -REACH <= value.adjusted() <= REACH and value.is_finite()
    return is_real(value) and bool(-FAR < value < FAR)


def is_real(value: Any) -> bool:
    return isinstance(value, (int, float, Decimal, Real)) and not isinstance(value, bool)


def in_json(value: Any) -> str:
    """Returns a value as the data has it, cut if it is long."""
    shown = str(value) if isinstance(value, Decimal) else json.dumps(value, default=str)
    return shown if len(shown) < 60 else shown[:56] + '...'


def label(value: Any) -> Optional[str]:
    """Returns a name, if there is one."""
    return value if isinstance(value, str) and value else None


def identity(value: Any) -> Union[str, int, None]:
    """Returns an id, if there is one. A number stays one."""
    return value if isinstance(value, int) and not isinstance(value, bool) and 0 <= value < 10**15 else label(value)


def plain(value: Any) -> Any:
    """Returns a value of JSON with floats in the place of Decimals."""
    if isinstance(value, Mapping):
        return {key: plain(item) for key, item in value.items()}
    return [plain(item) for item in value] if is_list(value) else float(value) if isinstance(value, Decimal) else value


def printable(text: str) -> str:
    return shown(text)[1:-1]


def counted(count: int, what: str) -> str:
    """Returns so many of something."""
    return f'{count:,} {what}' + ('' if count == 1 else 's')
