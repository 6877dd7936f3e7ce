"""Geometries as WKT and WKB. A geometry is a mapping as in GeoJSON and `__geo_interface__`; its coordinates are numbers of any kind."""
from __future__ import annotations

import struct
from typing import Any, Callable, Mapping, Sequence

# how deep each type nests its points, in the order of the type codes of WKB, which begin with 1
DEPTHS = {'Point': 0, 'LineString': 1, 'Polygon': 2, 'MultiPoint': 1, 'MultiLineString': 2, 'MultiPolygon': 3, 'GeometryCollection': 0}

Shape = Mapping[str, Any]
Point = Sequence[Any]


def numbers(point: Point) -> str:
    """Returns the coordinates of a point as the nearest floats, without `.0`."""
    return ' '.join(repr(float(c)).removesuffix('.0') for c in point)


def wkt(shape: Shape, write: Callable[[Any], str] = numbers) -> str:
    """Returns a geometry as WKT; `write` returns the text of a point."""
    kind, depth = shape['type'], DEPTHS[shape['type']]
    if kind == 'GeometryCollection':
        return f'GEOMETRYCOLLECTION ({", ".join(wkt(it, write) for it in shape["geometries"])})'
    value = shape['coordinates']
    if kind in ('Point', 'MultiPoint'):
        value, depth = [[point] for point in value] if depth else [value], depth + 1
    return f'{kind.upper()} {nested(value, depth, write, "()") if value else "EMPTY"}'


def nested(value: Any, depth: int, write: Callable[[Any], str], ends: str = '[]') -> str:
    """Returns coordinates as text: points in as many brackets as they are deep."""
    return write(value) if depth == 0 else f'{ends[0]}{", ".join(nested(it, depth - 1, write, ends) for it in value)}{ends[1]}'


def wkb(shape: Shape) -> bytes:
    """Returns a geometry as WKB, little endian, with the nearest floats."""
    kind = shape['type']
    head = struct.pack('<BI', 1, list(DEPTHS).index(kind) + 1)
    if kind in ('Point', 'LineString', 'Polygon'):
        return head + packed(shape['coordinates'], DEPTHS[kind])
    parts = shape['geometries'] if kind == 'GeometryCollection' else [{'type': kind[5:], 'coordinates': it} for it in shape['coordinates']]
    return head + struct.pack('<I', len(parts)) + b''.join(map(wkb, parts))


def packed(value: Any, depth: int) -> bytes:
    """Returns coordinates as WKB: counted lists of points, or a point."""
    if depth == 0:
        return struct.pack('<2d', *map(float, value))
    return struct.pack('<I', len(value)) + b''.join(packed(it, depth - 1) for it in value)
