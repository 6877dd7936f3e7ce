"""Points, lists, pairs and rings as callers pass them, as the integers that the library takes, one after another."""
from __future__ import annotations

import numbers
from array import array
from collections.abc import Iterable, Iterator, Mapping
from typing import Any, List, Optional, Protocol, Sequence, Tuple, Union

from ..errors import Holes, NotAPoint, NotAShape, NotReadable
from ..units import Given, Units, is_array
from ..values import Whole
from .parse import parse


class HasGeoInterface(Protocol):
    """A shape of another library, which describes itself as GeoJSON."""

    @property
    def __geo_interface__(self) -> Mapping[str, Any]: ...


AnyPoint = Union[Sequence[Given], Mapping[str, Any], HasGeoInterface, str, bytes]  # WKT, WKB or GeoJSON
AnyPoints = Union[Iterable[AnyPoint], Mapping[str, Any], HasGeoInterface, str, bytes]
AnyPairs = Iterable[Sequence[AnyPoint]]

LIST = 'LineString', 'MultiPoint'
RING = 'Polygon', 'LinearRing'


def point(given: AnyPoint, units: Units, place: int = 1) -> Whole:
    """Returns a point as two integers. Its first number has this place in the question."""
    x, y = position(given, place)
    return units.take(x, place), units.take(y, place + 1)


def points(given: AnyPoints, units: Units) -> array[int]:
    """Returns the numbers of a list of points."""
    shape = shape_of(given, *LIST)
    return flat(coordinates(shape, given), units, bool(shape))


def pairs(given: AnyPairs, units: Units) -> array[int]:
    """Returns the numbers of pairs of points."""
    found = whole_array(given, units, 2, 2)
    if found is None:
        found = array('q')
        for k, ends in enumerate(items(given)):
            start, goal = two(ends, 4 * k + 1)
            found.extend(point(start, units, 4 * k + 1) + point(goal, units, 4 * k + 3))
    return found


def ring(given: AnyPoints, units: Units) -> Tuple[array[int], List[int]]:
    """Returns the numbers of a ring without a closing point, and the index of that point if there is one."""
    shape = shape_of(given, *RING)
    found = flat(outline(shape, given), units, bool(shape))
    is_closed = len(found) > 2 and found[:2] == found[-2:]
    return (found[:-2], [len(found) // 2 - 1]) if is_closed else (found, [])


def without_repeats(found: array[int]) -> Tuple[array[int], List[int]]:
    """Returns the numbers of a ring without the points that repeat a neighbour, and the indices of these points."""
    kept, left_out = distinct(list(zip(found[::2], found[1::2])))
    return array('q', (found[i] for k in kept for i in (2 * k, 2 * k + 1))), left_out


def distinct(points: Sequence[Whole]) -> Tuple[List[int], List[int]]:
    """Returns the indices of the points of a ring that differ from the one before them, and of those that don't."""
    kept = [k for k, point in enumerate(points) if k == 0 or point != points[k - 1]]
    while len(kept) > 1 and points[kept[-1]] == points[kept[0]]:
        kept.pop()
    there = set(kept)
    return kept, [k for k in range(len(points)) if k not in there] if len(kept) < len(points) else []


def corners(given: AnyPoints) -> Iterator[Tuple[Any, Any]]:
    """Returns the points of a ring or a polygon, as they are given."""
    shape = shape_of(given, *RING)
    return (position(it, 2 * k + 1, bool(shape)) for k, it in enumerate(items(outline(shape, given))))


def outline(shape: Optional[Mapping[str, Any]], given: Any) -> Any:
    """Returns the points of a polygon's one ring."""
    listed = coordinates(shape, given)
    if not shape or shape['type'] == 'LinearRing':
        return listed
    first, *holes = items(listed)
    if isinstance(first, (list, tuple)) and first and isinstance(first[0], numbers.Number):
        raise NotAShape(given, cause='has points in the place of rings')
    if holes:
        raise Holes(given, cause=f'has holes, {len(holes)} of them, and a polygon of geo has one ring')
    return first


def flat(given: Any, units: Units, is_shape: bool) -> array[int]:
    """Returns the numbers of points one after another. The points of a shape may have heights, which are left out."""
    found = whole_array(given, units, 2)
    if found is None:
        found = array('q')
        for k, it in enumerate(items(given)):
            x, y = position(it, 2 * k + 1, is_shape)
            found.append(units.take(x, 2 * k + 1))
            found.append(units.take(y, 2 * k + 2))
    return found


def whole_array(given: Any, units: Units, *row: int) -> Optional[array[int]]:
    """Returns the numbers of an array of NumPy that has rows of this shape, or nothing if it must be read one by one."""
    if not is_array(given) or given.shape[1:] != row or given.dtype.kind not in 'iuf':
        return None
    return array('q', units.take_array(given).tobytes())


def position(given: Any, place: int, is_shape: bool = False) -> Tuple[Any, Any]:
    """Returns the two numbers of a point, as they are given."""
    if type(given) in (tuple, list) and len(given) == 2:
        return given[0], given[1]
    shape = shape_of(given, 'Point', place=place)
    found = coordinates(shape, given, place)
    return two(found[:2] if shape or is_shape and isinstance(found, (list, tuple)) else found, place)


def two(given: Any, place: int) -> Tuple[Any, Any]:
    """Returns the two items of a pair."""
    try:
        first, second = given
    except (TypeError, ValueError):
        raise NotAPoint(given, place) from None
    return first, second


def items(given: Any) -> Iterator[Any]:
    """Returns the items of a list."""
    try:
        return iter(given)
    except TypeError:
        raise NotAShape(given, cause='is not a list of points') from None


def coordinates(shape: Optional[Mapping[str, Any]], given: Any, place: int = 1) -> Any:
    """Returns the coordinates of a shape in GeoJSON, or what was given if it is none."""
    if not shape:
        return given
    found: Any = shape.get('coordinates')
    if not hasattr(found, '__len__'):
        raise NotAShape(given, place, f'has no coordinates, as a {shape["type"]} must')
    if len(found) == 0 and shape['type'] != 'MultiPoint':
        raise NotAShape(given, place, f'is an empty {shape["type"]}')
    return found


def geojson(given: Any, place: int = 1) -> Any:
    """Returns the GeoJSON of a shape of another library, or else what was given."""
    try:
        return getattr(given, '__geo_interface__', given)
    except Exception as error:  # an empty Point of Shapely has none
        raise NotAShape(given, place, 'is empty, or has no valid __geo_interface__') from error


def shape_of(given: Any, *kinds: str, place: int = 1) -> Optional[Mapping[str, Any]]:
    """Returns a shape in GeoJSON that is of one of these kinds, or nothing if plain numbers are given. Of a feature it is the geometry; a
    text or bytes are read as WKT, WKB or GeoJSON."""
    shape = parsed(given, place) if isinstance(given, (str, bytes)) else geojson(given, place)
    if not isinstance(shape, Mapping):
        return None
    if shape.get('type') == 'Feature':
        shape = geojson(shape.get('geometry'), place)
        if not isinstance(shape, Mapping):
            raise NotAShape(given, place, 'is a feature without a geometry')
    kind = shape.get('type', 'shape without a type')
    if kind not in kinds:
        raise NotAShape(given, place, f'is a {kind}, and a {" or ".join(kinds)} is expected')
    found: Mapping[str, Any] = shape
    return found


def parsed(given: Union[str, bytes], place: int) -> Any:
    """Returns the one geometry of a text or of bytes."""
    try:
        objects = parse(given).objects
    except NotReadable as error:
        raise NotAShape(given, place, f'is not WKT, WKB or GeoJSON ({error.where}: {error.cause})') from None
    if len(objects) != 1:
        raise NotAShape(given, place, f'has {len(objects)} geometries, and one is expected')
    return objects[0][1]
