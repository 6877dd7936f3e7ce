"""Regions: the closed parts of the plane that answers enclose."""
from __future__ import annotations

from bisect import bisect_left, bisect_right
from collections import deque
from collections.abc import Iterable, Iterator, Sequence, Set
from fractions import Fraction
from typing import Any, Callable, Deque, Dict, List, Tuple

from . import writing
from .units import PLAIN, Exact, Units
from .values import Coordinate, Path, Point

Corner = Tuple[Exact, Exact]
Piece = Tuple[Corner, Corner]

SHOWN = 3


class Region:
    """The part of the plane that an answer encloses, with its boundary.

    `polygons` are the boundaries of the parts that have an area, counterclockwise and without a closing point; `lines` are polylines
    that stick out of them or have no area; `points` are isolated ones. No three consecutive points are collinear, and the least point
    comes first, so equal parts of the plane are equal regions. Coordinates are in the units of the session: exact, or the floats of
    its frame.

    `shapely.geometry.shape` takes a region, as does each reader of `__geo_interface__`. There, in `wkt` and in `wkb` each coordinate
    is the nearest float.
    """

    def __init__(self, polygons: Sequence[Sequence[Corner]] = (), lines: Iterable[Sequence[Corner]] = (),
                 points: Iterable[Corner] = (), units: Units = PLAIN):
        self._rings, self._units = polygons, units
        self.polygons: List[Path] = [list(map(units.give, ring)) for ring in polygons]
        self.lines: List[Path] = [list(map(units.give, line)) for line in lines]
        self.points: List[Point] = list(map(units.give, points))

    @classmethod
    def of_walk(cls, walk: Iterable[Corner], units: Units = PLAIN) -> Region:
        """Returns what a closed walk encloses. The walk may go back the way it came and touch its own points, but not cross itself."""
        pieces: List[Piece] = []
        trimmed = without_spikes(((plain(x), plain(y)) for x, y in walk), pieces)
        rings = [ring for ring in (without_spikes(loop, pieces) for loop in loops(trimmed)) if len(ring) > 2]
        corners = {corner for ring in rings for corner in ring}
        points = [] if rings or pieces else trimmed
        return cls(sorted(map(turned, rings)), sorted(joined(pieces, corners)), points, units)

    @property
    def area(self) -> Coordinate:
        """The area of the polygons: exact, or the nearest float in a frame of floats."""
        return self._units.give_area(plain(Fraction(sum(map(swept, self._rings)), 2)))

    def shapes(self, give: Callable[[Point], Any] = tuple) -> List[Dict[str, Any]]:
        """Returns up to three geometries of GeoJSON: the polygons, the lines and the points. `give` returns a point as it has to be."""
        parts: Dict[str, List[Any]] = {
            'Polygon': [[list(map(give, [*ring, ring[0]]))] for ring in self.polygons],
            'LineString': [list(map(give, line)) for line in self.lines], 'Point': list(map(give, self.points))}
        return [{'type': kind, 'coordinates': each[0]} if len(each) == 1 else {'type': f'Multi{kind}', 'coordinates': each}
                for kind, each in parts.items() if each]

    @property
    def __geo_interface__(self) -> Dict[str, Any]:
        shapes = self.shapes(lambda point: (float(point[0]), float(point[1]))) or [{'type': 'Polygon', 'coordinates': []}]
        return shapes[0] if len(shapes) == 1 else {'type': 'GeometryCollection', 'geometries': shapes}

    @property
    def wkt(self) -> str:
        """The region as well-known text."""
        return writing.wkt(self.__geo_interface__)

    @property
    def wkb(self) -> bytes:
        """The region as well-known binary, little endian."""
        return writing.wkb(self.__geo_interface__)

    def __bool__(self) -> bool:
        return bool(self.polygons or self.lines or self.points)

    def __eq__(self, other: object) -> bool:
        if not isinstance(other, Region):
            return NotImplemented
        return (self.polygons, self.lines, self.points) == (other.polygons, other.lines, other.points)

    def __repr__(self) -> str:
        parts = [f'a polygon of {len(ring)} vertices' for ring in self.polygons]
        parts += [f'a line of {len(line)} points' for line in self.lines] + [f'the point {point}' for point in self.points]
        shown = parts[:SHOWN] + [f'{len(parts) - SHOWN:,} more'] * (len(parts) > SHOWN)
        return f'<Region: {", ".join(shown) or "empty"}>'


def way_round(told: Sequence[int], points: Sequence[Corner]) -> List[Corner]:
    """Returns the sides of a relative hull as one closed walk. `told` has the start, the goal and the number of points of each side."""
    sides, first = {}, 0
    for start, goal, length in zip(told[::3], told[1::3], told[2::3]):
        sides[start] = goal, points[first:first + length - 1]
        first += length
    walk: List[Corner] = []
    at = min(sides, default=0)
    while at in sides:
        at, path = sides.pop(at)
        walk += path
    return walk


def with_touches(walk: Sequence[Corner]) -> Iterator[Corner]:
    """Returns a closed walk with those of its own points that it touches between two others."""
    by_x, by_y = sorted(set(walk)), sorted({(y, x) for x, y in walk})
    for a, b in zip(walk, [*walk[1:], *walk[:1]]):
        by_side, by_height = between(by_x, a, b), between(by_y, a[::-1], b[::-1])
        near = by_side if len(by_side) < len(by_height) else [(x, y) for y, x in by_height]
        yield a
        yield from sorted((point for point in near if turn(a, b, point) == 0), reverse=a > b)


def between(points: List[Corner], a: Corner, b: Corner) -> List[Corner]:
    """Returns those of sorted points that are between two."""
    return points[bisect_right(points, min(a, b)):bisect_left(points, max(a, b))]


def without_spikes(walk: Iterable[Corner], pieces: List[Piece]) -> List[Corner]:
    """Returns a closed walk without the segments that it goes there and straight back, which are added to `pieces`; at least a point is
    left."""
    kept: Deque[Corner] = deque()
    for corner in walk:
        go(kept, corner, pieces)
    quiet = 0
    while quiet < 2 and len(kept) > 2:
        length = len(kept)
        go(kept, kept.popleft(), pieces)
        quiet = quiet + 1 if len(kept) == length else 0
    if len(kept) == 2:
        pieces.append((kept[0], kept.pop()))
    return list(kept)


def go(kept: Deque[Corner], c: Corner, pieces: List[Piece]) -> None:
    """Appends c to a walk, after cutting off as much of the walk as the step to c goes back."""
    while len(kept) > 1 and is_one_way(kept[-1], kept[-2], c):
        b, a = kept.pop(), kept[-1]
        if is_one_way(a, b, c):
            pieces.append((c, b))
            break
        pieces.append((a, b))
    if not kept or kept[-1] != c:
        kept.append(c)


def loops(walk: List[Corner]) -> Iterator[List[Corner]]:
    """Returns the loops of a closed walk that visits some points again; no loop visits a point twice."""
    kept: List[Corner] = []
    place: Dict[Corner, int] = {}
    for corner in walk + walk[:1]:
        if corner in place:
            first = place[corner]
            yield kept[first:]
            for left in kept[first + 1:]:
                del place[left]
            del kept[first + 1:]
        else:
            place[corner] = len(kept)
            kept.append(corner)


def joined(pieces: Iterable[Piece], corners: Set[Corner]) -> Iterator[List[Corner]]:
    """Returns the polylines that segments form. They end at the corners of polygons, and where more than two segments meet."""
    others: Dict[Corner, List[Corner]] = {}
    for a, b in {(min(piece), max(piece)) for piece in pieces}:
        others.setdefault(a, []).append(b)
        others.setdefault(b, []).append(a)
    ends = {point for point, met in others.items() if len(met) != 2 or point in corners}
    done = set()
    for first in sorted(ends):
        for second in sorted(others[first]):
            line = [first, second]
            while line[-1] not in ends:
                a, b = others[line[-1]]
                line.append(b if a == line[-2] else a)
            if (first, second) not in done:
                yield [first, *bends(line), line[-1]]
            done.add((line[-1], line[-2]))


def turned(ring: List[Corner]) -> List[Corner]:
    """Returns a ring counterclockwise from its least corner on, without collinear corners."""
    found = bends([ring[-1], *ring, ring[0]])
    if swept(found) < 0:
        found.reverse()
    least = found.index(min(found))
    return found[least:] + found[:least]


def bends(line: List[Corner]) -> List[Corner]:
    """Returns the points of a line between its ends at which it does not go straight on."""
    return [b for a, b, c in zip(line, line[1:], line[2:]) if turn(a, b, c)]


def turn(a: Corner, b: Corner, c: Corner) -> Exact:
    """Returns twice the area of a triangle, positive if it turns to the left."""
    return (b[0] - a[0]) * (c[1] - a[1]) - (b[1] - a[1]) * (c[0] - a[0])


def is_one_way(a: Corner, b: Corner, c: Corner) -> bool:
    """Returns whether b and c are in the same direction from a."""
    return turn(a, b, c) == 0 and (b[0] - a[0]) * (c[0] - a[0]) + (b[1] - a[1]) * (c[1] - a[1]) > 0


def swept(ring: Sequence[Corner]) -> Exact:
    """Returns twice the area of a ring, positive if it is counterclockwise."""
    return sum(a[0] * b[1] - a[1] * b[0] for a, b in zip(ring, [*ring[1:], *ring[:1]]))


def plain(number: Exact) -> Exact:
    """Returns an integer if the number is one, since integers are faster."""
    return number.numerator if number.denominator == 1 else number
