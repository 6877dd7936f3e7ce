"""Lengths, areas and near points, in plain floats: what is computed here is rounded, and only `Session` answers exactly."""
from __future__ import annotations

import importlib
import math
import struct
from collections.abc import Iterable, Iterator, Sequence
from itertools import islice
from typing import Any, Tuple

from .reading.given import AnyPoints, corners
from .values import Point, Whole

FAR = 1 << 40  # up to there the distances of neighbouring steps differ as floats

Floats = Tuple[float, float]


def length(path: Iterable[Point]) -> float:
    """Returns the length of a path or of any list of points, as a float."""
    points = list(path)
    return math.fsum(math.hypot(float(b[0] - a[0]), float(b[1] - a[1])) for a, b in zip(points, points[1:]))


def lengths(points: bytes, counts: Iterable[int]) -> Iterator[float]:
    """Yields the length of each of some paths, whose points are 16 bytes each, one path after another."""
    each: Iterator[Any] = struct.iter_unpack('qq', points)
    return (length(islice(each, count)) for count in counts)


def area(ring: AnyPoints) -> float:
    """Returns the area of a ring or of a polygon without holes, as a float. The area of a Region is exact: `Region.area`."""
    points = list(corners(ring))
    x, y = points[0] if points else (0, 0)
    moved = [(float(a - x), float(b - y)) for a, b in points]
    return abs(math.fsum(a[0] * b[1] - a[1] * b[0] for a, b in zip(moved, moved[1:]))) / 2


def steps_near(point: Whole, ring: Sequence[Whole]) -> Iterator[Whole]:
    """Yields the whole points around the nearest point of a ring's boundary, nearest first, and then the nearest vertex."""
    near = [max(-FAR, min(FAR, c)) for c in point]
    x, y = min((foot(near, a, b) for a, b in zip(ring, [*ring[1:], ring[0]])), key=lambda spot: math.dist(near, spot))
    around = [(round(x) + i, round(y) + j) for i in (-1, 0, 1) for j in (-1, 0, 1)]
    yield from sorted(around, key=lambda spot: math.dist((x, y), spot))
    yield min(ring, key=lambda vertex: math.dist(near, vertex))


def foot(point: Sequence[int], a: Whole, b: Whole) -> Floats:
    """Returns the point of a segment that is nearest to a point."""
    across, up = b[0] - a[0], b[1] - a[1]
    along = (point[0] - a[0]) * across + (point[1] - a[1]) * up
    part = min(1, max(0, along / (across * across + up * up)))
    return a[0] + part * across, a[1] + part * up


def extra(name: str, what: str) -> Any:
    """Returns a module of another package, or raises ImportError with what would help."""
    try:
        return importlib.import_module(name)
    except ImportError:
        raise ImportError(f'{name} is missing, which {what}: apt install python3-{name}, or pip install {name}') from None
