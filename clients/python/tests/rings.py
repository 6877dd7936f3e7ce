"""Rings and points to ask about, and what of other libraries is there."""
from __future__ import annotations

import importlib
import random
from fractions import Fraction
from pathlib import Path
from typing import Any, List, Tuple

from geo_exact.backends import chosen
from geo_exact.backends.library import Library
from geo_exact.errors import LibraryMissing

try:
    numpy: Any = importlib.import_module('numpy')
except ImportError:
    numpy = None
try:
    shapely: Any = importlib.import_module('shapely.geometry')
except ImportError:
    shapely = None

try:
    WITHOUT = '' if isinstance(chosen(), Library) else 'the library does not answer, but GEO_PROGRAM'
except LibraryMissing as error:
    WITHOUT = str(error)

PACKAGE = Path(__file__).resolve().parents[1]
TOP = PACKAGE.parents[1]

L = [(0, 0), (4, 0), (4, 2), (2, 2), (2, 4), (0, 4)]


def comb(n: int) -> List[Tuple[int, int]]:
    """A strip of n vertices that goes up and down."""
    low = [(4 * i, 6 * (i % 2)) for i in range(n // 2)]
    return low + [(x, y + 2) for x, y in reversed(low)]


def strip(draw: random.Random) -> List[Tuple[int, int]]:
    """A strip with a random floor and a random ceiling."""
    columns = range(0, 4 * draw.randint(2, 12), 4)
    return [(x, draw.randint(0, 40)) for x in columns] + [(x, draw.randint(41, 80)) for x in reversed(columns)]


def some(draw: random.Random, ring: List[Tuple[int, int]], count: int) -> List[Tuple[int, int]]:
    """Points at random: in the box round a ring, in its middle, and vertices."""
    right = max(x for x, _ in ring)
    return [draw.choice([(draw.randint(0, right), draw.choice([41, draw.randint(0, 80)])), draw.choice(ring)]) for _ in range(count)]


def random_script(seed: int) -> bytes:
    """Each command, in turn, about a strip. In each other script they are of version 2."""
    draw = random.Random(seed)
    ring = strip(draw)
    asked: List[Tuple[str, List[Tuple[int, int]]]] = [('reach', some(draw, ring, 1)), ('polygon', ring)]
    for _ in range(8):
        asked += [(word, some(draw, ring, 1)) for word in ('inside', 'see', 'tree', 'reach', 'reach')]
        asked += [('path', some(draw, ring, 2)), ('check', some(draw, ring, draw.randint(0, 3)))]
        asked += [(word, some(draw, ring, draw.randint(0, 6))) for word in ('hull', 'round')]
        asked += [('pair', [(draw.randrange(len(ring)), draw.randrange(-1, len(ring) + 1))]), ('path', [ring[0], (9, 9_999_999)])]
    asked += [(word, ring[:0]) for word in ('kernel', 'guards', 'sights')] + [('polygon', ring[:2]), ('polygon', ring[1:] + ring[3:4])]
    records = ['geo,2'] * (seed % 2) + [','.join([word, *(str(number) for point in points for number in point)]) for word, points in asked]
    return '\n'.join(records).encode()


def geojson(kind: str, coordinates: Any) -> Any:
    return {'type': kind, 'coordinates': coordinates}


def exact(x: int, y: int) -> Tuple[Fraction, Fraction]:
    return Fraction(x), Fraction(y)


class Shape:
    """A shape of another library."""

    def __init__(self, kind: str, coordinates: Any):
        self.__geo_interface__ = geojson(kind, coordinates)
