"""Polygons as a script has them: in the integers of a frame, without repeated points, and with fewer vertices if that is asked for."""
from __future__ import annotations

import zlib
from dataclasses import dataclass, field
from fractions import Fraction
from typing import Dict, List, Optional, Sequence, Tuple, Union

from ..errors import NotTaken, NotWhole
from ..exact import Point, text
from ..frame import Frame
from ..reading.given import distinct
from ..reading.layer import Shape
from ..values import Whole
from .thin import thinned


@dataclass
class Outline:
    """A polygon of a script. Its vertex i is the vertex `numbers[i]` of the data, which has `count` of them."""

    shape: Shape
    points: List[Whole]
    numbers: List[int]
    count: int
    repeats: Dict[int, int] = field(default_factory=dict)
    thinned_from: int = 0

    def __str__(self) -> str:
        return str(self.shape)

    @property
    def number(self) -> int:
        return self.shape.number

    @property
    def name(self) -> Optional[str]:
        return self.shape.name

    @property
    def ident(self) -> Union[str, int, None]:
        return self.shape.ident

    def index(self, number: int) -> Optional[int]:
        """Returns the number that a vertex of the data has in the script, or None if it was thinned out. One that repeats another has the
        number of that one, and one that the data does not have has a number that the script does not have."""
        if number >= self.count:
            return len(self.points) + number - self.count
        number = self.repeats.get(number, number)
        return self.numbers.index(number) if number in self.numbers else None


@dataclass(frozen=True)
class Terms:
    """What is given of a frame: all of it, an origin, a scale, or nothing; whether it rounds; and whether the script is of version 2."""

    kept: Optional[Frame] = None
    origin: Optional[Point] = None
    scale: Optional[Fraction] = None
    snap: bool = False
    wide: bool = False

    def frame(self, shapes: Sequence[Shape]) -> Frame:
        if self.kept:
            return Frame(self.kept.origin, self.kept.scale, snap=self.snap)
        points = [point for shape in shapes for point in shape.rings[0]]
        return Frame.of(points, wide=self.wide, snap=self.snap, origin=self.origin, scale=self.scale)


def fitted(shapes: Sequence[Shape], terms: Terms) -> Tuple[Frame, List[List[Whole]]]:
    """Returns the frame for some polygons, and their integers in it. Raises NotTaken, with what would do, for the first vertex that does
    not fit."""
    frame = terms.frame(shapes)
    try:
        return frame, placed(shapes, frame, terms.wide)
    except NotTaken as error:
        is_finest = isinstance(error, NotWhole) and not (terms.kept or terms.scale)
        finest = f', the finest for which version {1 + terms.wide} has room' if is_finest else ''
        raise NotTaken(error.given, cause=error.cause + finest, where=error.where, remedy=advice(shapes, terms)) from None


def placed(shapes: Sequence[Shape], frame: Frame, wide: bool) -> List[List[Whole]]:
    """Returns the integers of polygons. Raises NotTaken for the first vertex that has none."""
    found: List[List[Whole]] = []
    for shape in shapes:
        points = frame.placed(shape.rings[0], wide) or []
        try:
            points.extend(frame.within(point, wide) for point in shape.rings[0][len(points):])
        except NotTaken as error:
            error.where = f'{shape}, vertex {len(points)}'
            raise
        found.append(points)
    return found


def advice(shapes: Sequence[Shape], terms: Terms) -> str:
    """Returns what would do if a frame does not: a scale, version 2 or rounding, each if it helps."""
    exact: List[str] = []
    rounded: List[str] = []
    for wide in [True] if terms.wide else [False, True]:
        for snap in [True] if terms.snap else [False, True]:
            scale = terms.scale if snap and not terms.snap else None
            other = Terms(terms.kept, terms.origin, scale, snap, wide)
            frame = other.frame(shapes)
            words = ['--two'] * (wide and not terms.wide) + ['--round'] * (snap and not terms.snap)
            words += [f'--scale {text(frame.scale)}'] * bool(terms.scale and frame.scale != terms.scale)
            if words and fits(shapes, frame, wide):
                (rounded if snap else exact).append(
                    ' '.join(words) + (f' would take the nearest {text(1 / frame.scale)}' if snap else ' would do'))
    ways = exact[:1] + rounded + ['without --frame one is proposed'] * bool(terms.kept)
    return ', or '.join(ways) or ('another --origin would do' if terms.origin else 'a lesser --scale would do')


def fits(shapes: Sequence[Shape], frame: Frame, wide: bool) -> bool:
    try:
        return bool(placed(shapes, frame, wide))
    except NotTaken:
        return False


def outline(shape: Shape, whole: Sequence[Whole], most: Optional[int]) -> Outline:
    """Returns the polygon of a script for a shape and its integers, with at most so many vertices."""
    numbers, left_out = distinct(whole)
    repeats: Dict[int, int] = {}
    for k in left_out:
        repeats[k] = repeats.get(k - 1, k - 1) if whole[k] == whole[k - 1] else numbers[0]
    many = len(numbers)
    if most and many > most:
        numbers = [numbers[i] for i in thinned([whole[k] for k in numbers], most)]
    return Outline(shape, [whole[k] for k in numbers], numbers, len(whole), repeats, many if len(numbers) < many else 0)


def checksum(points: Sequence[Sequence[object]]) -> str:
    """Returns a short text that distinguishes polygons of a script."""
    return f'{zlib.crc32(",".join(str(c) for point in points for c in point).encode()):08x}'
