"""What questions give: places, verdicts, parts of edges, and sides."""
from __future__ import annotations

import enum
from fractions import Fraction
from typing import Any, List, NamedTuple, Optional, Protocol, Tuple

Coordinate = Any  # an int; a Fraction where an answer is no whole number; in a frame a float, or a Fraction where it is exact
Point = Tuple[Coordinate, Coordinate]
Path = List[Point]
ExactPoint = Tuple[Fraction, Fraction]
Whole = Tuple[int, int]


class Array(Protocol):
    """An array of NumPy."""

    @property
    def shape(self) -> Tuple[int, ...]: ...
    @property
    def dtype(self) -> Any: ...
    def __getitem__(self, index: Any) -> Any: ...
    def tolist(self) -> Any: ...


class Place(enum.Enum):
    """Where a point lies. The polygon is closed, so what is on its edge belongs to it."""

    OUTSIDE = 0
    INSIDE = 1
    EDGE = 2


class Rule(enum.Enum):
    """A rule of taut chains, by what is wrong where it is broken."""

    REPEAT = 'repeat'
    LEAVES = 'leaves'
    NOT_REFLEX = 'not_reflex'
    STRAIGHT = 'straight'
    WRONG_SIDE = 'wrong_side'


class Before(enum.Enum):
    """What comes just before a vertex on its path, where that is no vertex."""

    SOURCE = 's'
    NOTHING = '-'


class Verdict(NamedTuple):
    """The first rule that a list of points breaks, and the number of the point where it does; both are None where the list is a
    taut chain. A verdict is true where it is one."""

    rule: Optional[Rule] = None
    place: Optional[int] = None

    def __bool__(self) -> bool:
        return self.rule is None


class Part(NamedTuple):
    """What is seen of an edge: from `first` to `last`, in the direction of the edge. Both are the same where it is one point."""

    edge: int
    first: Point
    last: Point


class Side(NamedTuple):
    """A side of a relative hull: the path from point `start` to point `goal` of the list."""

    start: int
    goal: int
    path: Path
