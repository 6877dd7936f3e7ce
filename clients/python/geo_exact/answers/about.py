"""Which polygon each answer of a script is about."""
from __future__ import annotations

from collections import Counter
from dataclasses import dataclass, field
from fractions import Fraction
from typing import Iterator, Optional, Sequence, Tuple

from ..exact import text
from ..fault import Fault, shown
from .answered import NOTHING, SOURCE, VERTICES, Answered, Point, version
from .saved import Known, Saved

IN_RING = ('tree', 'see', 'guards', 'sights')  # commands whose answers have numbers of vertices or edges


@dataclass
class About:
    """An answer with the polygon that geo had when it answered: which one it is, and its vertices. The answer to a `polygon` is about the
    polygon of that record, even if geo rejects it. `place` counts the records from 1."""

    row: Answered
    place: int
    known: Optional[Known] = None
    ring: list[Point] = field(default_factory=list)

    @property
    def is_ring(self) -> bool:
        """Whether this is a polygon that geo took."""
        return self.row.word == 'polygon' and not self.row.is_refused

    def vertex(self, i: int) -> int:
        """Returns the number in the data of vertex i of the polygon."""
        return self.known.vertex(i) if self.known else i


def abouts(answered: Sequence[Answered], saved: Optional[Saved] = None) -> list[About]:
    """Returns each answer of a script with its polygon."""
    return list(followed(answered, saved))


def followed(answered: Sequence[Answered], saved: Optional[Saved]) -> Iterator[About]:
    known, ring, count, seen = None, list[Point](), 0, Counter[str]()
    for place, row in enumerate(answered, 1):
        found = About(row, place, known, ring)
        if row.word == 'polygon':
            count, fields = count + 1, ','.join(row.record[1:])
            found.known = saved.known(row.record[1:], count, seen[fields]) if saved else Known(count)
            found.ring = [] if row.is_refused else row.points
            seen[fields] += 1
        if found.is_ring:
            known, ring = found.known, found.ring
        if not is_within(found):
            raise Fault(f'the answer to record {place} of the script, {shown(",".join(row.record))}, has a vertex or a point that is not '
                        'there, so these are the answers to another script, or damaged')
        yield found


def is_within(it: About) -> bool:
    """Returns whether the numbers of an answer are those of vertices or edges of its polygon, or of points of its record."""
    told, is_of_points = it.row.answer.told, it.row.word in ('check', 'round')
    if it.row.is_refused or not (is_of_points or it.row.word in IN_RING):
        return True
    count = len(it.row.points if is_of_points else it.ring)
    indices = told[1:] if it.row.word == 'check' else told
    return all(0 <= i < count or i in (SOURCE, NOTHING) for i in indices) and (it.row.word != 'tree' or len(told) == count)


def refusals(found: Sequence[About], saved: Optional[Saved] = None) -> Tuple[list[str], bool]:
    """Returns a line for each polygon that geo rejected, and whether it rejected all."""
    polygons = [it for it in found if it.row.word == 'polygon']
    number = version([it.row for it in found[:1]])
    lines = [f'{it.known} is rejected: {why(it, saved, number)}' for it in polygons if it.row.is_refused]
    return lines, bool(lines) and len(lines) == len(polygons)


def why(it: About, saved: Optional[Saved], version: int) -> str:
    """Returns why geo rejected a polygon."""
    _, word, *places = it.row.lines[0]
    count = (len(it.row.record) - 1) // 2
    if word == 'clash':
        i, j = map(int, places)
        return f'{edge(it, saved, i)} and {edge(it, saved, j)} share a point where they must not'
    if word == 'few':
        return f'it has {count} vertices without repeated ones, and a polygon needs at least 3'
    if word == 'many':
        return f'it has {count:,} vertices, and version {version} takes at most {VERTICES[version]:,}'
    return ','.join(it.row.lines[0])


def edge(it: About, saved: Optional[Saved], i: int) -> str:
    """Returns an edge of a rejected polygon by the numbers and coordinates of its ends in the data."""
    points = it.row.points
    ends = []
    for k in (i, (i + 1) % len(points)):
        x, y = saved.frame.back(points[k]) if saved else map(Fraction, points[k])
        ends.append(f'vertex {it.vertex(k)} ({text(x)}, {text(y)})')
    return f'the edge from {ends[0]} to {ends[1]}'
