"""Which polygons lie in others: a hole that comes as a polygon of its own is one that does."""
from __future__ import annotations

from typing import Iterator, List, Sequence, Tuple

from ..values import Place, Whole
from .outline import Outline
from .thin import between, turn

Ring = Sequence[Whole]
Box = Tuple[Whole, Whole]  # the least and the greatest coordinate, of x and of y


def nested(outlines: Sequence[Outline]) -> Iterator[Tuple[Outline, Outline]]:
    """Yields each polygon that lies in another one, with that one. The sweep goes along the axis on which boxes overlap less; an outer
    polygon comes before those in it."""
    found = [(box(it.points), area(it.points), it) for it in outlines if len(it.points) > 2]
    if not found:
        return
    lengths = [sum(b[k][1] - b[k][0] for b, _, _ in found) / (1 + max(b[k][1] for b, _, _ in found) - min(b[k][0] for b, _, _ in found))
               for k in (0, 1)]
    axis = int(lengths[1] < lengths[0])
    open_ones: List[Tuple[Box, Outline]] = []
    for inner, _, it in sorted(found, key=lambda entry: (entry[0][axis][0], -entry[0][axis][1], -entry[1])):
        open_ones = [entry for entry in open_ones if entry[0][axis][1] >= inner[axis][0]]
        outers = [other for outer, other in open_ones if holds(outer, inner)]
        if outers:
            x, y = interior_point(it.points)
            yield from ((it, other) for other in outers[::-1]
                        if place((x, y), [(6 * x, 6 * y) for x, y in other.points]) == Place.INSIDE)
        open_ones.append((inner, it))


def box(ring: Ring) -> Box:
    xs, ys = zip(*ring)
    return (min(xs), max(xs)), (min(ys), max(ys))


def area(ring: Ring) -> int:
    """Returns twice the area of a polygon."""
    return abs(sum(ax * by - bx * ay for (ax, ay), (bx, by) in zip(ring, [*ring[1:], ring[0]])))


def holds(outer: Box, inner: Box) -> bool:
    return all(outer[k][0] <= inner[k][0] and inner[k][1] <= outer[k][1] for k in (0, 1))


def interior_point(ring: Ring) -> Whole:
    """Returns a point inside a simple polygon, times 6 so that it is one of integers. At the least vertex v with its neighbours u and w it
    is the middle of their triangle, or if vertices lie in that, of v and the one that is farthest from the line uw."""
    k = min(range(len(ring)), key=ring.__getitem__)
    u, v, w = ring[k - 1], ring[k], ring[(k + 1) % len(ring)]
    sign = 1 if turn(u, v, w) > 0 else -1
    far, point = max(((sign * turn(w, u, q), q) for q in ring if q not in (u, v, w)
                      and min(sign * turn(u, v, q), sign * turn(v, w, q), sign * turn(w, u, q)) >= 0), default=(0, v))
    if far == 0:
        return 2 * (u[0] + v[0] + w[0]), 2 * (u[1] + v[1] + w[1])
    return 3 * (v[0] + point[0]), 3 * (v[1] + point[1])


def place(point: Whole, ring: Ring) -> Place:
    """Returns where a point lies."""
    y, is_inside = point[1], False
    for a, b in zip(ring, [*ring[1:], ring[0]]):
        side = turn(a, b, point)
        if side == 0 and between(a, b, point):
            return Place.EDGE
        if (a[1] > y) != (b[1] > y) and (side > 0) == (b[1] > a[1]):
            is_inside = not is_inside
    return Place.INSIDE if is_inside else Place.OUTSIDE
