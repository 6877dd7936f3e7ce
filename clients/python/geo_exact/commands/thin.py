"""Outlines with fewer vertices, by Visvalingam's areas: the vertex that spans the least triangle with its neighbours goes first
(Visvalingam and Whyatt, 1993). One goes only where no other vertex is in that triangle, so that the outline does not cross itself;
whether it does not is the program's to say."""
from __future__ import annotations

import heapq
import math
from typing import Iterator, Sequence, Tuple

Whole = Tuple[int, int]


def thinned(points: Sequence[Whole], most: int) -> list[int]:
    """The numbers of the vertices that are left, at most so many where that can be."""
    ring = Ring(points)
    while ring.left > most and ring.remove_least():
        pass
    return [i for i in range(len(points)) if ring.is_there[i]]


class Ring:
    """An outline of which vertices are taken. `heap` has the area at each vertex as it was when it was put there; `blocked` has, for a
    vertex, those that can't go because it is in their triangle."""

    def __init__(self, points: Sequence[Whole]):
        self.points = points
        self.left = len(points)
        self.before = [i - 1 for i in range(self.left)]
        self.before[0] = self.left - 1
        self.after = [*range(1, self.left), 0]
        self.is_there = [True] * self.left
        self.heap: list[Tuple[int, int, int, int]] = []
        self.blocked: dict[int, list[int]] = {}
        self.gone_area = 0
        self.grid = Grid(points)
        for i in range(self.left):
            self.push(i)

    def push(self, i: int) -> None:
        a, c = self.before[i], self.after[i]
        area = abs(turn(self.points[a], self.points[i], self.points[c]))
        heapq.heappush(self.heap, (max(area, self.gone_area), i, a, c))

    def remove_least(self) -> bool:
        """Takes the vertex with the least area that can go. Gives whether there is one."""
        while self.heap:
            area, i, a, c = heapq.heappop(self.heap)
            if not self.is_there[i] or (a, c) != (self.before[i], self.after[i]):
                continue
            in_the_way = next(self.inside(a, i, c), None)
            if in_the_way is None:
                self.gone_area = area
                self.remove(i)
                return True
            self.blocked.setdefault(in_the_way, []).append(i)
        return False

    def remove(self, i: int) -> None:
        a, c = self.before[i], self.after[i]
        self.is_there[i] = False
        self.after[a], self.before[c] = c, a
        self.left -= 1
        for j in {a, c, *self.blocked.pop(i, [])}:
            if self.is_there[j]:
                self.push(j)

    def inside(self, a: int, b: int, c: int) -> Iterator[int]:
        """The other vertices in a triangle of three."""
        p, q, r = (self.points[k] for k in (a, b, c))
        for k in self.grid.near(p, q, r):
            if self.is_there[k] and k not in (a, b, c):
                turns = [turn(p, q, self.points[k]), turn(q, r, self.points[k]), turn(r, p, self.points[k])]
                if min(turns) >= 0 or max(turns) <= 0:
                    if any(turns) or between(p, r, self.points[k]):
                        yield k


class Grid:
    """The numbers of points by the square of a grid that they are in."""

    def __init__(self, points: Sequence[Whole]):
        xs, ys = zip(*points)
        longest = max(max(xs) - min(xs), max(ys) - min(ys))
        self.step = longest // max(1, math.isqrt(len(points))) + 1
        self.squares: dict[Whole, list[int]] = {}
        for k, (x, y) in enumerate(points):
            self.squares.setdefault((x // self.step, y // self.step), []).append(k)

    def near(self, *points: Whole) -> Iterator[int]:
        """The numbers of the points in the squares round some points."""
        xs, ys = zip(*points)
        for x in range(min(xs) // self.step, max(xs) // self.step + 1):
            for y in range(min(ys) // self.step, max(ys) // self.step + 1):
                yield from self.squares.get((x, y), [])


def turn(a: Whole, b: Whole, c: Whole) -> int:
    """Twice the area of the triangle of three points, above 0 where they turn to the left."""
    return (b[0] - a[0]) * (c[1] - a[1]) - (b[1] - a[1]) * (c[0] - a[0])


def between(a: Whole, b: Whole, point: Whole) -> bool:
    """Whether a point on the line through two is between them."""
    return min(a[0], b[0]) <= point[0] <= max(a[0], b[0]) and min(a[1], b[1]) <= point[1] <= max(a[1], b[1])
