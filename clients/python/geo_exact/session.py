"""A session: a polygon, and what is asked about it."""
from __future__ import annotations

import operator
import struct
from array import array
from collections.abc import Iterable, Iterator
from itertools import accumulate, chain, islice
from typing import Any, Dict, List, Literal, Optional, Sequence, SupportsIndex, Tuple, Union, overload

from . import drawing, measures
from .answers.answered import NOTHING, SOURCE
from .backends import Engine, Reply, chosen
from .errors import Clash, GeoMemoryError, Many, NotAPoint, Outside, Range
from .frame import Frame
from .listed import Listed
from .path import Path
from .reading import given as reading
from .reading.given import AnyPairs, AnyPoint, AnyPoints
from .region import Region, bends, way_round, with_touches
from .units import PLAIN, Units, is_array, near, numpy
from .values import Array, Before, Part, Place, Point, Rule, Side, Verdict, Whole

PLACES, RULES = tuple(Place), tuple(Rule)
BEFORE: Dict[int, Before] = {SOURCE: Before.SOURCE, NOTHING: Before.NOTHING}


class Session:
    """A polygon, and what was asked about it.

    `ring` is the polygon, if it is known by now. A `wide` session has the limits of version 2 of the script: coordinates up to 8,388,607
    and polygons of up to 16,384 vertices, instead of 1,000,000 and 4,096. Its paths have each vertex that they touch, besides their ends
    and their bends. With a `frame` points are taken and returned in other units than integers; with 'auto' each polygon gets the one that
    `Frame.of` proposes, which moves numbers to its steps if `snap` is true.

    `backend` answers, or what `backends.chosen` finds. A session of the library belongs to the thread that made it: on another thread each
    question raises RuntimeError. `close`, the end of a `with` block or the last reference frees its memory. If that happens on another
    thread, or if the session is still open when its thread ends, its thread frees the memory. Sessions of different threads do not wait for
    each other.
    """

    def __init__(self, ring: Optional[AnyPoints] = None, *, wide: bool = False, frame: Union[Frame, Literal['auto'], None] = None,
                 snap: bool = False, backend: Optional[Engine] = None):
        if frame != 'auto' and (snap or isinstance(frame, str)):
            raise ValueError("frame is a Frame or 'auto', and snap=True goes with frame='auto'; a Frame has its own snap")
        self._dialog = (backend or chosen()).opened()
        self._wide, self._snap, self._is_auto = wide, snap, frame == 'auto'
        self._units: Units = frame if isinstance(frame, Frame) else PLAIN
        self._ring: Optional[array[int]] = None
        self._left_out: Sequence[int] = ()
        self._source: Optional[Whole] = None
        self._last: Optional[Tuple[str, array[int], Reply]] = None
        if wide:
            self._ask('geo')
        if ring is not None:
            self.polygon(ring)

    def close(self) -> None:
        """Frees the memory. Then each question raises ValueError."""
        self._dialog.close()

    def __enter__(self) -> Session:
        return self

    def __exit__(self, *_: object) -> None:
        self.close()

    def __repr__(self) -> str:
        if not self._dialog.is_open:
            return '<geo_exact.Session: closed>'
        size = 'no polygon' if self._ring is None else f'{len(self._ring) // 2:,} vertices'
        source = [] if self._source is None else [f'source {self.source}']
        return f'<geo_exact.Session: {", ".join([size] + ["wide"] * self._wide + source)}>'

    def _repr_svg_(self) -> Optional[str]:
        """Returns a picture of the polygon and the last answer, for notebooks."""
        if self._ring is None or not self._dialog.is_open:
            return None
        word, asked, (numbers, points, corners) = self._last or ('', self._ring[:0], Reply())
        answer = drawing.Answer(word, list(pairs_of(asked)), numbers, list(pairs_of(points)), corners)
        return drawing.svg(list(pairs_of(self._ring)), answer, self.frame)

    @property
    def wide(self) -> bool:
        """Whether the session is of version 2 of the script."""
        return self._wide

    @property
    def frame(self) -> Optional[Frame]:
        """The units of points, if they are no integers."""
        return self._units if isinstance(self._units, Frame) else None

    @property
    def ring(self) -> Optional[List[Point]]:
        """The vertices of the polygon; None if there is no polygon, or if `answer` set it."""
        return None if self._ring is None else list(map(self._units.give, pairs_of(self._ring)))

    @property
    def left_out(self) -> Tuple[int, ...]:
        """The indices of the points of the given ring that are no vertices, since they repeat the point before them or close the ring."""
        return tuple(self._left_out)

    @property
    def source(self) -> Optional[Point]:
        """The source of the last tree; None if there is no tree, or if `answer` made it."""
        return None if self._source is None else self._units.give(self._source)

    def polygon(self, ring: AnyPoints) -> int:
        """Replaces the polygon, and returns the number of its vertices."""
        units = self._units
        if self._is_auto:
            ring = list(ring) if isinstance(ring, Iterator) else ring
            units = Frame.of(ring, wide=self._wide, snap=self._snap, finest=self._snap)
        asked, closing = reading.ring(ring, units)
        left_out: List[int] = []
        try:
            self._ask('polygon', asked)
        except (Clash, Many):  # here, so that a ring without repeated points costs nothing more
            asked, left_out = reading.without_repeats(asked)
            if not left_out:
                raise
            self._ask('polygon', asked)
        self._units, self._ring, self._left_out, self._source = units, asked, [*left_out, *closing], None
        return len(asked) // 2

    @overload
    def inside(self, point: AnyPoint) -> Place: ...
    @overload
    def inside(self, point: Array) -> Array: ...
    def inside(self, point: Any) -> Any:
        """Returns where a point lies. It takes an array of NumPy of many points as `places` does."""
        if is_array(point) and point.ndim == 2:
            return self.places(point)
        try:
            return PLACES[self._ask('inside', self._point(point))[0][0]]
        except Range:
            self._dialog.ask('inside', array('q', [0, 0]))  # without a polygon nothing is outside
            return Place.OUTSIDE

    @overload
    def places(self, points: Array) -> Array: ...
    @overload
    def places(self, points: AnyPoints) -> List[Place]: ...
    def places(self, points: Any) -> Any:
        """Returns where each of the points lies: for an array of NumPy an array of the values of the places, and for a GeoSeries a Series of
        them with its index."""
        is_series = hasattr(points, 'geom_type') and hasattr(points, 'index')
        if is_series:
            points = points.geometry
            for k, point in enumerate(points):
                if point is None or point.geom_type != 'Point' or point.is_empty:
                    raise NotAPoint(point, 2 * k + 1)
        asked = reading.points(numpy().column_stack([points.x, points.y]) if is_series else points, self._units)
        found = self._dialog.places(asked)
        self._last = 'places', asked[:2 * drawing.MOST], Reply(found)
        if is_series:
            return measures.extra('pandas', 'has the Series').Series(list(found), index=points.index)
        return numpy().frombuffer(found, 'u1') if is_array(points) else [PLACES[place] for place in found]

    def path(self, start: AnyPoint, goal: AnyPoint) -> Path:
        """Returns the taut path between two points of the polygon, which runs as a pulled string does."""
        return self._path('path', self._point(start) + self._point(goal, 3))

    @overload
    def paths(self, pairs: AnyPairs, *, arrays: Literal[False] = False) -> List[Path]: ...
    @overload
    def paths(self, pairs: AnyPairs, *, arrays: Literal[True]) -> Tuple[Array, Array]: ...
    def paths(self, pairs: AnyPairs, *, arrays: bool = False) -> Any:
        """Returns the path between the points of each pair. With `arrays` it returns two arrays of NumPy: the points of all paths, one path
        after another, and the offsets, where path k is points[offsets[k]:offsets[k + 1]]."""
        found, lengths = self._dialog.paths(reading.pairs(pairs, self._units))
        self._last = 'paths', array('q'), Reply(lengths, array('q', bytes(found[:16 * drawing.MOST + 16])))
        if arrays:
            points = self._units.give_array(numpy().frombuffer(found, 'i8').reshape(-1, 2))
            return points, numpy().array(array('q', accumulate(lengths, initial=0)))
        each: Iterator[Any] = struct.iter_unpack('qq', found)
        told = map(self._units.give, each)
        return [Path(islice(told, length)) for length in lengths]

    def tree(self, source: AnyPoint) -> List[Union[int, Before]]:
        """Returns for each vertex its predecessor on the path from the source: a vertex, the source itself, or nothing if the vertex is at
        the source. The session keeps the source for `reach`."""
        asked = self._point(source)
        before = self._ask('tree', asked)[0]
        self._source = asked
        return [BEFORE.get(j, j) for j in before]

    def reach(self, goal: AnyPoint) -> Path:
        """Returns the path from the source of the last tree."""
        return self._path('reach', self._point(goal))

    def check(self, points: AnyPoints) -> Verdict:
        """Returns whether the points are a taut path, so the one between the first and the last of them."""
        rule, *place = self._ask('check', reading.points(points, self._units))[0]
        return Verdict(RULES[rule - 1], *place) if rule else Verdict()

    def see(self, point: AnyPoint) -> Listed[Part]:
        """Returns what a point of the polygon sees: a part for each edge of which it sees something, in the order of the edges."""
        edges, _, ends = self._ask('see', self._point(point))
        give = self._units.give
        return Listed(len(edges), lambda i: Part(edges[i], give(ends[2 * i]), give(ends[2 * i + 1])))

    def kernel(self) -> List[Point]:
        """Returns the corners of the kernel, the set of points that see the whole polygon, counterclockwise from the least one."""
        return list(map(self._units.give, self._ask('kernel').corners))

    def hull(self, points: AnyPoints) -> Listed[Side]:
        """Returns the sides of the relative hull of up to 64 points, sorted by their starts. A repeated point has its first index."""
        told, found, _ = self._ask('hull', reading.points(points, self._units))
        starts, give = list(accumulate(told[2::3], initial=0)), self._units.give
        return Listed(len(told) // 3, lambda i: Side(
            told[3 * i], told[3 * i + 1], Path(map(give, pairs_of(found[2 * starts[i]:2 * starts[i + 1]])))))

    def round(self, points: AnyPoints) -> List[int]:
        """Returns the indices of the points that start a side of the relative hull, in the order in which the sides follow each other."""
        return list(self._ask('round', reading.points(points, self._units)).numbers)

    def guards(self) -> List[int]:
        """Returns the indices of at most a third of the vertices, which together see the whole polygon."""
        return list(self._ask('guards').numbers)

    def pair(self, i: SupportsIndex, j: SupportsIndex) -> Path:
        """Returns the path between two vertices, by their indices, in a polygon of at most 1,024."""
        return self._path('pair', map(near, map(operator.index, (i, j))))

    def sights(self) -> Listed[Tuple[int, int]]:
        """Returns the pairs of vertices that see each other, the lesser index first, in a polygon of at most 1,024."""
        told = self._ask('sights').numbers
        return Listed(len(told) // 2, lambda i: (told[2 * i], told[2 * i + 1]))

    def view_polygon(self, point: AnyPoint) -> Region:
        """Returns what a point of the polygon sees: its visibility polygon, and as lines what it sees along one ray alone."""
        return Region.of_walk(self._ask('see', self._point(point)).corners, self._units)

    def kernel_polygon(self) -> Region:
        """Returns the kernel: a polygon, a line, a point or nothing."""
        return Region.of_walk(self._ask('kernel').corners, self._units)

    def hull_polygon(self, points: AnyPoints) -> Region:
        """Returns the relative hull of up to 64 points: polygons, the lines between them, or one of these alone, or a point."""
        asked = reading.points(points, self._units)
        told, found, _ = self._ask('hull', asked)
        walk = way_round(told, list(pairs_of(found))) or list(pairs_of(asked[:2]))
        return Region.of_walk(walk if self._wide else with_touches(walk), self._units)

    def sees(self, p: AnyPoint, q: AnyPoint) -> bool:
        """Returns whether two points of the polygon see each other, exactly: whether their segment lies in it."""
        points = self._ask('path', self._point(p) + self._point(q, 3)).points
        return not bends(list(pairs_of(points)))

    def nearest_inside(self, point: AnyPoint) -> Point:
        """Returns the point itself if it lies in the polygon. Else it returns a point near it that does: a step of the frame next to the
        nearest point of the boundary, by its distance in floats, or else the nearest vertex."""
        asked = self._point(point)
        spots = chain([asked], measures.steps_near(asked, self._vertices()))
        return self._units.give(next(spot for spot in spots if self._dialog.places(array('q', spot)) != b'\0'))

    def distances(self, points: AnyPoints, others: Optional[AnyPoints] = None) -> List[List[float]]:
        """Returns the lengths of the paths from each of the points to each of the others, or of the points, as floats: a row for each point.
        Raises Outside with the place of the first point that is outside, counted from 1 through the points and then the others."""
        starts = list(pairs_of(reading.points(points, self._units)))
        goals = starts if others is None else list(pairs_of(reading.points(others, self._units)))
        found = self._dialog.places(array('q', chain(*starts, *(goals if others is not None else []))))
        if 0 in found:
            raise Outside(found.index(0) + 1)
        scale = float(self.frame.scale) if self.frame else 1.0
        rows: List[List[float]] = []
        for i, start in enumerate(starts):
            known = [rows[j][i] for j in range(i)] + [0.0] if others is None else []
            ends = array('q', chain.from_iterable((*start, *goal) for goal in goals[len(known):]))
            rows.append(known + [steps / scale for steps in measures.lengths(*self._dialog.paths(ends))])
        return rows

    def sights_graph(self) -> Any:
        """Returns the visibility graph of a polygon of at most 1,024 vertices as a Graph of networkx: a node for each vertex, with its
        place as `pos`, and an edge for each pair that sees each other, with its length as `weight`, all in floats."""
        graph = measures.extra('networkx', 'has the Graph').Graph()
        spots = [(float(x), float(y)) for x, y in map(self._units.give, self._vertices())]
        graph.add_nodes_from((i, {'pos': spot}) for i, spot in enumerate(spots))
        graph.add_weighted_edges_from((i, j, measures.length([spots[i], spots[j]])) for i, j in self.sights())
        return graph

    def answer(self, records: Union[str, bytes]) -> bytes:
        """Returns the text that answers some records, as the program `geo` writes it, in integers whatever the frame. A refusal is a line.

        If each text ends with the line end of a record, the answers to the texts are those to the script that they are together: a byte
        order mark is dropped at the front of the first text, and part of a record in a later one.
        """
        try:
            answered = self._dialog.answer(records.encode() if isinstance(records, str) else records)
        except GeoMemoryError as error:
            self._changed(error.answered)
            raise
        self._changed(answered)
        return answered

    def _changed(self, answered: bytes) -> None:
        """Follows the state through a text of answers."""
        self._last = None
        words = {line.split(b',', 1)[0] for line in answered.splitlines()}
        self._wide |= b'geo' in words
        if words & {b'polygon', b'tree'}:
            self._source = None
        if b'polygon' in words:
            self._ring, self._left_out = None, ()

    def _point(self, given: AnyPoint, place: int = 1) -> Whole:
        return reading.point(given, self._units, place)

    def _vertices(self) -> List[Whole]:
        """Returns the vertices, or raises NoPolygon."""
        if self._ring is None:
            self._dialog.ask('inside', array('q', [0, 0]))
            raise ValueError('the session does not know the vertices of a polygon that answer() set: set it by polygon()')
        return list(pairs_of(self._ring))

    def _ask(self, word: str, fields: Iterable[int] = ()) -> Reply:
        """Asks a command, and keeps the answer for a picture."""
        asked = array('q', fields)
        self._last = None
        reply = self._dialog.ask(word, asked)
        self._last = word, asked, reply
        return reply

    def _path(self, word: str, fields: Iterable[int]) -> Path:
        """Returns the path that answers a command."""
        points = iter(self._ask(word, fields)[1])
        return Path(map(self._units.give, zip(points, points)))


def pairs_of(numbers: Iterable[int]) -> Iterator[Whole]:
    """Returns numbers as points."""
    each = iter(numbers)
    return zip(each, each)
