"""A question about many polygons: one polygon after another in this process, or in batches on the workers of Dask's `distributed`.

    from geo_exact import Frame, Session, batch

    for it in batch.answers(batch.read('city.geojsonl'), Session.guards, frame=lambda shape: Frame.of(shape, digits=2, snap=True)):
        print(it.number, it.answer if isinstance(it, batch.Answered) else it.cause)

Answers come in the order of the polygons, and each polygon has one: an Answered, or a Refused if it can't be used or the question can't be
answered. Shapes are read on demand, so there may be more than memory holds.

    geo-exact batch FILE --ask guards

does so from a shell, with a line of JSON for each polygon.
"""
from __future__ import annotations

import argparse
import contextlib
import functools
import inspect
import itertools
import json
import os
import pickle
import sys
import traceback
from collections import deque
from collections.abc import Iterable, Iterator, Mapping, Sized
from dataclasses import dataclass, replace
from typing import IO, Any, Callable, Deque, Generic, List, Literal, Optional, Sequence, Tuple, TypeVar, Union

from .backends import chosen
from .commands import options
from .errors import GeoMemoryError, NotTaken, Refusal
from .fault import Fault, note, put, reason
from .frame import Frame
from .listed import Listed
from .measures import extra
from .reading import given as reading
from .reading.parse import parse
from .session import Session

V = TypeVar('V')
AnyFrame = Union[Frame, Callable[[Any], Frame], Literal['auto'], None]
File = Union[str, 'os.PathLike[str]', IO[bytes]]

SEPARATOR, MARK = b'\x1e', b'\xef\xbb\xbf'
BLANK = SEPARATOR + b' \t\r\n'
BYTES = 500_000  # of a batch, unless one shape has more; Dask warns of tasks of twice as many
AHEAD, OFTEN = 4, 50  # batches under way for each thread of a worker; after so many batches the threads are counted again
ASKS = {'guards': Session.guards, 'kernel': Session.kernel, 'sights': Session.sights}


@dataclass(frozen=True)
class Answered(Generic[V]):
    """The answer for a polygon: the number of its shape and the number of its part in a MultiPolygon, both counted from 1, and the `id` of
    its feature or the index of its row."""

    number: int
    ident: Any
    answer: V
    part: Optional[int] = None


@dataclass(frozen=True)
class Refused:
    """A polygon without an answer. `kind` is the name of the exception, such as Clash, Holes or NotJson; `places` are its places."""

    number: int
    ident: Any
    kind: str
    places: Tuple[int, ...]
    cause: str
    part: Optional[int] = None


class Stopped(RuntimeError):
    """The shapes of these numbers have no answer: the question raised an exception that is no refusal, or each worker with them died."""

    def __init__(self, numbers: range, cause: str):
        super().__init__(numbers, cause)
        self.numbers, self.cause = numbers, cause

    def __str__(self) -> str:
        first, last = self.numbers[0], self.numbers[-1]
        return f'polygon {first}: {self.cause}' if first == last else f'polygons {first} to {last}: {self.cause}'


Found = Union[Answered[V], Refused, Stopped]


class NotJson(NotTaken):
    """A text of a sequence is not JSON. `place` is the number of its first line, counted from 1, and `given` what is wrong."""

    def __str__(self) -> str:
        return f'line {self.place}: {self.given}'


@dataclass(frozen=True)
class Line:
    """A text of a GeoJSON sequence, which is parsed only where it is asked about, and the number of the line where it begins."""

    number: int
    text: bytes


class Taken(Session):
    """A session with the polygon of a `shape`, which has more, such as `session.shape['properties']` of a feature."""

    def __init__(self, shape: Any, **how: Any):
        super().__init__(**how)
        self.shape = shape
        self.polygon(shape)


def answers(shapes: Any, ask: Callable[[Taken], V], *, wide: bool = False, frame: AnyFrame = None, snap: bool = False, client: Any = None,
            batch: int = 200, progress: bool = False) -> Iterator[Union[Answered[V], Refused]]:
    """Asks about each of some shapes, and about each polygon of a MultiPolygon, in their order.

    `shapes` are what a Session takes, features, what `read` returns, or a GeoDataFrame or GeoSeries. `ask` is called with a session of
    the polygon, which is closed afterwards. `frame` and `snap` are those of a session, or `frame` is a function that returns a frame for
    each shape.

    With a `client` of Dask's `distributed` a task is a batch of shapes, fewer if they are large. A few batches for each worker are under
    way. If a worker dies, another one repeats its batches. `progress` shows the bar of tqdm.

    A polygon is refused if it can't be used, if `ask` or `frame` raises a Refusal or NotTaken, or if memory runs out. Another exception is
    a bug: it raises Stopped with the number of the shape, after the answers before it.
    """
    if batch < 1:
        raise ValueError(f'a batch has a polygon or more, and not {batch}')
    bar = extra('tqdm', 'draws the bar of progress').tqdm if progress else None
    one, given = functools.partial(answers_of, ask=ask, frame=frame, wide=wide, snap=snap), each(shapes)
    found = before_stop(itertools.chain.from_iterable(itertools.starmap(one, enumerate(given, 1))) if client is None
                        else over(client, one, batches(given, batch)))
    total = next((len(it) for it in (given, shapes) if isinstance(it, Sized)), None)
    return iter(bar(found, total=total, unit=' polygons')) if bar else found


def read(file: File) -> Iterator[Any]:
    """Yields the shapes of a file. A GeoJSON text sequence, with a JSON text a line or between the record separators of RFC 8142, is read
    on demand; a FeatureCollection, WKT and WKB are read whole."""
    if isinstance(file, (str, os.PathLike)):
        with open(file, 'rb') as opened:
            yield from read(opened)
        return
    first = file.readline()
    start = first.removeprefix(MARK).strip()
    if start == b'{' or b'"FeatureCollection"' in first:
        yield from each(json.loads(first + file.read()))
    elif start[:1] in (b'', b'{', b'[', b'"', SEPARATOR):
        yield from lines(itertools.chain([first], file))
    else:
        yield from (shape for _, shape in parse(first + file.read()).objects)


def lines(given: Iterable[bytes]) -> Iterator[Line]:
    """Yields the texts of a sequence. One that begins with a record separator extends to the next one; any other is a line."""
    held, begun = [b''], 0
    for number, line in enumerate(itertools.chain(given, [SEPARATOR]), 1):
        if held[0][:1] == SEPARATOR != line[:1]:
            held.append(line)
            continue
        text = b''.join(held).strip(BLANK)
        if text:
            yield Line(begun, text)
        held, begun = [line], number


def each(shapes: Any) -> Iterable[Any]:
    """Returns the shapes of a list, of a FeatureCollection, or of a GeoDataFrame or GeoSeries, which become features."""
    column = getattr(shapes, 'geometry', None)
    if column is not None:
        return ({'type': 'Feature', 'id': ident, 'geometry': geometry} for ident, geometry in column.items())
    found: Iterable[Any] = shapes.get('features', [shapes]) if isinstance(shapes, Mapping) else shapes
    return found


def parsed(shape: Any) -> Any:
    """Returns the shape of a line, or of a text or bytes, or the shape itself."""
    if not isinstance(shape, Line):
        return reading.parsed(shape, 1) if isinstance(shape, (str, bytes)) else shape
    try:
        return json.loads(shape.text)
    except (ValueError, RecursionError) as error:
        raise NotJson(f'no JSON: {error}', shape.number) from None


def parts(shape: Any) -> Iterator[Tuple[Optional[int], Any]]:
    """Yields a shape without a number, or each polygon of a MultiPolygon with its number: features with its id and its properties."""
    whole = reading.geojson(shape)
    feature = whole if isinstance(whole, Mapping) and whole.get('type') == 'Feature' else {'type': 'Feature', 'geometry': whole}
    geometry = reading.geojson(feature.get('geometry'))
    is_many = isinstance(geometry, Mapping) and geometry.get('type') == 'MultiPolygon'
    polygons = geometry.get('coordinates') if is_many else None
    if isinstance(polygons, (list, tuple)) and polygons:
        yield from ((k, {**feature, 'geometry': {'type': 'Polygon', 'coordinates': rings}}) for k, rings in enumerate(polygons, 1))
    else:
        yield None, shape


def answers_of(number: int, shape: Any, ask: Callable[[Taken], V], frame: AnyFrame, **how: Any) -> List[Found[V]]:
    """Returns the answers about one shape: one, or one for each part."""
    place: Answered[None] = Answered(number, None, None)
    try:
        shape = parsed(shape)
        place = Answered(number, shape.get('id') if isinstance(shape, Mapping) else None, None)
        return [answer_of(replace(place, part=part), it, ask, frame, how) for part, it in parts(shape)]
    except NotTaken as error:
        return [refused(place, error)]


def answer_of(place: Answered[None], shape: Any, ask: Callable[[Taken], V], frame: AnyFrame, how: Any) -> Found[V]:
    """Returns the answer about one polygon, in its place."""
    try:
        with contextlib.closing(Taken(shape, frame=frame(shape) if callable(frame) else frame, **how)) as session:
            return Answered(place.number, place.ident, ask(session), place.part)
    except (Refusal, NotTaken, GeoMemoryError) as error:
        return refused(place, error)
    except Exception as bug:
        stopped = Stopped(range(place.number, place.number + 1), traceback.format_exc())
        stopped.__cause__ = bug
        return stopped


def refused(place: Answered[None], error: Exception) -> Refused:
    places = error.places if isinstance(error, Refusal) else (error.place,) if isinstance(error, NotTaken) else ()
    return Refused(place.number, place.ident, type(error).__name__, places, str(error), place.part)


def answers_of_batch(batch: Sequence[bytes], first: int, one: Callable[[int, Any], List[Any]]) -> List[Any]:
    """Returns the answers about a batch, on a worker."""
    return [it for number, shape in enumerate(batch, first) for it in one(number, pickle.loads(shape))]


def before_stop(found: Iterable[Any]) -> Iterator[Any]:
    """Yields the answers up to the first that stops the run."""
    for it in found:
        if isinstance(it, Stopped):
            raise it
        yield it


def batches(shapes: Iterable[Any], most: int) -> Iterator[Tuple[range, List[bytes]]]:
    """Yields at most so many shapes at a time, fewer if they have many bytes, with their numbers."""
    held: List[bytes] = []
    size = last = 0
    for last, shape in enumerate(shapes, 1):
        held.append(pickle.dumps(shape))
        size += len(held[-1])
        if len(held) == most or size > BYTES:
            yield range(last - len(held) + 1, last + 1), held
            held, size = [], 0
    if held:
        yield range(last - len(held) + 1, last + 1), held


def over(client: Any, one: Callable[[int, Any], List[Any]], given: Iterable[Tuple[range, List[bytes]]]) -> Iterator[Any]:
    """Yields the answers about batches from the workers of a client, in order."""
    task = functools.partial(answers_of_batch, one=one)
    window: Deque[Tuple[range, Any]] = deque()
    room = 0
    for count, (numbers, batch) in enumerate(given):
        if count % OFTEN == 0:
            room = AHEAD * max(1, sum(client.nthreads().values()))
        while len(window) >= room:
            yield from result(*window.popleft())
        window.append((numbers, client.submit(task, batch, numbers[0], pure=False)))
    while window:
        yield from result(*window.popleft())


def result(numbers: range, future: Any) -> List[Any]:
    """Returns the answers about a batch, once they are there."""
    try:
        found: List[Any] = future.result()
        return found
    except Exception as lost:
        raise Stopped(numbers, f'no worker answered: {type(lost).__name__}: {lost}') from lost


def client_of(processes: int, scheduler: str) -> Any:
    """Returns a client of so many processes of this machine or of a scheduler, or of none, for a `with`."""
    if not processes and not scheduler:
        return contextlib.nullcontext()
    client = extra('distributed', 'asks on many processes').Client
    return client(scheduler) if scheduler else client(n_workers=processes, threads_per_worker=1, dashboard_address='localhost:0')


def shown(it: Union[Answered[Any], Refused]) -> str:
    """Returns the answer or the refusal of a polygon as a line of JSON."""
    place = {'number': it.number, **({} if it.part is None else {'part': it.part}), 'id': it.ident}
    found = {'answer': it.answer} if isinstance(it, Answered) else {'refused': it.kind, 'places': it.places, 'cause': it.cause}
    return json.dumps({**place, **found}, default=plain) + '\n'


def plain(value: Any) -> Any:
    """Returns a list for a Listed, and for a fraction the nearest float, since JSON has neither."""
    return list(value) if isinstance(value, Listed) else float(value)


def main(words: Sequence[str]) -> int:
    """Asks about each polygon of a file: GeoJSON, a GeoJSON text sequence, WKT or WKB.

    geo-exact batch city.geojsonl --ask guards --digits 2 > guards.jsonl

    Standard output gets a line of JSON for each polygon: its number, its part in a MultiPolygon (both from 1), its id, and the
    answer or the refusal. Standard error gets how many there are. The exit status is 0 if each polygon has its line, and 1 if the
    run stopped early.
    """
    given = arguments(words)
    frame = None if given.digits is None else functools.partial(Frame.of, digits=given.digits, wide=given.wide, snap=True)
    counts = {Answered: 0, Refused: 0}
    if not given.scheduler:
        chosen()  # names what is missing once, and not for each polygon
    try:
        shapes = read(sys.stdin.buffer if given.file == '-' else given.file)
        with client_of(given.processes, given.scheduler) as client:
            for it in answers(shapes, ASKS[given.ask], wide=given.wide, frame=frame, client=client, batch=given.batch,
                              progress=given.progress):
                counts[type(it)] += 1
                put(shown(it))
    except OSError as error:
        raise Fault(f'{given.file}: {reason(error)}') from None
    except (ImportError, ValueError, Stopped) as error:
        raise Fault(f'{given.file}: {error}') from None
    note(f'{counts[Answered]:,} answered, {counts[Refused]:,} refused')
    return 0


def arguments(words: Sequence[str]) -> argparse.Namespace:
    parser = options.Parser(inspect.cleandoc(main.__doc__ or ''))
    parser.add_argument('file', metavar='FILE', help='the data; - is standard input')
    parser.option('--ask', choices=ASKS, required=True, help='the question')
    parser.option('--digits', type=int, metavar='N', help='round coordinates to N digits after the point; by default they are integers')
    parser.flag('--wide', help='take the limits of version 2: 16,384 vertices, coordinates up to 8,388,607 steps')
    where = parser.add_mutually_exclusive_group()
    where.add_argument('--processes', type=int, default=0, metavar='N', help='ask on N processes of this machine, by Dask')
    where.add_argument('--scheduler', default='', metavar='ADDRESS', help="ask on the workers of a scheduler of Dask, as tcp://host:8786")
    parser.option('--batch', type=int, default=200, metavar='N', help='polygons in a task, at most; 200 by default')
    parser.flag('--progress', help='show a bar, by tqdm')
    return parser.read(words)
