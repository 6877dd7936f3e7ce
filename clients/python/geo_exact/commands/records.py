"""Makes a script from the polygons of a GeoJSON, WKT or WKB file, with questions about them.

    geo-exact records [FILE] [--two] [--frame FILE | --origin X,Y --scale S] [--round] [--thin N] [--skip] [--outer] [--separate]
                      [--save FILE] [--ask RECORD].. [--all] [--program FILE]
    geo-exact records examples/data/building.geojson --save building.frame --ask guards > building.script

FILE is standard input if it is left out. GeoJSON text sequences and EWKT or EWKB with an SRID are read too.

Each coordinate c becomes (c - origin) * scale, which must be an integer from -1,000,000 to 1,000,000: nothing is rounded
without --round, which takes the nearest integer, of questions too. Without a frame one is proposed: the least power of ten that
makes all coordinates integers, or the greatest for which there is room, and an origin of 0 or near the middle. If a vertex does
not fit, a line names it and what would do. --save writes the frame to a file, with the CRS and the names of the data, for
geo-exact geojson and draw, and for more questions with --frame.

With --two the script is of version 2: it begins with geo,2, coordinates go from -8,388,607 to 8,388,607, a polygon has up to
16,384 vertices instead of 4,096, and the answer to a path has each vertex that it touches.

Each --ask is a record whose points are in the units of the data, such as path,8.405,49.0131,8.4043,49.0141. The fields of pair
are numbers of vertices, in the order of the data from 0 on; features, parts and polygons count from 1. If there are several
polygons, a question goes to those that have all its points, inside and check to each if none has them, and with --all each
question goes to each polygon.

A MultiPolygon is taken apart. Points, lines and heights are left out and counted, and so is each vertex that is the same as the
one before it. --thin N reduces an outline of more than N vertices to N, by Visvalingam's areas.

Polygons that can't be used are listed on standard error, one line each: those with holes, those that the library or the program
rejects because they are not simple, broken ones. A polygon that lies in another one may be its hole, so both are listed too. Then
the run ends with status 1. --skip goes on without all these; --outer takes the outer ring of a polygon with holes, and leaves
out polygons that lie in others; --separate takes such polygons as apart. The status is 2 if an option is wrong.
"""
from __future__ import annotations

import argparse
from dataclasses import dataclass, replace
from fractions import Fraction
from typing import Iterator, List, Optional, Sequence, Tuple

from .. import backends, exact
from ..answers import answered, saved
from ..fault import Fault, note, put, shown
from ..frame import Frame
from ..reading import layer as reading, source
from ..reading.layer import Layer, Shape, Unusable, counted
from . import assign, options, question
from .nesting import nested
from .outline import Outline, Terms, fits, fitted, outline, placed

Refusals = Iterator[Tuple[Outline, List[str]]]  # polygons that are rejected, each with the fields of the answer

@dataclass
class Made:
    """A script, the text of its frame file, and what there is to say of them."""

    script: bytes
    frame: str
    notes: List[str]


def main(words: Sequence[str]) -> int:
    given = arguments(words)
    made = script_of(reading.read(source.read(given.file), source.called(given.file)), given, backend_of(given.program))
    for line in made.notes:
        note(line)
    if given.save:
        source.write(given.save, made.frame)
    put(made.script.decode())
    return 0


def script_of_data(data: bytes, version: int = 1, rounds: bool = False) -> Tuple[bytes, str]:
    """Returns the script and the text of the frame file for a file. Raises Fault or NotTaken, with one line, if there is none."""
    made = script_of(reading.read(data), arguments(['--two'] * (version == 2) + ['--round'] * rounds + ['--separate']), None)
    return made.script, made.frame


def backend_of(program: Optional[str]) -> Optional[backends.Backend]:
    """Returns what answers, or nothing if none is there and none is named."""
    try:
        return backends.chosen(program)
    except Fault:
        if program:
            raise
        return None


def degrees(data: Layer) -> str:
    """Returns the note on data in degrees."""
    coordinates = 'coordinates are' if data.crs is not None else 'GeoJSON without a CRS is in'
    return (f'{coordinates} longitude and latitude, so segments are straight in them and units are degrees; for metres project the data with '
            'ogr2ogr -t_srs')


def script_of(data: Layer, given: argparse.Namespace, backend: Optional[backends.Backend]) -> Made:
    """Returns the script of a layer. Raises Fault or NotTaken if data can't be used."""
    terms = Terms(saved.load(given.frame).frame if given.frame else None, given.origin, given.scale, given.round, given.two)
    is_geographic = reading.is_geographic(data)
    notes = [data.note()] * bool(data.passed) + [degrees(data)] * is_geographic
    shapes, problems = usable(data, given.outer)
    if not shapes and not problems:
        raise Fault('; '.join(['there is no polygon in the data', *notes[:bool(data.passed)]]))
    frame, whole = fitted(shapes, terms) if shapes else (Frame(), [])
    outlines = [outline(shape, points, given.thin) for shape, points in zip(shapes, whole)]
    outlines = left(outlines, problems, list(checked(outlines, frame, terms, backend)))
    inside = [] if given.separate else list(nested(outlines))
    gone = {it.number for pair in inside for it in pair[:1 if given.outer else 2]} if given.outer or given.skip else set()
    outlines = [it for it in outlines if it.number not in gone]
    stop_at(problems, [] if given.outer else inside, outlines, given.skip)
    notes += [f'{inner}: left out, since it lies in {outer}' for inner, outer in inside if given.outer]
    asked = [assign.asked_of(it, frame, terms.wide) for it in given.ask]
    rows = assign.assigned(asked, outlines, given.all)
    script = answered.bytes_of([*[['geo', 2]] * given.two, *(row for it in outlines for row in [polygon(it), *rows[it.number]])])
    if len(script) > backends.BYTES:
        raise Fault(f'the script would have {len(script):,} bytes, and geo takes {backends.BYTES:,}: ask less, or of fewer polygons')
    notes += [f'{it}: left out {counted(len(it.shape.rings) - 1, "hole")}' for it in outlines if len(it.shape.rings) > 1]
    notes += changes(outlines, asked, frame)
    if backend is None:
        notes.append('neither the library nor the program of geo is there, so nothing checked whether the polygons are simple')
    text = saved.dumps(frame, data.form, data.crs, outlines, geographic=is_geographic)
    return Made(script, text, notes)


def usable(data: Layer, is_outer: bool) -> Tuple[List[Shape], List[Unusable]]:
    """Returns the polygons with one ring, or all, and the rest of the layer that can't be used."""
    with_holes = [it for it in data.shapes if len(it.rings) > 1 and not is_outer]
    problems = [*data.unusable, *(problem(it, f'has {counted(len(it.rings) - 1, "hole")}, and a polygon of geo has one ring',
                                          '--outer takes the outer ring alone') for it in with_holes)]
    return [it for it in data.shapes if len(it.rings) == 1 or is_outer], problems


def problem(shape: Shape, cause: str, remedy: str = '') -> Unusable:
    return Unusable(str(shape), None, cause, remedy)


def left(outlines: Sequence[Outline], problems: List[Unusable], found: Sequence[Tuple[Outline, Unusable]]) -> List[Outline]:
    """Adds what was found to the problems, and returns the other outlines."""
    problems += [it for _, it in found]
    bad = {it.number for it, _ in found}
    return [it for it in outlines if it.number not in bad]


def stop_at(problems: Sequence[Unusable], inside: Sequence[Tuple[Outline, Outline]], outlines: Sequence[Outline], skips: bool) -> None:
    """Lists the problems, and ends the run unless it goes on without those polygons. A single one is a line alone."""
    lines = [str(it) for it in problems]
    holes = [f'{inner} lies in {outer}: a hole?' for inner, outer in inside]
    if holes and not skips:
        holes[-1] += ' --outer leaves out the inner polygon, --skip both, and --separate takes them as polygons that are apart'
    if lines and outlines and not skips:
        if len(lines) == 1:
            lines = [f'{lines[0]}; --skip goes on without it']
        else:
            lines.append(f'{len(lines)} of {len(lines) + len(outlines)} polygons can not be used; --skip goes on without them')
    is_over = bool(holes or lines) and not (skips and outlines)
    lines += holes
    for line in lines[:-1] if is_over else lines:
        note(line)
    if is_over:
        raise Fault(lines[-1])


def polygon(it: Outline) -> List[object]:
    return ['polygon', *(c for point in it.points for c in point)]


def checked(outlines: Sequence[Outline], frame: Frame, terms: Terms,
            backend: Optional[backends.Backend]) -> Iterator[Tuple[Outline, Unusable]]:
    """Yields the polygons that geo rejects: those with too few or too many vertices, and those that are not simple."""
    limit = answered.VERTICES[1 + terms.wide]
    fair = []
    for it in outlines:
        count = len(it.points)
        if count < 3:
            rounding = f' after rounding to steps of {exact.text(1 / frame.scale)}' if len(set(it.shape.rings[0])) > count else ''
            yield it, problem(it.shape, f'has {counted(count, "different point")}{rounding}, and a polygon needs at least 3', '')
        elif count > limit:
            two = '--two takes them, or ' if count <= answered.VERTICES[2] else ''
            yield it, problem(it.shape, f'has {count:,} vertices, and version {1 + terms.wide} takes {limit:,} at most',
                              f'{two}--thin {limit} leaves the {limit:,} that matter most')
        else:
            fair.append(it)
    if backend:
        for it, (_, word, *places) in rejected(fair, backend):
            i, j = map(int, places) if word == 'clash' else (0, 0)
            yield it, problem(it.shape, f'{edge(it, i)} and {edge(it, j)} share a point where they must not',
                              remedy(it, frame, [other.shape for other in outlines], terms, backend))


def rejected(outlines: Sequence[Outline], backend: backends.Backend) -> Refusals:
    """Yields the polygons that a backend rejects, each with the fields of its answer. As many are in one script as it has room for."""
    batch: List[Outline] = []
    size = 0
    for it in [*outlines, None]:
        own = 18 * len(it.points) + 9 if it else backends.BYTES
        if batch and size + own > backends.BYTES - 16:
            script = answered.bytes_of([['geo', 2], *map(polygon, batch)])
            lines = backend.answer_script(script).decode('ascii', 'replace').splitlines()[1:]
            if len(lines) != len(batch) or not all(line.startswith(('polygon,', 'bad,')) for line in lines):
                raise Fault(f'what the program wrote are no answers of geo to {len(batch)} polygons')
            yield from ((it, line.split(',')) for it, line in zip(batch, lines) if line.startswith('bad,'))
            batch, size = [], 0
        if it:
            batch.append(it)
            size += own


def edge(it: Outline, i: int) -> str:
    """Returns an edge of a polygon by the numbers and the coordinates that its ends have in the data."""
    ends = []
    for k in (it.numbers[i], it.numbers[(i + 1) % len(it.numbers)]):
        x, y = (exact.text(exact.written(c)) for c in it.shape.rings[0][k])
        ends.append(f'vertex {k} ({x}, {y})')
    return f'the edge from {ends[0]} to {ends[1]}'


def remedy(it: Outline, frame: Frame, shapes: Sequence[Shape], terms: Terms, backend: backends.Backend) -> str:
    """Returns what would make a polygon simple: a greater --thin, or if it comes from rounding a finer step."""
    if it.thinned_from:
        return 'it may come from --thin: a greater number would leave more vertices'
    if not terms.snap or not moved(it, frame):
        return 'ST_MakeValid of PostGIS or make_valid of Shapely repairs such a polygon'
    for power in range(1, 10):
        finer = Frame.of(it.shape.rings[0], wide=True, snap=True, scale=frame.scale * 10**power)
        if not fits([it.shape], finer, True):
            break
        if not list(rejected([outline(it.shape, placed([it.shape], finer, True)[0], None)], backend)):
            return f'it comes from rounding to steps of {exact.text(1 / frame.scale)}: {finer_step(finer.scale, shapes, terms)}'
    return f'it is rounded to steps of {exact.text(1 / frame.scale)}, and no finer step that there is room for makes it simple'


def finer_step(scale: Fraction, shapes: Sequence[Shape], terms: Terms) -> str:
    """Returns how to get a finer step for all polygons, or that one alone has room for it."""
    for wide in [True] if terms.wide else [False, True]:
        other = replace(terms, kept=None, scale=scale, wide=wide)
        if fits(shapes, other.frame(shapes), wide):
            return f'{"--two " * (wide and not terms.wide)}--scale {exact.text(scale)} would do'
    return f'a step of {exact.text(1 / scale)} would do, for which there is room if it is alone in the file'


def moved(it: Outline, frame: Frame) -> float:
    """Returns how far rounding moved a vertex of a polygon at most, along an axis."""
    return frame.off([it.shape.rings[0][k] for k in it.numbers], it.points)


def changes(outlines: Sequence[Outline], asked: Sequence[assign.Asked], frame: Frame) -> List[str]:
    """Returns what was done to polygons and questions that the script does not say."""
    found = []
    if frame.snap:
        off = max(moved(it, frame) for it in outlines)
        far = max((frame.off(it.question.points, it.points) for it in asked), default=0.0)
        sizes = [f'{what} are off by up to {size:.2g}' for what, size in (('coordinates', off), ('points of questions', far)) if size]
        if sizes:
            found.append(f'rounded to steps of {exact.text(1 / frame.scale)}: {", ".join(sizes)}')
    repeated = [it for it in outlines if it.repeats]
    if repeated:
        count = counted(sum(len(it.repeats) for it in repeated), 'point')
        where = str(repeated[0]) if len(repeated) == 1 else f'{len(repeated)} polygons'
        found.append(f'left out {count} of {where}, the same as a neighbour')
    return found + [f'{it}: {len(it.points):,} of {it.thinned_from:,} vertices are left' for it in outlines if it.thinned_from]


def arguments(words: Sequence[str]) -> argparse.Namespace:
    parser = options.Parser(__doc__)
    parser.add_argument('file', nargs='?', default='-', help='the data; standard input if it is left out or -')
    parser.flag('--two', help='write a script of version 2')
    parser.option('--frame', metavar='FILE', help='take the frame that --save wrote')
    parser.option('--origin', metavar='X,Y', help='the point that becomes 0,0')
    parser.option('--scale', metavar='S', help='the number that one unit of the data becomes')
    parser.flag('--round', help='round coordinates to the nearest integers')
    parser.option('--thin', metavar='N', help='reduce outlines to so many vertices')
    parser.flag('--skip', help='go on without the polygons that can not be used')
    parser.flag('--outer', help='take the outer ring of a polygon with holes')
    parser.flag('--separate', help='take a polygon that lies in another one as one of its own')
    parser.option('--save', metavar='FILE', help='write the frame to this file')
    parser.add_argument('--ask', metavar='RECORD', action='append', default=[], help='a question, any number of times')
    parser.flag('--all', help='ask each question about each polygon')
    parser.option('--program', metavar='FILE', help='the program that checks whether polygons are simple; the library does without')
    given = parser.read(words)
    if given.frame and (given.origin or given.scale):
        parser.error('--frame has an origin and a scale, so neither goes with it')
    if given.all and not given.ask:
        parser.error('--all is for questions, and there is no --ask')
    given.ask = [question.question(text) for text in given.ask]
    given.origin = origin(given.origin)
    given.scale = scale(given.scale)
    given.thin = most(given.thin, answered.VERTICES[2 if given.two else 1])
    return given


def origin(text: Optional[str]) -> Optional[exact.Point]:
    if text is None:
        return None
    try:
        x, y = map(exact.ratio, text.split(','))
        return x, y
    except ValueError:
        raise Fault(f'--origin {shown(text)}: two numbers with a comma between them are expected', 2) from None


def scale(text: Optional[str]) -> Optional[Fraction]:
    try:
        found = None if text is None else exact.ratio(text)
    except exact.NoNumber as error:
        raise Fault(f'--scale {shown(text or "")} {error}', 2) from None
    if found is not None and found <= 0:
        raise Fault(f'--scale {shown(text or "")} is no scale, which is above 0', 2)
    return found


def most(text: Optional[str], limit: int) -> Optional[int]:
    if text is None:
        return None
    if not (text.isascii() and text.isdigit() and len(text) < 7 and 3 <= int(text) <= limit):
        raise Fault(f'--thin {shown(text)}: an integer from 3 to {limit:,} is expected', 2)
    return int(text)
