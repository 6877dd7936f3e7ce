"""What is timed: each command on rings of several shapes and sizes, for each the worst record that is known, the test of a ring alone, and
scripts of up to 8 MiB."""
from __future__ import annotations

import random
from dataclasses import dataclass, field, replace
from typing import Callable, Iterable, Iterator, List, Optional

import inputs
from inputs import SHAPES, SIX_SHAPES, WAYS, Ring, answer, ends, record, records, ring_of

SIZES = [1024, 4096, 16_384]
PAIRED = [256, 1024]  # for `pair` and `sights`, which take no more vertices
MOST = {1: 4096, 2: 16_384}  # vertices in a version of the script
BYTES = [1_048_576, 8_388_608]
PLACES, VIEWS, LONG_VIEWS, PATHS, LISTS, PEGS, TIMES, WALKS, TOWNS = 1000, 100, 10, 200, 10, 16, 20, 10, 4
ENOUGH, PLENTY = 0.03, 0.3  # seconds of the processor that the records of a job take together
FEW, LEAST, REPEATS = 4, 16, 512


@dataclass(frozen=True)
class Ran:
    """A run of the program: the seconds of the processor, its own and those of the system for it, the seconds from its start to its
    end, and what it wrote, with the status where that is not 0."""

    processor: float
    clock: float
    text: str

    @property
    def lines(self) -> List[str]:
        return self.text.splitlines()

    @property
    def times(self) -> Ran:
        """The same without what it wrote."""
        return replace(self, text='')


@dataclass
class Job:
    """The records `timed`, after the records `before`, on a ring of a shape. `known` are the answers to all of them, where they are known
    before. What is timed are so many records, its `times`, and its part is the time of one. So many of them are `asked` until they begin
    anew; peers are asked these once, with the ring and the `queries`. The job is `hostile` where its record is the worst that is
    known."""

    command: str
    shape: str
    note: str
    size: int
    version: int = 2
    hostile: bool = False
    ring: Ring = field(default_factory=list)
    queries: Ring = field(default_factory=list)
    before: str = ''
    timed: str = ''
    known: Optional[str] = None
    times: int = 1
    asked: int = 1
    answer: int = 0  # bytes that answer one, once they were looked at

    @property
    def what(self) -> str:
        return f'{self.command}, {self.note}' if self.note else self.command

    @property
    def name(self) -> str:
        return ('hostile ' if self.hostile else '') + f'{self.command} {self.shape}' + (f', {self.note}' if self.note else '')

    @property
    def head(self) -> str:
        """The record that a script of version 2 begins with, which is its own answer."""
        return 'geo,2\n' if self.version == 2 else ''

    @property
    def accepted(self) -> str:
        """The answers to the head and the polygon."""
        return f'{self.head}polygon,{self.size}\n'

    @property
    def script(self) -> str:
        return self.before + self.timed


Ask = Callable[[str], Ran]
Fill = Callable[[Job, Ask], None]


@dataclass(frozen=True)
class Kind:
    """Jobs of a command on some shapes, in a version of the script."""

    command: str
    shapes: Iterable[str]
    fill: Fill
    note: str = ''
    version: int = 2
    hostile: bool = False

    def sizes(self, given: List[int]) -> List[int]:
        paired = self.command in ('pair', 'sights')
        most = PAIRED[-1] if paired else MOST[self.version]
        return [n for n in given or (PAIRED if paired else SIZES[1:] if self.hostile else SIZES) if n <= most]


def jobs(sizes: List[int], only: str, ask: Ask) -> Iterator[Job]:
    """The jobs whose name has a text, those of one name together. `ask` runs a script."""
    for kind in KINDS:
        for shape in kind.shapes:
            for n in kind.sizes(sizes):
                job = Job(kind.command, shape, kind.note, n, kind.version, kind.hostile)
                if only in job.name:
                    job.ring = ring_of(shape, n)
                    job.before = job.head + record('polygon', job.ring)
                    kind.fill(job, ask)
                    yield job
    for name, before, one, line in SCRIPTS:
        for size in BYTES:
            count = (size - len(before)) // len(one)
            known = ('polygon,6\n' if before else '') + count * line
            job = Job('script of', name, '', size, before=before, timed=count * one, known=known, times=count)
            if only in job.name:
                yield job


def repeat(job: Job, one: str, ask: Ask, answer: Optional[str] = None) -> None:
    """Some records over and over, until that takes some 30 milliseconds and as long as all before them, or a script is full, and their
    answers where they are known. They are asked sixteen times at least, or four times where that takes 0.3 seconds: the first records of a
    process fetch the memory that later ones take again, and would weigh more in a large ring, where fewer are enough. Where there are more
    than one, the peers are asked each of them."""
    most = min(REPEATS, (BYTES[-1] - len(job.before)) // len(one))
    rest, count = min(ask(job.before).processor for _ in range(2)), min(FEW, most)
    while count < most:
        spent = ask(job.before + count * one).processor - rest
        if spent >= max(rest, ENOUGH if count >= LEAST else PLENTY):
            break
        count = min(most, count * (2 if 2 * spent > ENOUGH else 8))
    job.asked = one.count('\n')
    job.times, job.timed = count * job.asked, count * one
    if answer is not None:
        job.known = (job.accepted if job.before != job.head else job.head) + count * answer


def move(job: Job, ring: Ring, *points: inputs.Point) -> List[inputs.Point]:
    """Takes a ring that is moved so that the last of some points is (0, 0), as a record with short numbers is the worst, and gives these
    points, moved with it."""
    job.ring = inputs.shifted(ring, points[-1])
    job.before = job.head + record('polygon', job.ring)
    return inputs.shifted(list(points), points[-1])


def polygon(job: Job, ask: Ask) -> None:
    job.before = job.head
    repeat(job, record('polygon', job.ring), ask, f'polygon,{job.size}\n')


def refused(job: Job, ask: Ask) -> None:
    """How much of a slope is swept before the clash hangs on where the houses are drawn, so there are some. In a spiral two neighbours are
    exchanged."""
    job.before = job.head
    rings = [job.ring]
    if job.shape == 'slope':
        rings, first = [inputs.slope(job.size, town) for town in range(TOWNS)], job.size - 5
    elif job.shape == 'zigzag':
        first = job.size - 6
    else:
        first = job.size // 4 - 1
        rings = [[*job.ring[:first + 1], job.ring[first + 2], job.ring[first + 1], *job.ring[first + 3:]]]
    repeat(job, ''.join(record('polygon', ring) for ring in rings), ask, len(rings) * f'bad,clash,{first},{first + 2}\n')


def accept(job: Job, ask: Ask) -> None:
    job.before, job.timed, job.known, job.times = '', job.before, '', TIMES


def inside(job: Job, ask: Ask) -> None:
    job.queries = inputs.places(job.ring, PLACES)
    repeat(job, records('inside', job.queries), ask)


def inside_again(job: Job, ask: Ask) -> None:
    job.queries = move(job, job.ring, *inputs.places(job.ring, 1))
    repeat(job, record('inside', job.queries), ask)


def see(job: Job, ask: Ask) -> None:
    job.queries = inputs.inner_places(job.ring, LONG_VIEWS if job.shape == 'convex' else VIEWS)
    seen = len(job.queries) * whole_view(job.ring) if job.shape == 'convex' else None
    repeat(job, records('see', job.queries), ask, seen)


def see_all(job: Job, ask: Ask) -> None:
    move(job, job.ring, *inputs.inner_places(job.ring, 1))
    repeat(job, 'see,0,0\n', ask, whole_view(job.ring))


def whole_view(ring: Ring) -> str:
    """The answer to `see` where each edge is seen whole."""
    parts = (record(f'part,{i}', edge) for i, edge in enumerate(zip(ring, ring[1:] + ring[:1])))
    return f'see,{len(ring)}\n' + ''.join(parts)


def kernel(job: Job, ask: Ask) -> None:
    least = job.ring.index(min(job.ring))
    corners = ''.join(record('corner', [corner]) for corner in job.ring[least:] + job.ring[:least])
    repeat(job, 'kernel\n', ask, f'kernel,{job.size}\n' + corners if job.shape == 'convex' else None)


def tree(job: Job, ask: Ask) -> None:
    job.queries = ends(job.shape, job.size, PATHS)[:1]
    repeat(job, record('tree', job.queries), ask)


def tree_again(job: Job, ask: Ask) -> None:
    job.queries = move(job, job.ring, job.ring[0])
    repeat(job, record('tree', job.queries), ask)


def reach(job: Job, ask: Ask) -> None:
    source, *goals = ends(job.shape, job.size, PATHS)[:PATHS + 1]
    job.before += record('tree', [source])
    repeat(job, records('reach', goals), ask)
    job.queries = [point for goal in goals for point in (source, goal)]


def reach_far(job: Job, ask: Ask) -> None:
    """Between the ends of the spiral."""
    job.queries = move(job, job.ring, job.ring[job.size // 2], job.ring[0])
    job.before += record('tree', job.queries[:1])
    repeat(job, record('reach', job.queries[1:]), ask)


def path(job: Job, ask: Ask) -> None:
    job.queries = ends(job.shape, job.size, PATHS)
    repeat(job, records('path', job.queries, 2), ask)


def path_far(job: Job, ask: Ask) -> None:
    """Between the ends of the spiral."""
    job.queries = move(job, job.ring, job.ring[job.size // 2], job.ring[0])
    repeat(job, record('path', job.queries), ask)


def check(job: Job, ask: Ask) -> None:
    """Some paths of version 1 as lists, which have no touched vertices: each is taut."""
    points = ends(job.shape, job.size, PATHS)[:2 * LISTS]
    lists = [inputs.bends(inputs.numbers(line)) for line in ask(job.before + records('path', points, 2)).lines[2:]]
    repeat(job, ''.join(record('check', points) for points in lists), ask, LISTS * 'taut\n')


def check_way(way: Callable[[int], Ring]) -> Fill:
    """A way that is known to be taut."""
    def fill(job: Job, ask: Ask) -> None:
        repeat(job, record('check', way(job.size)), ask, 'taut\n')
    return fill


def far_list(job: Job, ask: Ask) -> Ring:
    """The path between the ends of the spiral, as a list."""
    line = ask(job.before + record('path', [job.ring[job.size // 2], job.ring[0]])).lines[-1]
    return inputs.bends(inputs.numbers(line))


def check_far(job: Job, ask: Ask) -> None:
    repeat(job, record('check', far_list(job, ask)), ask, 'taut\n')


def check_cut(job: Job, ask: Ask) -> None:
    """The same list without its last bend, so that a part that is taut is looked for."""
    *way, _, end = far_list(job, ask)
    repeat(job, record('check', [*way, end]), ask, f'not,leaves,{len(way) - 1}\n')


def hull(job: Job, ask: Ask) -> None:
    """Its sides are to be the paths between their ends."""
    one = record('hull', pegs(job))
    sides = [line.split(',')[4:] for line in ask(job.before + one).lines if line.startswith('side,')]
    job.queries = [(int(x), int(y)) for side in sides for x, y in (side[:2], side[-2:])]
    repeat(job, one, ask)


def closed_round(job: Job, ask: Ask) -> None:
    """It is to follow the sides of the hull."""
    places = pegs(job)
    sides = (line.split(',') for line in ask(job.before + record('hull', places)).lines if line.startswith('side,'))
    after = {int(i): int(j) for _, i, j, *_ in sides}
    way = [min(after)]
    while after[way[-1]] != way[0]:
        way.append(after[way[-1]])
    repeat(job, record('round', places), ask, ','.join(map(str, ['round', len(way), *way])) + '\n')


def pegs(job: Job) -> Ring:
    """Some points inside. Where the job is hostile, as many as a record takes, half at each end of the broom, and a walk to one comes by no
    other."""
    return inputs.tips_of_broom(job.size) if job.hostile else inputs.inner_places(job.ring, PEGS)


def guards(job: Job, ask: Ask) -> None:
    repeat(job, 'guards\n', ask)


def pair(job: Job, ask: Ask) -> None:
    """The table of all pairs is there before."""
    draw = random.Random(job.size)
    ends = [draw.randrange(job.size) for _ in range(2 * PATHS)]
    job.queries = [job.ring[i] for i in ends]
    job.before += 'pair,0,0\n'
    repeat(job, ''.join(f'pair,{i},{j}\n' for i, j in zip(ends[::2], ends[1::2])), ask)


def pair_far(job: Job, ask: Ask) -> None:
    """Between the ends of the spiral."""
    job.queries = [job.ring[0], job.ring[job.size // 2]]
    job.before += 'pair,0,0\n'
    repeat(job, f'pair,0,{job.size // 2}\n', ask)


def sights(job: Job, ask: Ask) -> None:
    """The table of all pairs is made, so the record is asked once."""
    job.queries, job.timed = job.ring, 'sights\n'


def sights_again(job: Job, ask: Ask) -> None:
    """All vertices of a convex ring see each other, and the table is there before."""
    n = job.size
    job.before += 'pair,0,0\n'
    answer = f'sights,{n * (n - 1) // 2}\n' + ''.join(f'sight,{i},{j}\n' for i in range(n) for j in range(i + 1, n))
    repeat(job, 'sights\n', ask)
    job.known = f'{job.accepted}path,1,{job.ring[0][0]},{job.ring[0][1]}\n' + job.times * answer


def far(job: Job, ask: Ask) -> Ring:
    """The way from end to end where it is known, else the ends of the path with the most points among those of the pairs."""
    if job.shape in WAYS:
        return WAYS[job.shape](job.size)
    points = ends(job.shape, job.size, PATHS)
    counts = [line.count(',') for line in ask(job.before + records('path', points, 2)).lines[2:]]
    return points[2 * counts.index(max(counts)):][:2] if counts else points[:2]


def there_and_back(job: Job, ask: Ask) -> None:
    way = far(job, ask)
    job.queries = WALKS * [way[0], way[-1], way[-1], way[0]]
    known = WALKS * (answer(way) + answer(way[::-1])) if job.shape in WAYS else None
    repeat(job, records('path', job.queries, 2), ask, known)


def on_the_spot(job: Job, ask: Ask) -> None:
    """As many records with each end alone, so the ends are looked for as often and the answers are short."""
    begin, *_, end = far(job, ask)
    job.queries = WALKS * [begin, begin, end, end]
    repeat(job, records('path', job.queries, 2), ask, WALKS * (answer([begin]) + answer([end])))


KINDS = [
    Kind('polygon', [*SIX_SHAPES, 'skyline', 'saw'], polygon),
    Kind('accept', SHAPES, accept, version=1),
    Kind('inside', [*SIX_SHAPES, 'skyline', 'saw'], inside),
    Kind('see', SIX_SHAPES, see),
    Kind('kernel', SIX_SHAPES, kernel),
    Kind('tree', SIX_SHAPES, tree),
    Kind('reach', SIX_SHAPES, reach),
    Kind('path', SIX_SHAPES, path),
    Kind('path', SIX_SHAPES, path, 'version 1', version=1),
    Kind('path', [*SIX_SHAPES, 'saw'], there_and_back, 'there and back'),
    Kind('path', [*SIX_SHAPES, 'saw'], on_the_spot, 'on the spot'),
    Kind('check', SIX_SHAPES, check),
    Kind('hull', SIX_SHAPES, hull, f'{PEGS} points'),
    Kind('round', SIX_SHAPES, closed_round, f'{PEGS} points'),
    Kind('guards', SIX_SHAPES, guards),
    Kind('pair', SIX_SHAPES, pair),
    Kind('sights', SIX_SHAPES, sights),
    Kind('polygon', ['zigzag', 'slope', 'turned', 'sheared', 'hexagonal'], refused, 'refused', hostile=True),
    Kind('inside', ['maze'], inside_again, hostile=True),
    Kind('see', ['convex'], see_all, hostile=True),
    Kind('kernel', ['convex'], kernel, hostile=True),
    Kind('tree', ['spiral', 'hourglass'], tree_again, hostile=True),
    Kind('reach', ['spiral'], reach_far, hostile=True),
    Kind('path', ['spiral'], path_far, hostile=True),
    Kind('check', ['saw'], check_way(inputs.way_through_saw), 'two points', hostile=True),
    Kind('check', ['wall'], check_way(inputs.way_along_wall), 'two points', hostile=True),
    Kind('check', ['arch'], check_way(inputs.way_along_arch), 'each tip', hostile=True),
    Kind('check', ['fence'], check_way(inputs.way_along_fence), 'two points', hostile=True),
    Kind('check', ['turned', 'askew', 'sheared'], check_far, 'end to end', hostile=True),
    Kind('check', ['turned'], check_cut, 'the last bend left out', hostile=True),
    Kind('hull', ['broom'], hull, f'{inputs.SPIKES} points', hostile=True),
    Kind('round', ['broom'], closed_round, f'{inputs.SPIKES} points', hostile=True),
    Kind('guards', ['skyline', 'saw', 'fan', 'hourglass'], guards, hostile=True),
    Kind('pair', ['spiral'], pair_far, hostile=True),
    Kind('sights', ['convex'], sights_again, hostile=True),
]
POLYGON = record('polygon', inputs.L)
SCRIPTS = [
    ('polygon', '', POLYGON, 'polygon,6\n'),
    ('inside', POLYGON, 'inside,1,1\n', 'inside\n'),
    ('check', POLYGON, 'check,4,1,2,2,1,4\n', 'taut\n'),
    ('path', POLYGON, 'path,4,1,1,4\n', 'path,3,4,1,2,2,1,4\n'),
    ('unknown words', '', 'frob,1\n', 'bad,word\n'),
]
