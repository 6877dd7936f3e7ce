"""Programs that answer the same by other libraries: how they are asked, how long they say that they take, and whether their
answers are those of `geo`."""
from __future__ import annotations

import functools
import os
import subprocess
import tempfile
from bisect import bisect_left, bisect_right
from dataclasses import dataclass
from fractions import Fraction
from itertools import zip_longest
from typing import Callable, Dict, List, Optional, Sequence, Set, Tuple

from inputs import Point, Ring, numbers, record
from jobs import Job

PROGRAMS = ['cgal', 'geos', 'boost', 'ppl', 'funnel']
LONGEST = 5  # seconds by the clock, after which a peer is left out
SAMPLE = 8  # batches that are timed where there are more


class TooLong(Exception):
    """A peer has no answer within `LONGEST`."""


@dataclass(frozen=True)
class Peer:
    """A peer of a command: its name, its program and the job that it is asked. `theirs` makes of what it shows for a job the lines
    that `geo` should answer, and `ours` takes from the answers what is compared with them; where there is nothing to
    compare, there is no `theirs`. Of the steps of its time, `part` are those that do what is timed, and `whole` those that do
    what the whole script does. Where it takes but so many queries at once, its `batch`, it is run once for each so many, and the
    times of the job are added up; to load and prepare counts once. Of many batches some are timed, and stand for all. Peers of one
    `kind` do the same."""

    name: str
    program: str
    job: str
    theirs: Optional[Callable[[List[str], Job], List[str]]] = None
    ours: Callable[[List[str]], List[str]] = list
    part: Tuple[str, ...] = ('run',)
    whole: Tuple[str, ...] = ('load', 'prep', 'run')
    batch: Optional[int] = None
    kind: str = ''


def same(shown: List[str], job: Job) -> List[str]:
    return shown


def paths(shown: List[str], job: Job) -> List[str]:
    """In version 2 with each vertex that a path touches."""
    if job.version == 1:
        return shown
    fill, lines = touched(job.ring), []
    for line in shown:
        chain = fill(numbers(line))
        lines.append(record(f'path,{len(chain)}', chain).strip())
    return lines


def touched(ring: Ring) -> Callable[[Ring], Ring]:
    """What gives a chain with each vertex of a ring that it touches. Those on a segment lie between its ends, both in the order by x
    and in that by y."""
    by_x, by_y = sorted(ring), sorted((y, x) for x, y in ring)

    def between(points: Ring, a: Point, b: Point) -> Ring:
        return points[bisect_right(points, min(a, b)):bisect_left(points, max(a, b))]

    @functools.cache
    def within(a: Point, b: Point) -> Ring:
        (p, q), (r, s) = a, b
        found, others = between(by_x, a, b), between(by_y, (q, p), (s, r))
        if len(others) < len(found):
            found = [(x, y) for y, x in others]
        return sorted(((x, y) for x, y in found if (r - p) * (y - q) == (s - q) * (x - p)), reverse=b < a)

    return lambda chain: chain[:1] + [point for a, b in zip(chain, chain[1:]) for point in [*within(a, b), b]]


def places(shown: List[str], job: Job) -> List[str]:
    return [line.split()[1] for line in shown]


def views(shown: List[str], job: Job) -> List[str]:
    """CGAL gives the vertices of the visibility polygon as exact fractions, and the peer tells of each edge the hull of those that
    lie on it. That is the part, since what is seen of an edge is a segment, and its ends are such vertices."""
    heads = [k for k, line in enumerate(shown) if line.startswith('see,')]
    parts = [shown[k + 1:end] for k, end in zip(heads, heads[1:] + [len(shown)])]
    return [line for part in parts for line in [f'see,{len(part)}', *part]]


def kernels(shown: List[str], job: Job) -> List[str]:
    """The corners in the order of `geo`: round the kernel, from the least. Those right of the way from the least to the greatest
    come first."""
    corners = sorted((Fraction(x), Fraction(y)) for x, y in (line.split(',')[1:] for line in shown))
    (a, b), (c, d) = (corners[0], corners[-1]) if corners else 2 * ((Fraction(0), Fraction(0)),)
    left = [(x, y) for x, y in corners if (c - a) * (y - b) > (d - b) * (x - a)]
    order = [corner for corner in corners if corner not in left] + left[::-1]
    return [f'kernel,{len(order)}', *(f'corner,{x},{y}' for x, y in order)]


def seen_pairs(shown: List[str], job: Job) -> List[str]:
    """The pairs of vertices that see each other, by the tree of paths from each: in that of vertex i, vertex j comes straight from it."""
    heads = [k for k, line in enumerate(shown) if line.startswith('tree,')]
    found = [(i, j) for i, head in enumerate(heads) for j in range(i + 1, job.size) if shown[head + 1 + j] == f'from,{j},s']
    return [f'sights,{len(found)}', *(f'sight,{i},{j}' for i, j in found)]


def sides(lines: List[str]) -> List[str]:
    """The sides of hulls as paths."""
    return ['path,' + line.split(',', 3)[-1] for line in lines if line.startswith('side,')]


THREE = [('CGAL', 'cgal'), ('GEOS', 'geos'), ('Boost', 'boost')]
TEST = [Peer(f'{name}, testing', program, 'load', part=('load',), kind='testing') for name, program in THREE]
PEERS: Dict[str, List[Peer]] = {
    'accept': TEST,
    'polygon': [Peer('CGAL, testing and triangulating', 'cgal', 'tri:cdt', part=('load', 'run'), kind='testing and triangulating')] + TEST,
    'inside': [Peer(name, program, 'inside1000', places) for name, program in THREE],
    'see': [Peer('CGAL, exact', 'cgal', 'see100:tev', views)],
    'kernel': [Peer('CGAL, exact', 'cgal', 'kernel', kernels), Peer('PPL', 'ppl', 'kernel', kernels)],
    'tree': [Peer('funnels over CGAL', 'funnel', 'tree', same)],
    'reach': [Peer('funnels over CGAL', 'funnel', 'path1000', paths)],
    'path': [Peer('funnels over CGAL', 'funnel', 'path1000', paths)],
    'hull': [Peer('funnels over CGAL', 'funnel', 'path1000', paths, sides, part=())],
    'pair': [Peer('funnels over CGAL', 'funnel', 'path1000', paths)],
    'sights': [Peer('CGAL, from each vertex', 'cgal', 'see100:tev', batch=100),
               Peer('funnels over CGAL', 'funnel', 'tree', seen_pairs, batch=1)],
}


class Folder:
    """The programs of a folder that are there. `slow` are the peers that took too long for a job of a name."""

    def __init__(self, folder: str):
        paths = {name: os.path.join(folder, 'bin', 'peer_' + name) for name in PROGRAMS}
        self.programs = {name: path for name, path in paths.items() if folder and os.access(path, os.X_OK)}
        self.missing = [name for name in PROGRAMS if name not in self.programs]
        self.slow: Set[Tuple[str, str]] = set()
        self.silent: Set[Tuple[str, str]] = set()
        self.told: List[str] = []

    def of(self, job: Job) -> List[Peer]:
        """The peers of a job's command. Where the job has no ring, or its list is refused, it has none."""
        peers = PEERS.get(job.command, []) if job.ring and job.note != 'refused' else []
        return [peer for peer in peers if peer.program in self.programs and (peer.name, job.name) not in self.slow]

    def tell(self, peer: Peer, job: Job, what: str) -> None:
        self.told.append(f'{peer.name}, {job.name} {job.size:,}: more than {LONGEST} seconds; {what}, there and at greater sizes')

    def notes(self) -> List[str]:
        """What is to be told since this was asked before."""
        told, self.told = self.told, []
        return told

    def ask(self, peer: Peer, job: Job, shows: bool = False) -> Tuple[Dict[str, str], List[str]]:
        """The words that a peer ends with, and before them its answers, where it shows them."""
        step = peer.batch or len(job.queries) or 1
        firsts = list(range(0, max(1, len(job.queries)), step))
        some = firsts if shows or len(firsts) <= SAMPLE else firsts[::-(-len(firsts) // SAMPLE)]
        every = [self.ask_once(peer, job, job.queries[first:first + step], shows) for first in some]
        share = len(job.queries) / sum(len(job.queries[first:first + step]) for first in some) if job.queries else 1
        told = {**every[0][0], 'run': str(share * sum(float(told['run']) for told, _ in every))}
        return told, [line for _, shown in every for line in shown]

    def ask_once(self, peer: Peer, job: Job, queries: Ring, shows: bool) -> Tuple[Dict[str, str], List[str]]:
        with tempfile.NamedTemporaryFile('w', suffix='.txt') as file:
            for name, points in (('polygon', job.ring), ('queries', queries)):
                file.write(f'{name} {len(points)}\n' + ''.join(f'{x} {y}\n' for x, y in points))
            file.flush()
            around = {**os.environ, 'PEER_CAP': '600', 'PEER_CLOCK': 'processor', **({'PEER_SHOW': '1'} if shows else {})}
            command = [self.programs[peer.program], file.name, peer.job]
            try:
                # not by a limit of the system on processor time, which makes that clock of the peer a coarse one
                ended = subprocess.run(command, stdout=subprocess.PIPE, env=around, timeout=LONGEST)
            except subprocess.TimeoutExpired as late:
                raise TooLong(peer.name) from late
        *shown, last = ended.stdout.decode().splitlines() or ['']
        told = dict(word.split('=', 1) for word in last.split() if '=' in word)
        if ended.returncode or told.get('note') != '-' or told['done'] != told['of']:
            raise RuntimeError(f'{peer.name} has no answer: {last or ended.returncode}')
        return told, [line.strip() for line in shown]

    def times(self, peer: Peer, job: Job) -> Tuple[float, float]:
        """How long a peer says that it took for what is timed, and for all."""
        try:
            told, _ = self.ask(peer, job)
        except TooLong:
            self.slow.add((peer.name, job.name))
            self.tell(peer, job, 'left out')
            raise
        part, whole = (sum(float(told[step]) for step in steps) for steps in (peer.part, peer.whole))
        return part, whole

    def difference(self, peer: Peer, job: Job, lines: List[str]) -> Optional[str]:
        """Where the answers of a peer are others than these, if they are."""
        if (peer.name, job.name) in self.silent:
            return None
        try:
            told, shown = self.ask(peer, job, shows=peer.theirs is not None)
        except RuntimeError as fault:
            return str(fault)
        except TooLong:
            self.silent.add((peer.name, job.name))
            self.tell(peer, job, 'its answers are not compared')
            return None
        if peer.job == 'load' and told['size'] != '1':
            return f'{peer.name}: not simple'
        if peer.theirs is None:
            return None
        return other_line(peer.name, job.times // job.asked * peer.theirs(shown, job), 'geo', peer.ours(lines))


def other_line(one: str, lines: Sequence[str], another: str, others: Sequence[str]) -> Optional[str]:
    """The first line in which the answers of two differ, if there is one."""
    for k, (line, other) in enumerate(zip_longest(lines, others), 1):
        if line != other:
            return f'in line {k} {one} has {short(line)}, and {another} {short(other)}'
    return None


def short(line: Optional[str]) -> str:
    return 'no line' if line is None else line if len(line) < 100 else line[:97] + '..'
