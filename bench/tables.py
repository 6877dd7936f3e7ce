"""The figures of a run: a line for each job, two for a hostile one, and a table in Markdown."""
from __future__ import annotations

import math
from dataclasses import dataclass, field
from typing import Dict, Iterator, List, Optional, Tuple

from jobs import Job, Ran
from peers import PEERS

HEAD = f'{"":44}{"size":>10}{"records":>9}' + ''.join(f'{word:>10}' for word in ('least', 'most', 'clock', 'one', 'growth'))
SCRIPT = 8_388_608  # bytes that a script may have
UNITS = [('days', 86_400), ('hours', 3600), ('minutes', 60), ('s', 1)]


@dataclass
class Row:
    """What the whole script of a job takes, what the script before that which is timed, and for each peer its part and its whole in
    seconds of the processor."""

    job: Job
    whole: List[Ran] = field(default_factory=list)
    before: List[Ran] = field(default_factory=list)
    peers: Dict[str, List[Tuple[float, float]]] = field(default_factory=dict)

    @property
    def most(self) -> float:
        return max(ran.processor for ran in self.whole)

    @property
    def least(self) -> float:
        return min(ran.processor for ran in self.whole)

    @property
    def clock(self) -> float:
        return min(ran.clock for ran in self.whole)

    @property
    def rest(self) -> float:
        return min(ran.processor for ran in self.before)

    @property
    def one(self) -> Optional[float]:
        """The time of one record of what is timed, where all are long enough to tell."""
        part = self.least - self.rest
        return part / self.job.times if part > max(0.0003, 0.03 * self.least) else None

    @property
    def bytes(self) -> int:
        """How long its record is, or the mean of its records."""
        return len(self.job.timed) // self.job.times

    @property
    def script(self) -> float:
        """What a script of 8 MiB would take that has as many of the records as fit behind what is before them."""
        return self.rest + (SCRIPT - len(self.job.before)) // self.bytes * (self.one or 0)

    def ratios(self) -> Iterator[Tuple[str, Optional[float], Optional[float]]]:
        """For each peer, how many times as long the program took for one, and for the whole with one where that does more."""
        asked = self.job.asked
        for peer, times in self.peers.items():
            part, whole = (min(time) for time in zip(*times))
            all_of_it = (self.rest + asked * (self.one or 0)) / whole if self.job.before != self.job.head and whole else None
            yield peer, self.one * asked / part if self.one and part else None, all_of_it


def line(rows: List[Row]) -> str:
    """The last row as a line. It grew since the row before, where that is of the same job."""
    row, before = rows[-1], rows[-2] if len(rows) > 1 else None
    cells = [figure(1000 * time) for time in (row.least, row.most, row.clock)] + [microseconds(row.one), growth(before, row)]
    beside = [figure(one) + (f' ({figure(whole)})' if whole else '') + f' {peer}' for peer, one, whole in row.ratios()]
    told = f'{row.job.name:44}{row.job.size:>10,}{row.job.times:>9,}' + ''.join(f'{cell:>10}' for cell in cells) + '   '
    told += ' | '.join(beside)
    if row.job.hostile:
        told += f'\n    a record of {row.bytes:,} bytes, an answer of {row.job.answer:,}; '
        told += f'8 MiB of them, as computed: {duration(row.script)}'
    return told.rstrip()


def growth(before: Optional[Row], row: Row) -> str:
    """How many times as long one takes as in a row of the same job at a lesser size."""
    if before and before.job.name == row.job.name and before.one and row.one:
        return figure(row.one / before.one)
    return '-'


def microseconds(time: Optional[float]) -> str:
    return figure(time and 1_000_000 * time)


def figure(value: Optional[float]) -> str:
    """A number with two digits that count."""
    if not value:
        return '-'
    if value < 9.95:
        return f'{value:.1f}' if value >= 0.995 else f'{value:.2f}'
    return f'{round(value, 1 - math.floor(math.log10(value))):,.0f}'


def duration(seconds: float) -> str:
    unit, length = next((it for it in UNITS if seconds >= 2 * it[1]), UNITS[-1])
    return f'{figure(seconds / length)} {unit}'


def markdown(rows: List[Row]) -> str:
    """A line for each command, with the microseconds of one record at the two greatest sizes for each shape, the worst record, and what
    8 MiB of it would take; below it, for each kind of peers, how many times as long as the best of them it took."""
    shapes = list(dict.fromkeys(row.job.shape for row in rows if row.job.ring and not row.job.hostile))
    lines: Dict[Tuple[str, str], Dict[str, List[str]]] = {}
    for row in of_two_sizes(rows):
        lines.setdefault((row.job.what, ''), {}).setdefault(row.job.shape, []).append(microseconds(row.one))
        for kind, ratio in best_of(row):
            lines.setdefault((row.job.what, kind), {}).setdefault(row.job.shape, []).append(figure(ratio))
    texts = []
    for (what, kind), cells in lines.items():
        first = f'{what}, beside {kind}' if kind else f'`{what}`' if what.isalpha() else what
        worst = worst_of(rows, what.split(',')[0]) if not kind and what == first_of(lines, what) else ['', '']
        texts.append([first, *(', '.join(cells.get(shape, [])) for shape in shapes), *worst])
    return '\n'.join([table(['What', *shapes, 'Worst record', '8 MiB of it'], texts), '', *scripts(rows)])


def of_two_sizes(rows: List[Row]) -> List[Row]:
    """The rows of rings and of no worst record, of each job those of the two greatest sizes."""
    kept = [row for row in rows if row.job.ring and not row.job.hostile]
    sizes = {row.job.name: sorted(it.job.size for it in kept if it.job.name == row.job.name)[-2:] for row in kept}
    return [row for row in kept if row.job.size in sizes[row.job.name]]


def first_of(lines: Dict[Tuple[str, str], Dict[str, List[str]]], what: str) -> str:
    """The first line of the command."""
    return next(it for it, _ in lines if it.split(',')[0] == what.split(',')[0])


def best_of(row: Row) -> Iterator[Tuple[str, Optional[float]]]:
    """For each kind of peers their names, and how many times as long as the best of them the program took."""
    kinds: Dict[str, List[str]] = {}
    for peer in PEERS.get(row.job.command, []):
        if peer.part:
            kinds.setdefault(peer.kind, []).append(peer.name)
    ratios = {peer: ratio for peer, ratio, _ in row.ratios()}
    for names in kinds.values():
        found = [ratio for name in names if (ratio := ratios.get(name))]
        yield (f'the best of {", ".join(name.split(",")[0] for name in names)}' if len(names) > 1 else names[0]), max(found, default=None)


def worst_of(rows: List[Row], command: str) -> List[str]:
    """The worst record of a command at the greatest size: its ring, its time, by how much that grew, and what 8 MiB of it would take."""
    hostile = [(before, row) for before, row in zip([None, *rows], rows) if row.job.hostile and row.job.command == command]
    if not hostile:
        return ['', '']
    before, row = max(hostile, key=lambda pair: pair[1].script)
    return [f'{row.job.shape} {row.job.size:,}: {microseconds(row.one)}, {growth(before, row)} times', duration(row.script)]


def scripts(rows: List[Row]) -> List[str]:
    """The megabytes that are read and answered in a second of the longest scripts."""
    longest = {row.job.shape: row for row in rows if not row.job.ring}
    return [f'Script of {name}: {figure(len(row.job.timed) / 1e6 / (row.least - row.rest))} MB/s' for name, row in longest.items()]


def table(head: List[str], lines: List[List[str]]) -> str:
    first, *rest = ('|' + ''.join(f' {cell} |' if cell else ' |' for cell in cells) for cells in [head, *lines])
    return '\n'.join([first, '|' + first.count(' |') * '---|', *rest])
