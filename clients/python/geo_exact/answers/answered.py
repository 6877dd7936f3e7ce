"""Scripts, the answers to them, and which lines answer which record."""
from __future__ import annotations

import csv
import io
from dataclasses import dataclass
from fractions import Fraction
from functools import cached_property
from itertools import count, islice
from typing import List, NamedTuple, Sequence, Tuple

from ..backends import BYTES, Backend
from ..fault import Fault, shown
from ..units import Exact

Point = Tuple[Exact, Exact]

# commands whose answer has the number of lines that follow in its first line: where coordinates begin in these lines, and how many fields
# they have; those of a hull have two more for each point
LONG = {'see': (2, 6), 'kernel': (1, 3), 'tree': (3, 3), 'hull': (4, 4), 'sights': (3, 3)}

# commands whose fields are numbers of vertices, not points
NUMBERED = ('pair',)

# the most vertices of a polygon, by the version of the script
VERTICES = {1: 4096, 2: 16_384}

# commands whose answer is a path
PATHS = ('path', 'reach', 'pair')

# the first words of the answers to each command
PLACES = ('outside', 'inside', 'edge')
FIRST = {'inside': PLACES, 'check': ('taut', 'not'), **dict.fromkeys(PATHS, ('path',)),
         **{word: (word,) for word in ('geo', 'polygon', 'tree', 'see', 'kernel', 'hull', 'round', 'guards', 'sights')}}
RULES = ('repeat', 'leaves', 'not_reflex', 'straight', 'wrong_side')

# what is before a vertex in a shortest path tree if that is no vertex
SOURCE, NOTHING = 0xffff_fffe, 0xffff_ffff
BEFORE = {'s': SOURCE, '-': NOTHING}


class Answer(NamedTuple):
    """A query and its answer in numbers: the command and its points, and the numbers, points and fractions that the library returns."""

    word: str
    asked: Sequence[Point] = ()
    told: Sequence[int] = ()
    points: Sequence[Point] = ()
    corners: Sequence[Point] = ()


@dataclass
class Answered:
    """A record of a script with its number from 1 on, and the lines that answer it; both are lists of fields."""

    place: int
    record: list[str]
    lines: list[list[str]]

    @property
    def word(self) -> str:
        return self.record[0]

    @property
    def is_refused(self) -> bool:
        return self.lines[0][0] == 'bad'

    @property
    def points(self) -> list[Point]:
        """The points of the record; there are none if its fields are numbers of vertices."""
        return [] if self.word in NUMBERED else pairs(self.record[1:])

    @cached_property
    def answer(self) -> Answer:
        """The answer in numbers. Raises Fault if its lines are not those of such an answer."""
        try:
            return Answer(self.word) if self.is_refused else answer(self.word, self.points, self.lines[0], self.lines[1:])
        except (ValueError, IndexError, ZeroDivisionError):
            raise self.unanswered() from None

    def unanswered(self) -> Fault:
        why = f'{shown(",".join(self.lines[0]))} does not answer it, so these are the answers to another script, or damaged'
        return Fault(f'record {self.place} of the script, {shown(",".join(self.record))}, has no answer: {why}')


def pairs(fields: Sequence[str]) -> list[Point]:
    """Returns fields as points, x before y."""
    numbers = [number(field) for field in fields]
    return list(zip(numbers[::2], numbers[1::2]))


def number(field: str) -> Exact:
    """Returns a number of a script or an answer. It may have more leading zeros than `int` reads digits."""
    if '/' in field:
        return Fraction(field)
    if len(field) > 4000:
        field = field[:1] + (field[1:].lstrip('0') or '0')
    return int(field)


def records(script: bytes) -> list[list[str]]:
    """Returns the records of a script, without blanks around the fields."""
    text = script.removeprefix(b'\xef\xbb\xbf').decode('latin-1').replace('\x00', '\ufffd')  # the csv of Python 3.10 rejects NUL
    csv.field_size_limit(BYTES)
    try:
        rows = list(csv.reader(io.StringIO(text, newline='')))
    except csv.Error as error:
        raise Fault(f'the script: {error}') from None
    return [[field.strip(' \t') for field in row] for row in rows if row]


def paired(script: bytes, output: bytes) -> list[Answered]:
    """Returns each record of a script with its answer; raises Fault for the first record that has none."""
    rows, answered = records(script), []
    lines = iter([line.split(',') for line in output.decode('latin-1').splitlines()])
    for row in map(Answered, count(1), rows, ([line] for line in lines)):
        first, size = row.lines[0], 0
        if row.word in LONG and not row.is_refused:
            size = int(first[1]) if first[1:] and first[1].isdecimal() and len(first[1]) < 9 else -1
            row.lines += islice(lines, max(0, size))
        if len(row.lines) != 1 + size or not row.is_refused and first[0] not in FIRST.get(row.word, ()):
            raise row.unanswered()
        answered.append(row)
    if len(answered) < len(rows):
        place, record = len(answered), shown(','.join(rows[len(answered)]))
        raise Fault(f'record {place + 1} of the script, {record}, has no answer: the answers end after {place} of {len(rows)} records')
    if next(lines, None) is not None:
        raise Fault(f'there are more answers than the {len(rows)} records of the script')
    return answered


def answer(word: str, asked: list[Point], first: Sequence[str], rest: Sequence[Sequence[str]]) -> Answer:
    """Returns an answer in numbers. Raises ValueError, IndexError or ZeroDivisionError if its lines are not those of such an answer."""
    told = numbers(word, first, rest)
    points = pairs(first[2:] if word in PATHS else [field for line in rest for field in line[LONG[word][0]:]])
    size = len(told) if word in ('round', 'guards') else len(points) if word in PATHS else len(asked) if word == 'polygon' else len(rest)
    if word not in ('geo', 'inside', 'check') and (size != int(first[1]) or size == 0 and word in ('guards', *PATHS)):
        raise ValueError
    if any(len(line) != LONG[word][1] + (2 * int(line[3]) if word == 'hull' else 0) for line in rest):
        raise ValueError
    return Answer(word, asked, told, [], points) if word in ('see', 'kernel') else Answer(word, asked, told, points)


def numbers(word: str, first: Sequence[str], rest: Sequence[Sequence[str]]) -> List[int]:
    """Returns the numbers of an answer: places, rules, vertices, edges, and those of the points of a record."""
    if word == 'inside':
        return [PLACES.index(first[0])]
    if word == 'check':
        return [RULES.index(first[1]) + 1, int(first[2])] if first[0] == 'not' else [0]
    if word == 'tree':
        return [BEFORE[line[2]] if line[2] in BEFORE else int(line[2]) for line in rest]
    return list(map(int, first[2:] if word in ('round', 'guards') else [field for line in rest for field in line[1:LONG[word][0]]]))


def version(answered: Sequence[Answered]) -> int:
    """Returns the version of the script that these are the answers to: in version 2 its first record is `geo,2`."""
    return 2 if answered and answered[0].word == 'geo' and not answered[0].is_refused else 1


def ask(script: bytes, backend: Backend) -> list[Answered]:
    """Returns each record of a script with its answer."""
    return paired(script, backend.answer_script(script))


def answers(source: bytes, backend: Backend) -> list[Answered]:
    """Returns each record of a script with its answer; raises Fault if the script has no record."""
    if not records(source):
        raise Fault('the script has no record, so there is nothing to answer')
    return ask(source, backend)


def bytes_of(rows: Sequence[Sequence[object]]) -> bytes:
    """Returns the bytes of a script of these records."""
    return ''.join(','.join(map(str, row)) + '\n' for row in rows).encode('ascii')
