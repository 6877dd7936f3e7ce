"""The program `geo`, in a process for each call, and how the text of its answers is read."""
from __future__ import annotations

import subprocess
from array import array
from fractions import Fraction
from itertools import chain
from typing import Dict, Iterable, Tuple

from ..answers.answered import PLACES, Answered, bytes_of, paired
from ..errors import GeoMemoryError, Range
from ..fault import Fault, reason
from . import refusal
from .interface import BYTES, Reply, ScriptTooLong

AT_ONCE = {'inside': 50_000, 'path': 1_000}  # records of a process: a script has at most BYTES, and a path 16,386 points
STATUSES = {2: 'it could not read the script', 4: 'it could not write its answers'}
VERSION_1 = b'geo,1\n'  # a record that every version refuses in one line, and after which the version stays 1


class Program:
    """A program `geo`."""

    def __init__(self, path: str):
        self.path = path
        self.name = f'the program {path}'

    def answer_script(self, script: bytes) -> bytes:
        try:
            run = subprocess.run([self.path], input=script, stdout=subprocess.PIPE, check=False)
        except (OSError, ValueError) as error:
            why = reason(error) if isinstance(error, OSError) else str(error)
            raise Fault(f'{self.path!r} can not be run: {why}') from None
        if run.returncode == 3:
            raise ScriptTooLong(f'the program ended with status 3: the script has more than {BYTES:,} bytes')
        if run.returncode == 5:
            raise GeoMemoryError(run.stdout)
        if run.returncode:
            why = STATUSES.get(run.returncode, '') if run.returncode > 0 else f'it was ended by signal {-run.returncode}'
            raise Fault(f'the program ended with status {run.returncode}' + (f': {why}' if why else ''))
        return run.stdout

    def opened(self) -> ProgramDialog:
        return ProgramDialog(self)


class ProgramDialog:
    """A dialog with the program. Each call runs it on the records that hold, which are the version, the polygon and the tree, and then on
    its own."""

    def __init__(self, program: Program):
        self._program = program
        self._kept: Dict[str, bytes] = {}
        self._tree_lines = 0
        self.is_open = True

    def close(self) -> None:
        self.is_open = False

    def ask(self, word: str, fields: array[int]) -> Reply:
        record = b'geo,2\n' if word == 'geo' and not fields else record_of(word, fields)
        text = self._text(record, with_tree=word == 'reach')
        row, = paired(record, text)
        self._keep(row)
        refused = refusal(text)
        if refused:
            raise refused
        answer = row.answer
        return Reply(answer.told, array('q', map(int, chain(*answer.points))), [(Fraction(x), Fraction(y)) for x, y in answer.corners])

    def places(self, points: array[int]) -> bytes:
        found, is_far = bytearray(), False
        for line in self._each('inside', points, 2):
            refused = refusal(line)
            if refused and not isinstance(refused, Range):
                refused.question = len(found)
                raise refused
            is_far = is_far or refused is not None
            found.append(PLACES.index(line) if not refused else 0)
        if is_far:
            self.ask('inside', array('q', [0, 0]))  # without a polygon nothing is outside
        return bytes(found)

    def paths(self, ends: array[int]) -> Tuple[bytearray, array[int]]:
        found, lengths = bytearray(), array('Q')
        for line in self._each('path', ends, 4):
            refused = refusal(line)
            if refused:
                refused.question = len(lengths)
                raise refused
            points = array('q', map(int, line.split(',')[2:]))
            found += points.tobytes()
            lengths.append(len(points) // 2)
        return found, lengths

    def answer(self, records: bytes) -> bytes:
        text = self._text(records)
        for row in paired(b'\n' + records if self._kept else records, text):
            self._keep(row)
        if records:
            self._kept.setdefault('', b'\n')  # the text has begun: a byte order mark is no longer dropped
        return text

    def _keep(self, row: Answered) -> None:
        """Keeps a record that holds from now on. The first one fixes the version."""
        record = bytes_of([row.record]) if not row.is_refused else b''
        self._kept.setdefault('geo', record if row.word == 'geo' and record else VERSION_1)
        if row.word == 'polygon' and record:
            self._kept.update(polygon=record, tree=b'')
        elif row.word == 'tree' and record:
            self._kept['tree'], self._tree_lines = record, len(row.lines)

    def _each(self, word: str, numbers: array[int], count: int) -> Iterable[str]:
        """Yields the line that answers each of many records, of so many numbers each."""
        step = AT_ONCE[word] * count
        for first in range(0, len(numbers), step):
            part = numbers[first:first + step]
            records = b''.join(record_of(word, part[k:k + count]) for k in range(0, len(part), count))
            yield from self._text(records, with_tree=False).decode('ascii').splitlines()

    def _text(self, records: bytes, with_tree: bool = True) -> bytes:
        """Returns the text that answers some records."""
        if not self.is_open:
            raise ValueError('the session is closed')
        kept = [self._kept.get(word, b'') for word in ('', 'geo', 'polygon', 'tree')[:3 + with_tree]]
        try:
            lines = self._program.answer_script(b''.join(kept) + records).splitlines(keepends=True)
        except GeoMemoryError:
            raise GeoMemoryError() from None  # what the program answered before that changes nothing here
        return b''.join(lines[sum(map(bool, kept[1:3])) + self._tree_lines * (len(kept) > 3 and bool(kept[3])):])


def record_of(word: str, fields: Iterable[int]) -> bytes:
    return ','.join([word, *map(str, fields)]).encode() + b'\n'
