"""Answers by value and by text, compared with each other and with the examples of the repository."""
from __future__ import annotations

import subprocess
import sys
import unittest
from typing import Any, Iterable, List, Sequence, Tuple

import geo_exact as geo
from geo_exact import Before, Session
from geo_exact.answers import answered as script
from .rings import TOP, random_script

EXAMPLES = [answers.with_suffix('') for answers in sorted((TOP / 'examples').glob('*.stdout')) if not answers.with_suffix('.args').exists()]


class Lines:
    """What the methods of a session answer, as lines of a script's answers."""

    def __init__(self, session: Session):
        self.session = session

    def answer(self, row: script.Answered) -> List[str]:
        """The lines that answer a record: by its method, or as they are where it has none or other fields than numbers in their count, or
        where the method leaves out points of a ring, which a record refuses."""
        points = row.record[1:] if row.word == 'polygon' else []
        repeats = any(points[k:k + 2] == points[k - 2:k] or points[:2] == points[-2:] for k in range(2, len(points), 2))
        if repeats or not hasattr(self, row.word) or row.lines[0][:2] in [['bad', 'fields'], ['bad', 'number']]:
            return self.session.answer(','.join(row.record)).decode().splitlines()
        try:
            lines: List[str] = getattr(self, row.word)(map(int, row.record[1:]) if row.word in script.NUMBERED else row.points)
            return lines
        except geo.Refusal as refused:
            return [str(refused).split(':')[0]]

    def polygon(self, points: Any) -> List[str]:
        return [f'polygon,{self.session.polygon(points)}']

    def inside(self, points: Any) -> List[str]:
        return [self.session.inside(*points).name.lower()]

    def path(self, points: Any) -> List[str]:
        return [path_line('path', self.session.path(*points))]

    def reach(self, points: Any) -> List[str]:
        return [path_line('path', self.session.reach(*points))]

    def pair(self, numbers: Any) -> List[str]:
        return [path_line('path', self.session.pair(*numbers))]

    def tree(self, points: Any) -> List[str]:
        before = [j.value if isinstance(j, Before) else j for j in self.session.tree(*points)]
        return [f'tree,{len(before)}'] + [f'from,{i},{j}' for i, j in enumerate(before)]

    def check(self, points: Any) -> List[str]:
        verdict = self.session.check(points)
        return [f'not,{verdict.rule.value},{verdict.place}' if verdict.rule else 'taut']

    def see(self, points: Any) -> List[str]:
        parts = list(self.session.see(*points))
        return [f'see,{len(parts)}'] + [f'part,{i},{a},{b},{c},{d}' for i, (a, b), (c, d) in parts]

    def kernel(self, _: Any) -> List[str]:
        corners = self.session.kernel()
        return [f'kernel,{len(corners)}'] + [f'corner,{x},{y}' for x, y in corners]

    def hull(self, points: Any) -> List[str]:
        sides = list(self.session.hull(points))
        return [f'hull,{len(sides)}'] + [path_line(f'side,{start},{goal}', path) for start, goal, path in sides]

    def round(self, points: Any) -> List[str]:
        return [line('round', self.session.round(points))]

    def guards(self, _: Any) -> List[str]:
        return [line('guards', self.session.guards())]

    def sights(self, _: Any) -> List[str]:
        pairs = list(self.session.sights())
        return [f'sights,{len(pairs)}'] + [f'sight,{i},{j}' for i, j in pairs]


def path_line(head: str, path: Iterable[Tuple[object, object]]) -> str:
    return line(head, [f'{x},{y}' for x, y in path])


def line(head: str, listed: Sequence[object]) -> str:
    return ','.join([head, str(len(listed)), *map(str, listed)])


class Examples(unittest.TestCase):
    """The examples of the repository, with what the program must answer to them."""

    def test_scripts(self) -> None:
        for example in EXAMPLES:
            with self.subTest(example.name):
                self.assertEqual(geo.answer_script(example.read_bytes()), example.with_suffix('.stdout').read_bytes())

    def compare(self, asked: bytes, answers: bytes) -> None:
        """The values that answer each record are those of its text."""
        answered = script.paired(asked, answers)
        wide = script.version(answered) == 2
        with Session(wide=wide) as session:
            for row in answered[1:] if wide else answered:
                self.assertEqual(Lines(session).answer(row), [','.join(fields) for fields in row.lines], row.record)

    def test_records(self) -> None:
        for example in EXAMPLES:
            with self.subTest(example.name):
                self.compare(example.read_bytes(), example.with_suffix('.stdout').read_bytes())

    def test_records_about_random_rings(self) -> None:
        for seed in range(40):
            asked = random_script(seed)
            with self.subTest(seed):
                self.compare(asked, geo.answer_script(asked))

    def test_pieces(self) -> None:
        for example in EXAMPLES:
            pieces = example.read_bytes().splitlines(keepends=True)
            with self.subTest(example.name), Session() as session:
                self.assertEqual(b''.join(map(session.answer, pieces)), example.with_suffix('.stdout').read_bytes())

    def test_a_mark_is_dropped_at_the_very_front_alone(self) -> None:
        record = '\ufeffkernel\n'
        self.assertEqual(geo.answer_script(2 * record), b'bad,no_polygon\nbad,word\n')
        with Session() as session:
            self.assertEqual([session.answer(record), session.answer(record)], [b'bad,no_polygon\n', b'bad,word\n'])

    def test_the_worked_example(self) -> None:
        folder = TOP / 'examples/library'
        ran = subprocess.run([sys.executable, folder / 'route.py'], capture_output=True, text=True)
        self.assertEqual((ran.stdout, ran.stderr), ((folder / 'route.stdout').read_text(), ''))
