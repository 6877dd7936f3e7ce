"""Questions in the units of the data, as --ask takes them. One that is not whole and right is refused by its name."""
from __future__ import annotations

from dataclasses import dataclass
from typing import Tuple

from ..exact import NoNumber, Point, ratio
from ..fault import Fault, shown

# how many points each command takes; a pair of equal numbers where it takes just so many
POINTS = {
    'inside': (1, 1), 'path': (2, 2), 'tree': (1, 1), 'reach': (1, 1), 'see': (1, 1), 'check': (1, 16_384), 'hull': (1, 64),
    'round': (1, 64), 'kernel': (0, 0), 'guards': (0, 0), 'sights': (0, 0),
}
PAIR = 'pair'  # its fields are numbers of vertices, and no points
NOT_ASKED = {'polygon': 'the polygons come from the data', 'geo': 'the option --two writes the record geo,2'}


@dataclass(frozen=True)
class Question:
    """A word with its points, or with the numbers of its vertices."""

    text: str
    word: str
    points: Tuple[Point, ...] = ()
    vertices: Tuple[int, ...] = ()

    def __str__(self) -> str:
        return f'--ask {shown(self.text)[1:-1]}'


def question(text: str) -> Question:
    """The question that a text asks."""
    word, *fields = (field.strip(' \t') for field in text.split(','))
    where = f'--ask {shown(text)}'
    if word in NOT_ASKED:
        raise Fault(f'{where}: {word} is no question: {NOT_ASKED[word]}', 2)
    if word == PAIR:
        return Question(text, word, vertices=vertices(fields, where))
    if word not in POINTS:
        raise Fault(f'{where}: there is no question {shown(word)}: the words are {", ".join([*POINTS, PAIR])}', 2)
    least, most = POINTS[word]
    if len(fields) % 2 or not least <= len(fields) // 2 <= most:
        many = f'{2 * least}' if least == most else f'an even count from {2 * least} to {2 * most:,}'
        raise Fault(f'{where} has {len(fields)} numbers after the word, and {word} takes {many if most else "none"}', 2)
    numbers = []
    for place, field in enumerate(fields, 1):
        try:
            numbers.append(ratio(field))
        except NoNumber as error:
            raise Fault(f'{where}: at place {place}, {shown(field)} {error}', 2) from None
    return Question(text, word, tuple(zip(numbers[::2], numbers[1::2])))


def vertices(fields: list[str], where: str) -> Tuple[int, ...]:
    """The numbers of two vertices."""
    if len(fields) != 2:
        raise Fault(f'{where} has {len(fields)} numbers after the word, and pair takes 2', 2)
    for place, field in enumerate(fields, 1):
        if not (field.isascii() and field.isdigit() and len(field) < 10):
            raise Fault(f'{where}: at place {place}, {shown(field)} is no number of a vertex, counted from 0', 2)
    return tuple(map(int, fields))
