"""The errors of the package: rejections by the library, and data that can not be passed to it."""
from __future__ import annotations

from decimal import Decimal
from typing import Any, Optional, Tuple


class Refusal(ValueError):
    """A question that can't be answered. `word` and `places` are those of the answer `bad,word,places`. Of many questions in one call
    it is the first that can't be, and `question` is its number, counted from 0."""

    word: str
    cause: str
    question: Optional[int] = None

    @property
    def places(self) -> Tuple[int, ...]:
        return self.args

    def __str__(self) -> str:
        which = '' if self.question is None else f', of question {self.question}'
        return ','.join(['bad', self.word, *map(str, self.places)]) + ': ' + self.cause + which


class Word(Refusal):
    """There is no such command."""

    word = 'word'
    cause = 'there is no such command'


class Fields(Refusal):
    """The command has another count of fields."""

    word = 'fields'
    cause = 'the command has another count of fields'


class Few(Refusal):
    """There are fewer points than the command takes."""

    word = 'few'
    cause = 'there are fewer points than the command takes'


class Many(Refusal):
    """There are more points than the command takes."""

    word = 'many'
    cause = 'there are more points than the command takes'


class Number(Refusal):
    """The field at this place, counted from 1, is no number."""

    word = 'number'
    cause = 'the field at this place is no number'


class Range(Refusal):
    """The number at this place, counted from 1, is beyond the limit: 1,000,000, or 8,388,607 in a wide session."""

    word = 'range'
    cause = 'the number at this place is beyond the limit'


class NoPolygon(Refusal):
    """No polygon was taken yet."""

    word = 'no_polygon'
    cause = 'no polygon was taken yet'


class Large(Refusal):
    """The polygon has more than 1,024 vertices."""

    word = 'large'
    cause = 'the polygon has more than 1,024 vertices'


class Index(Refusal):
    """The number at this place, counted from 1, is that of no vertex."""

    word = 'index'
    cause = 'the number at this place is that of no vertex'


class NoTree(Refusal):
    """There is a polygon, and no tree in it yet."""

    word = 'no_tree'
    cause = 'there is no tree in this polygon yet'


class Outside(Refusal):
    """This point of the question, counted from 1, is not in the polygon."""

    word = 'outside'
    cause = 'this point of the question is not in the polygon'


class Clash(Refusal):
    """The polygon is not simple: the edges of these numbers share a point where they must not, or one has equal ends. They are the
    least pair that does."""

    word = 'clash'
    cause = 'these edges share a point where they must not, or one has equal ends'


class TooLong(ValueError):
    """The text has more than 8,388,608 bytes. Nothing was answered."""


class GeoMemoryError(MemoryError):
    """The library wanted memory. `answered` is the text of the answers to some first records."""

    def __init__(self, answered: bytes = b''):
        super().__init__('the library wanted memory')
        self.answered = answered


class NotTaken(ValueError):
    """Data or an argument can't be used, so the library was not asked. `given` is the value in question; `where` its place in the data,
    such as `feature 2, ring 1, vertex 5`; and for an argument `place` is the position of its first number in the question, counted
    from 1. `cause` says what is wrong, and `remedy` what would help."""

    cause = 'can not be used'
    remedy = ''

    def __init__(self, given: Any = ..., place: int = 1, cause: Optional[str] = None, where: str = '', remedy: Optional[str] = None):
        super().__init__(given, place, cause, where, remedy)
        self.given, self.place, self.where = given, place, where
        self.cause = cause or self.cause
        self.remedy = self.remedy if remedy is None else remedy

    @property
    def what(self) -> str:
        """What is wrong, with the value."""
        return self.cause if self.given is ... else f'{_short(self.given)} {self.cause}'

    def __str__(self) -> str:
        return f'{self.where or f"at place {self.place}"}: {self.what}' + (f'; {self.remedy}' if self.remedy else '')


class NotReadable(NotTaken):
    """A file or a text is not in a form that the package reads, or breaks off."""


class NotWhole(NotTaken):
    """A number is not an integer, or in a frame without `snap` lies between two steps."""

    cause = 'is not an integer'
    remedy = "a frame maps such numbers to integers: frame=Frame.of(ring), or frame='auto'"


class TooFar(NotTaken):
    """A coordinate is beyond the limit of the script's version."""


class NotANumber(NotTaken):
    """A value is not a number, or not a finite one."""

    cause = 'is not a number'


class NotAPoint(NotTaken):
    """A value is not a point: a pair of numbers."""

    cause = 'is not a point, which is a pair of numbers'


class NotAShape(NotTaken):
    """A shape is empty, broken, or of another kind than the question takes."""

    cause = 'is not such a shape'


class Holes(NotAShape):
    """A polygon has holes, where a question takes one ring."""


class LibraryMissing(ImportError):
    """The library libgeo_c.so is in none of the places where it is looked for."""


def _short(given: Any) -> str:
    is_short = isinstance(given, Decimal) and abs(given.adjusted()) < 60
    shown = f'{given:f}' if is_short else str(given) if isinstance(given, Decimal) else repr(given)
    return shown if len(shown) < 80 else shown[:76] + '...'
