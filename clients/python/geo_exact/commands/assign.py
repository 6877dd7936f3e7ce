"""Which questions go to which polygon."""
from __future__ import annotations

from dataclasses import dataclass
from typing import Dict, List, Optional, Sequence

from ..errors import NotTaken, NotWhole
from ..exact import text
from ..fault import Fault
from ..frame import Frame
from ..values import Place, Whole
from .nesting import place
from .outline import Outline
from .question import PAIR, Question

# questions that have an answer for points outside
ANYWHERE = ('inside', 'check')

Record = List[object]


@dataclass
class Asked:
    """A question in integers."""

    question: Question
    points: List[Whole]

    @property
    def row(self) -> Record:
        return [self.question.word, *(c for point in self.points for c in point)]


def asked_of(question: Question, frame: Frame, wide: bool) -> Asked:
    """Returns a question in the integers of a frame."""
    try:
        return Asked(question, [frame.within(point, wide) for point in question.points])
    except NotTaken as error:
        hint = '--round takes the nearest' if isinstance(error, NotWhole) else ''
        shown = f'{text(error.given)} {error.cause}'
        raise NotTaken(cause=shown, where=str(question), remedy=hint) from None


def assigned(asked: Sequence[Asked], outlines: Sequence[Outline], is_all: bool) -> Dict[int, List[Record]]:
    """Returns the records about each polygon, by its number. A question with points goes to each that has them all, one without to each."""
    rows: Dict[int, List[Record]] = {it.number: [] for it in outlines}
    tree: Optional[Sequence[Outline]] = None
    for it in asked:
        having = outlines
        if it.question.word == 'reach' and tree is not None:
            having = tree
        elif it.points and not is_all and len(outlines) > 1:
            having = holding(it, outlines)
        if it.question.word == 'tree':
            tree = having
        for outline in having:
            rows[outline.number].append(pair(it.question, outline) if it.question.word == PAIR else it.row)
    return rows


def holding(it: Asked, outlines: Sequence[Outline]) -> Sequence[Outline]:
    """Returns the polygons that have all points of a question."""
    left = {outline.number: outline for outline in outlines}
    for point, whole in zip(it.question.points, it.points):
        having = [outline for outline in outlines if place(whole, outline.points) != Place.OUTSIDE]
        if not having and it.question.word not in ANYWHERE:
            raise Fault(f'{it.question}: no polygon has the point ({text(point[0])}, {text(point[1])}); --all asks each')
        left = {outline.number: outline for outline in having if outline.number in left}
    if not left and it.question.word not in ANYWHERE:
        raise Fault(f'{it.question}: no polygon has all of its points; --all asks each')
    return list(left.values()) or outlines


def pair(question: Question, it: Outline) -> Record:
    """Returns a question about two vertices, by the numbers that they have in the script."""
    numbers = [it.index(number) for number in question.vertices]
    for number, found in zip(question.vertices, numbers):
        if found is None:
            raise Fault(f'{question}: vertex {number} of {it} was thinned out')
    return [PAIR, *numbers]
