"""What answers: the library in this process, the program `geo`, or answers that a file keeps."""
from __future__ import annotations

import os
from pathlib import Path
from typing import Dict, Optional, Type

from ..errors import LibraryMissing, Refusal
from ..fault import Fault
from .interface import BYTES, Backend, Dialog, Engine, Reply
from .library import Library

__all__ = ['BYTES', 'Backend', 'Dialog', 'Engine', 'Library', 'NoBackend', 'Recorded', 'Reply', 'answer_script', 'chosen', 'refusal']
CLONE = Path(__file__).resolve().parents[4] / 'crates/geo/out/geo'  # the program in a clone of the repository
REFUSALS: Dict[str, Type[Refusal]] = {kind.word: kind for kind in Refusal.__subclasses__()}


class Recorded(Backend):
    """Answers that were written before, to the one script that they are the answers to."""

    def __init__(self, answers: bytes):
        self.answers = answers

    def answer_script(self, script: bytes) -> bytes:
        return self.answers


class NoBackend(Fault, LibraryMissing):
    """Neither the library nor the program is there."""


def chosen(program: Optional[str] = None) -> Engine:
    """Returns what answers: the program that is named here or in GEO_PROGRAM; else the library; else the program of a clone."""
    named, missing = program or os.environ.get('GEO_PROGRAM'), ''
    if not named:
        try:
            return Library()
        except LibraryMissing as error:
            named, missing = str(CLONE) if CLONE.exists() else None, str(error)
    if not named:
        raise NoBackend(f'neither the library nor the program geo is there: {missing}; clients/python/build makes the library, and '
                        '(cd crates/geo && rt run < stdin) the program; GEO_LIBRARY or GEO_PROGRAM names another one')
    from .program import Program  # here, since it imports the module that reads answers, which imports this one
    return Program(named)


def answer_script(script: str | bytes) -> bytes:
    """Returns the text that answers a whole script, as the program `geo` writes it. A refusal is a line of it."""
    return chosen().answer_script(script.encode() if isinstance(script, str) else script)


def refusal(answer: str | bytes) -> Optional[Refusal]:
    """Returns the refusal that a text of answers begins with, or None."""
    line = (answer.decode('ascii') if isinstance(answer, bytes) else answer).split('\n', 1)[0]
    if not line.startswith('bad,'):
        return None
    _, word, *places = line.split(',')
    return REFUSALS[word](*map(int, places))
