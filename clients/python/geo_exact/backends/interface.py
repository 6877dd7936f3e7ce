"""The interface of what answers: dialogs, and the backends that open them."""
from __future__ import annotations

from array import array
from typing import NamedTuple, Protocol, Sequence, Tuple

from ..errors import TooLong
from ..fault import Fault
from ..values import ExactPoint

BYTES = 8_388_608  # the most of a script


class ScriptTooLong(Fault, TooLong):
    """A script has more bytes than geo takes: a command ends, and a caller of the package gets TooLong."""


class Reply(NamedTuple):
    """The answer to a command: its numbers, the coordinates of its points in turn, and its points whose coordinates are fractions.

    The numbers are those of the C library: a place from 0 to 2, a broken rule and a point, edges, three numbers for each side of a hull
    (start, goal, count of points), predecessors or vertices."""

    numbers: Sequence[int] = ()
    points: Sequence[int] = ()
    corners: Sequence[ExactPoint] = ()


class Dialog(Protocol):
    """A script that is answered command by command: its polygon and its tree hold until others replace them."""

    @property
    def is_open(self) -> bool:
        """Whether the dialog was not closed yet."""

    def ask(self, word: str, fields: array[int]) -> Reply:
        """Returns the answer to a command, or raises its Refusal. The word `geo` without fields selects version 2."""

    def places(self, points: array[int]) -> bytes:
        """Returns a byte for each point: 0 outside, 1 inside, 2 on the boundary. A point beyond the range is outside. Raises the first
        Refusal, with its `question`."""

    def paths(self, ends: array[int]) -> Tuple[bytearray, array[int]]:
        """Returns the points of the paths between ends of four numbers each, in 16 bytes a point, one path after another, and the length of
        each path. Raises the first Refusal, with its `question`."""

    def answer(self, records: bytes) -> bytes:
        """Returns the text that answers the next records."""

    def close(self) -> None:
        """Frees what the dialog holds."""


class Backend(Protocol):
    """What answers scripts."""

    def answer_script(self, script: bytes) -> bytes:
        """Returns the answers to a whole script, a line each. Raises TooLong, GeoMemoryError, or Fault if there are none."""


class Engine(Backend, Protocol):
    """What answers scripts and opens dialogs. `name` is for messages."""

    name: str

    def opened(self) -> Dialog:
        """Returns a new dialog."""
