"""The library libgeo_c.so: its calls, and the dialogs that each thread owns."""
from __future__ import annotations

import ctypes
import os
import struct
import sys
import threading
import weakref
from array import array
from collections import deque
from collections.abc import Iterable
from fractions import Fraction
from typing import Any, Callable, Deque, Dict, List, Optional, Sequence, Tuple, Type

from ..errors import (Clash, Few, Fields, GeoMemoryError, Index, Large, LibraryMissing, Many, NoPolygon, NoTree, Outside, Range, Refusal,
                      Word)
from ..listed import Listed
from ..values import ExactPoint
from .interface import BYTES, Reply, ScriptTooLong

ROOM = 16_386  # the most points of a path
STATUSES: Dict[int, Type[Refusal]] = {
    10: Word, 11: Fields, 12: Few, 13: Many, 14: Clash, 16: NoPolygon, 17: NoTree, 18: Large, 20: Outside, 30: Range, 40: Index,
}
PLACED = b'\0\1\2'
FAR_IS_OUTSIDE = bytes(0 if 30 <= status < 40 else status for status in range(256))
WORDS = {word: k for k, word in enumerate(
    ('polygon', 'inside', 'check', 'path', 'tree', 'reach', 'see', 'kernel', 'hull', 'geo', 'round', 'guards', 'pair', 'sights'))}


class Library:
    """The library, in this process."""

    name = 'the library geo_c'

    def __init__(self) -> None:
        library.path  # raises LibraryMissing if there is none

    def answer_script(self, script: bytes) -> bytes:
        needed, room = ctypes.c_size_t(), 4 * len(script) + 4096
        while True:
            text = ctypes.create_string_buffer(room)
            status = library.geo_answer_script(script, len(script), text, room, needed)
            if needed.value <= room:
                answered = ctypes.string_at(text, needed.value)
                check(status, answered)
                return answered
            room = needed.value

    def opened(self) -> LibraryDialog:
        return LibraryDialog()


class LibraryDialog:
    """A session of the library. It belongs to the thread that opened it: on another one each call raises RuntimeError."""

    def __init__(self) -> None:
        self._owner = owner()
        key, self._handle = self._owner.opened()
        self._close = weakref.finalize(self, self._owner.closed, key)
        self._close.atexit = False  # the memory goes with the process
        self._counts = (SIZE * 3)()  # of numbers, points and fractions

    @property
    def is_open(self) -> bool:
        return self._close.alive

    def close(self) -> None:
        self._close()

    def ask(self, word: str, fields: array[int]) -> Reply:
        handle = self._open()
        status = library.geo_session_ask(handle, WORDS[word], at(fields), len(fields), self._counts)
        count, count_of_points, fractions = self._counts[:]  # a slice is a list, which takes a quarter of the time
        numbers, points = array('I', bytes(4 * count)), NONE
        if count:
            library.geo_session_numbers(handle, at(numbers), count)
        if status:
            check(status, places=numbers)
        if count_of_points:
            points = array('q', bytes(16 * count_of_points))
            library.geo_session_points(handle, at(points), count_of_points)
        return Reply(numbers, points, self._corners(fractions) if fractions else ())

    def places(self, points: array[int]) -> bytes:
        found = bytearray(len(points) // 2)
        library.geo_session_places(self._open(), at(points), len(found), at(found), len(found))
        near = found.translate(FAR_IS_OUTSIDE)
        check_each(near, answers=PLACED)
        if near != found:
            self.ask('inside', array('q', [0, 0]))  # without a polygon nothing is outside
        return near

    def paths(self, ends: array[int]) -> Tuple[bytearray, array[int]]:
        """The library fills a room of points. If that is full, it is called again for the rest of the paths."""
        handle, count, done = self._open(), len(ends) // 4, ctypes.c_size_t()
        statuses, lengths, room, found = bytearray(count), array('Q', bytes(8 * count)), bytearray(16 * ROOM), bytearray()
        first = 0
        while first < count:
            left = count - first
            check(library.geo_session_paths(handle, at(ends, 32 * first), 2 * left, at(room), ROOM, at(statuses, first), left,
                                            at(lengths, 8 * first), left, done))
            last = first + done.value
            check_each(statuses[first:last], first)
            found += memoryview(room)[:16 * sum(lengths[first:last])]
            first = last
        return found, lengths

    def answer(self, records: bytes) -> bytes:
        needed = ctypes.c_size_t()
        handle = self._open()
        status = library.geo_session_answer(handle, records, len(records), needed)
        text = ctypes.create_string_buffer(needed.value)
        library.geo_session_text(handle, text, needed.value)
        check(status, text.raw)
        return text.raw

    def _open(self) -> Any:
        """Returns the library's handle."""
        if owner() is not self._owner:
            raise RuntimeError('a session is asked on the thread that made it')
        if not self._close.alive:
            raise ValueError('the session is closed')
        return self._handle

    def _corners(self, count: int) -> Sequence[ExactPoint]:
        """Returns the fractions of the last reply, each two of them as a point."""
        held = bytearray(24 * count)
        library.geo_session_fractions(self._handle, at(held), count)

        def point(i: int) -> ExactPoint:
            high, low, under, high_of_y, low_of_y, under_of_y = struct.unpack_from('qQQqQQ', held, 48 * i)
            return Fraction((high << 64) + low, under), Fraction((high_of_y << 64) + low_of_y, under_of_y)
        return Listed(count // 2, point)


class Owner:
    """The sessions of one thread, which alone calls them and frees them. A session that is dropped on another thread is handed back, and
    freed at the next call of its own thread, or at its end."""

    def __init__(self) -> None:
        self._handles: Dict[int, Any] = {}
        self.returned: Deque[int] = deque()

    def opened(self) -> Tuple[int, Any]:
        """Returns the key of a new session, and the session."""
        handle = ctypes.byref(ctypes.c_void_p())
        self._handles[id(handle)] = handle
        return id(handle), handle

    def closed(self, key: int) -> None:
        """Frees a session, here or on its thread."""
        self.returned.append(key)
        if getattr(THREAD, 'owner', None) is self:
            self.clear_returned()

    def clear_returned(self) -> None:
        while self.returned:
            self._clear(self.returned.popleft())

    def clear_all(self) -> None:
        for key in list(self._handles):
            self._clear(key)

    def _clear(self, key: int) -> None:
        handle = self._handles.pop(key, None)
        if handle is not None:
            library.geo_session_clear(handle)


class ThreadEnd:
    """Goes when its thread does, and frees what that owns. At the end of the process all goes anyway."""

    def __init__(self, owner: Owner):
        self._owner = owner

    def __del__(self, is_ending: Callable[[], bool] = sys.is_finalizing) -> None:
        if not is_ending():
            self._owner.clear_all()


def owner() -> Owner:
    """Returns what this thread owns, and frees what was handed back to it."""
    found: Optional[Owner] = getattr(THREAD, 'owner', None)
    if found is None:
        found = THREAD.owner = Owner()
        THREAD.end = ThreadEnd(found)
    elif found.returned:
        found.clear_returned()
    return found


def check(status: int, answered: bytes = b'', places: Iterable[int] = (), question: Optional[int] = None) -> None:
    """Raises what a status other than 0 says."""
    if status == 3:
        raise ScriptTooLong(f'the script has more than {BYTES:,} bytes')
    if status == 5:
        raise GeoMemoryError(answered)
    if status:
        refused = STATUSES[status if status < 20 else status - status % 10](*places)
        refused.question = question
        raise refused


def check_each(statuses: bytes, first: int = 0, answers: bytes = b'\0') -> None:
    """Raises the first refusal among the statuses of the questions from this one on."""
    rest = statuses.lstrip(answers)
    if rest:
        check(rest[0], places=[rest[0] % 10] if rest[0] > 20 else [], question=first + len(statuses) - len(rest))


def at(held: Any, offset: int = 0) -> Any:
    """Returns where an array or a bytearray is in memory. The library needs a place for an empty one too."""
    return START.from_buffer(held or SOME, offset)


TEXT, SIZE, PLACE, STATUS = ctypes.c_char_p, ctypes.c_size_t, ctypes.c_void_p, ctypes.c_uint8
HANDLE, NEEDED = ctypes.POINTER(PLACE), ctypes.POINTER(SIZE)  # a session is one pointer, which is null before its first call
CALLS: Dict[str, Tuple[Any, List[Any]]] = {
    'geo_answer_script': (STATUS, [TEXT, SIZE, TEXT, SIZE, NEEDED]),
    'geo_session_answer': (STATUS, [HANDLE, TEXT, SIZE, NEEDED]),
    'geo_session_text': (None, [HANDLE, TEXT, SIZE]),
    'geo_session_ask': (STATUS, [HANDLE, STATUS, PLACE, SIZE, NEEDED]),
    'geo_session_numbers': (None, [HANDLE, PLACE, SIZE]),
    'geo_session_points': (None, [HANDLE, PLACE, SIZE]),
    'geo_session_fractions': (None, [HANDLE, PLACE, SIZE]),
    'geo_session_places': (None, [HANDLE, PLACE, SIZE, PLACE, SIZE]),
    'geo_session_paths': (STATUS, [HANDLE, PLACE, SIZE, PLACE, SIZE, PLACE, SIZE, PLACE, SIZE, NEEDED]),
    'geo_session_clear': (None, [HANDLE]),
}


class Calls:
    """The calls of the library, and its `path`. The file is loaded at the first of them: the one that GEO_LIBRARY names, or that of the
    package."""

    def __getattr__(self, name: str) -> Any:
        packaged = os.path.join(os.path.dirname(os.path.dirname(os.path.abspath(__file__))), 'libgeo_c.so')
        try:
            loaded = ctypes.CDLL(os.environ.get('GEO_LIBRARY', packaged))
            for call, (result, arguments) in CALLS.items():
                getattr(loaded, call).restype, getattr(loaded, call).argtypes = result, arguments
        except (OSError, AttributeError) as error:  # there is no such file, or it lacks a call
            raise LibraryMissing(f'libgeo_c.so is missing, or not that of this package ({error})') from None
        self.__dict__.update({call: getattr(loaded, call) for call in CALLS}, path=loaded._name)
        return self.__dict__[name]


START, SOME, NONE = ctypes.c_char * 0, array('q', [0]), array('q')
THREAD = threading.local()
library: Any = Calls()
