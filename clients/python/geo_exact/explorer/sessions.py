"""Sessions, one for each page that is open. Each has a thread of its own, on which its library stays."""
from __future__ import annotations

import threading
import time
from concurrent.futures import Future
from typing import Callable, Dict, NamedTuple, Optional

from ..backends import BYTES, Dialog
from ..errors import GeoMemoryError, TooLong
from ..fault import Fault

SILENCE = 180.0  # seconds without a request after which a session is freed; a hidden page sends one a minute
MOST = 64  # pages at once


class NotAnswered(Exception):
    """Why a request has no answer, with the status and the name of the failure."""

    def __init__(self, status: int, name: str, text: str):
        super().__init__(text)
        self.status = status
        self.name = name


def failure(error: Exception) -> NotAnswered:
    """Returns why a request has no answer, for what a backend raised or for a bug."""
    if isinstance(error, NotAnswered):
        return error
    if isinstance(error, TooLong):
        return NotAnswered(413, 'length', f'the script has more than {BYTES:,} bytes')
    if isinstance(error, GeoMemoryError):
        return NotAnswered(503, 'memory', 'there is not enough memory to answer this')
    if isinstance(error, Fault):
        return NotAnswered(502, 'program', str(error))
    return NotAnswered(500, 'fault', f'{type(error).__name__}: {error}')


class Question(NamedTuple):
    """A piece of a script, and its answers once they are there."""

    script: bytes
    begins: bool
    answers: 'Future[bytes]'


class PageSession:
    """The questions of one page. One is answered at a time, and at most one waits: a newer one takes its place. So questions never pile
    up, however fast they come."""

    def __init__(self, make: Callable[[], Dialog]):
        self.heard = time.monotonic()
        self._make = make
        self._dialog: Optional[Dialog] = None
        self._ended = False
        self._waiting: Optional[Question] = None
        self._changed = threading.Condition()
        threading.Thread(target=self._work, daemon=True).start()

    def ask(self, script: bytes, begins: bool) -> bytes:
        """Returns the answers to a piece of a script."""
        question = Question(script, begins, Future())
        with self._changed:
            if self._ended:
                raise gone()
            if self._waiting:
                self._waiting.answers.set_exception(NotAnswered(429, 'newer', 'a newer question took the place of this one'))
            self._waiting = question
            self._changed.notify()
        return question.answers.result()

    def end(self) -> None:
        """Frees the session on its thread, once that has answered its question."""
        with self._changed:
            self._ended = True
            if self._waiting:
                self._waiting.answers.set_exception(gone())
            self._waiting = None
            self._changed.notify()

    def _next(self) -> Optional[Question]:
        with self._changed:
            while not self._waiting and not self._ended:
                self._changed.wait()
            question, self._waiting = self._waiting, None
            return question

    def _work(self) -> None:
        question = self._next()
        while question:
            try:
                question.answers.set_result(self._answer(question))
            except Exception as error:
                question.answers.set_exception(failure(error))
            question = self._next()
        self._end_dialog()

    def _answer(self, question: Question) -> bytes:
        if question.begins:
            self._end_dialog()
            self._dialog = self._make()
        if not self._dialog:
            raise gone()
        return self._dialog.answer(question.script)

    def _end_dialog(self) -> None:
        if self._dialog:
            self._dialog.close()


def gone() -> NotAnswered:
    return NotAnswered(410, 'session', 'there is no such session, or it was not begun')


class Sessions:
    """The sessions by the names that their pages chose."""

    def __init__(self, make: Callable[[], Dialog]):
        self._make = make
        self._open: Dict[str, PageSession] = {}
        self._lock = threading.Lock()

    def __len__(self) -> int:
        with self._lock:
            return len(self._open)

    def ask(self, name: str, script: bytes, begins: bool) -> bytes:
        """Returns the answers to a piece of the script of a page. The first piece makes the session."""
        with self._lock:
            session = self._open.get(name)
            if session is None:
                if not begins:
                    raise gone()
                self._make_room()
                session = self._open[name] = PageSession(self._make)
            session.heard = time.monotonic()
        try:
            return session.ask(script, begins)
        finally:
            session.heard = time.monotonic()

    def hear(self, name: str) -> bool:
        """Keeps a session from being freed, and returns whether it is there."""
        with self._lock:
            session = self._open.get(name)
            if session:
                session.heard = time.monotonic()
            return session is not None

    def end(self, name: str) -> bool:
        """Frees a session, and returns whether it was there."""
        with self._lock:
            session = self._open.pop(name, None)
        if session:
            session.end()
        return session is not None

    def free_silent(self, silence: float = SILENCE) -> None:
        """Frees the sessions of pages that sent nothing for so many seconds."""
        now = time.monotonic()
        with self._lock:
            silent = [name for name, session in self._open.items() if now - session.heard > silence]
        for name in silent:
            self.end(name)

    def end_all(self) -> None:
        self.free_silent(-1.0)

    def _make_room(self) -> None:
        """Frees the session that was silent longest, if there are too many."""
        if len(self._open) >= MOST:
            name = min(self._open, key=lambda name: self._open[name].heard)
            self._open.pop(name).end()
