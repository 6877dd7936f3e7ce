"""Sessions and threads."""
from __future__ import annotations

import gc
import subprocess
import sys
import threading
import unittest
from concurrent.futures import ThreadPoolExecutor
from typing import Any, Callable, List, Tuple

import geo_exact as geo
from geo_exact import Session
from geo_exact.backends import library
from .rings import PACKAGE, WITHOUT, L, comb


class Cleared:
    """Which threads gave memory of sessions back while it was entered, and how many sessions are open that were opened then."""

    def __enter__(self) -> Cleared:
        gc.collect()
        library.owner()
        self.threads: List[int] = []
        self._count = 0
        self._clear, self._opened = getattr(library.library, 'geo_session_clear'), library.Owner.opened
        setattr(library.library, 'geo_session_clear', self.clear)
        setattr(library.Owner, 'opened', lambda owner: self.open(owner))
        return self

    def __exit__(self, *_: object) -> None:
        setattr(library.library, 'geo_session_clear', self._clear)
        setattr(library.Owner, 'opened', self._opened)

    def clear(self, handle: Any) -> None:
        self.threads.append(threading.get_ident())
        self._clear(handle)

    def open(self, owner: library.Owner) -> Tuple[int, Any]:
        self._count += 1
        return self._opened(owner)

    def opened(self) -> int:
        return self._count - len(self.threads)


# sessions of 4,096 vertices that a pool makes and the main thread drops: more than 200 MB where they were kept
POOL = '''
from concurrent.futures import ThreadPoolExecutor
import geo_exact as geo
low = [(4 * i, 6 * (i % 2)) for i in range(2048)]
ring = low + [(x, y + 2) for x, y in reversed(low)]

def pages():
    return int(open('/proc/self/statm').read().split()[1])

with ThreadPoolExecutor(2) as pool:
    for k in range(250):
        [pool.submit(geo.Session, ring).result().wide for _ in range(2)]
        if k == 50:
            before = pages()
print((pages() - before) * 4)
'''


@unittest.skipIf(WITHOUT, WITHOUT)
class Threads(unittest.TestCase):
    def on_another_thread(self, ask: Callable[..., object], *given: Any) -> List[type]:
        """What is raised there, if anything is."""
        raised = []

        def run() -> None:
            try:
                ask(*given)
            except Exception as error:
                raised.append(type(error))

        thread = threading.Thread(target=run)
        thread.start()
        thread.join()
        return raised

    def test_each_has_its_own_sessions(self) -> None:
        found = {}

        def ask(k: int) -> None:
            with Session(comb(64)) as session:
                found[k] = [session.path((0, 1), (4 * k, 6 * (k % 2))) for _ in range(100)]

        threads = [threading.Thread(target=ask, args=(k,)) for k in range(1, 9)]
        for thread in threads:
            thread.start()
        for thread in threads:
            thread.join()
        with Session(comb(64)) as session:
            for k in range(1, 9):
                self.assertEqual(found[k], 100 * [session.path((0, 1), (4 * k, 6 * (k % 2)))])

    def test_a_session_is_asked_on_its_thread(self) -> None:
        session = Session(L)
        asked: List[Any] = [(session.guards,), (session.inside, (1, 1)), (session.path, (1, 1), (2, 2)), (session.polygon, L)]
        for ask, *given in asked:
            self.assertEqual(self.on_another_thread(ask, *given), [RuntimeError])
        self.assertEqual(session.guards(), [3])
        self.assertEqual(self.on_another_thread(session.close), [])
        with self.assertRaises(ValueError):
            session.guards()
        self.assertEqual(self.on_another_thread(geo.answer_script, b'guards'), [])

    def test_what_is_dropped_on_another_thread_is_handed_back(self) -> None:
        with Cleared() as cleared:
            held = [Session(L)]
            self.assertEqual(self.on_another_thread(held.clear), [])
            self.assertEqual(cleared.threads, [], 'not on the other thread')
            Session()
            self.assertIn(threading.get_ident(), cleared.threads)
            self.assertEqual(cleared.opened(), 0)

    def test_what_a_thread_leaves_open_goes_with_it(self) -> None:
        held: List[Session] = []
        with Cleared() as cleared:
            self.assertEqual(self.on_another_thread(lambda: held.extend(Session(L) for _ in range(3))), [])
            self.assertEqual((len(cleared.threads), len(set(cleared.threads))), (3, 1))
            self.assertNotEqual(cleared.threads[0], threading.get_ident())
            with self.assertRaises(RuntimeError):
                held[0].guards()
            held.clear()
            self.assertEqual(len(cleared.threads), 3)

    def test_pools(self) -> None:
        with Cleared() as cleared:
            with ThreadPoolExecutor(4) as pool:
                for _ in range(5):
                    sessions = list(pool.map(lambda _: Session(comb(64)), range(40)))
                    del sessions  # here, and not on the threads of the pool
                gc.collect()
                found = list(pool.map(lambda k: Session(comb(64)).path((0, 1), (4 * k, 6 * (k % 2))), range(1, 9)))
            self.assertEqual(len(found[7]), 9)
            self.assertEqual(cleared.opened(), 0)
            self.assertNotIn(threading.get_ident(), cleared.threads)
            self.assertEqual(len(cleared.threads), 5 * 40 + 8)

    def test_pools_do_not_grow(self) -> None:
        ran = subprocess.run([sys.executable, '-c', POOL], cwd=PACKAGE, capture_output=True, text=True)
        self.assertEqual((ran.returncode, ran.stderr), (0, ''))
        self.assertLess(int(ran.stdout), 4096, 'KiB more than at first')

    def test_sessions_that_are_not_closed(self) -> None:
        for _ in range(100):
            Session(L)
        gc.collect()
