"""Where things are, and what answers in the tests: the library or the program, if one is built."""
from __future__ import annotations

import sys
import unittest
from pathlib import Path

WEB = Path(__file__).resolve().parents[1]
TOP = WEB.parents[1]
EXAMPLES = TOP / 'examples'
sys.path.insert(0, str(TOP / 'clients/python'))

from geo_exact import backends  # noqa: E402


def answering() -> backends.Engine:
    """Returns what answers. GEO_PROGRAM in the environment names a program; without any the test is skipped."""
    try:
        return backends.chosen()
    except backends.NoBackend as error:
        raise unittest.SkipTest(str(error)) from None


def answers_to(engine: backends.Engine, script: str) -> str:
    """Returns the answers to a script."""
    return engine.answer_script(script.encode()).decode('ascii')
