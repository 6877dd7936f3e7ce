"""How a tool ends: with what it wrote, or with one line that says what is wrong and where."""
from __future__ import annotations

import os
import sys
from typing import Callable, NoReturn

from .errors import NotTaken, Refusal

TOOL = os.path.basename(sys.argv[0])


class Fault(Exception):
    """Why a tool can't go on, in one line. The status is 2 for a wrong option, and else 1."""

    def __init__(self, text: str, status: int = 1):
        super().__init__(text)
        self.status = status


def run(main: Callable[[list[str]], int]) -> NoReturn:
    """Runs a tool with the words of its command line, and ends with its status."""
    try:
        status = main(sys.argv[1:])
    except Fault as fault:
        note(str(fault))
        status = fault.status
    except (NotTaken, Refusal) as error:
        note(str(error))
        status = 1
    except MemoryError:
        note('out of memory')
        status = 1
    except KeyboardInterrupt:
        status = 130
    sys.exit(status)


def note(text: str) -> None:
    """Says something in one line on standard error."""
    line = ' '.join(text.splitlines())
    try:
        if sys.stderr is not None:
            sys.stderr.write(f'{TOOL}: {line}\n')
    except OSError:
        pass  # there is nowhere left to say it


def put(text: str) -> None:
    """Writes all of a text on standard output."""
    if sys.stdout is None:
        raise Fault('standard output is closed')
    try:
        sys.stdout.buffer.write(text.encode('utf-8'))
        sys.stdout.flush()
    except OSError as error:
        # what Python still holds would be written again when it ends
        os.dup2(os.open(os.devnull, os.O_WRONLY), sys.stdout.fileno())
        raise Fault(f'standard output takes no more: {reason(error)}') from None


def reason(error: OSError) -> str:
    """What the system says of a failed call."""
    return (error.strerror or str(error)).lower()


def shown(text: str, most: int = 60) -> str:
    """A text as a message shows it: between quotes, cut where it is long, and with no sign that is none of print."""
    cut = text if len(text) <= most else text[:most - 2] + '..'
    return "'" + ''.join(sign if sign.isprintable() else ascii(sign)[1:-1] for sign in cut) + "'"
