"""Files: how they are read and written."""
from __future__ import annotations

import sys
from pathlib import Path

from ..errors import NotReadable
from ..fault import Fault, reason
from . import parse


def read(name: str) -> bytes:
    """Returns the bytes of a file, or of standard input if the name is -."""
    try:
        if name != '-':
            return Path(name).read_bytes()
        if sys.stdin is None:
            raise Fault('standard input is closed')
        return sys.stdin.buffer.read()
    except OSError as error:
        raise Fault(f'{called(name)}: {reason(error)}') from None
    except ValueError:
        raise Fault(f'{called(name)}: is not the name of a file') from None


def called(name: str) -> str:
    return 'standard input' if name == '-' else name


def write(name: str, text: str) -> None:
    try:
        Path(name).write_text(text, encoding='utf-8')
    except OSError as error:
        raise Fault(f'{name}: {reason(error)}') from None
    except ValueError:
        raise Fault(f'{name!r}: is not the name of a file') from None


def decoded(source: bytes, name: str) -> str:
    """Returns the text of a file."""
    try:
        return parse.decoded(source)
    except NotReadable as error:
        raise Fault(f'{called(name)}: {error.what}') from None
