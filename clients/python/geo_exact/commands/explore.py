"""Opens a page on this machine, in which a polygon is asked about with the mouse.

    geo-exact explore [FILE] [--two] [--round] [--port N] [--token TEXT] [--program FILE] [--no-browser]
    geo-exact explore examples/floor-plan

FILE is data in GeoJSON or WKT, or a script of geo. Without one the page begins with an example. The library geo_c answers, or the
program geo if --program or GEO_PROGRAM names one, or if there is no library. The command prints the address and opens a browser
with it. The address has a token, and each run makes a new one; --port and --token fix both. Ctrl-C ends the command.
"""
from __future__ import annotations

import argparse
import re
import signal
import webbrowser
from pathlib import Path
from typing import Any, Dict, Sequence

from ..backends import chosen
from ..explorer import opening, server
from ..fault import Fault, reason
from . import options


def main(words: Sequence[str]) -> int:
    given = arguments(words)
    engine = chosen(given.program)
    engine.answer_script(b'')  # a program that can't be run is named now
    start = opened(given) if given.file else None
    try:
        made = server.Server(given.port, given.token or '', engine, start)
    except OSError as error:
        raise Fault(f'port {given.port}: {reason(error)}') from None
    signal.signal(signal.SIGTERM, signal.default_int_handler)
    print(f'{made.address}\nAnswers are those of {engine.name}. Ctrl-C ends this.', flush=True)
    if not given.no_browser:
        webbrowser.open(made.address)
    server.serve(made)
    print('\nEnded.')
    return 0


def arguments(words: Sequence[str]) -> argparse.Namespace:
    parser = options.Parser(__doc__)
    parser.add_argument('file', nargs='?', help='data in GeoJSON or WKT, or a script')
    parser.flag('--two', help='make a script of version 2 of the data')
    parser.flag('--round', help='round what does not come out whole')
    parser.option('--port', metavar='N', type=port, default=0, help='a port of this machine; any free one by default')
    parser.option('--token', metavar='TEXT', type=token, help='the token in the address; a new one by default')
    parser.option('--program', metavar='FILE', help='a program geo that answers')
    parser.flag('--no-browser', help='open no browser')
    return parser.read(words)


def opened(given: argparse.Namespace) -> Dict[str, Any]:
    """Returns what the page starts with."""
    path = Path(given.file)
    try:
        return opening.opened(path.name, path.read_bytes(), 2 if given.two else 1, given.round)
    except OSError as error:
        raise Fault(f'{path}: {reason(error)}') from None
    except opening.UNREADABLE as error:
        raise Fault(f'{path}: {error}') from None


def port(text: str) -> int:
    if not re.fullmatch('[0-9]{1,5}', text) or int(text) > 65535:
        raise argparse.ArgumentTypeError('a port is a number up to 65535')
    return int(text)


def token(text: str) -> str:
    if not re.fullmatch('[A-Za-z0-9_-]{16,}', text):
        raise argparse.ArgumentTypeError('a token has at least 16 letters, digits, - and _')
    return text
