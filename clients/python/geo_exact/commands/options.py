"""Command lines: a wrong one ends with one line on standard error and the exit status 2."""
from __future__ import annotations

import argparse
import re
from typing import Any, NoReturn, Optional, Sequence, Tuple, Union

from ..answers.about import About, refusals
from ..answers.saved import Saved
from ..backends import Backend, Recorded, chosen
from ..fault import Fault, note, put
from ..reading import source
from .outline import checksum


class Parser(argparse.ArgumentParser):
    """A parser of a command line, with the text of a command as its help. Options are written in full, and given at most once unless
    they say otherwise."""

    def __init__(self, text: Optional[str]):
        super().__init__(description=text, formatter_class=argparse.RawDescriptionHelpFormatter, allow_abbrev=False)

    def error(self, message: str) -> NoReturn:
        raise Fault(message.replace('argument --', '--', 1), 2)

    def print_help(self, file: Any = None) -> None:
        put(self.format_help())

    def option(self, name: str, **how: Any) -> None:
        """Adds an option that is given at most once."""
        self.add_argument(name, action=Once, **how)

    def flag(self, name: str, **how: Any) -> None:
        """Adds an option without a value."""
        self.option(name, nargs=0, default=False, **how)

    def answers(self, is_frame_needed: bool) -> None:
        """Adds the options of a command that shows the answers to a script."""
        self.add_argument('script', nargs='?', default='-', help='the script; - or none is standard input')
        self.option('--frame', metavar='FILE', required=is_frame_needed, help='the file that records --save wrote')
        self.option('--program', metavar='FILE', help='the program that answers; the library does without this option')
        self.option('--answers', metavar='FILE', help='the answers to the script; - is standard input')

    def read(self, words: Sequence[str]) -> argparse.Namespace:
        """Returns the options of a command line, in which a value may begin with a minus sign."""
        return self.parse_args(joined(words))


class Once(argparse.Action):
    """An option that is rejected if it is given again. Without a value it becomes True."""

    def __call__(self, parser: argparse.ArgumentParser, options: argparse.Namespace, values: Union[str, Sequence[Any], None],
                 name: Optional[str] = None) -> None:
        given = options.__dict__.setdefault('given', set())
        if self.dest in given:
            parser.error(f'{name} is given twice')
        given.add(self.dest)
        setattr(options, self.dest, self.nargs == 0 or values)


def joined(words: Sequence[str]) -> list[str]:
    """Returns the words with each value that begins with a minus sign and a digit joined to its option, since argparse takes such a
    value for an option."""
    found: list[str] = []
    for word in words:
        if found and re.fullmatch(r'--[a-z]+', found[-1]) and re.match(r'-[.\d]', word) and '--' not in found:
            found[-1] += f'={word}'
        else:
            found.append(word)
    return found


def asked(given: argparse.Namespace) -> Tuple[bytes, Backend]:
    """Returns the script that a command line names, and what answers it. In a pipe the script comes first: `records` writes the frame
    before its output ends."""
    if given.answers and given.program:
        raise Fault('--answers and --program: give one of them', 2)
    if given.answers == given.script == '-':
        raise Fault('--answers -: the script comes from standard input already; name a file', 2)
    script = source.read(given.script)
    if given.answers:
        return script, Recorded(source.read(given.answers))
    return script, chosen(given.program)


def rejected(found: Sequence[About], saved: Optional[Saved]) -> int:
    """Names each polygon that geo rejected on standard error, and returns the exit status: 1 if it rejected all."""
    lines, is_vain = refusals(found, saved)
    rings = [it.row.record[1:] for it in found if it.row.word == 'polygon']
    if saved and saved.polygons and rings and not any(checksum([ring]) in saved.polygons for ring in rings):
        lines.append('no polygon of the script is one of those of the frame: is it the frame of another script?')
    for line in lines:
        note(line)
    return int(is_vain)
