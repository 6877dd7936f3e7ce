"""What is made of sources: whole pages, parts of pages between marks, and the last line of a crate's page."""
from __future__ import annotations

import re
from pathlib import Path

from . import definitions, house, prose, sources

PARTS = {"rooms": house.rooms, "standing": house.table, "edits": house.edits, "laws": house.laws}
MARK = re.compile(r"(<!-- made: (\w+) -->\n).*?(\n<!-- end -->)", re.S)  # a table between blank lines


def with_parts(text: str) -> str:
    return MARK.sub(lambda it: it[1] + "\n" + "\n".join(PARTS[it[2]]()) + "\n" + it[3], text)


def with_standing(crate: str, text: str) -> str:
    """Puts the line of what a crate stands on at the end of its page, in the place of one that is there."""
    blocks = text.rstrip("\n").split("\n\n")
    if re.match(r"It stands on ", blocks[-1]):
        blocks.pop()
    return "\n\n".join([*blocks, "\n".join(house.standing(crate))]) + "\n"


def page(path: Path, text: str) -> str:
    """Returns a page as it has to be, but for the length of its lines."""
    if path == Path("docs/DEFINITIONS.md"):
        return prose.wrap_page(definitions.page())
    if path.parts[0] == "crates" and path.parts[1] in sources.crates() and len(path.parts) == 3:
        text = with_standing(path.parts[1], text)
    return with_parts(text)


def first_difference(left: str, right: str) -> int:
    """The number of the first line at which two texts differ."""
    for number, (one, other) in enumerate(zip(left.split("\n"), right.split("\n")), 1):
        if one != other:
            return number
    return min(left.count("\n"), right.count("\n")) + 1


def wrapped(text: str) -> str:
    return prose.wrap_page(text)
