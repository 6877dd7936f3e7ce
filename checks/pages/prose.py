"""Pages as blocks: prose, code, tables; and prose in lines of at most 140 columns."""
from __future__ import annotations

import re
from typing import Iterator

COLUMNS = 140
ITEM = re.compile(r"( *)([-*]|\d+\.) ")
QUOTE = re.compile(r"> ?")


def blocks(page: str) -> Iterator[tuple[str, list[str], int]]:
    """Yields (kind, lines, number of the first line), with the kinds prose, code, table, heading, other and blank."""
    lines, at = page.split("\n"), 0
    while at < len(lines):
        start, line = at, lines[at]
        if line.startswith("```"):
            at += 1
            while at < len(lines) and not lines[at].startswith("```"):
                at += 1
            at += 1
            kind = "code"
        elif not line.strip():
            at += 1
            kind = "blank"
        elif line.startswith("    ") and (start == 0 or not lines[start - 1].strip()):
            while at < len(lines) and (lines[at].startswith("    ") or (not lines[at].strip() and at + 1 < len(lines) and lines[at + 1].startswith("    "))):
                at += 1
            kind = "code"
        elif line.startswith("|"):
            while at < len(lines) and lines[at].startswith("|"):
                at += 1
            kind = "table"
        elif line.startswith("#"):
            at += 1
            kind = "heading"
        elif line.startswith(("<", "![")):
            while at < len(lines) and lines[at].strip():
                at += 1
            kind = "other"
        else:
            at += 1
            while at < len(lines) and lines[at].strip() and not lines[at].startswith(("|", "#", "```", "<", "![")) and not ITEM.match(lines[at]):
                at += 1
            kind = "prose"
        yield kind, lines[start:at], start + 1


def pieces(text: str) -> list[str]:
    """Splits at blanks, but not between backticks, nor in the text of a link."""
    found, open_tick, open_link = [""], False, 0
    for k, letter in enumerate(text):
        if letter == "`":
            open_tick = not open_tick
        elif not open_tick and letter == "[":
            open_link += 1
        elif not open_tick and letter == "]":
            open_link = max(0, open_link - 1)
        if letter == " " and not open_tick and not open_link:
            found.append("")
        else:
            found[-1] += letter
    return [it for it in found if it]


def is_start(piece: str) -> bool:
    """Whether a line that begins with this would be read as an item, a heading, a quotation or a table."""
    return re.match(r"([-*+>#|]+|\d+[.)])$", piece) is not None


def wrap(text: str, first: str = "", rest: str = "") -> list[str]:
    """Returns a paragraph in lines, with these letters before the first and before the others."""
    lines: list[str] = []
    line, empty = first, True
    words = pieces(text)
    for k, word in enumerate(words):
        short = len(line) + (not empty) + len(word) <= COLUMNS
        if not empty and (not short or (k + 1 < len(words) and is_start(words[k + 1]) and len(line) + len(word) + len(words[k + 1]) + 2 > COLUMNS)):
            lines.append(line)
            line, empty = rest, True
        line += word if empty else " " + word
        empty = False
    return lines + [line]


def wrap_block(lines: list[str]) -> list[str]:
    item = ITEM.match(lines[0])
    quote = QUOTE.match(lines[0])
    if item:
        rest = " " * len(item[0])
        text = " ".join([lines[0][len(item[0]):], *(it.strip() for it in lines[1:])])
        return wrap(text, item[0], rest)
    if quote:
        return wrap(" ".join(QUOTE.sub("", it).strip() for it in lines), "> ", "> ")
    return wrap(" ".join(it.strip() for it in lines))


def wrap_page(page: str) -> str:
    """Returns the page with its prose in lines of at most 140 columns."""
    made: list[str] = []
    for kind, lines, _ in blocks(page):
        if kind == "prose" and any(len(it) > COLUMNS for it in lines):
            lines = wrap_block(lines)
        made += lines
    return "\n".join(made)


def overlong(page: str) -> list[int]:
    """Returns the numbers of the lines of prose with more columns. One that has no blank to break at is let be."""
    found: list[int] = []
    for kind, lines, start in blocks(page):
        if kind == "prose":
            found += [start + k for k, it in enumerate(lines) if len(it) > COLUMNS and len(pieces(it.strip())) > 2]
    return found
