"""Looks whether the tables of worked records of a page say what the files of examples/ say."""
from __future__ import annotations

import re
from pathlib import Path
from typing import Iterator, Optional

from . import prose, sources

PAGE = Path("docs/MANUAL.md")
MORE = ("tree", "see", "kernel", "hull", "sights")  # whose first line says how many more follow


def answered(name: str) -> Iterator[tuple[str, list[str]]]:
    """Yields each record of an example with the lines of its answer."""
    records = [it for it in re.split(r"\r\n|\n|\r", sources.text(f"examples/{name}")) if it.strip()]
    lines = sources.text(f"examples/{name}.stdout").splitlines()
    at = 0
    for record in records:
        first = lines[at] if at < len(lines) else ""
        word, _, count = first.partition(",")
        more = int(count.split(",")[0]) if word in MORE and count else 0
        yield record, lines[at:at + 1 + more]
        at += 1 + more


def tables(text: str) -> Iterator[tuple[str, list[list[str]], int]]:
    """Yields the name of the example that was named last, the rows of a table below it, and the number of its first line."""
    name: Optional[str] = None
    for kind, lines, start in prose.blocks(text):
        for found in re.findall(r"examples/([a-z0-9-]+)", "\n".join(lines)) if kind in ("prose", "code") else []:
            if (sources.TOP / f"examples/{found}.stdout").exists() and (sources.TOP / f"examples/{found}").exists():
                name = found
        if kind == "heading":
            name = None
        if kind == "table" and name and lines[0].startswith("| Record | Answer |"):
            yield name, [re.split(r"(?<!\\)\|", it)[1:-1] for it in lines[2:]], start + 2


def look(text: str) -> Iterator[tuple[int, str]]:
    """Yields (line, what is wrong)."""
    for name, rows, start in tables(text):
        pairs = list(answered(name))
        record: Optional[str] = None
        told: list[str] = []
        line = 0
        for k, row in enumerate([*rows, ["`end`", ""]]):
            spans = [re.findall(r"`([^`]*)`", cell) for cell in row]
            if spans[0]:
                if record is not None and not any(it == record and answer[:len(told)] == told for it, answer in pairs):
                    wanted = [answer for it, answer in pairs if it == record]
                    yield line, f"examples/{name} has no record {record}" if not wanted else f"in examples/{name} the answer to {record} is {wanted[0][0]}"
                record, told, line = spans[0][0], [], start + k
            told += spans[1] if len(spans) > 1 else []
