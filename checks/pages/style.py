"""Measures the prose of the user pages: their length, their sentences, words of the house idiom, and their tables."""
from __future__ import annotations

import re
from pathlib import Path
from typing import Iterator, Tuple

from . import prose, sources

# The most words of a page, or of some pages together. Blocks of code and what is made of sources do not count.
MOST_WORDS = {
    "README.md": 700,
    "docs/TUTORIAL.md": 1200,
    "docs/MANUAL.md": 4500,
    "docs/LIMITS.md": 400,
    "docs/ERRORS.md": 500,
    "docs/FAQ.md": 800,
    "docs/COMPARISON.md": 700,
    "docs/GLOSSARY.md": 600,
    "docs/GUARANTEES.md": 2200,
    "docs/C.md docs/PYTHON.md docs/BATCH.md docs/WEB.md": 4400,
}
SENTENCE, COLUMNS, CELL, IDIOM = 30, 5, 12, 8  # words, columns, words, words in a thousand
HOUSE = re.compile(r"\b(told|tells?|asked|asks?|said|says|words?|beside|anew|dear|want of|wants?|wanted|stands?|stood|goes?|gone|comes?|whoever"
                   r"|whole-number|lent|hand(?:s|ed)? (?:on|in|out|over)|looked (?:at|for|up)|had back|does as well|thus|parted|of which|of them"
                   r"|where)\b", re.I)
MADE = re.compile(r"<!-- made: .*?<!-- end -->", re.S)
COMMENT = re.compile(r"<!--.*?-->", re.S)
PICTURE = re.compile(r"!\[[^\]]*\]\([^)]*\)")
LINK = re.compile(r"\[([^\]]*)\]\([^)]*\)")
END = re.compile(r"(?<=[.!?])\s+(?=[A-Z*`\"(]|geo\b)")
# a page, the number of a line, and what is wrong there
Wrong = Tuple[Path, int, str]


def user_pages() -> list[Path]:
    return [Path(it) for names in MOST_WORDS for it in names.split()]


def lines_alone(found: re.Match[str]) -> str:
    """What is left of a text that does not count: its line ends, so that the others keep their numbers."""
    return "\n" * found[0].count("\n")


def written(page: Path) -> str:
    """Returns what was written by hand."""
    return COMMENT.sub(lines_alone, MADE.sub(lines_alone, sources.text(page)))


def count(page: Path) -> int:
    return sum(len(line.split()) for kind, lines, _ in prose.blocks(written(page)) if kind != "code" for line in lines)


def sentences(page: Path) -> Iterator[tuple[int, str]]:
    """Yields each sentence of the running text, with the number of its line. Each item of a list is a paragraph, and headings, tables, pictures and
    code are none."""
    text = LINK.sub(lambda it: it[1], PICTURE.sub(lines_alone, written(page)))
    for kind, lines, start in prose.blocks(text):
        paragraph = re.sub(r"^ *([-*]|\d+\.|>) ", "", "\n".join(lines))
        if kind != "prose" or len(paragraph.split()) < 5:
            continue
        at = 0
        for found in [*(it.end() for it in END.finditer(paragraph)), len(paragraph)]:
            if len(paragraph[at:found].split()) >= 3:
                yield start + paragraph.count("\n", 0, at), re.sub(r"\s+", " ", paragraph[at:found].strip())
            at = found


def too_many_words() -> Iterator[Wrong]:
    for names, most in MOST_WORDS.items():
        pages = [Path(it) for it in names.split()]
        words = sum(count(it) for it in pages)
        if words > most:
            others = f", with {', '.join(map(str, pages[1:]))}" if pages[1:] else ""
            yield pages[0], 1, f"{words} words without code{others}, and {most} are the most"


def long_sentences(page: Path) -> Iterator[Wrong]:
    for line, sentence in sentences(page):
        words = sentence.split()
        if len(words) > SENTENCE:
            yield page, line, f"a sentence of {len(words)} words, and {SENTENCE} are the most: {' '.join(words[:6])} .."


def idiom(page: Path) -> Iterator[Wrong]:
    every = list(sentences(page))
    found = [(line, it.lower()) for line, sentence in every for it in HOUSE.findall(sentence)]
    words = sum(len(sentence.split()) for _, sentence in every)
    if len(found) * 1000 > IDIOM * words:
        where = ", ".join(f"{word} ({line})" for line, word in found)
        yield page, found[0][0], f"{len(found)} words of the house idiom in {words}, and {IDIOM} in a thousand are the most: {where}"


def wide_tables(page: Path) -> Iterator[Wrong]:
    for kind, lines, start in prose.blocks(written(page)):
        for k, row in enumerate(lines if kind == "table" else []):
            cells = [LINK.sub(lambda it: it[1], it) for it in re.split(r"(?<!\\)\|", row)[1:-1]]
            if len(cells) > COLUMNS and k == 0:
                yield page, start, f"a table of {len(cells)} columns, and {COLUMNS} are the most"
            for cell in cells:
                if len(cell.split()) > CELL:
                    yield page, start + k, f"a cell of {len(cell.split())} words, and {CELL} are the most: {' '.join(cell.split()[:6])} .."


def look() -> Iterator[Wrong]:
    """Yields what is wrong with the user pages that are there."""
    missing = [it for it in user_pages() if not (sources.TOP / it).exists()]
    if missing:
        yield from ((it, 1, "there is no such page, which checks/pages/style.py measures") for it in missing)
        return
    yield from too_many_words()
    for page in user_pages():
        yield from long_sentences(page)
        yield from idiom(page)
        yield from wide_tables(page)
