"""The man page docs/geo.1, made of the card of docs/MANUAL.md and the table of docs/ERRORS.md."""
from __future__ import annotations

import re
import shutil
import subprocess
from pathlib import Path
from typing import Iterator

from . import answers, prose, sources

PAGE = Path("docs/geo.1")
ERRORS = Path("docs/ERRORS.md")
CARD, READING, REFUSALS, EXAMPLE = "On one screen", "Reading and answering", "Refusals and statuses", "l-shape"


class Section:
    """What stands below a heading of a page, or below its title."""

    def __init__(self, heading: str = "", page: Path = answers.PAGE) -> None:
        self.paragraphs: list[str] = []
        self.rows: list[list[str]] = []
        inside = False
        for kind, lines, _ in prose.blocks(sources.text(page)):
            if kind == "heading":
                inside = lines[0] == f"## {heading}" if heading else lines[0].startswith("# ")
            elif inside and kind == "prose":
                self.paragraphs.append(" ".join(it.strip() for it in lines))
            elif inside and kind == "table":
                self.rows += [[it.strip() for it in re.split(r"(?<!\\)\|", line)[1:-1]] for line in lines[2:]]

    def paragraph(self, begins: str) -> str:
        """The paragraph that begins so; the page has to be mended where there is none."""
        return next(it for it in self.paragraphs if it.startswith(begins))


def sign(text: str) -> str:
    """Text as it is to be read by man: a hyphen that can be copied, and no escape."""
    return text.replace("\\", "\\e").replace("-", "\\-").replace("'", "\\(aq").replace("`", "\\(ga")


def inline(text: str) -> str:
    """What stands between backticks becomes bold, and of a link its text is left."""
    text = re.sub(r"\[([^\]]*)\]\([^)]*\)", r"\1", text)
    spans = text.split("`")
    return "".join(f"\\fB{sign(it)}\\fR" if k % 2 else sign(it) for k, it in enumerate(spans))


def line(text: str) -> str:
    """A line of text, which no dot at its front makes a request."""
    return "\\&" + text if text.startswith((".", "'")) else text


def sentences(text: str) -> Iterator[str]:
    """A paragraph, a sentence a line."""
    for it in re.split(r"(?<=[.])\s+(?=[A-Z`])", text):
        yield line(inline(it))


def item(name: str, *texts: str) -> Iterator[str]:
    yield ".TP"
    yield line(inline(name))
    for k, text in enumerate(it for it in texts if it):
        if k:
            yield ".br"
        yield from sentences(text)


def sentence(text: str) -> str:
    """A text as a sentence, without a full stop where it ends with two dots already."""
    return text[0].upper() + text[1:] + ("" if text.endswith("..`") else ".")


def command(record: str, points: str, answer: str, meaning: str) -> Iterator[str]:
    count = "One point." if points == "1" else f"{points} points." if points else ""
    return item(record, meaning, count, sentence(f"Answer: {answer}"))


def remedy(text: str) -> str:
    """What to do as a sentence. One that points further down the page is left out."""
    if text in ("", "below"):
        return ""
    return sentence(f"See {text}" if text.startswith("[") else f"To do: {text}")


def refusals(errors: Section) -> Iterator[str]:
    yield from sentences(Section(page=ERRORS).paragraph("`geo` rejects"))
    for seen, where, cause, what in errors.rows:
        if seen.startswith("`bad,"):
            yield from item(seen.split(", ")[0], sentence(cause), sentence(f"In {where}"), remedy(what))
    yield ".PP"
    yield next(sentences(errors.paragraph("`bad,clash` reports")))


def statuses(errors: Section) -> Iterator[str]:
    for seen, _, cause, what in errors.rows:
        if seen.startswith("status "):
            yield from item(seen.split()[1].rstrip(","), sentence(cause), remedy(what))


def example() -> Iterator[str]:
    yield f".B geo < {EXAMPLE}"
    yield ".PP"
    yield "where the file has the records of the left side, writes the lines of the right side:"
    yield ".PP"
    yield ".nf"
    pairs = list(answers.answered(EXAMPLE))
    width = max(len(record) for record, _ in pairs)
    for record, lines in pairs:
        for k, answer in enumerate(lines):
            yield sign(f"{'' if k else record:{width}}    {answer}")
    yield ".fi"


def rows() -> Iterator[str]:
    version = sources.text("VERSION").strip()
    card, reading, errors = Section(CARD), Section(READING), Section(REFUSALS, ERRORS)
    without = reading.paragraph("Without arguments")
    comb = re.search(r"With the arguments (`--comb K`), K (from \S+ to \S+), ([^.]*)\.", without)
    assert comb and len(card.rows) > 10 and len(errors.rows) > 20
    yield f'.\\" Made of {answers.PAGE} and {ERRORS} by checks/docs --write.'
    yield f'.TH GEO 1 "" "geo {version}" "User Commands"'
    yield ".SH NAME"
    yield "geo \\- exact answers about one simple polygon"
    yield ".SH SYNOPSIS"
    yield "\\fBgeo\\fR < \\fISCRIPT\\fR"
    yield ".br"
    yield "\\fBgeo \\-\\-comb\\fR \\fIK\\fR"
    yield ".SH DESCRIPTION"
    yield from sentences(without.replace(comb[0], "").replace("  ", " "))
    yield ".PP"
    yield from sentences(card.paragraph("A script has"))
    yield ".SH OPTIONS"
    yield from item(comb[1], f"K is {comb[2]}. {sentence(comb[3])}")
    yield ".SH RECORDS"
    for row in card.rows:
        yield from command(*row)
    yield ".PP"
    yield from sentences(card.paragraph("`geo` rejects"))
    yield ".SH REFUSALS"
    yield from refusals(errors)
    yield '.SH "EXIT STATUS"'
    yield from statuses(errors)
    yield ".SH EXAMPLE"
    yield from example()
    yield '.SH "SEE ALSO"'
    yield "The tools"
    yield ".BR geo\\-records ,"
    yield ".BR geo\\-geojson ,"
    yield ".B geo\\-draw"
    yield "and"
    yield ".B geo\\-explore"
    yield "turn data into scripts, and answers into data and pictures; each says more with"
    yield ".BR \\-\\-help ."
    yield "The whole manual is"
    yield ".I share/geo/docs/MANUAL.md"
    yield "where this is installed."


def text() -> str:
    return "\n".join(rows()) + "\n"


def look() -> Iterator[str]:
    """What groff says of the page, where it is there."""
    if shutil.which("groff"):
        said = subprocess.run(["groff", "-ww", "-man", "-z", str(PAGE)], cwd=sources.TOP, capture_output=True, text=True)
        yield from (said.stderr or f"groff ended with status {said.returncode}" * (said.returncode != 0)).splitlines()
