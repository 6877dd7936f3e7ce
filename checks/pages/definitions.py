"""Makes docs/DEFINITIONS.md of the comments in the files of definitions."""
from __future__ import annotations

import fnmatch
import re
from collections import defaultdict
from pathlib import Path

from . import prose, sources

INTRO = """# The definitions

The contracts cite definitions, and a definition is what a promise means. This page has each by the comment that stands above it in its file
under `specs/`, which is what is proved; no definition knows how the program computes. The page is made by `checks/docs --write`, and the plain words
at the head of a subject are from `checks/pages/subjects.md`. A name without words of its own stands beside the one whose comment speaks of both.

Numbers are whole. x grows to the right and y upward. Lists are counted from 0, and vertex numbers go round. Where the head of a file says "as
in the textbooks" or names authors, the definition is theirs. What a file imports from `declared` is a type or constant of the code itself."""


class Subject:
    def __init__(self, title: str) -> None:
        self.title = title
        self.of: list[str] = []
        self.words: list[str] = []
        self.modules: list[sources.Module] = []


def subjects() -> list[Subject]:
    found: list[Subject] = []
    for line in re.sub(r"<!--.*?-->", "", (Path(__file__).parent / "subjects.md").read_text(), flags=re.S).splitlines():
        if line.startswith("## "):
            found.append(Subject(line[3:]))
        elif line.startswith("of: "):
            found[-1].of = line[4:].split()
        elif found:
            found[-1].words.append(line)
    return found


def place(module: sources.Module, every: list[Subject]) -> Subject:
    """Returns the subject of a file: the one that names it, else the one that names its crate, else one at the end."""
    for whole in (True, False):
        for named in (f"{module.crate}/{module.name}", module.crate):
            for subject in every:
                if any(named == it if whole else fnmatch.fnmatchcase(named, it) for it in subject.of):
                    return subject
    if every[-1].title != "Other crates":
        every.append(Subject("Other crates"))
    return every[-1]


def anchor(title: str) -> str:
    return re.sub(r"[^a-z0-9 _-]", "", title.lower()).replace(" ", "-")


def heading(module: sources.Module) -> str:
    return f"`{module.path}`"


def sentence(comment: str) -> str:
    """A comment as a sentence of its own."""
    return comment if comment.endswith((".", ":")) else comment + "."


def without_private(head: str) -> str:
    head = re.sub(r"[^.]*[Nn]o public clause( --)? cites[^.]*\.?", "", head)
    return head.replace("This project's own.", "").strip()


def joined(lines: list[str]) -> list[str]:
    return prose.wrap(" ".join(it.strip() for it in lines if it.strip()))


def page() -> str:
    every = subjects()
    private = [it for it in sources.modules() if it.is_private()]
    for module in sources.modules():
        if not module.is_private() and module.definitions:
            place(module, every).modules.append(module)
    lines = INTRO.split("\n") + ["", "## By subject", ""]
    for subject in every:
        count = sum(len(it.names) for module in subject.modules for it in module.definitions)
        if count:
            lines.append(f"- [{subject.title}](#{anchor(subject.title)}): {count}")
    lines += ["- [Layouts, and words of proofs](#layouts-and-words-of-proofs)", "- [Index by name](#index-by-name)"]
    index: defaultdict[str, list[sources.Module]] = defaultdict(list)
    for subject in every:
        if not subject.modules:
            continue
        lines += ["", f"## {subject.title}"]
        words = "\n".join(subject.words).strip()
        if words:
            lines += ["", *joined(words.split("\n"))]
        for module in subject.modules:
            lines += ["", f"### {heading(module)}", "", *prose.wrap(module.head), ""]
            for it in module.definitions:
                names = ", ".join(f"`{name}`" for name in it.names)
                lines += prose.wrap(f"{names}: {sentence(it.comment)}" if it.comment else f"{names}: as said above.", "- ", "  ")
                for name in it.names:
                    index[name].append(module)
    lines += ["", "## Layouts, and words of proofs", "", *prose.wrap(
        "No public clause cites these. They say how a private type holds what callers see, how a body keeps count, or what proofs speak of."), "",
        "| File | What it has |", "|---|---|"]
    lines += [f"| `{it.path}` | {without_private(it.head)} |" for it in private]
    lines += ["", "## Index by name", ""]
    letters: defaultdict[str, list[str]] = defaultdict(list)
    for name in sorted(index, key=lambda it: (it.lower(), it)):
        for module in index[name]:
            where = f"[{module.crate} {module.name}](#{anchor(heading(module))})"
            letters[name[0].upper()].append(f"`{name}` {where}")
    for letter in sorted(letters):
        lines += [*prose.wrap("; ".join(letters[letter]) + "."), ""]
    return "\n".join(lines).rstrip() + "\n"
