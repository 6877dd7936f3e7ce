"""The repository as the pages speak of it: its crates, its definitions, its names."""
from __future__ import annotations

import functools
import re
from pathlib import Path

TOP = Path(__file__).resolve().parents[2]
CODE = {".rt", ".antt", ".py", ".c", ".h", ".cpp", ".hpp", ".in", ".js", ".html", ".css"}
LEFT_OUT = {".git", "out", "__pycache__", "node_modules"}
WORD = re.compile(r"[A-Za-z_][A-Za-z0-9_]*")


@functools.cache
def crates() -> dict[str, list[str]]:
    """Returns each crate with the crates that it stands on, as crates.txt has them, lowest first."""
    found: dict[str, list[str]] = {}
    for line in (TOP / "crates.txt").read_text().splitlines():
        line = line.split("#")[0].strip()
        if line:
            name, below = line.split(":")
            found[name.split()[0]] = below.split()
    return found


def is_tests(crate: str) -> bool:
    return crate.endswith("_tests")


@functools.cache
def is_room(crate: str) -> bool:
    """A room of laws has definitions and proofs, and no function with a body."""
    code = "\n".join(text(it) for it in files() if it.suffix == ".rt" and it.parts[:3] == ("crates", crate, "src"))
    functions, empty = re.findall(r"^\s*(?:pub )?(?:const )?fn \w", code, re.M), re.findall(r"^\s*\{\}$", code, re.M)
    return (TOP / "crates" / crate / "proofs").is_dir() and len(functions) == len(empty) and not is_tests(crate)


@functools.cache
def all_below(crate: str) -> frozenset[str]:
    """Returns all crates of the repository on which this one stands, directly or not."""
    found: set[str] = set()
    for it in crates().get(crate, []):
        if it in crates():
            found |= {it} | all_below(it)
    return frozenset(found)


@functools.cache
def files() -> list[Path]:
    """Returns each file of the repository, by its path from the top, but what is made by a build."""
    found: list[Path] = []
    stack = [TOP]
    while stack:
        for it in stack.pop().iterdir():
            if it.name in LEFT_OUT:
                continue
            if it.is_dir():
                stack.append(it)
            else:
                found.append(it.relative_to(TOP))
    return sorted(found)


@functools.cache
def text(path: Path | str) -> str:
    return (TOP / path).read_text(errors="replace")


def is_code(path: Path) -> bool:
    if path.suffix in CODE:
        return True
    return path.suffix == "" and path.parts[0] in ("checks", "tools", "bench", "clients", ".ci")


@functools.cache
def words(path: Path) -> frozenset[str]:
    """Returns the names in a file of code, those in comments left out."""
    code = text(path)
    if path.suffix == ".rt":
        code = re.sub(r"//.*", "", code)
    if path.suffix == ".antt":
        code = re.sub(r"--.*", "", code)
    return frozenset(WORD.findall(code))


@functools.cache
def words_below(folder: str) -> frozenset[str]:
    """Returns the names in the code below a folder of the repository, as `crates/rings`; of all of it for the empty name."""
    found: set[str] = set()
    for path in files():
        if is_code(path) and (not folder or str(path).startswith(folder + "/")):
            found |= words(path)
    return frozenset(found)


@functools.cache
def stems() -> frozenset[str]:
    """Returns the names of the files of code, without their endings."""
    return frozenset(it.stem for it in files() if is_code(it))


@functools.cache
def files_that_define(name: str) -> list[Path]:
    """Returns the files of code in which a function, a type or a definition has this name."""
    shape = re.compile(rf"\b(?:fn|struct|enum|trait|record|data|const|def|class|abbrev pub|type) {re.escape(name)}\b")
    return [path for path in files() if path.suffix in (".rt", ".antt", ".h", ".hpp", ".py") and name in words(path) and shape.search(text(path))]


class Definition:
    """Names that one comment of a file of definitions stands above."""

    def __init__(self, names: list[str], comment: str) -> None:
        self.names, self.comment = names, comment


class Module:
    """A file of definitions: its head, which says where they come from, and its definitions."""

    def __init__(self, path: Path) -> None:
        self.path = path
        self.crate, self.name = path.parts[1], "/".join(path.with_suffix("").parts[3:])
        self.definitions: list[Definition] = []
        head: list[str] = []
        comment: list[str] = []
        lines = text(path).split("\n")
        at = 0
        while at < len(lines) and lines[at].startswith("--"):
            head.append(lines[at][2:].strip())
            at += 1
        self.head = " ".join(head)
        for line in lines[at:]:
            found = re.match(r"(?:abbrev pub|pub record|pub data|pub abbrev) (\S+)", line)
            if line.startswith("--"):
                comment.append(line[2:].strip())
            elif found:
                if comment or not self.definitions:
                    self.definitions.append(Definition([], " ".join(comment)))
                self.definitions[-1].names.append(found[1])
                comment = []
            elif line.strip() == "":
                comment = []

    def is_private(self) -> bool:
        return re.search(r"[Nn]o public clause cites", self.head) is not None


@functools.cache
def modules() -> list[Module]:
    """Returns the files of definitions, crate by crate from the lowest on."""
    found = [path for path in files() if len(path.parts) > 3 and path.parts[2] == "specs" and path.suffix == ".antt" and path.name != "Lib.antt"]
    order = list(crates())
    place = {crate: k for k, crate in enumerate(order)}
    return [Module(path) for path in sorted(found, key=lambda it: (place.get(it.parts[1], len(order)), str(it)))]


def words_of_code(path: Path) -> frozenset[str]:
    return words(path) if is_code(path) else frozenset()
