"""Looks whether what a page has between backticks exists: paths, crates, and names in the code; and whether its links lead somewhere."""
from __future__ import annotations

import re
from pathlib import Path
from typing import Iterator, Optional

from . import definitions, prose, sources

SPAN = re.compile(r"(`+)(.+?)\1", re.S)
LINK = re.compile(r"\]\(([^)\s]+)\)")
NAME = re.compile(r"[A-Za-z_][A-Za-z0-9_]*")
ENDINGS = (".rt", ".antt", ".md", ".svg", ".py", ".c", ".h", ".cpp", ".hpp", ".txt", ".edit", ".stdout", ".args", ".geojson", ".wkt", ".so", ".a", ".html", ".js")
# what a command line of a page makes
MADE = re.compile(r"\.(frame|script|log|so|so\.1|a|pc)$|^(bin|include|lib|share)/|^answers\.geojson$|^(building|panel|bracket|trees|plan)\.(geojson|svg|script)$|(^|/)out(/|$)")
# names of the toolchain, and of programs that others wrote
OTHERS = {"rt", "rattle", "antt", "std", "csv", "itoa", "clap", "circular_buffer", "std_alloc", "core", "unfolding", "is_simple_2", "countries50"}


class Span:
    def __init__(self, text: str, line: int, after: str, block: str) -> None:
        self.text, self.line, self.after, self.block = text, line, after, block


def spans(page: str) -> Iterator[Span]:
    """Yields what stands between backticks, but not in blocks of code."""
    for kind, lines, start in prose.blocks(page):
        if kind in ("code", "blank"):
            continue
        for row, text in enumerate(lines) if kind == "table" else [(0, "\n".join(lines))]:
            for found in SPAN.finditer(text):
                yield Span(re.sub(r"\s+", " ", found[2]), start + row + text.count("\n", 0, found.start()), text[found.end():], text)


def is_path(text: str) -> bool:
    if re.search(r"[\s,(){}<>|=\"*:;]", text) or text.startswith(("-", "/dev", "http")) or text in ENDINGS:
        return False
    return text.endswith(ENDINGS) or text.endswith("/") or re.fullmatch(r"[A-Za-z0-9_.-]+/[A-Za-z0-9_./-]+", text) is not None and not re.fullmatch(r"-?\d+/-?\w+|a/d", text)


def named_crates(block: str, page: Path) -> list[str]:
    """The crates that a block of a page may speak of without their folder: the page's own, and those that it names."""
    own = [page.parts[1]] if page.parts[0] == "crates" else []
    return own + [it for it in re.findall(r"`([a-z0-9_]+)`", block) if it in sources.crates()]


def found_path(text: str, page: Path, block: str = "") -> Optional[Path]:
    """Returns the file or folder that a path stands for, if there is one. A module of definitions or proofs may lack its ending."""
    bare = re.sub(r"^(\.\./)+", "", text.rstrip("/"))
    begins = [Path(""), page.parent, Path("crates"), Path("docs"), *(Path("crates") / it for it in named_crates(block, page))]
    for folder in begins:
        for ending in ("", ".antt", ".rt"):
            if (sources.TOP / folder / (bare + ending)).exists():
                return folder / (bare + ending)
    return None


def found_below(text: str, page: Path, block: str) -> list[Path]:
    """Returns the files that have this name, or end so, in the crates that the block may speak of; in a page of no crate, in all."""
    inside = tuple(f"crates/{it}/" for it in named_crates(block, page)) if page.parts[0] == "crates" else ("",)
    bare = text.rstrip("/")
    ends = tuple(f"/{bare}{ending}" for ending in ("", ".antt", ".rt"))
    return [it for it in sources.files() if str(it).startswith(inside) and (f"/{it}".endswith(ends) or f"/{bare}/" in f"/{it}")]


def exists(text: str, page: Path, block: str) -> bool:
    return MADE.search(text) is not None or found_path(text, page, block) is not None or found_below(text, page, block) != []


def known(span: Span, page: Path) -> list[str]:
    """The folders whose names a span may use: of a crate's page the crate, those below it and those named beside it; else all."""
    if page.parts[0] != "crates":
        return [""]
    crates = set(named_crates(span.block, page))
    for it in list(crates):
        crates |= sources.all_below(it)
    return [*(f"crates/{it}" for it in sorted(crates)), "checks", "tools", "examples", "clients", "bench"]


def wrong_name(span: Span, page: Path) -> Optional[str]:
    """Returns the first name of a span that no code has where it may be."""
    where = known(span, page)
    for name in NAME.findall(span.text):
        here = name in OTHERS or name in sources.crates() or name in sources.stems() or (sources.TOP / name).exists() or (sources.TOP / "examples" / name).exists()
        if len(name) > 2 and not here and not any(name in sources.words_below(it) for it in where):
            return str(name)
    return None


def of_what(after: str) -> Optional[str]:
    """The span that says where a name is: `name` of `crate`, `name` in `path`, with nothing but other names between."""
    found = re.match(r"(?:(?:,| and|,? or)\s+`[^`]+`)*\s+(?:of|in)\s+`([^`]+)`", after)
    return re.sub(r"\s+", " ", found[1]) if found else None


def places(text: str, page: Path, block: str) -> list[Path]:
    """The files of code that a span names: by a path, a crate, or a function or type that they define."""
    if text in sources.crates():
        text = f"crates/{text}"
    if is_path(text):
        at = found_path(text, page, block)
        if at is not None and (sources.TOP / at).is_dir():
            return [it for it in sources.files() if str(it).startswith(str(at) + "/") and sources.is_code(it)]
        return [at] if at is not None else found_below(text, page, block)
    name = text.split("(")[0].split("::")[-1]
    return sources.files_that_define(name) if NAME.fullmatch(name) else []


def has_part(owner: str, name: str) -> bool:
    """Whether some file that names the owner defines a function of this name, or, of a variant or a constant, has it."""
    defined = re.compile(rf"\b(?:fn|def) {name}\b")
    for it in sources.files():
        words = sources.words_of_code(it)
        if owner in words and name in words and (name[0].isupper() or defined.search(sources.text(it))):
            return True
    return False


def has_name(path: Path, name: str) -> bool:
    """Whether a file of code has this as the name of something of its own: not where it is only cited."""
    if name not in sources.words(path):
        return False
    own = rf"\b(?:fn|struct|enum|trait|record|data|const|static|def|class|type|mod|abbrev|pub|ensures|requires) {name}\b|^\s*{name}\s*[:,({{]"
    return re.search(own, sources.text(path), re.M) is not None


def wrong(span: Span, page: Path) -> Optional[str]:
    """Returns what is wrong with a span, if anything."""
    text = span.text
    if is_path(text):
        return None if exists(text, page, span.block) else f"there is no `{text}`"
    if not text.isascii() or "{" in text:
        return None
    if NAME.fullmatch(text) or re.fullmatch(r"[A-Za-z_][A-Za-z0-9_]*(::[A-Za-z_][A-Za-z0-9_]*)+", text) or re.fullmatch(r"[A-Za-z_][A-Za-z0-9_.:]*\(.*\)", text):
        name = wrong_name(span, page)
        if name:
            return f"no code has the name {name} of `{text}`"
        parts = text.split("(")[0].split("::")
        if len(parts) > 1 and parts[0] not in OTHERS and not has_part(parts[-2], parts[-1]):
            return f"no file has both parts of `{text}`"
        where = of_what(span.after)
        last = NAME.findall(text.split("(")[0])
        if where and last and text not in sources.crates():
            found = places(where, page, span.block)
            if found and not any(has_name(it, last[-1]) if where in sources.crates() else last[-1] in sources.words(it) for it in found) \
                    and not any(it.stem == last[-1] or last[-1] in it.parts for it in found):
                return f"`{text}` is not in `{where}`"
        return None
    if not re.match(r"rt ", text):
        for word in text.split():
            if is_path(word) and not exists(word, page, span.block):
                return f"there is no {word} of `{text}`"
    return None


def anchors(text: str) -> set[str]:
    """The anchors of the headings of a page. Of headings with the same text the second has -1 at its end, and so on."""
    found: set[str] = set()
    for kind, lines, _ in prose.blocks(text):
        if kind == "heading":
            bare = definitions.anchor(lines[0].lstrip("# "))
            found.add(next(it for it in [bare, *(f"{bare}-{k}" for k in range(1, len(found) + 1))] if it not in found))
    return found


def links(text: str) -> Iterator[tuple[int, str]]:
    """Yields each link of a page, but not in blocks of code, with the number of its line."""
    for kind, lines, start in prose.blocks(text):
        for k, line in enumerate(lines if kind != "code" else []):
            yield from ((start + k, it) for it in LINK.findall(line))


def look(page: Path, text: str) -> Iterator[tuple[int, str]]:
    """Yields (line, what is wrong) for a page."""
    for span in spans(text):
        found = wrong(span, page)
        if found:
            yield span.line, found
    for number, link in links(text):
        to, _, part = link.partition("#")
        if link.startswith("http"):
            continue
        at = page.parent / to if to else page
        if not (sources.TOP / at).exists() or not (sources.TOP / at).resolve().is_relative_to(sources.TOP):
            yield number, f"the link to {to} leads nowhere"
        elif part and part not in anchors(text if not to else sources.text(at)):
            yield number, f"the link to #{part} leads nowhere"
