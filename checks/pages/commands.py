"""Runs the command lines of the pages. Those that end with a remark on seconds, minutes or hours are long, and only looked at; what proves, builds
or measures has to have one, and is never run from here. On a user page each line that does not run has to have one."""
from __future__ import annotations

import os
import re
import shutil
import signal
import subprocess
import tempfile
from concurrent.futures import ThreadPoolExecutor
from pathlib import Path
from typing import Iterator, Tuple

from . import names, prose, sources, style

LONG = re.compile(r"\s#\s.*\b(minutes?|hours?|seconds?|until)\b[^#]*$")
# one that says so is refused, as the page shows
REFUSED = re.compile(r"\s#\s.*\brefused\b[^#]*$")
REMARK = re.compile(r"\s#\s[^#]*$")
BUILTIN = {"cd", "echo", "for", "exit", "export"}
BUILT = re.compile(r"(crates/[a-z_]+/out/[A-Za-z0-9_./]+)")
# what asks the toolchain or a compiler, or runs one of the repository's own checks
HEAVY = re.compile(r"\brt (?!version|doc|--help)|\brt$|\.ci/run|\b(checks|bench|clients)/|\bunittest\b|\b(cc|c\+\+) -|examples/library/|^\./|tools/(explore|install|release)")
SECONDS = 60
# a page, the number of a line, and what is wrong there
Wrong = Tuple[Path, int, str]


class Line:
    """A command line of a page. A backslash at its end joins the next one to it."""

    def __init__(self, number: int, text: str) -> None:
        self.number, self.text = number, text
        self.is_long = LONG.search(text) is not None
        self.is_command = is_command(text)

    def wants(self) -> list[str]:
        """What has to be built before this can run."""
        program = ["crates/geo/out/geo"] if "tools/" in self.text else []
        return program + BUILT.findall(self.text)

    def can_run(self) -> bool:
        """Whether what it wants is built, and each program that it names is there."""
        named = re.findall(r"(?:^|[|;&(]\s*)([a-z][a-z0-9]*)(?=\s)", REMARK.sub("", self.text))
        return all((sources.TOP / it).exists() for it in self.wants()) and all(it in BUILTIN or shutil.which(it) for it in named)


def is_command(line: str) -> bool:
    first = re.sub(r"^(\(\s*|\{\s*|(cd \S+ && ))+", "", line).split(" ")[0]
    return re.match(r"(\(cd|cd|for|export|\w+=|\{) ?", line) is not None or "/" in first and not first.startswith(("+", "|")) or first == "rt" or shutil.which(first) is not None


def blocks_of(text: str) -> Iterator[list[Line]]:
    """Yields the lines of each block of code of a page that has a command line."""
    for kind, lines, start in prose.blocks(text):
        if kind != "code" or lines[0].startswith("```") and lines[0].strip("` ") not in ("", "sh"):
            continue
        found: list[Line] = []
        joined, before = "", 0
        for k, line in enumerate(lines):
            line = line.strip()
            if line.startswith("```") or not line:
                continue
            if not joined:
                before = k
            joined = f"{joined} {line}".strip()
            if joined.endswith("\\"):
                joined = joined[:-1].strip()
                continue
            found.append(Line(start + before, joined))
            joined = ""
        if any(it.is_command for it in found):
            yield found


def never_run(blocks: list[list[Line]]) -> list[Line]:
    """The lines among command lines that are none here, such as those of a program that is not there, without a remark."""
    return [it for block in blocks for it in block if not it.is_command and not it.is_long]


def wrong_paths(line: Line) -> list[str]:
    """The paths of a command line that do not exist, those that it makes itself left out."""
    text = REMARK.sub("", line.text)
    inside = re.match(r"\(?cd (\S+) && ", text)
    folder = Path(inside[1]) if inside else Path("")
    if inside and not (sources.TOP / folder).is_dir():
        return [str(folder)]
    made = set(re.findall(r"(?:>|-o|--save|--log|tee) ?([A-Za-z0-9_./-]+)", text))
    found = []
    for word in re.findall(r"(?<![\w$\"'=,/.])(?:\.?[A-Za-z0-9_-]+|\.\.)/[A-Za-z0-9_./-]*", text):
        if word not in made and not names.MADE.search(word) and not word.startswith("dev/") and not (sources.TOP / folder / word).exists() and not (sources.TOP / word).exists():
            found.append(word)
    return found


def run(page: Path, block: list[Line], top: Path) -> tuple[list[Wrong], int]:
    """Runs the lines of a block in one shell, in a folder that stands for the top. Returns what is wrong, and how many did not run."""
    script: list[str] = []
    found: list[Wrong] = []
    ran = 0
    for line in block:
        if not line.is_long and HEAVY.search(line.text):
            found.append((page, line.number, "no remark at the end of the command line says how long it takes"))
    for line in block:
        if not line.can_run():
            break
        if not line.is_long and not HEAVY.search(line.text):
            script.append(f"{'! ' if REFUSED.search(line.text) else ''}{{ {line.text}\n}} || {{ echo 'LINE {line.number}' >&2; exit 1; }}")
            ran += 1
    if not script:
        return found, len(block)
    shell = subprocess.Popen(["bash", "-o", "pipefail", "-c", "\n".join(script)], cwd=top, stdin=subprocess.DEVNULL, stdout=subprocess.DEVNULL,
                             stderr=subprocess.PIPE, start_new_session=True)
    try:
        said = shell.communicate(timeout=SECONDS)[1].decode(errors="replace").strip()
    except subprocess.TimeoutExpired:
        os.killpg(shell.pid, signal.SIGKILL)
        shell.communicate()
        return found + [(page, block[0].number, f"these command lines take more than {SECONDS} seconds, and no remark says so")], len(block) - ran
    if shell.returncode:
        at = re.findall(r"LINE (\d+)", said)
        found.append((page, int(at[-1]) if at else block[0].number, "the command line failed: " + said[-400:].replace("\n", " | ")))
    return found, len(block) - ran


def look(pages: list[Path]) -> tuple[list[Wrong], int, int]:
    """Returns what is wrong with the command lines of these pages, how many there are, and how many did not run."""
    found: list[Wrong] = []
    total, left = 0, 0

    def page_run(job: tuple[Path, list[list[Line]], Path]) -> list[tuple[list[Wrong], int]]:
        page, blocks, top = job
        return [run(page, block, top) for block in blocks]

    with tempfile.TemporaryDirectory() as made:
        jobs: list[tuple[Path, list[list[Line]], Path]] = []
        for page in pages:
            every = list(blocks_of(sources.text(page)))
            blocks = [[it for it in block if it.is_command] for block in every]
            if page in style.user_pages():
                found += [(page, line.number, f"not run, and no remark at its end says how long it takes: {line.text[:60]}") for line in never_run(every)]
            for line in (it for block in blocks for it in block):
                total += 1
                found += [(page, line.number, f"there is no {word}, of a command line") for word in wrong_paths(line)]
            top = Path(made) / str(page).replace("/", "_")
            top.mkdir()
            for it in sources.TOP.iterdir():
                if it.name not in (".git",):
                    (top / it.name).symlink_to(it)
            jobs.append((page, blocks, top))
        with ThreadPoolExecutor(max_workers=min(4, os.cpu_count() or 1)) as pool:
            for results in pool.map(page_run, jobs):
                for wrong, unrun in results:
                    found += wrong
                    left += unrun
    return found, total, left
