"""Looks at what each command prints for --help, where there is neither a program nor a library nor the toolchain: a usage and an example."""
from __future__ import annotations

import re
import shutil
import subprocess
import sys
import tempfile
from pathlib import Path
from typing import Iterator, Optional

from . import sources

COMMANDS = ["tools/draw", "tools/explore", "tools/geojson", "tools/install", "tools/records", "tools/release", "tools/test", "clients/c/install",
            "clients/python/build", "clients/python/wheel"]
SECONDS = 10


def helped(top: Path, command: str) -> tuple[Optional[int], str]:
    """Returns the exit status of the command, or nothing if it does not end, and what it prints."""
    path = f"{Path(sys.executable).parent}:/usr/bin:/bin"
    try:
        ended = subprocess.run([command, "--help"], cwd=top, env={"PATH": path}, stdin=subprocess.DEVNULL, capture_output=True, text=True,
                               timeout=SECONDS)
    except subprocess.TimeoutExpired:
        return None, ""
    return ended.returncode, ended.stdout


def wrong(command: str, status: Optional[int], printed: str) -> Iterator[str]:
    name = rf"({re.escape(command)}|geo-exact {Path(command).name})"
    lines = [it.strip() for it in printed.split("\n") if re.search(rf"^ +(\w+=\S+ )?{name}( |$)", it)]
    if status != 0:
        yield f"{command} --help " + (f"ends with status {status}, not 0" if status is not None else f"does not end in {SECONDS} seconds")
    elif not lines:
        yield f"{command} --help prints no usage: no line with {command}"
    elif all(re.search(r"\[|(?<![$\w])[A-Z]{2,}\b(?!=)", it) for it in lines):
        yield f"{command} --help prints no example: no line with {command} that could be run as it is"


def look() -> Iterator[tuple[Path, int, str]]:
    """Runs the commands in a folder that has nothing but them and the clients that they import."""
    with tempfile.TemporaryDirectory() as made:
        for it in ("tools", "clients"):
            shutil.copytree(sources.TOP / it, Path(made) / it, ignore=shutil.ignore_patterns("out", "*.so", "__pycache__"))
        for command in COMMANDS:
            if (sources.TOP / command).exists():
                for what in wrong(command, *helped(Path(made), command)):
                    yield Path(command), 1, what
            else:
                yield Path(command), 1, "there is no such command, which checks/pages/usage.py runs"
