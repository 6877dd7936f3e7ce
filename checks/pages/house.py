"""What crates.txt says of what stands on what: the drawing of the house, the table, and the last line of a crate's page."""
from __future__ import annotations

import re
from typing import Callable

from . import prose, sources

WIDTH, HEIGHT, ROW, MARGIN = 104, 26, 60, 20
GAP = {(True, True): 18, (True, False): 12, (False, True): 12, (False, False): 9}  # between two crates, a crate and a line, two lines
KINDS = {"room": ("#e6dcc6", "laws"), "code": ("#cfdfee", "code"), "top": ("#bfe0c4", "programs")}


def kind(crate: str) -> str:
    if sources.is_room(crate):
        return "room"
    above = [it for it, below in sources.crates().items() if crate in below and not sources.is_tests(it)]
    return "code" if above else "top"


def own(crate: str) -> list[str]:
    return [it for it in sources.crates()[crate] if it in sources.crates()]


def direct(crate: str) -> list[str]:
    """Returns the crates below that no other one below stands on: the lines of the drawing."""
    below = own(crate)
    return [it for it in below if not any(it in sources.all_below(other) for other in below)]


def level(crate: str) -> int:
    return 1 + max((level(it) for it in direct(crate)), default=-1)


class Node:
    """A crate in its layer, or the place at which a line passes a layer."""

    def __init__(self, crate: str, layer: int) -> None:
        self.crate, self.layer, self.x, self.place = crate, layer, 0.0, 0
        self.above: list[Node] = []
        self.below: list[Node] = []

    def half(self) -> float:
        return WIDTH / 2 if self.crate else 1


def join(high: Node, low: Node) -> None:
    high.below.append(low)
    low.above.append(high)


def graph(names: list[str]) -> list[list[Node]]:
    """Returns the layers, lowest first, in which each line passes every layer between its ends."""
    nodes = {it: Node(it, level(it)) for it in names}
    rows: list[list[Node]] = [[] for _ in range(1 + max(it.layer for it in nodes.values()))]
    for it in nodes.values():
        rows[it.layer].append(it)
    for it in nodes.values():
        for low in direct(it.crate):
            upper = it
            for k in range(it.layer - 1, nodes[low].layer, -1):
                passing = Node("", k)
                rows[k].append(passing)
                join(upper, passing)
                upper = passing
            join(upper, nodes[low])
    return rows


def number(row: list[Node]) -> None:
    for k, it in enumerate(row):
        it.place = k


def crossings(rows: list[list[Node]]) -> int:
    count = 0
    for row in rows:
        ends = [(it.place, low.place) for it in row for low in it.below]
        count += sum(1 for k, (a, b) in enumerate(ends) for c, d in ends[k + 1:] if (a - c) * (b - d) < 0)
    return count


def order(rows: list[list[Node]]) -> None:
    """Orders each layer by the means of the places next to it, and keeps the order with the fewest crossings."""
    for row in rows:
        number(row)
    least, best = crossings(rows), [list(row) for row in rows]
    for turn in range(40):
        for row in rows if turn % 2 == 0 else rows[::-1]:
            near = {it: (it.below if turn % 2 == 0 else it.above) for it in row}
            row.sort(key=lambda it: sum(other.place for other in near[it]) / len(near[it]) if near[it] else it.place)
            number(row)
        found = crossings(rows)
        if found < least:
            least, best = found, [list(row) for row in rows]
    for row, kept in zip(rows, best):
        row[:] = kept
        number(row)


def settle(row: list[Node], wanted: list[float]) -> None:
    """Puts a layer as near to the wanted places as its order and the gaps allow: the least sum of squares."""
    offset = 0.0
    offsets: list[float] = []
    for k, it in enumerate(row):
        if k:
            offset += row[k - 1].half() + it.half() + GAP[bool(row[k - 1].crate), bool(it.crate)]
        offsets.append(offset)
    pools: list[tuple[float, int]] = []
    for k in range(len(row)):
        pools.append((wanted[k] - offsets[k], 1))
        while len(pools) > 1 and pools[-2][0] > pools[-1][0]:
            value, count = pools.pop()
            before, many = pools.pop()
            pools.append(((before * many + value * count) / (many + count), many + count))
    k = 0
    for value, count in pools:
        for _ in range(count):
            row[k].x = value + offsets[k]
            k += 1


def spread(rows: list[list[Node]]) -> None:
    for row in rows:
        settle(row, [0.0] * len(row))
    for turn in range(60):
        for row in rows if turn % 2 == 0 else rows[::-1]:
            near = [it.above + it.below for it in row]
            settle(row, [sum(other.x for other in around) / len(around) if around else it.x for it, around in zip(row, near)])


def curve(it: Node, low: Node, y: Callable[[int], int]) -> str:
    """Returns the line from a node down to one in the layer below it."""
    straight = "" if it.crate else f"M{it.x:.0f} {y(it.layer):.0f}V{y(it.layer) + HEIGHT:.0f}"
    top, foot = y(it.layer) + HEIGHT, y(low.layer)
    middle = (top + foot) / 2
    return f"{straight}M{it.x:.0f} {top:.0f}C{it.x:.0f} {middle:.0f} {low.x:.0f} {middle:.0f} {low.x:.0f} {foot:.0f}"


def drawing() -> str:
    """The crates but those of tests, each above those that it stands on. No line is drawn that others say already."""
    rows = graph([it for it in sources.crates() if not sources.is_tests(it)])
    order(rows)
    spread(rows)
    nodes = [it for row in rows for it in row]
    left = min(it.x - it.half() for it in nodes) - MARGIN
    width = round(max(it.x + it.half() for it in nodes) + MARGIN - left)
    for it in nodes:
        it.x -= left
    height = 2 * MARGIN + len(rows) * ROW + 8

    def y(layer: int) -> int:
        return MARGIN + (len(rows) - 1 - layer) * ROW

    made = [f'<svg xmlns="http://www.w3.org/2000/svg" viewBox="0 0 {width} {height}" font-family="sans-serif" font-size="12">',
            "<title>The crates, each above those that it stands on</title>",
            f'<rect width="{width}" height="{height}" fill="white"/>']
    for it in nodes:
        if it.below:
            made.append(f'<path d="{"".join(curve(it, low, y) for low in it.below)}" fill="none" stroke="#888"/>')
    for it in nodes:
        if it.crate:
            made.append(f'<rect x="{it.x - WIDTH / 2:.0f}" y="{y(it.layer)}" width="{WIDTH}" height="{HEIGHT}" rx="4" fill="{KINDS[kind(it.crate)][0]}" stroke="#666"/>')
            made.append(f'<text x="{it.x:.0f}" y="{y(it.layer) + 17}" text-anchor="middle">{it.crate}</text>')
    for k, (fill, words) in enumerate(KINDS.values()):
        x, foot = MARGIN + k * 110, height - MARGIN - 12
        made.append(f'<rect x="{x}" y="{foot}" width="16" height="16" rx="3" fill="{fill}" stroke="#666"/>')
        made.append(f'<text x="{x + 24}" y="{foot + 13}">{words}</text>')
    return "\n".join(made) + "\n</svg>\n"


def first_sentence(crate: str) -> str:
    page = sources.text(f"crates/{crate}/README.md").split("\n\n")[1]
    return re.split(r"(?<=[a-z0-9`)])\.\s", page + "\n")[0].replace("\n", " ").rstrip(".")


def listed(names: list[str]) -> str:
    return ", ".join(f"`{it}`" for it in names)


def table() -> list[str]:
    """The table of what stands on what."""
    lines = ["| Crate | Does | Code that it stands on | Rooms |", "|---|---|---|---|"]
    for crate, below in sources.crates().items():
        if not sources.is_room(crate) and not sources.is_tests(crate):
            code = [it for it in below if not (it in sources.crates() and sources.is_room(it))]
            rooms = [it for it in below if it not in code]
            lines.append(f"| `{crate}` | {first_sentence(crate)} | {listed(code)} | {listed(rooms)} |")
    return lines


def rooms() -> list[str]:
    """The table of the rooms of laws."""
    lines = ["| Room | Has | Stands on |", "|---|---|---|"]
    for crate, below in sources.crates().items():
        if sources.is_room(crate):
            lines.append(f"| `{crate}` | {first_sentence(crate)} | {listed(below)} |")
    return lines


def edits() -> list[str]:
    """The table of the wrong programs, by their names."""
    lines = ["| Crate | Its wrong programs |", "|---|---|"]
    for crate in sources.crates():
        names = [it.stem.replace("_", " ") for it in sources.files() if it.suffix == ".edit" and it.parts[:3] == ("crates", crate, "must-fail")]
        if names:
            lines.append(f"| `{crate}/must-fail/` | {'; '.join(names)} |")
    return lines


def laws() -> list[str]:
    """The table of the laws: public functions without a body, with the words above them."""
    lines = ["| Law | Of | Says |", "|---|---|---|"]
    shape = re.compile(r"((?:^///[^\n]*\n)+)(?:^#\[[^\n]*\n)*^pub fn (\w+)(?:<[^\n]*>)?\([^\n]*\n(?:^ [^\n]*\n|^\n)*?^\{\}$", re.M)
    for crate in sources.crates():
        for path in sources.files():
            if path.suffix == ".rt" and path.parts[:3] == ("crates", crate, "src"):
                for words, name in shape.findall(sources.text(path)):
                    says = " ".join(it[3:].strip() for it in words.strip().split("\n"))
                    lines.append(f"| `{name}` | `{crate}` | {says.replace('|', chr(92) + '|')} |")
    return lines


def standing(crate: str) -> list[str]:
    """The last line of a crate's page."""
    below = sources.crates()[crate]
    words = f"It stands on {listed(below)}." if below else "It stands on nothing."
    return prose.wrap(words)
