"""Rings and records to time the program on. They come out the same on each machine."""
from __future__ import annotations

import functools
import itertools
import math
import random
from fractions import Fraction
from typing import Callable, Dict, List, Sequence, Tuple

Point = Tuple[int, int]
Ring = List[Point]

L = [(0, 0), (4, 0), (4, 2), (2, 2), (2, 4), (0, 4)]
WIDTH = 100  # of the corridors of mazes and spirals
SPIKES = 64  # of the broom, as many as a hull takes points


def comb(n: int) -> Ring:
    """A strip that goes up and down."""
    k = n // 2 - 1
    low = [(4 * i, 6 * (i % 2)) for i in range(k + 1)]
    return low + [(x, y + 2) for x, y in reversed(low)]


def star(n: int) -> Ring:
    """A ring that is seen whole from the origin, with vertices at random distances."""
    draw = random.Random(n)
    turns = [2 * math.pi * i / n for i in range(n)]
    return [(round(r * math.cos(t)), round(r * math.sin(t))) for t in turns for r in [draw.randint(400_000, 990_000)]]


def houses(n: int, width: int, town: int = 0) -> Ring:
    """A ring of upright and level edges: houses of random heights, wall to wall, other ones in each town."""
    draw = random.Random(n + 100_000 * town)
    roof: Ring = []
    height = 0
    for i in reversed(range(n // 2 - 1)):
        height = draw.choice([h for h in range(1000, 900_000, 1000) if h != height])
        roof += [(width * (i + 1), height), (width * i, height)]
    return [(0, 0), (roof[0][0], 0)] + roof


def skyline(n: int) -> Ring:
    """Wide houses."""
    return houses(n, 400)


def slope(n: int, town: int = 0) -> Ring:
    """Narrow houses, turned by an eighth, of which the last ones clash: the edges n - 5 and n - 3 are the least pair."""
    ring = houses(n, 40, town)
    ring[-4:-2] = [(40, 500), (80, 500)]
    return [(x - y, x + y) for x, y in ring]


def wall(n: int, parts: int = 1) -> Ring:
    """On one side of a way the tips of about a quarter of the vertices touch it, on the other long teeth go down beside it, with so many
    edges on each side; all that slanted."""
    teeth, tips = wall_counts(n, parts)
    height = 4 * tips + 8
    left = [point for k in reversed(range(tips)) for point in ((-10, 4 * k + 6), (0, 4 * k + 4))]
    ends = [point for k in reversed(range(teeth)) for point in ((4 * k + 10, height), (4 * k + 8, 1))] + [(6, height)]
    down = [(a + (c - a) * k // parts, b + (d - b) * k // parts) for (a, b), (c, d) in zip(ends, ends[1:]) for k in range(parts)]
    upright = [(-10, 0), (4 * teeth + 10, 0)] + down + [(5, height), (-10, height)] + left
    return [slanted(point) for point in upright]


def wall_counts(n: int, parts: int) -> Tuple[int, int]:
    """How many teeth it has, and how many tips."""
    teeth = (n - 2 * (n // 4) - 4) // (2 * parts)
    return teeth, (n - 4) // 2 - parts * teeth


def slanted(point: Point) -> Point:
    x, y = point
    return (3 * x + y, x + 2 * y)


def fence(n: int) -> Ring:
    """A wall that has 16 edges on each side of a tooth."""
    return wall(n, 16)


def spiral(n: int) -> Ring:
    """A corridor that winds inward."""
    arms = n // 2
    outer = [(0, 0)]
    for i in range(arms - 1):
        length = 4 * (arms - i)
        x, y = outer[-1]
        dx, dy = [(1, 0), (0, 1), (-1, 0), (0, -1)][i % 4]
        outer.append((x + dx * length, y + dy * length))
    inner = []
    for i, (x, y) in enumerate(outer):
        dx, dy = [(1, 1), (-1, 1), (-1, -1), (1, -1)][i % 4]
        inner.append((x + dx, y + dy))
    return [(WIDTH * x, WIDTH * y) for x, y in outer + inner[::-1]]


def saw(n: int) -> Ring:
    """A ring whose teeth hang down to the height 1, where a level way touches the tip of each."""
    width = n - 4
    return [(0, 0), (width // 2, -1), (width, 0)] + [(x, 2 - x % 2) for x in reversed(range(width + 1))]


def fan(n: int) -> Ring:
    """A triangle that has all other vertices on the side across from its least corner."""
    return [(-100, 0)] + [(i, 2 * i) for i in range(n - 1)]


def maze(n: int) -> Ring:
    """The boundary of a maze without rounds: corridors along a random tree."""
    corners = {0: 4, 1: 2, 2: 2, 3: 2, 4: 4}
    ways = [(1, 0), (0, 1), (-1, 0), (0, -1)]
    draw, rooms, missing = random.Random(n), [(0, 0)], n - 4
    open_ways: Dict[Point, set[int]] = {(0, 0): set()}

    def count(of: set[int]) -> int:
        return 0 if of in ({0, 2}, {1, 3}) else corners[len(of)]

    while missing:
        (x, y), way = draw.choice(rooms), draw.randrange(4)
        there = (x + ways[way][0], y + ways[way][1])
        more = count(open_ways[x, y] | {way}) - count(open_ways[x, y]) + 2
        if there not in open_ways and more <= missing:
            open_ways[x, y].add(way)
            open_ways[there] = {(way + 2) % 4}
            rooms.append(there)
            missing -= more
    squares = {(2 * x, 2 * y) for x, y in open_ways}
    squares |= {(2 * x + ways[way][0], 2 * y + ways[way][1]) for (x, y), out in open_ways.items() for way in out}
    after: Dict[Point, Point] = {}
    for x, y in squares:
        for way, begin, end in ((3, (x, y), (x + 1, y)), (0, (x + 1, y), (x + 1, y + 1)),
                                (1, (x + 1, y + 1), (x, y + 1)), (2, (x, y + 1), (x, y))):
            if (x + ways[way][0], y + ways[way][1]) not in squares:
                after[begin] = end
    first = min(after)
    ring: Ring = []
    here = first
    while not ring or here != first:
        before, here = here, after[here]
        beyond = after[here]
        if (here[0] - before[0], here[1] - before[1]) != (beyond[0] - here[0], beyond[1] - here[1]):
            ring.append((WIDTH * here[0], WIDTH * here[1]))
    return ring


def short_vectors(count: int) -> Ring:
    """So many whole vectors that go upward and to the right, of which no two have one direction: the shortest, by their directions,
    counterclockwise."""
    far = math.isqrt(3 * count) + 3
    found = [(x, y) for x in range(1, far) for y in range(1, far) if math.gcd(x, y) == 1]
    found.sort(key=lambda vector: (vector[0] ** 2 + vector[1] ** 2, vector))
    return sorted(found[:count], key=lambda vector: Fraction(vector[1], vector[0]))


def sums(start: Point, steps: Sequence[Point]) -> Ring:
    """Where each of some steps ends that begin at a point."""
    return list(itertools.accumulate(steps, lambda at, step: (at[0] + step[0], at[1] + step[1]), initial=start))


def convex(n: int) -> Ring:
    """A ring that turns at each vertex, with short edges. Four go into n."""
    quarter = [(4 * x, 4 * y) for x, y in short_vectors(n // 4)]
    half = quarter + [(-y, x) for x, y in quarter]
    return sums((0, 0), half + [(-x, -y) for x, y in half])[:-1]


def moon(n: int) -> Ring:
    """Two arcs that bulge to the same side: the outer one turns left at each vertex, and the inner one right. Four go into n."""
    up = short_vectors(n // 4)
    way = up + [(-x, y) for x, y in reversed(up)]
    outer, inner = (sums((0, 0), [(wide * x, 4 * y) for x, y in way]) for wide in (8, 4))
    return outer + inner[-2:0:-1]


def arch(n: int) -> Ring:
    """A ring whose teeth hang down to a convex curve, so that the way from end to end bends at each tip."""
    chain = way_along_arch(n)
    valleys = [((a + c) // 2, (b + d) // 2 + n) for (a, b), (c, d) in zip(chain, chain[1:])]
    roof = [point for both in zip(chain, valleys) for point in both] + chain[-1:]
    low, right = min(y for _, y in chain) - n, chain[-1][0]
    return [(0, low), (right // 2, low - 1), (right, low)] + roof[::-1]


def hourglass(n: int) -> Ring:
    """A level edge under two chains that bend toward each other, of which each vertex of one sees those of the other: a triangulation of
    what is between them can be far from another one."""
    half = n // 2
    left = [(x + y, x + 2 * y) for x, y in short_vectors(half)]
    right = [(2 * x + 3 * y, -x - y) for x, y in short_vectors(n - half - 2)]
    height = -sum(y for _, y in right)
    chain = sums((0, 0), left) + sums((4 * height, height), right)
    return chain[:1] + chain[:0:-1]


def zigzag(n: int) -> Ring:
    """Long slanted edges side by side, of which the last ones clash: the edges n - 6 and n - 4 are the least pair."""
    last = n - 3
    rises = [(k + n * (k % 2), n * (k % 2)) for k in range(last)]
    return rises + [(last - 3 + n, n), (4 * n, -2), (-1, -1)]


def vertices(ring: Ring, count: int) -> Ring:
    """Vertices of a ring at random."""
    draw = random.Random(count)
    return [draw.choice(ring) for _ in range(count)]


def places(ring: Ring, count: int) -> Ring:
    """Points at random in the box round a ring."""
    draw = random.Random(count)
    xs, ys = zip(*ring)
    left, low, right, high = min(xs), min(ys), max(xs), max(ys)
    return [(draw.randint(left, right), draw.randint(low, high)) for _ in range(count)]


def inner_places(ring: Ring, count: int) -> Ring:
    """Points at random that are inside a ring and on no edge, some of them on a level."""
    draw = random.Random(count)
    found: Ring = []
    heights = {y for _, y in ring}
    while len(found) < count:
        y = draw.randint(min(heights), max(heights))
        rooms = [] if y in heights else rooms_at(ring, y)
        found += [(draw.randint(*draw.choice(rooms)), y) for _ in range(20 if rooms else 0)]
    draw.shuffle(found)
    return found[:count]


def rooms_at(ring: Ring, y: int) -> list[Tuple[int, int]]:
    """The least and the greatest whole x of each stretch inside a ring at a height where it has no vertex."""
    walls = sorted(Fraction((c - a) * (y - b), d - b) + a
                   for (a, b), (c, d) in zip(ring, ring[1:] + ring[:1]) if (b < y) != (d < y))
    rooms = [(math.floor(left) + 1, math.ceil(right) - 1) for left, right in zip(walls[::2], walls[1::2])]
    return [room for room in rooms if room[0] <= room[1]]


def way_along_comb(n: int) -> Ring:
    """The taut chain from one end of the comb to the other."""
    k = n // 2 - 1
    ends = [(0, 1), (4 * k, 6 * (k % 2) + 1)]
    return ends[:1] + [(4 * i, 6 if i % 2 else 2) for i in range(1, k)] + ends[1:]


def outer_corners(n: int, count: int) -> Ring:
    """So many corners of the comb round which no path bends, half of them at each end."""
    outer = [(4 * i, 8 * (i % 2)) for i in range(n // 2)]
    return outer[:count // 2] + outer[-(count // 2):]


def spike(corner: Point) -> Ring:
    """What the broom has in the place of an outer corner of the comb. The third is the tip."""
    (x, y), way = (4 * corner[0], 4 * corner[1]), 1 if corner[1] else -1
    return [(x + way, y), (x + way, y + 9 * way), (x, y + 20 * way), (x - way, y + 9 * way), (x - way, y)]


def broom(n: int) -> Ring:
    """A comb with 32 spikes at each end. No path from tip to tip comes by another tip."""
    ring = comb(n - 4 * SPIKES)
    spiked = set(outer_corners(len(ring), SPIKES))
    return [point for x, y in ring for point in (spike((x, y)) if (x, y) in spiked else [(4 * x, 4 * y)])]


def tips_of_broom(n: int) -> Ring:
    """The tips of its spikes."""
    return [spike(corner)[2] for corner in outer_corners(n - 4 * SPIKES, SPIKES)]


def way_through_saw(n: int) -> Ring:
    """The level way that touches each tooth."""
    return [(0, 1), (n - 4, 1)]


def way_past_teeth(n: int) -> Ring:
    """The level way with each tooth that it touches."""
    begin, end = way_through_saw(n)
    return [begin, *((x, 1) for x in range(1, n - 4, 2)), end]


def way_across_convex(n: int) -> Ring:
    """The straight way from the vertex farthest to the right to that farthest to the left."""
    ring = convex(n)
    return [ring[n // 4], ring[3 * n // 4]]


def way_along_wall(n: int, parts: int = 1) -> Ring:
    """Past the tips that touch it."""
    _, tips = wall_counts(n, parts)
    return [slanted((0, 1)), slanted((0, 4 * tips + 7))]


def way_along_fence(n: int) -> Ring:
    return way_along_wall(n, 16)


def way_along_arch(n: int) -> Ring:
    """The taut chain past the tips of the teeth of the arch. An even number of teeth."""
    up = short_vectors((n - 4) // 4)
    return sums((0, 0), [(2 * x, 2 * y) for x, y in [(x, -y) for x, y in reversed(up)] + up])


def shifted(ring: Ring, origin: Point) -> Ring:
    """A ring moved so that a point comes to (0, 0)."""
    return [(x - origin[0], y - origin[1]) for x, y in ring]


def bends(chain: Ring) -> Ring:
    """A chain without the points at which it goes straight on."""
    found = chain[:1]
    for here, beyond in zip(chain[1:], chain[2:] + [(0, 0)]):
        (a, b), (p, q), (r, s) = found[-1], here, beyond
        if here == chain[-1] or (p - a) * (s - b) != (q - b) * (r - a):
            found.append(here)
    return found


def record(word: str, points: Sequence[Tuple[object, object]]) -> str:
    return ','.join([word] + [f'{x},{y}' for x, y in points]) + '\n'


def records(command: str, points: Ring, count: int = 1) -> str:
    """Records of so many points each."""
    return ''.join(record(command, points[k:k + count]) for k in range(0, len(points), count))


def answer(points: Sequence[Tuple[object, object]]) -> str:
    """The answer to a `path` record."""
    return record(f'path,{len(points)}', points)


def numbers(line: str) -> Ring:
    """The points of an answer `path`."""
    found = list(map(int, line.split(',')[2:]))
    return list(zip(found[::2], found[1::2]))


def turned(n: int) -> Ring:
    """The spiral, turned by an eighth."""
    return [(x + y, x - y) for x, y in spiral(n)]


def askew(n: int) -> Ring:
    """The spiral, turned by another angle."""
    return [(x - y // 2, x // 2 + y) for x, y in spiral(n)]


def sheared(n: int) -> Ring:
    """The spiral in a parallelogram, whose sides go up and to the right at two slopes. WIDTH is divided by 4."""
    return [((3 * x + y) // 4, (x + 2 * y) // 4) for x, y in spiral(n)]


def hexagonal(n: int) -> Ring:
    """A corridor that winds inward round a sheared hexagon. WIDTH is divided by 8."""
    ways = [(3, 0), (3, 1), (0, 1), (-3, 0), (-3, -1), (0, -1)]
    arms = n // 2
    outer = [(0, 0)]
    for i in range(arms - 1):
        length = 4 * (arms - i)
        x, y = outer[-1]
        dx, dy = ways[i % 6]
        outer.append((x + dx * length, y + dy * length))
    inner = []
    for i, (x, y) in enumerate(outer):
        dx, dy = ways[(i + 1) % 6]
        inner.append((x + dx, y + dy))
    return [(WIDTH // 8 * x, WIDTH * y) for x, y in outer + inner[::-1]]


Shape = Callable[[int], Ring]


def by_name(*shapes: Shape) -> Dict[str, Shape]:
    return {shape.__name__: shape for shape in shapes}


SHAPES = by_name(comb, star, maze, spiral)
SIX_SHAPES = SHAPES | by_name(convex, moon)
MORE_SHAPES = SIX_SHAPES | by_name(skyline, saw, fan, arch, hourglass, zigzag, slope, wall, fence, turned, askew, sheared, hexagonal, broom)
WAYS: Dict[str, Shape] = {'comb': way_along_comb, 'convex': way_across_convex, 'saw': way_past_teeth}


@functools.cache
def ring_of(shape: str, n: int) -> Ring:
    return MORE_SHAPES[shape](n)


@functools.cache
def ends(shape: str, n: int, count: int) -> Ring:
    """So many points inside a ring and as many vertices of it: two of these, two of those, and so on."""
    ring = ring_of(shape, n)
    inner, corners = inner_places(ring, count), vertices(ring, count)
    return [point for four in zip(inner[::2], inner[1::2], corners[::2], corners[1::2]) for point in four]
