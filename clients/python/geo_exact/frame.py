"""How coordinates of the caller's units become the integers of the library, and answers become coordinates again."""
from __future__ import annotations

import math
from decimal import Context, Decimal, Inexact, InvalidOperation, localcontext
from fractions import Fraction
from functools import reduce
from typing import Any, List, Optional, Sequence, Tuple

from .errors import NotANumber, NotAShape, NotWhole, TooFar
from .exact import text, written
from .reading.given import AnyPoints, corners
from .units import Exact, Given, Units, near, numpy, parts
from .values import Coordinate, Point, Whole

LIMITS = {False: 1_000_000, True: 8_388_607}  # the greatest size of a coordinate, if wide or not

EXACT = Context(prec=2000, traps=[Inexact, InvalidOperation])
HALF = Decimal('0.5')
ROUGH = Context(prec=60, traps=[])


class Frame(Units):
    """A coordinate c of the caller's becomes the integer (c - origin) * scale, and answers come back in the caller's units: as floats, each
    the nearest one to the exact value, or as fractions if the frame is `exact`.

    A number must map to an integer, or be the float that is nearest to one that does, such as 0.1 if the scale is 10. `snap` moves any
    other to the nearest step; without it is NotWhole. `origin` and `scale` are taken as they are written: 0.1 is a tenth."""

    def __init__(self, origin: Sequence[Given] = (0, 0), scale: Given = 1, *, snap: bool = False, exact: bool = False):
        x, y = map(written, origin)
        self.origin, self.scale = (x, y), written(scale)
        if self.scale <= 0:
            raise ValueError(f'a scale is above 0, and this is {self.scale}')
        self.snap, self.exact = snap, exact
        # an integer n maps to (n * step + start) / unit
        self._axes = tuple(
            (self.scale.denominator * o.denominator, o.numerator * self.scale.numerator, o.denominator * self.scale.numerator)
            for o in (x, y))
        factor, *shifts = map(decimal_of, (self.scale, -x * self.scale, -y * self.scale))
        is_decimal = (Fraction(factor), *map(Fraction, shifts)) == (self.scale, -x * self.scale, -y * self.scale)
        self._short = (factor, *shifts) if is_decimal else None  # of a Decimal d the integer is d * factor + shift

    @classmethod
    def of(cls, shape: AnyPoints, digits: Optional[int] = None, *, wide: bool = False, snap: bool = False, exact: bool = False,
           finest: bool = False, origin: Optional[Sequence[Given]] = None, scale: Optional[Given] = None) -> Frame:
        """Returns a frame for a ring, a polygon or a list of points whose steps are those of so many digits after the point. Without
        `digits` or a `scale` they are as many as the vertices have, or as there is room for; with `finest` they are up to 9, so that
        queries between the vertices' steps snap less far. The origin is 0 or near the middle of the box: a round number with room on all
        sides, a tenth of the box if the limit allows that. Raises NotAShape if there is no room."""
        columns = [[n if type(n) is Decimal else decimal_of(n, 2 * k + axis) for k, n in enumerate(numbers)]
                   for axis, numbers in enumerate(zip(*corners(shape)), 1)]
        if not columns:
            raise NotAShape(shape, cause='has no points')
        box = [(Fraction(min(axis)), Fraction(max(axis))) for axis in columns]
        limit, longest = LIMITS[wide], max(high - low for low, high in box)
        found = Fraction(10) ** digits if digits is not None else written(scale) if scale is not None else None
        if found is None:
            found = Fraction(10) ** max(map(digits_of, columns))
            while longest * found > 2 * (limit - snap):
                found /= 10
            while finest and found < 10**9 and longest * found * 12 <= 2 * limit:  # with a tenth of the box to spare
                found *= 10
        elif digits is not None and longest * found > 2 * limit:
            steps = f'{math.ceil(longest * found):,} steps of {text(1 / found)} from side to side, and there is room for {2 * limit:,}'
            raise NotAShape(cause=f'the shape is too wide: {steps}', where='the frame', remedy='take fewer digits' + ', or wide=True' * (not wide and longest * found <= 2 * LIMITS[True]))
        start = origin or [middle(low, high, found, limit, snap) for low, high in box]
        return cls(start, found, snap=snap, exact=exact)

    def __repr__(self) -> str:
        flags = ''.join(f', {name}=True' for name in ('snap', 'exact') if getattr(self, name))
        return f'Frame(({self.origin[0]}, {self.origin[1]}), {self.scale}{flags})'

    def __eq__(self, other: object) -> bool:
        return isinstance(other, Frame) and vars(self) == vars(other)

    def __hash__(self) -> int:
        return hash((self.origin, self.scale, self.snap, self.exact))

    def take(self, number: Any, place: int) -> int:
        step, start, unit = self._axes[1 - place % 2]
        over, under = parts(number, place)
        over, under = over * unit - start * under, under * step
        found = (2 * over + under) // (2 * under)
        if found * under != over and not self.snap and not (isinstance(number, float) and (found * step + start) / unit == number):
            raise NotWhole(number, place, f'lies between two steps of {text(1 / self.scale)}', remedy='snap=True takes the nearest step')
        return near(found)

    def take_array(self, given: Any) -> Any:
        return numpy().array([self.take(number, k + 1) for k, number in enumerate(given.ravel().tolist())], 'i8')

    def within(self, point: Tuple[Any, Any], wide: bool) -> Whole:
        """Returns the integers for a point. Raises TooFar if one is beyond the limit."""
        x, y, limit = self.take(point[0], 1), self.take(point[1], 2), LIMITS[wide]
        if -limit <= x <= limit and -limit <= y <= limit:
            return x, y
        axis = int(-limit <= x <= limit)
        steps = f'{abs((x, y)[axis]):,} steps of {text(1 / self.scale)} from {text(self.origin[axis])}'
        raise TooFar(point[axis], cause=f'is {steps}, and version {1 + wide} has room for {limit:,}')

    def placed(self, points: Sequence[Tuple[Any, Any]], wide: bool) -> Optional[List[Whole]]:
        """Returns the integers for points whose numbers are Decimals, in a short way; or None if `within` has to say of each what it is."""
        columns: List[List[int]] = []
        for axis in (0, 1):
            steps: Any = self._steps(points, axis, HALF if self.snap else Decimal(0))
            found: List[int] = [math.floor(step) for step in steps or ()]
            if not found or not (self.snap or found == steps) or min(found) < -LIMITS[wide] or max(found) > LIMITS[wide]:
                return None
            columns.append(found)
        return list(zip(columns[0], columns[1]))

    def off(self, points: Sequence[Tuple[Any, Any]], whole: Sequence[Whole]) -> float:
        """Returns how far points are from their integers at most, along an axis, in the caller's units."""
        most = 0.0
        for axis, origin in enumerate(self.origin):
            short: Any = self._steps(points, axis)
            steps = short or [(written(point[axis]) - origin) * self.scale for point in points]
            sizes = [abs(step - n[axis]) for step, n in zip(steps, whole)]
            most = max(most, float(max(sizes, default=0)))
        return most / float(self.scale)

    def _steps(self, points: Sequence[Tuple[Any, Any]], axis: int, more: Decimal = Decimal(0)) -> Optional[List[Decimal]]:
        """Returns the coordinates of points in steps from the origin, if all are Decimals and so are the steps."""
        numbers = [point[axis] for point in points]
        if not self._short or not all(type(number) is Decimal for number in numbers):
            return None
        with localcontext(EXACT):
            try:
                factor, shift = self._short[0], self._short[1 + axis] + more
                return [number * factor + shift for number in numbers]
            except ArithmeticError:
                return None

    def give(self, point: Tuple[Exact, Exact]) -> Point:
        if self.exact:
            return self.back(point)
        return self._float(point[0], 0), self._float(point[1], 1)

    def back(self, point: Tuple[Exact, Exact]) -> Tuple[Fraction, Fraction]:
        """Returns a point of an answer in the caller's units, exactly."""
        return point[0] / self.scale + self.origin[0], point[1] / self.scale + self.origin[1]

    def give_array(self, points: Any) -> Any:
        if self.exact:
            return numpy().array([self.give(point) for point in points.tolist()], object).reshape(-1, 2)
        columns = [[(n * step + start) / unit for n in points[:, k].tolist()] for k, (step, start, unit) in enumerate(self._axes)]
        return numpy().array(columns, 'f8').T

    def give_area(self, area: Exact) -> Coordinate:
        found = area / self.scale ** 2
        return found if self.exact else float(found)

    def _float(self, number: Exact, axis: int) -> float:
        step, start, unit = self._axes[axis]
        return (number.numerator * step + start * number.denominator) / (unit * number.denominator)


def decimal_of(number: Any, place: int = 1) -> Decimal:
    """Returns a number as it is written in decimals; of a fraction without an end 60 digits."""
    if isinstance(number, Decimal):
        found = number
    elif isinstance(number, float):
        found = Decimal(repr(float(number)))
    else:
        over, under = parts(number, place)
        found = ROUGH.divide(Decimal(over), Decimal(under)) if under != 1 else Decimal(over)
    if not found.is_finite():
        raise NotANumber(number, place, 'is not finite')
    return found


def digits_of(numbers: Sequence[Decimal]) -> int:
    """Returns how many digits after the point the numbers have. A sum of Decimals has as many as the one with the most."""
    try:
        total = reduce(EXACT.add, map(EXACT.normalize, numbers), Decimal(0))
    except Inexact:
        return EXACT.prec
    return -int(total.as_tuple().exponent)


def middle(low: Fraction, high: Fraction, scale: Fraction, limit: int, snap: bool) -> Fraction:
    """Returns a round number from which both are within the limit, with room beyond them. Without `snap` a number that is as far from the
    lesser one as a count of steps."""
    reach, exact = limit / scale, (low + high) / 2
    room = max(Fraction(0), min((high - low) / 10, reach - (high - low) / 2 - 1 / scale))

    def does(origin: Fraction) -> bool:
        is_near = max(high - origin, origin - low) + room <= reach
        return is_near and (snap or ((low - origin) * scale).denominator == 1)
    rounded = (round(exact, places) for places in range(-len(str(int(abs(exact)))), 2 + len(str(int(scale)))))
    return next(filter(does, [Fraction(0), *map(Fraction, rounded)]), exact if snap else low + int((exact - low) * scale) / scale)
