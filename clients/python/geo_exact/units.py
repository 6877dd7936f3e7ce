"""How numbers of the caller map to the integers of the library."""
from __future__ import annotations

import importlib
import operator
import sys
from decimal import Decimal
from fractions import Fraction
from typing import Any, SupportsIndex, Tuple, Union

from .errors import NotANumber, NotWhole
from .values import Coordinate, Point

Given = Union[SupportsIndex, float, Fraction, Decimal]
Exact = Union[int, Fraction]

FAR = 1 << 62


class Units:
    """Integers map to themselves: nothing is rounded. In a question x has the odd places, and y the even ones."""

    def take(self, number: Any, place: int) -> int:
        """Returns the integer for a number at this place of a question."""
        if type(number) is int:
            return near(number)
        over, under = parts(number, place)
        if over % under != 0:
            raise NotWhole(number, place)
        return near(over // under)

    def take_array(self, given: Any) -> Any:
        """Returns the integers for an array of NumPy, of integers or floats, x and y in turn."""
        found = given.ravel()
        if found.dtype.kind == 'f':
            is_whole = numpy().isfinite(found) & (numpy().floor(found) == found)
            if not is_whole.all():
                at = int(is_whole.argmin())
                raise NotWhole(found[at], at + 1)
            found = found.astype('f8').clip(-FAR, FAR)
        elif found.dtype.kind == 'u':
            found = found.astype('u8').clip(None, FAR)
        return found.astype('i8')

    def give(self, point: Tuple[Exact, Exact]) -> Point:
        """Returns a point of an answer in the caller's units."""
        return point

    def give_array(self, points: Any) -> Any:
        """Returns an array of points of answers in the caller's units."""
        return points

    def give_area(self, area: Exact) -> Coordinate:
        """Returns an area in the caller's square units."""
        return area


PLAIN = Units()


def near(number: int) -> int:
    """Returns the integer itself if it fits in 64 bits with room to spare, else one that is beyond each limit too."""
    return number if -FAR < number < FAR else FAR if number > 0 else -FAR


def parts(number: Any, place: int) -> Tuple[int, int]:
    """Returns the numerator and the denominator of a number."""
    try:
        ratio_of = getattr(number, 'as_integer_ratio', None)
        over, under = ratio_of() if ratio_of else (operator.index(number), 1)
    except TypeError:
        raise NotANumber(number, place) from None
    except (ValueError, OverflowError):
        raise NotWhole(number, place, 'is not finite', remedy='') from None
    return over, under


def numpy() -> Any:
    return importlib.import_module('numpy')


def is_array(given: Any) -> bool:
    """Whether this is an array of NumPy. If nobody has imported that, nothing is one."""
    return isinstance(given, getattr(sys.modules.get('numpy'), 'ndarray', ()))
