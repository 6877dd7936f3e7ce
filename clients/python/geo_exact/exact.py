"""Numbers as exact fractions: how they are read, and how they are written."""
from __future__ import annotations

import re
from fractions import Fraction
from typing import Any, Optional, Tuple

Point = Tuple[Fraction, Fraction]

NUMBER = re.compile(r'[+-]?(\d+\.?\d*|\.\d+)(?:[eE]([+-]?\d+))?', re.ASCII)
REACH = 400  # the most signs of a number, and the greatest size of its exponent


class NoNumber(ValueError):
    """Says what is wrong with a text that should be a number."""


def number(text: str) -> Fraction:
    """The number that a text in decimals stands for, such as -8.25 or 1e-7."""
    found = NUMBER.fullmatch(text)
    if not found:
        raise NoNumber('is no number')
    if len(text) > REACH or (found[2] and abs(int(found[2])) > REACH):
        raise NoNumber(f'is beyond all use: a number has at most {REACH} signs, and an exponent up to {REACH}')
    return Fraction(text)


def ratio(text: str) -> Fraction:
    """The number that a text stands for, in decimals or as a fraction such as 1/3."""
    over, bar, under = text.partition('/')
    if not bar:
        return number(text)
    if number(under) == 0:
        raise NoNumber('divides by 0')
    return number(over) / number(under)


def written(number: Any) -> Fraction:
    """Returns a number as it is written: a float as its shortest decimals."""
    return Fraction(repr(float(number)) if isinstance(number, float) else number)


def digits(value: Fraction) -> Optional[int]:
    """How many digits a number has after the point, or None where they have no end."""
    rest, count = value.denominator, {2: 0, 5: 0}
    for prime in count:
        while rest % prime == 0:
            rest //= prime
            count[prime] += 1
    return max(count.values()) if rest == 1 else None


def text(value: Fraction) -> str:
    """A number as decimals where they have an end, and else as a fraction."""
    places = digits(value)
    return str(value) if places is None else decimal(value, places)


def decimal(value: Fraction, places: int) -> str:
    """A number with at most so many digits after the point, rounded to the nearest."""
    scaled = round(value * 10**places)
    sign, (whole, part) = '-' if scaled < 0 else '', divmod(abs(scaled), 10**places)
    return f'{sign}{whole}' + (f'.{part:0{places}}'.rstrip('0').rstrip('.') if places else '')


def nearest(value: Fraction) -> str:
    """A number as decimals where they have an end, and else those of the nearest number in double precision."""
    places = digits(value)
    return repr(float(value)) if places is None else decimal(value, places)
