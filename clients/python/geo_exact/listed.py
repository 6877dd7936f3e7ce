"""Long answers, whose items are made when they are asked for."""
from __future__ import annotations

from collections.abc import Callable, Iterator, Sequence
from typing import Any, List, TypeVar, Union, overload

T = TypeVar('T')

SHOWN = 3


class Listed(Sequence[T]):
    """A sequence of a known length. It equals each sequence of the same items."""

    def __init__(self, length: int, item: Callable[[int], T]):
        self._length = length
        self._item = item

    def __len__(self) -> int:
        return self._length

    @overload
    def __getitem__(self, index: int) -> T: ...
    @overload
    def __getitem__(self, index: slice) -> List[T]: ...
    def __getitem__(self, index: Union[int, slice]) -> Any:
        places = range(self._length)[index]
        return self._item(places) if isinstance(places, int) else list(map(self._item, places))

    def __iter__(self) -> Iterator[T]:
        return map(self._item, range(self._length))

    def __eq__(self, other: object) -> bool:
        if not isinstance(other, Sequence):
            return NotImplemented
        return len(self) == len(other) and all(here == there for here, there in zip(self, other))

    def __repr__(self) -> str:
        shown = list(map(repr, self[:SHOWN])) + [f'.. {self._length - SHOWN:,} more'] * (self._length > SHOWN)
        return f'[{", ".join(shown)}]'
