"""The forms of a column: bit slices, and digits under bases, range or equality encoded. docs/GUIDE.md says how to
choose one."""

from __future__ import annotations

import math
from dataclasses import dataclass, replace
from functools import cached_property
from typing import Any, Iterable, Tuple

from .errors import BadRow
from .kinds import Flags, Kind, Whole

LEAST, MOST = -(1 << 63), (1 << 63) - 1


@dataclass(frozen=True)
class Form:
    """How a column is stored: the word of its form, its width or its bases, the least number that it accepts, and what
    its numbers represent."""

    word: str
    sizes: Tuple[int, ...]
    offset: int = 0
    kind: Kind = Whole()

    @cached_property
    def size(self) -> int:
        """How many numbers the column accepts, from the offset up."""
        return 1 << min(max(self.sizes[0], 0), 64) if self.word == "slices" else math.prod(self.sizes)

    @cached_property
    def most(self) -> int:
        """The greatest number that the column accepts."""
        return self.offset + self.size - 1

    @property
    def bitmaps(self) -> int:
        """How many bitmaps keep the column, the not-null bitmap among them."""
        if self.word == "slices":
            return self.sizes[0] + 1
        places = sum((base - 1).bit_length() for base in self.sizes if base > 3)
        if self.word == "range":
            return sum(base - 1 for base in self.sizes) + places + 1
        return sum(1 if base == 2 else base for base in self.sizes) + places + 1

    @property
    def places(self) -> int:
        """How many binary places a number of the column takes in a file."""
        return self.sizes[0] if self.word == "slices" else sum((base - 1).bit_length() for base in self.sizes)

    def value(self, number: int) -> Any:
        """Returns the value that a number represents, and the number where that can't be told, as past an end of the
        column."""
        try:
            return self.kind.decode(number)
        except (IndexError, OverflowError, ValueError):
            return number

    def show(self, number: int) -> str:
        """Returns the value that a number represents as a text, and the number where that can't be told."""
        return self.kind.show(number) if self.value(number) is not number else f"{number:,}"

    def misfit(self, column: str, row: int, number: int) -> BadRow:
        """Returns the refusal of a number that the column does not accept."""
        reason = f"{self.show(number)} is not from {self.show(self.offset)} to {self.show(self.most)}"
        return BadRow(column, row, self.value(number), reason)

    def of(self, kind: Kind) -> "Form":
        """Returns the same form for numbers that represent another kind of value."""
        return replace(self, kind=kind)

    def record(self, name: str) -> str:
        """Returns the record of a schema that declares such a column."""
        offset = f",{self.offset}" if self.offset else ""
        return f"column,{name},{self.word},{' '.join(map(str, self.sizes))}{offset}"

    def __str__(self) -> str:
        offset = f", offset={self.offset}" if self.offset else ""
        return f"{self.word}({', '.join(map(str, self.sizes))}{offset})"


def slices(width: int, *, offset: int = 0, kind: Kind = Whole()) -> Form:
    """Bit slices for 2^width whole numbers, in the column's units, from `offset` up. Width: 1 to 63."""
    return Form("slices", _whole([width]), _whole([offset])[0], kind)


def range(*bases: int, offset: int = 0, kind: Kind = Whole()) -> Form:
    """Range encoded digits under these bases, most significant first, for as many numbers as their product. A base: 2
    to 1,024."""
    return Form("range", _whole(bases), _whole([offset])[0], kind)


def equality(*bases: int, offset: int = 0, kind: Kind = Whole()) -> Form:
    """Equality encoded digits under these bases, most significant first, for as many numbers as their product. A base:
    2 to 1,024."""
    return Form("equality", _whole(bases), _whole([offset])[0], kind)


def _whole(sizes: Iterable[Any]) -> Tuple[int, ...]:
    for size in sizes:
        if not hasattr(size, "__index__"):
            raise TypeError(f"a width, a base or an offset is a whole number, and not {size!r}")
    return tuple(size.__index__() for size in sizes)


def narrowest(kind: Kind, low: int, high: int, spare: int = 0) -> Form:
    """Returns the smallest form for the numbers from `low` to `high`: slices, and equality encoding for a text of few
    values. With spare bits it takes numbers from as far below as above these."""
    count = high - low + 1
    if kind.names_values and 3 <= count <= 32 and not spare:
        return equality(count, offset=low, kind=kind)
    width = max(1, (count - 1).bit_length())
    if spare and kind != Flags():
        width = min(63, width + spare)
        low = max(LEAST, low - ((1 << width) - count) // 2) if low < 0 or high >= 1 << width else 0
    if low >= 0 and high < 1 << width:
        return slices(width, kind=kind)
    return slices(width, offset=min(low, MOST + 1 - (1 << width)), kind=kind)
