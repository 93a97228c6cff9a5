"""Whole numbers in as many bits as they need, as the rows of a file wait in until the index takes them.

What is kept of a number is how far it lies above the least one. The binary places of that go by 16, 8, 4, 2 and 1: so
many of all rows lie together, the lowest first.
"""

from __future__ import annotations

import mmap
from typing import Iterator, NamedTuple, Optional, Tuple

import numpy as np

BYTE = 8
NOTHING = np.zeros(0, np.uint8)
# How many bytes the system is asked for at once.
SIZE = 1 << 20
OWN = mmap.MAP_PRIVATE | mmap.MAP_ANONYMOUS
# Up to how many rows share the memory that says that all are valid.
SHARED = 1 << 19
_all = np.ones(SHARED, bool)
_all.flags.writeable = False


def all_of(rows: int) -> np.ndarray:
    """Returns that so many rows are valid, in memory that all such share."""
    return _all[:rows] if rows <= SHARED else np.ones(rows, bool)


class Packed(NamedTuple):
    """Numbers of some rows: the least and the greatest of the valid ones, or None if there is none, the binary places,
    and a bit for each row that says whether it is valid, or None if all are."""

    rows: int
    ends: Optional[Tuple[int, int]]
    places: np.ndarray
    bits: Optional[np.ndarray]

    @property
    def valid(self) -> np.ndarray:
        """Which of the rows are valid."""
        if self.bits is None:
            return all_of(self.rows)
        return np.unpackbits(self.bits, count=self.rows, bitorder="little").view(np.bool_)

    @property
    def numbers(self) -> np.ndarray:
        """The numbers, and the least one where a row is not valid."""
        least, most = self.ends or (0, 0)
        width, rows, end = (most - least).bit_length(), _padded(self.rows), len(self.places)
        found = np.zeros(rows, _type_of(width))
        for count in reversed(list(_counts(width))):
            start = end - rows * count // BYTE
            found <<= found.dtype.type(count)
            found |= _spread(self.places[start:end], count)
            end = start
        distances = found[: self.rows] if width <= 32 else found[: self.rows].view(np.int64)
        return np.add(distances, np.int64(least), dtype=np.int64)


def packed(numbers: np.ndarray, valid: np.ndarray) -> Packed:
    """Packs the numbers of some rows, of which these are valid."""
    rows, is_all = len(valid), bool(valid.all())
    there = numbers if is_all else numbers[valid]
    least, most = (int(there.min()), int(there.max())) if len(there) else (0, 0)
    width = (most - least).bit_length()
    left = np.zeros(_padded(rows), _type_of(width))
    # (a distance past 63 bits comes out right as a number without a sign)
    if is_all:
        np.subtract(there, np.int64(least), out=left[:rows], dtype=np.int64, casting="unsafe")
    else:
        left[:rows][valid] = np.subtract(there, np.int64(least), dtype=np.int64)
    parts = [NOTHING]
    for count in _counts(width):
        parts.append(_squeezed(left, count))
        width -= count
        if width:
            left >>= left.dtype.type(count)
    bits = None if is_all else np.packbits(valid, bitorder="little")
    return Packed(rows, (least, most) if len(there) else None, np.concatenate(parts), bits)


def _padded(rows: int) -> int:
    """Returns so many rows that each of their places fills its last byte."""
    return -(-rows // BYTE) * BYTE


def _type_of(width: int) -> np.dtype:
    """Returns the type of numbers of so many places."""
    return np.dtype("<u4" if width <= 32 else "<u8")


def _counts(width: int) -> Iterator[int]:
    """Yields how many places lie together, of so many."""
    for count in (16, 8, 4, 2, 1):
        while width >= count:
            yield count
            width -= count


def _squeezed(numbers: np.ndarray, count: int) -> np.ndarray:
    """Returns the lowest places of numbers, so many of each."""
    if count == 16:
        return numbers.astype("<u2").view(np.uint8)
    bytes_ = numbers.astype(np.uint8)
    if count < BYTE:
        bytes_ &= np.uint8((1 << count) - 1)
    if count == 1:
        return np.packbits(bytes_, bitorder="little")
    while count < BYTE:
        pairs = bytes_.view("<u2")
        bytes_ = (pairs | pairs >> np.uint16(BYTE - count)).astype(np.uint8)
        count *= 2
    return bytes_


def _spread(places: np.ndarray, count: int) -> np.ndarray:
    """Returns places of which so many are of a number as numbers."""
    if count == 16:
        return places.view("<u2")
    if count == 1:
        return np.unpackbits(places, bitorder="little")
    size = BYTE
    while size > count:
        size //= 2
        pairs = places.astype("<u2")
        pairs |= pairs << np.uint16(BYTE - size)
        pairs &= np.uint16(((1 << size) - 1) * 0x0101)
        places = pairs.view(np.uint8)
    return places


class Room:
    """Memory of its own for what is packed, which goes back to the system when that goes."""

    def __init__(self) -> None:
        self._left = NOTHING

    def moved(self, given: Packed) -> Packed:
        """Returns the same in memory of this room."""
        bits = None if given.bits is None else self._copy(given.bits)
        return given._replace(places=self._copy(given.places), bits=bits)

    def _copy(self, given: np.ndarray) -> np.ndarray:
        size = _padded(len(given))
        if size > len(self._left):
            self._left = np.frombuffer(mmap.mmap(-1, max(SIZE, size), OWN), np.uint8)
        found, self._left = self._left[: len(given)], self._left[size:]
        found[:] = given
        return found
