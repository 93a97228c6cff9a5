"""The numbers that rows have, found again by questions: of a table nothing is kept but the library's bitmaps.

The rows wanted are parted into classes, by halves of the numbers that a class may have. One question halves up to 250
classes, whichever rows they have: of the class of the least numbers it selects the upper half, of the next one the
lower half, and so on by turns, so that each class takes one comparison.

Where these would be very many, the rows are read from the bytes that keep the index, which the library makes for the
time of the call.
"""

from __future__ import annotations

import itertools
import operator
from fractions import Fraction
from typing import Any, Dict, Iterator, List, NamedTuple, Optional, Sequence, Tuple

import numpy as np

# How many comparisons a question has, each of which takes four of its 1,000 fields, and a column at most.
MAX_CUTS, MAX_ASKED = 250, 1000
# Room for what stands before the bitmaps in the bytes that keep an index.
SPARE = 1 << 17
# How many words are squared at once, and the binary places of a digit: a sum of so many squares has 63 bits.
CHUNK, PLACES = 1 << 12, 21
BYTE = 8
DIGIT = (1 << PLACES) - 1
# The numbers of some rows of a column, and which of them are valid.
Found = Tuple[np.ndarray, np.ndarray]


def bits_at(words: np.ndarray, rows: np.ndarray) -> np.ndarray:
    """Returns the bits of these rows, which come in order, in a bitmap of 64 rows a word, as an array of bool."""
    if 8 * len(rows) > 64 * len(words):
        bits = np.unpackbits(words.view(np.uint8), bitorder="little").view(np.bool_)
        is_run = rows[-1] - rows[0] == len(rows) - 1
        return bits[rows[0] : rows[-1] + 1] if is_run else bits[rows]
    return (words[rows >> 6] >> (rows & 63).astype(np.uint64) & np.uint64(1)).astype(bool)


def stairs(name: bytes, cuts: Sequence[int]) -> List[bytes]:
    """Returns the fields that select a column's numbers from the first cut to below the second, from the third to below
    the fourth and so on. The cuts rise."""
    fields: List[bytes] = []
    for place in reversed(range(len(cuts))):
        sign, word = (b"<", b"or") if place % 2 else (b">=", b"and")
        fields += [name, sign, b"%d" % cuts[place], *([word] if fields else [])]
    return fields


def numbers_of(handle: Any, names: Sequence[bytes], rows: np.ndarray, bitmaps: int) -> List[Found]:
    """Returns of each column the numbers in these rows, 0 for a null, of an index whose file has so many bitmaps."""
    found: List[Found] = []
    while len(found) < len(names) and (one := numbers_at(handle, names[len(found)], rows)) is not None:
        found.append(one)
    if len(found) == len(names):
        return found
    kept = kept_of(handle, bitmaps)
    return found + [kept.numbers(name, rows) for name in names[len(found) :]]


def kept_of(handle: Any, bitmaps: int) -> KeptBitmaps:
    """Returns the bitmaps of an index, whose file has so many, from the bytes that keep it."""
    return KeptBitmaps(handle.save(b"", 8 * bitmaps * (handle.rows() // 64 + 2) + SPARE))


def numbers_at(handle: Any, name: bytes, rows: np.ndarray) -> Optional[Found]:
    """Returns the numbers of a column in these rows, by a comparison for each class of a binary place, so at most one
    for each place and different number. None if that takes more than 1,000."""
    valid = ~bits_at(handle.select([name, b"null"])[0], rows)
    numbers, there, asked = np.zeros(len(rows), np.int64), rows[valid], 0
    if len(there):
        low, high = (handle.value(word, name, [b"all"]) for word in (b"least", b"greatest"))
        starts, classes = np.zeros(1, np.int64), np.zeros(len(there), np.int64)
        for place in reversed(range((high - low).bit_length())):
            asked += len(starts)
            if asked > MAX_ASKED:
                return None
            uppers = _uppers(handle, name, there, classes, low + starts.astype(object) + (1 << place), high)
            starts, classes = _halved(starts, classes, uppers, place)
        numbers[valid] = low + starts[classes]
    return numbers, valid


def _uppers(handle: Any, name: bytes, rows: np.ndarray, classes: np.ndarray, cuts: np.ndarray, high: int) -> np.ndarray:
    """Returns which of the rows lie in the upper half of their class, which begins at the cut of that class."""
    uppers = np.zeros(len(rows), bool)
    for first in range(0, len(cuts), MAX_CUTS):
        # (only the last cut may lie past all numbers)
        asked = [cut for cut in cuts[first : first + MAX_CUTS] if cut <= high]
        if asked:
            is_all = len(cuts) <= MAX_CUTS
            here = slice(None) if is_all else np.flatnonzero((classes >= first) & (classes < first + MAX_CUTS))
            selected = bits_at(handle.select(stairs(name, asked))[0], rows[here])
            uppers[here] = selected ^ (classes[here] - first & 1).astype(bool)
    return uppers


def _halved(starts: np.ndarray, classes: np.ndarray, uppers: np.ndarray, place: int) -> Found:
    """Returns the first numbers of the halves that have a row, and which half each row is of."""
    halves = np.repeat(starts, 2)
    halves[1::2] += 1 << place
    places = 2 * classes + uppers
    are_there = np.bincount(places, minlength=len(halves)) > 0
    return halves[are_there], (np.cumsum(are_there) - 1)[places]


class Moments(NamedTuple):
    """How many numbers there are, their sum, and the sum of their squares."""

    count: int
    sum: int
    squares: int

    def __add__(self, other: "Moments") -> "Moments":  # type: ignore[override]
        return Moments(*map(operator.add, self, other))

    @property
    def variance(self) -> Fraction:
        """The exact variance of a sample of these numbers, which are two or more."""
        return Fraction(self.count * self.squares - self.sum**2, self.count * (self.count - 1))


class _Head(NamedTuple):
    """A column in the bytes that keep an index: its bases, the least significant first, its offset, and the word at
    which its bitmaps begin."""

    bases: Sequence[int]
    offset: int
    start: int


class KeptBitmaps:
    """The bitmaps of an index in the bytes that keep it as one segment of version 2, as docs/FORMATS.md has them."""

    def __init__(self, data: np.ndarray):
        self._words = data[8 : len(data) & ~7].view("<u8")
        self._at = 0
        start = self._number() + 2
        rows, _feeders, _limit = (self._number() for _ in range(3))
        _notes, _kinds = self._text(), self._text()
        count, _is_offset = self._number(), self._number()
        self._size, self._heads = (rows + 63) // 64, {}  # type: int, Dict[bytes, _Head]
        heads = [(self._text(), *self._bases_and_offset()) for _ in range(count)]
        for name, bases, offset in heads:
            self._heads[name] = _Head(bases, offset, start)
            start += self._size * (1 + sum((base - 1).bit_length() for base in bases))

    def _number(self) -> int:
        self._at += 1
        return int(self._words[self._at - 1])

    def _text(self) -> bytes:
        size, start = self._number(), self._at
        self._at += (size + 7) // 8
        return self._words[start : self._at].tobytes()[:size]

    def _bases_and_offset(self) -> Tuple[Sequence[int], int]:
        form, count = self._number(), self._number()
        bases = [2] * count if form == 0 else [self._number() for _ in range(count)]
        return bases, int(np.uint64(self._number()).astype(np.int64))

    def numbers(self, name: bytes, rows: np.ndarray) -> Found:
        """Returns the numbers of a column in these rows, 0 for a null, and which of them are valid."""
        head = self._heads[name]
        bitmaps = (bits_at(words, rows) for words in self._bitmaps(head))
        valid = next(bitmaps)
        return np.where(valid, _joined(head.bases, bitmaps, len(rows)) + head.offset, 0), valid

    def moments(self, name: bytes, selected: np.ndarray) -> Moments:
        """Returns the moments of how far the numbers of a column lie above the least one that it takes, in the rows that
        these words select."""
        head, found = self._heads[name], Moments(0, 0, 0)
        for start in range(0, self._size, CHUNK):
            here = slice(start, start + CHUNK)
            bitmaps = (words[here] for words in self._bitmaps(head))
            taken = selected[here] & next(bitmaps)
            bits = (np.unpackbits((words & taken).view(np.uint8), bitorder="little") for words in bitmaps)
            count = int(np.count_nonzero(np.unpackbits(taken.view(np.uint8))))
            found += Moments(count, *sums_of(_joined(head.bases, bits, 64 * len(taken))))
        return found

    def _bitmaps(self, head: _Head) -> Iterator[np.ndarray]:
        """Yields the words of the bitmaps of a column, that of its valid rows first."""
        return (self._words[start : start + self._size] for start in itertools.count(head.start, self._size))


def _joined(bases: Sequence[int], bitmaps: Iterator[np.ndarray], rows: int) -> np.ndarray:
    """Returns the numbers of digits under some bases, of each of which there is a bitmap for each binary place. The bitmaps
    are written over."""
    found, weight = np.zeros(rows, np.int64), 1
    for places, base in _digits(bases):
        digit = np.zeros(rows, np.uint8 if places <= BYTE else np.uint16)
        for place in range(places):
            bits = next(bitmaps).view(np.uint8).astype(digit.dtype, copy=False)
            bits <<= digit.dtype.type(place)
            digit |= bits
        found += digit.astype(np.int64) * weight
        weight *= base
    return found


def _digits(bases: Sequence[int]) -> Iterator[Tuple[int, int]]:
    """Yields the places and the base of each digit, of which up to eight that are bits make one."""
    for is_bit, run in itertools.groupby(bases, lambda base: base == 2):
        if is_bit:
            bits = len(list(run))
            yield from ((min(BYTE, bits - place), 1 << min(BYTE, bits - place)) for place in range(0, bits, BYTE))
        else:
            yield from (((base - 1).bit_length(), base) for base in run)


def sums_of(numbers: np.ndarray) -> Tuple[int, int]:
    """Returns the exact sums of at most 2^20 whole numbers from 0 up, and of their squares."""
    shifts = range(0, int(numbers.max(initial=0)).bit_length(), PLACES)
    digits = [(shift, numbers >> shift & DIGIT) for shift in shifts]
    squares = (int(np.dot(one, other)) << low + high for low, one in digits for high, other in digits)
    return sum(int(digit.sum()) << shift for shift, digit in digits), sum(squares)
