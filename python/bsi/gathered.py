"""Answers over several parts of the rows, put together exactly from the answers of each."""

from __future__ import annotations

import functools
import math
import operator
import threading
from typing import Any, ContextManager, Dict, List, NamedTuple, Optional, Sequence, Tuple

import numpy as np

from .errors import BadQuery
from .predicates import MAX_FIELDS
from .taking import Found, Moments

Fields = Sequence[bytes]
# How many fields a comparison takes besides, and how many numbers a part gives at most for a rank.
BOUND, FEW = 4, 1 << 12
# By how many times what is expected the number of a rank may lie off.
SAFETY = 6
# A rank in a part, and the number that has it.
Known = Tuple[int, Optional[int]]
# The number of each column by which rows are grouped, or None for a null.
Numbers = Tuple[Optional[int], ...]


class _Left(NamedTuple):
    """What is left for a rank: from the one number to the other, and of each part how many numbers lie below the one and
    up to the other, or None if that is not known; and whether they lie there as evenly as was expected."""

    low: int
    high: int
    below: Any
    upto: Any
    is_smooth: bool = True

    @property
    def many(self) -> int:
        """How many numbers are left."""
        return int((self.upto - self.below).sum())

    def expected(self, most: int, rank: int) -> List[int]:
        """Returns numbers around the one that has the rank where all that are left lie evenly."""
        first, last, many = self.low, self.high - 1, self.many
        wanted = first + (rank + 1 - int(self.below.sum())) * (self.high - first) // many
        # (numbers that lie there by chance are off by the root of how many they are)
        off = (last - first) // max(1, math.isqrt(many)) + 1
        first, last = max(first, min(wanted - off, last)), max(first, min(last, wanted + off))
        return sorted({first + (last - first) * place // max(1, most - 1) for place in range(most)})

    def after(self, bounds: List[int], counts: np.ndarray, rank: int) -> "_Left":
        """Returns what is left when the numbers up to each bound are counted, of each part."""
        under = int((counts.sum(axis=1) <= rank).sum())
        low, below = (bounds[under - 1] + 1, counts[under - 1]) if under else (self.low, self.below)
        high, upto = (bounds[under], counts[under]) if under < len(bounds) else (self.high, self.upto)
        left = _Left(low, high, below, upto)
        return left._replace(is_smooth=self.is_smooth and 8 * left.many <= self.many)


class Gathered:
    """A store whose rows lie in several parts.

    A number of a rank, as a lower median is, lies between the numbers that have the same share of each part below them.
    Where few do, the parts give them. Where many do, as in parts of rows in order, fewer are left after each round of
    counts: at `bounds` numbers near the one that is expected, and after a round that was of little use at those in the
    middle of what is left of each part."""

    def __init__(self, bounds: int):
        self._bounds = bounds
        # Which rows lie where, in order of all rows: a part, and how many of its rows.
        self.runs: List[Tuple[int, int]] = []
        self.lock = threading.RLock()

    def alone(self) -> ContextManager[Any]:
        """Returns what a question holds while it is answered."""
        return self.lock

    def _each(self, call: str, *arguments: Any) -> List[Any]:
        """Makes a call of every part, at the same time, and returns what they answered."""
        raise NotImplementedError

    def _each_of(self, call: str, arguments: Sequence[Sequence[Any]]) -> List[Any]:
        """Makes a call of every part, with arguments of its own."""
        raise NotImplementedError

    def _parts(self) -> int:
        """Returns how many parts there are."""
        raise NotImplementedError

    def count(self, fields: Fields) -> int:
        return self.counts([fields])[0]

    def counts(self, questions: Sequence[Fields]) -> List[int]:
        with self.alone():
            return [sum(counts) for counts in zip(*self._each("counts", questions))]

    def sum(self, name: bytes, fields: Fields) -> int:
        with self.alone():
            return sum(self._each("sum", name, fields))

    def value(self, word: bytes, name: bytes, fields: Fields) -> Optional[int]:
        with self.alone():
            if word == b"median":
                return self._median(name, fields)
            numbers = [number for number in self._each("value", word, name, fields) if number is not None]
            return (min if word == b"least" else max)(numbers, default=None)

    def _median(self, name: bytes, fields: Fields) -> Optional[int]:
        """Finds the median between those of the parts."""
        if len(fields) + BOUND > MAX_FIELDS:
            rule = f"a median over several parts accepts a predicate of at most {MAX_FIELDS - BOUND} fields"
            raise BadQuery(f"{rule}, and this one has {len(fields):,}")
        numbers, counts = zip(*self._each("median_and_count", name, fields))
        known = [(max(0, count - 1) // 2, number) for number, count in zip(numbers, counts)]
        return self._between(name, fields, known, (sum(counts) - 1) // 2) if any(counts) else None

    def ranked(self, name: bytes, rank: int, fields: Fields) -> Optional[int]:
        """Returns the number of a rank among those in these rows, from 0, or None past the last. The predicate has at most
        996 fields."""
        return self.ranks(name, [rank], fields)[0]

    def ranks(self, name: bytes, ranks: Sequence[int], fields: Fields) -> List[Optional[int]]:
        """Returns the numbers of some ranks, as `ranked` does each."""
        with self.alone():
            counts = self._each("count", [*fields, name, b"null", b"not", b"and"])
            total = sum(counts)
            there = [rank for rank in ranks if rank < total]
            of_parts = [[rank * count // total for rank in there] for count in counts]
            numbers = self._each_of("ranks", [(name, asked, fields) for asked in of_parts]) if there else []
            known = (list(zip(*one)) for one in zip(zip(*of_parts), zip(*numbers)))
            found = {rank: self._between(name, fields, one, rank) for rank, one in zip(there, known)}
        return [found.get(rank) for rank in ranks]

    def distinct(self, name: bytes, fields: Fields) -> int:
        """Returns how many different numbers the column has in these rows: those of the parts are joined."""
        most, found = 1 << 10, None
        while found is None:
            found, most = self.grouped((name,), [b"count", *fields], most), most << 4
        return len(found)

    def moments(self, columns: Sequence[Tuple[bytes, int, int]], fields: Fields, bitmaps: int) -> List[Moments]:
        """Returns the moments of columns as a handle does."""
        with self.alone():
            parts = self._each("moments", columns, fields, bitmaps)
        return [functools.reduce(operator.add, each) for each in zip(*parts)]

    def _between(self, name: bytes, fields: Fields, known: Sequence[Known], rank: int) -> int:
        """Returns the number of a rank that lies between numbers of which the ranks in their parts are known, or None in
        a part that has none."""
        numbers = [number for _, number in known if number is not None]
        left = _Left(min(numbers), max(numbers), None, None)
        if left.high - left.low <= self._bounds:
            counts = self._counts(name, fields, range(left.low, left.high))
            return left.low + int((counts.sum(axis=1) <= rank).sum())
        low, high = _middle(numbers, rank)
        parts = self._near(name, low, high, FEW >> 3, fields, known)
        number = _ranked(parts, rank)
        if number is not None:
            return number
        below, many = (np.array([getattr(part, what) for part in parts]) for what in ("below", "many"))
        if 0 <= rank - below.sum() < many.sum():
            left = _Left(low, high, below, below + many)
        while left.low < left.high:
            if left.below is None or left.many <= FEW:
                known = known if left.below is None else [(int(below), None) for below in left.below]
                parts = self._near(name, left.low, left.high, FEW, fields, known)
                number = _ranked(parts, rank)
                if number is not None:
                    return number
                below = np.array([part.below for part in parts])
                left = _Left(left.low, left.high, below, below + [part.many for part in parts])
            bounds = left.expected(self._bounds, rank) if left.is_smooth else self._middles(name, fields, left)
            left = left.after(bounds, self._counts(name, fields, bounds), rank)
        return left.low

    def _near(self, name: bytes, low: int, high: int, most: int, fields: Fields, known: Sequence[Known]) -> List[Any]:
        """Returns of each part the numbers from one to another."""
        return self._each_of("near", [(name, low, high, most, fields, one) for one in known])

    def _counts(self, name: bytes, fields: Fields, bounds: Sequence[int]) -> np.ndarray:
        """Returns how many numbers lie up to each bound, of each part."""
        asked = [[*fields, name, b"<=", b"%d" % bound, b"and"] for bound in bounds]
        return np.array(self._each("counts", asked)).T if asked else np.zeros((0, self._parts()), np.int64)

    def _middles(self, name: bytes, fields: Fields, left: _Left) -> List[int]:
        """Returns some of the numbers in the middle of what is left of each part, in shares of all that is left."""
        many, middles = left.upto - left.below, (left.below + left.upto) // 2
        asked = [(name, [int(middle)] if any_ else [], fields) for middle, any_ in zip(middles, many)]
        numbers = np.array([found[0] for found in self._each_of("ranks", asked) if found], np.int64)
        order = np.argsort(numbers)
        shares = (2 * np.arange(self._bounds) + 1) * left.many // (2 * self._bounds)
        places = np.searchsorted(np.cumsum(many[many > 0][order]), shares, "right")
        return sorted({min(int(numbers[order[place]]), left.high - 1) for place in places})

    def grouped(
        self, by: Tuple[bytes, ...], fields: Fields, most: int, nulls: bool = False
    ) -> Optional[Dict[Numbers, Optional[int]]]:
        """Returns the answers by numbers as a handle does, to a count, a sum, a least or a greatest number."""
        joined: Dict[Numbers, List[int]] = {}
        with self.alone():
            parts = self._each("grouped", by, fields, most, nulls)
        for part in parts:
            for numbers, answer in (part or {}).items():
                joined.setdefault(numbers, []).extend([] if answer is None else [answer])
        if None in parts or len(joined) > most:
            return None
        join = {b"least": min, b"greatest": max}.get(fields[0], sum)
        order = sorted(joined, key=lambda numbers: [(one is None, one or 0) for one in numbers])
        return {numbers: join(joined[numbers]) if joined[numbers] else None for numbers in order}

    def select(self, fields: Fields) -> Tuple[np.ndarray, int]:
        with self.alone():
            selected = self._each("select", fields)
            bits = [np.unpackbits(words.view(np.uint8), count=rows, bitorder="little") for words, rows in selected]
            taken, runs = [0] * len(bits), []
            for part, rows in self.runs:
                runs.append(bits[part][taken[part] : taken[part] + rows])
                taken[part] += rows
            joined = np.concatenate([*runs, np.empty(0, np.uint8)])
            packed = np.zeros(-(-len(joined) // 64) * 8, np.uint8)
            packed[: -(-len(joined) // 8)] = np.packbits(joined, bitorder="little")
            return packed.view(np.uint64), len(joined)

    def numbers(self, names: Sequence[bytes], rows: np.ndarray, bitmaps: int) -> List[Found]:
        with self.alone():
            parts, places = self._placed(rows)
            here = [np.flatnonzero(parts == part) for part in range(self._parts())]
            answers = self._each_of("numbers", [(names, places[taken], bitmaps) for taken in here])
        found = [(np.zeros(len(rows), np.int64), np.zeros(len(rows), bool)) for _ in names]
        for taken, answer in zip(here, answers):
            for (numbers, valid), (some, are_valid) in zip(found, answer):
                numbers[taken], valid[taken] = some, are_valid
        return found

    def _placed(self, rows: np.ndarray) -> Tuple[np.ndarray, np.ndarray]:
        """Returns the part of each row, and its number there."""
        parts, counts = np.array(self.runs, np.int64).reshape(-1, 2).T
        ends, befores = np.cumsum(counts), np.zeros(len(counts), np.int64)
        for part in range(self._parts()):
            of_part = parts == part
            befores[of_part] = np.cumsum(counts[of_part]) - counts[of_part]
        runs = np.searchsorted(ends, rows, side="right")
        return parts[runs], rows - (ends - counts)[runs] + befores[runs]

    def rows(self) -> int:
        with self.alone():
            return sum(self._each("rows"))

    def nbytes(self) -> int:
        with self.alone():
            return sum(self._each("nbytes"))


def _middle(numbers: Sequence[int], rank: int) -> Tuple[int, int]:
    """Returns the ends of where the number of a rank lies nearly always, between numbers that have the same share of
    their parts below them, where all parts are alike: how far these lie apart tells how far numbers lie by chance."""
    parts, low, high, mean = len(numbers), min(numbers), max(numbers), sum(numbers) // len(numbers)
    share = SAFETY / math.sqrt(2 * parts * math.sqrt(2 * rank / parts + 1))
    off = int((high - low) * min(share, 1)) + 1
    return max(low, mean - off), min(high, mean + off)


def _ranked(parts: Sequence[Any], rank: int) -> Optional[int]:
    """Returns the number of a rank if it is among those that all parts give."""
    place = rank - sum(part.below for part in parts)
    if any(part.numbers is None for part in parts) or not 0 <= place < sum(part.many for part in parts):
        return None
    return int(np.partition(np.concatenate([part.numbers for part in parts]), place)[place])
