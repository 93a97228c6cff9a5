"""Numbers and times from the bytes of many fields at once.

Each call reads what is spelt as nearly all files do, and says which fields it read. The others are read one by one, by
their kind.
"""

from __future__ import annotations

import re
from functools import lru_cache
from typing import List, NamedTuple, Optional, Tuple

import numpy as np

from .fields import WORD, Fields, windows_of

# A number of so many digits is within 63 bits.
DIGITS = 18
POWERS = 10 ** np.arange(DIGITS + 1, dtype=np.int64)
MINUS, ZERO = b"-"[0], b"0"[0]
ZEROS, SIXES, HIGH = (np.uint64(int.from_bytes(bytes([byte] * WORD), "little")) for byte in (0x30, 0x06, 0xF0))
# The last bytes of a word, by how many they are.
TAILS = np.array([((1 << 64) - 1) ^ ((1 << 64 - 8 * size) - 1) for size in range(WORD + 1)], np.uint64)
# How two, four and eight digits of a word become one number each.
STEPS = [(0x0F0F0F0F0F0F0F0F, 2561, 8), (0x00FF00FF00FF00FF, 6553601, 16), (0x0000FFFF0000FFFF, 42949672960001, 32)]
JOINED = [tuple(map(np.uint64, step)) for step in STEPS]
# Of a date from its third byte on: what may be added to each byte before it leaves the digits that may stand there
# (so a month begins with 0 or 1, and a day with 0 to 3); where the year, the month and the day begin; and what adds the
# ones before to each of them, WIDTH times.
WIDTH = 40
BELOW, STARTS = bytes((6, 6, 15, 14, 6, 15, 12, 6)), bytes((255, 0, 0, 255, 0, 0, 255, 0))
LIMITS, PAIRS = (np.uint64(int.from_bytes(part, "little")) for part in (BELOW, STARTS))
SPREAD = np.uint64(1 + (WIDTH << 24))
# How many days 400 years have, and what stands for a day that the calendar does not have.
CYCLE, NO_DAY = 146_097, -(1 << 40)
SHAPE = re.compile(r"(\d{4})([-/])(\d\d)\2(\d\d)(?:[T ](\d\d):(\d\d)(?::(\d\d)(?:\.(\d{1,9}))?)?)?(Z?)", re.ASCII)


class Numbers(NamedTuple):
    """Digits of fields as whole numbers, how many of them stand behind the point, and which fields are read; and
    whether a field has a point, and begins with a needless 0."""

    mantissas: np.ndarray
    places: np.ndarray
    read: np.ndarray
    pointed: bool
    led: np.ndarray


def whole_of(data: np.ndarray, ends: np.ndarray, lengths: np.ndarray) -> Tuple[np.ndarray, np.ndarray]:
    """Returns the numbers of runs of digits within 63 bits, by their ends and lengths, and which of the runs are such.
    An empty run is 0."""
    windows, longest = windows_of(data), int(lengths.max(initial=0))
    total, read = _word(windows[np.maximum(ends - WORD, 0)], np.minimum(lengths, WORD))
    for place in range(WORD, min(longest, DIGITS + 1), WORD):
        left = np.minimum(np.maximum(lengths - place, 0), WORD)
        number, is_read = _word(windows[np.maximum(ends - (place + WORD), 0)], left)
        total += number * POWERS[place]
        read &= is_read
    # (a number of one digit more may be past 63 bits, and has the sign of one below 0 then)
    return total, read & (lengths <= DIGITS + 1) & (total >= 0) if longest > DIGITS else read


def _word(words: np.ndarray, lengths: np.ndarray) -> Tuple[np.ndarray, np.ndarray]:
    """Returns the numbers of the last bytes of words, as many as the lengths say, and which are digits. The words are
    written over."""
    digits = words
    digits ^= ZEROS
    digits &= TAILS[lengths]
    read = ((digits | (digits + SIXES)) & HIGH) == 0
    for kept, factor, shift in JOINED:
        digits &= kept
        digits *= factor
        digits >>= shift
    return digits.view(np.int64), read


def numbers_of(fields: Fields, point: int) -> Numbers:
    """Reads fields such as 5, -12.50 and .5. Most have as many places as the first."""
    data, starts, ends = fields[:3]
    firsts = data[starts]
    is_negative = firsts == MINUS
    some_are = bool(is_negative.any())
    if some_are:
        starts = starts + is_negative
        firsts = data[starts]
    first = data[starts[0] : ends[0]].tobytes()
    lengths = ends - starts
    place = len(first) - 1 - first.find(point) if point in first else -1
    numbers, read, behind = _alike(data, ends, lengths, place, point)
    others = np.flatnonzero(~read)
    if len(others):
        behind = np.array(behind)
        behind[others] = _behind_point(data, starts[others], ends[others], point)
        numbers[others], read[others] = _pointed(data, starts[others], ends[others], behind[others], point)
    led = firsts == ZERO
    if led.any():
        led &= lengths - behind > 2
    if some_are:
        np.negative(numbers, out=numbers, where=is_negative)
    return Numbers(numbers, np.maximum(behind, 0), read, bool(behind.max(initial=-1) >= 0), led)


def _alike(
    data: np.ndarray, ends: np.ndarray, lengths: np.ndarray, place: int, point: int
) -> Tuple[np.ndarray, np.ndarray, np.ndarray]:
    """Returns the digits of fields as numbers, of which so many stand behind a point, or -1 if there is none; which
    are such; and so many of each."""
    behind = np.broadcast_to(np.int64(place), len(lengths))
    if place < 0 or lengths.max() > WORD:
        return (*_pointed(data, ends - lengths, ends, behind, point), behind)
    return (*_spliced(windows_of(data)[ends - WORD], lengths, place, point), behind)


def ungrouped(fields: Fields, sign: int) -> Tuple[Fields, np.ndarray]:
    """Returns fields without a sign between groups of three digits, and which of them have it nowhere else."""
    data, starts, ends = fields[:3]
    places = np.flatnonzero(data == sign)
    before, upto = np.searchsorted(places, starts), np.searchsorted(places, ends)
    fits, some = np.ones(len(starts), bool), np.flatnonzero(upto > before)
    if not len(some):
        return fields, fits
    are_digits = (data ^ ZERO) < 10
    runs = np.concatenate([[0], np.cumsum(are_digits)])
    is_group = np.concatenate([[0], np.cumsum(runs[places + 4] - runs[places + 1] == 3)])
    start, first, last = starts[some], places[before[some]], places[upto[some] - 1]
    start, count = start + (data[start] == MINUS), upto[some] - before[some]
    lead = first - start
    is_led = (lead > 0) & (lead < 4) & (runs[first] - runs[start] == lead) & (data[start] != ZERO)
    are_even = (last - first == 4 * (count - 1)) & (is_group[upto[some]] - is_group[before[some]] == count)
    fits[some] = is_led & are_even & (last + 4 <= ends[some]) & ((last + 4 == ends[some]) | ~are_digits[last + 4])
    return Fields(np.delete(data, places), starts - before, ends - upto, fields.are_loose), fits


def _pointed(
    data: np.ndarray, starts: np.ndarray, ends: np.ndarray, behind: np.ndarray, point: int
) -> Tuple[np.ndarray, np.ndarray]:
    """Returns the digits of fields as numbers, of which so many stand behind a point, or -1; and which are such."""
    lengths = ends - starts
    if behind.max(initial=-1) < 0:
        numbers, read = whole_of(data, ends, lengths)
        return numbers, read & (lengths > 0)
    places, pointed = np.maximum(behind, 0), behind >= 0
    stops = ends - places - pointed
    whole, read = whole_of(data, stops, np.maximum(stops - starts, 0))
    fraction, is_read = whole_of(data, ends, places)
    digits = lengths - pointed
    read = read & is_read & (stops >= starts) & (digits > 0) & (digits <= DIGITS) & (~pointed | (data[stops] == point))
    return np.where(read, whole, 0) * POWERS[np.minimum(places, DIGITS)] + fraction, read


def _spliced(words: np.ndarray, lengths: np.ndarray, places: int, point: int) -> Tuple[np.ndarray, np.ndarray]:
    """Returns the digits of fields of at most a word as numbers, with so many places behind a point that is taken out;
    and which are such."""
    at, tail = np.uint64(8 * (WORD - 1 - places)), TAILS[places]
    has_point = (words >> at) & np.uint64(0xFF) == np.uint64(point)
    words = (words & tail) | ((words << np.uint64(8)) & ~tail)
    numbers, read = _word(words, np.maximum(lengths - 1, 0))
    return numbers, read & has_point & (lengths > max(1, places))


def _behind_point(data: np.ndarray, starts: np.ndarray, ends: np.ndarray, point: int) -> np.ndarray:
    """Returns how many bytes stand behind the last point of each field, and -1 if it has none."""
    behind, points = np.full(len(starts), -1, np.int64), np.flatnonzero(data == point)
    rows = np.minimum(np.searchsorted(ends, points, "right"), len(ends) - 1)
    within = points >= starts[rows]
    rows, points = rows[within], points[within]
    behind[rows] = ends[rows] - 1 - points
    return behind


class Moments(NamedTuple):
    """Points of time as days since 1970-01-01, seconds and nanoseconds, which fields are read, whether the times have a
    clock, and whether they have the zone Z."""

    days: np.ndarray
    seconds: np.ndarray
    nanoseconds: np.ndarray
    read: np.ndarray
    has_clock: bool
    is_aware: bool


def moments_of(fields: Fields, sample: str) -> Optional[Moments]:
    """Reads the fields that are spelt as the sample is: 2026-01-31, with a clock behind it or not. None if that one
    is spelt otherwise."""
    shape = SHAPE.fullmatch(sample)
    if shape is None:
        return None
    data, starts, ends = fields[:3]
    read = ends - starts == len(sample)
    for place in (place for place in range(10, len(sample)) if not sample[place].isdigit()):
        read &= data[np.minimum(starts + place, len(data) - 1)] == ord(sample[place])
    days, are_there = _days(data, starts, sample[4])
    read &= are_there
    seconds = nanoseconds = np.broadcast_to(np.int64(0), len(read))
    if shape.group(5):
        start, places = (11, (0, 3, 6)) if shape.group(7) else (8, (3, 6))
        clock, is_clock = _pairs(data, starts, sample, start, places)
        hour, minute, second = clock if shape.group(7) else (*clock, np.int64(0))
        read &= is_clock & (hour < 24) & (minute < 60) & (second < 60)
        seconds = (hour * 60 + minute) * 60 + second
    if shape.group(8):
        digits = len(shape.group(8))
        fraction, is_fraction = whole_of(data, starts + shape.end(8), np.full(len(starts), digits))
        read, nanoseconds = read & is_fraction, fraction * POWERS[9 - digits]
    return Moments(days, seconds, nanoseconds, read, shape.group(5) is not None, shape.group(9) == "Z")


def _pairs(
    data: np.ndarray, starts: np.ndarray, sample: str, start: int, places: Tuple[int, ...]
) -> Tuple[List[np.ndarray], np.ndarray]:
    """Returns the numbers of two digits at places of the eight bytes from a start on, and which fields have digits and
    other bytes where the sample has them."""
    shown = [(b"0"[0], 0) if sign.isdigit() else (ord(sign), 0xFF) for sign in sample[start : start + WORD]]
    wanted, fixed = (np.uint64(int.from_bytes(bytes(part), "little")) for part in zip(*shown))
    words = windows_of(data)[np.minimum(starts + start, len(data) - WORD)] ^ wanted
    read = (((words | (words + SIXES)) & HIGH) | (words & fixed)) == 0
    words = words * np.uint64(10) + (words >> np.uint64(8))
    return [((words >> np.uint64(8 * place)) & np.uint64(0xFF)).view(np.int64) for place in places], read


def _days(data: np.ndarray, starts: np.ndarray, sign: str) -> Tuple[np.ndarray, np.ndarray]:
    """Returns the days since 1970-01-01 of dates such as 2026-01-31 with this sign, and which of them the calendar
    has."""
    wanted = np.uint64(int.from_bytes(f"00{sign}00{sign}00".encode(), "little"))
    words = windows_of(data)[np.minimum(starts + 2, len(data) - WORD)] ^ wanted
    read = ((words | (words + LIMITS)) & HIGH) == 0
    words = (words * np.uint64(10) + (words >> np.uint64(8))) & PAIRS
    for _ in range(2):
        words *= SPREAD
        words >>= np.uint64(24)
    places = (words & np.uint64((1 << 24) - 1)).view(np.int64)
    if not read.all():
        places[~read] = 0
    centuries = np.ndarray((len(data) - 1,), "<u2", data, 0, (1,))[starts]
    if (centuries == centuries[0]).all():
        days = _days_of(int(centuries[0]), places)
        return days, read & (days > NO_DAY // 2)
    days = np.full(len(starts), NO_DAY)
    for century in np.unique(centuries[read]).tolist():
        here = centuries == century
        days[here] = _days_of(century, places[here])
    return days, read & (days > NO_DAY // 2)


def _days_of(century: int, places: np.ndarray) -> np.ndarray:
    """Returns the days since 1970-01-01 at places of a century, which comes as its two digits in bytes."""
    digits = century.to_bytes(2, "little")
    if not digits.isdigit():
        return np.full(len(places), NO_DAY)
    cycles, rest = divmod(int(digits), 4)
    return days_of_century(rest)[places] + (cycles - 4) * CYCLE


@lru_cache(4)
def days_of_century(rest: int) -> np.ndarray:
    """Returns the days since 1970-01-01 of a century from 1600 on, at WIDTH * (WIDTH * year + 2 * month) + day, and
    NO_DAY elsewhere."""
    first = 1600 + 100 * rest
    days = np.arange(f"{first}-01-01", f"{first + 100}-01-01", dtype="M8[D]")
    months = days.astype("M8[M]")
    year, month = np.divmod(months.astype(np.int64) + 12 * (1970 - first), 12)
    day = (days - months).astype(np.int64) + 1
    found = np.full(100 * WIDTH * WIDTH, NO_DAY)
    found[WIDTH * (WIDTH * year + 2 * (month + 1)) + day] = days.astype(np.int64)
    return found
