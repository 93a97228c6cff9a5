"""Parts of dates and times: the year, quarter, month, ISO week, day of the month, hour and weekday of a time, the local
one where the column has a zone.

A part is compared as whole numbers are. The times that have some value of it lie in runs, of which a year has one a
month, a week or a day, so that a question about a part is one about runs of the column's numbers.
"""

from __future__ import annotations

from datetime import timedelta, timezone
from typing import Any, Callable, Iterator, List, Tuple

import numpy as np

from .kinds import EPOCH, NANOSECONDS, Kind, Times

Runs = List[Tuple[int, int]]
# Each part with the unit of the calendar in which it changes, and the values that it may have; a year may be any.
PARTS = {
    "year": ("Y", range(0)),
    "quarter": ("M", range(1, 5)),
    "month": ("M", range(1, 13)),
    "week": ("D", range(1, 54)),
    "day": ("D", range(1, 32)),
    "weekday": ("D", range(7)),
    "hour": ("h", range(24)),
}
# How many units of the calendar, and how many runs, are looked at.
MAX_UNITS, MAX_RUNS = 1 << 22, 1 << 16
SECOND = NANOSECONDS["s"]
# No clock is put back by more.
MARGIN = 3 * 3600


def refuse_other(kind: Kind, part: str) -> None:
    """Raises TypeError where the values of a kind have no such part."""
    if not isinstance(kind, Times) or part == "hour" and kind.unit == "D":
        raise TypeError(f"{kind} have no {part}")


def values_of(part: str, times: np.ndarray) -> np.ndarray:
    """Returns the part of local times, given in seconds."""
    days, months = times.astype("M8[D]"), times.astype("M8[M]")
    weekdays = (days.astype(np.int64) + 3) % 7
    if part == "year":
        return times.astype("M8[Y]").astype(np.int64) + 1970
    if part == "quarter":
        return months.astype(np.int64) % 12 // 3 + 1
    if part == "month":
        return months.astype(np.int64) % 12 + 1
    if part == "day":
        return (days - months.astype("M8[D]")).astype(np.int64) + 1
    if part == "hour":
        return (times - days).astype("m8[h]").astype(np.int64)
    if part == "weekday":
        return weekdays
    # (a week is that of its Thursday: ISO 8601)
    thursdays = days + (3 - weekdays)
    return (thursdays - thursdays.astype("M8[Y]").astype("M8[D]")).astype(np.int64) // 7 + 1


def part_of(kind: Times, part: str, numbers: np.ndarray) -> np.ndarray:
    """Returns the part of the times that numbers represent."""
    refuse_other(kind, part)
    return values_of(part, _local(kind, numbers))


def runs_where(kind: Kind, part: str, test: Callable[[np.ndarray], np.ndarray], low: int, high: int) -> Runs:
    """Returns the runs of the numbers from one to another that represent times whose part passes a test. Raises TypeError
    if they have no such part, and ValueError where the span is too long."""
    refuse_other(kind, part)
    assert isinstance(kind, Times)
    unit, _ = PARTS[part]
    try:
        first, last = (_local(kind, np.array([number]))[0] for number in (low, high))
        first, last = (first - MARGIN).astype(f"M8[{unit}]"), (last + MARGIN).astype(f"M8[{unit}]")
        if int((last - first).astype(np.int64)) >= MAX_UNITS:
            raise OverflowError
        units = np.arange(first, last + 1)
        kept = np.concatenate([[False], test(values_of(part, units.astype("M8[s]"))), [False]])
        edges = np.flatnonzero(kept[1:] != kept[:-1]).reshape(-1, 2).tolist()
        if len(edges) > MAX_RUNS:
            raise OverflowError
        return list(_within([[_number(kind, first + place) for place in edge] for edge in edges], low, high))
    except OverflowError:
        raise ValueError(f"the column's times span too long to look at each {part}") from None


def _within(edges: List[List[int]], low: int, high: int) -> Iterator[Tuple[int, int]]:
    """Yields the runs that begin at the one edge and end before the other, as far as they lie in a span."""
    for start, end in edges:
        if max(start, low) <= min(end - 1, high):
            yield max(start, low), min(end - 1, high)


def _local(kind: Times, numbers: np.ndarray) -> np.ndarray:
    """Returns the local times that numbers represent, in whole seconds, rounded down."""
    size = NANOSECONDS[kind.unit]
    if len(numbers) and size > SECOND and np.abs(numbers).max() > (1 << 62) // (size // SECOND):
        raise OverflowError
    seconds = numbers * (size // SECOND) if size >= SECOND else numbers // (SECOND // size)
    if kind.zone is not None:
        seconds = np.fromiter((_ahead(second, kind.zone) for second in seconds.tolist()), np.int64, len(seconds))
    return seconds.astype(np.int64).view("M8[s]")


def _ahead(second: int, zone: Any) -> int:
    """Returns the seconds since 1970-01-01 that a clock of the zone shows at a second of UTC."""
    moment = (EPOCH + timedelta(seconds=second)).replace(tzinfo=timezone.utc).astimezone(zone)
    return (moment.replace(tzinfo=None) - EPOCH) // timedelta(seconds=1)


def _number(kind: Times, moment: np.datetime64) -> int:
    """Returns the first number that represents a local time or a later one."""
    seconds = int(moment.astype("M8[s]").astype(np.int64))
    if kind.zone is not None:
        local = (EPOCH + timedelta(seconds=seconds)).replace(tzinfo=kind.zone)
        seconds = (local.astimezone(timezone.utc).replace(tzinfo=None) - EPOCH) // timedelta(seconds=1)
    return -(-seconds * SECOND // NANOSECONDS[kind.unit])
