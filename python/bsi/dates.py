"""Dates as people write them: 2026-01-31, 2026/01/31, 31.01.2026, 1/31/2026 3:45 PM, Jan 31, 2026, 31 January 2026."""

from __future__ import annotations

import re
from datetime import datetime
from typing import Dict, List, NamedTuple, Optional, Tuple

from .kinds import CLOCK, MICROSECOND, EPOCH, NANOSECONDS, ZONE, nanoseconds_of_text, seconds_ahead, shown

MONTHS = ("jan", "feb", "mar", "apr", "may", "jun", "jul", "aug", "sep", "oct", "nov", "dec")
NAMES = "january|february|march|april|may|june|july|august|september|october|november|december"
MONTH = rf"(?:{NAMES}|sept|{'|'.join(MONTHS)})\.?"
DAYS = ("monday", "tuesday", "wednesday", "thursday", "friday", "saturday", "sunday")
WEEKDAY = rf"(?:(?P<weekday>{'|'.join(DAYS)}|tues|thurs?|{'|'.join(day[:3] for day in DAYS)})\.?,? +)?"
YEAR, NAMED, DAY = r"(?P<year>\d{4})", rf"(?P<month>{MONTH})", r"(?P<day>\d\d?)"
NTH = rf"{DAY}(?:st|nd|rd|th)?"
SECOND = r"(?P<second>\d\d)(?:[.,](?P<fraction>\d+))?"
BEHIND = rf"(?: ?(?P<half>[ap])\.?m\.?)?(?: ?(?P<zone>{ZONE}|[a-z]{{3,4}}))?"
TIME = rf"(?P<hour>\d\d?):(?P<minute>\d\d)(?::{SECOND})?{BEHIND}"
HOUR = rf"(?:,?[T ] *{TIME})?"
FLAGS = re.ASCII | re.IGNORECASE
YEAR_FIRST = re.compile(rf"(\d{{4}})([-/.])(\d\d?)\2(\d\d?)(?:[T ]({CLOCK})(?: ?({ZONE}))?)?", re.ASCII)
NUMERIC = re.compile(rf"(\d{{1,2}})([-/.])(\d{{1,2}})\2(\d{{4}}){HOUR}", FLAGS)
MONTHLY = re.compile(rf"{MONTH}[- ]'?\d\d(?:\d\d)?|(?:0?[1-9]|1[0-2])[-/.](?:19|20)\d\d", FLAGS)
MONTH_LAST = re.compile(r"(?:19|20)\d\d[-/.](?:0[1-9]|1[0-2])", re.ASCII)
FIRST = r"(?:0?[1-9]|[12]\d|3[01])"
SHORT = re.compile(rf"{FIRST}([-/.]){FIRST}\1\d{{2}}(?:[T ].*)?", re.ASCII)
SHORT_WRITTEN = re.compile(rf"{WEEKDAY}(?:{FIRST}[- .]+{MONTH}[- ,]+|{MONTH} +{FIRST},? +)'?\d\d{HOUR}", FLAGS)
WRITTEN = [
    re.compile(form, FLAGS)
    for form in (
        rf"{YEAR}(?P<sign>[-/.])(?P<month>\d\d?)(?P=sign){DAY}{HOUR}",
        rf"{YEAR}(?P<month>\d\d)(?P<day>\d\d)T(?P<hour>\d\d)(?P<minute>\d\d)(?:{SECOND})?{BEHIND}",
        rf"{WEEKDAY}{NAMED} +{NTH},? +{YEAR}{HOUR}",
        rf"{WEEKDAY}{NTH}[- .]+{NAMED}[- ,]+{YEAR}{HOUR}",
        rf"{YEAR}[- ]{NAMED}[- ]{DAY}{HOUR}",
        rf"{WEEKDAY}{NAMED} +{DAY} +{TIME} +{YEAR}",
    )
]


class Unclear(ValueError):
    """A text that is a date, and does not say which one."""


def is_date(text: str) -> bool:
    """Returns whether a text looks like a date, with a clock behind it or not."""
    try:
        nanoseconds_of_date(text)
        return True
    except Unclear:
        return True
    except ValueError:
        return is_numeric(text)


def is_numeric(text: str) -> bool:
    """Returns whether a text is a date of numbers, of which day and month could be exchanged."""
    return bool(NUMERIC.fullmatch(text) or SHORT.fullmatch(text))


def nanoseconds_of_date(text: str) -> Tuple[int, bool]:
    """Returns the nanoseconds since 1970-01-01 of a text whose day and month can't be exchanged, in UTC if it has a
    zone, and whether it has one."""
    if found := YEAR_FIRST.fullmatch(text):
        year, _, month, day, clock, zone = found.groups()
        return nanoseconds_of_text(f"{year}-{month:0>2}-{day:0>2}" + (f"T{clock}{zone or ''}" if clock else ""))
    for pattern in WRITTEN:
        if found := pattern.fullmatch(text):
            parts, month = found.groupdict(), found["month"]
            number = int(month) if month.isdigit() else MONTHS.index(month[:3].lower()) + 1
            return _moment(text, int(found["year"]), number, int(found["day"]), parts)
    if MONTHLY.fullmatch(text) or MONTH_LAST.fullmatch(text):
        form = "%Y-%m" if MONTH_LAST.fullmatch(text) else "%b %Y"
        raise Unclear(f"{shown(text)} has no day: give dates=, as {form!r}, or kinds= with Texts")
    if SHORT_WRITTEN.fullmatch(text):
        raise Unclear(f"{shown(text)} has a year of two digits: give dates=, as '%d-%b-%y', or kinds= with Texts")
    return nanoseconds_of_text(text)


def _moment(text: str, year: int, month: int, day: int, parts: Dict[str, Optional[str]]) -> Tuple[int, bool]:
    """Returns the nanoseconds since 1970-01-01 of a day with the parts of a clock, in UTC if they have a zone, and
    whether they have one."""
    try:
        moment = datetime(year, month, day, _hours(parts), int(parts["minute"] or 0), int(parts["second"] or 0))
    except ValueError:
        raise ValueError(f"{shown(text)} is no date or time: the calendar or the clock has no such") from None
    weekday = DAYS[moment.weekday()]
    if not weekday.startswith((parts.get("weekday") or "")[:3].lower()):
        raise ValueError(f"{shown(text)} is no date or time: that day is a {weekday.title()}")
    fraction, zone = (parts["fraction"] or "").rstrip("0"), (parts["zone"] or "").upper().replace("GMT", "UTC")
    if len(fraction) > 9:
        raise Unclear(f"{shown(text)} is finer than nanoseconds; kinds= with Texts stores it")
    if zone.isalpha() and zone not in ("Z", "UTC"):
        raise Unclear(f"{shown(text)} has the zone {parts['zone']!r}, which is unknown; kinds= with Texts stores it")
    nanoseconds = (moment - EPOCH) // MICROSECOND * 1000 + int(fraction.ljust(9, "0"))
    return nanoseconds - seconds_ahead(zone) * NANOSECONDS["s"], bool(zone)


def _hours(parts: Dict[str, Optional[str]]) -> int:
    """Returns the hours of a clock of 24, or raises ValueError."""
    hours, half = int(parts["hour"] or 0), parts["half"]
    if half and not 1 <= hours <= 12:
        raise ValueError
    return hours % 12 + (12 if half.lower() == "p" else 0) if half else hours


class Numeric(NamedTuple):
    """Dates of numbers, of which the order of day and month is found by all of them together."""

    day_first: bool
    is_known: bool

    def nanoseconds(self, text: str) -> Tuple[int, bool]:
        """Returns the nanoseconds since 1970-01-01 that a text spells, in UTC if it has a zone, and whether it has
        one."""
        found = NUMERIC.fullmatch(text)
        if not found:
            if SHORT.fullmatch(text):
                raise ValueError(f"{shown(text)} has a year of two digits: give dates=, as '%d.%m.%y', or kinds=")
            return nanoseconds_of_date(text)
        first, sign, second, year = found.groups()[:4]
        if not self.is_known:
            ways = [f"'%{one}{sign}%{other}{sign}%Y'" for one, other in ("dm", "md")]
            raise ValueError(f"day and month of {shown(text)} could be exchanged: give dates={' or '.join(ways)}")
        day, month = (first, second) if self.day_first else (second, first)
        return _moment(text, int(year), int(month), int(day), found.groupdict())


def numeric_of(texts: List[str]) -> Numeric:
    """Returns how dates of numbers are read: a number past 12 is a day."""
    pairs = [(int(found[1]), int(found[3])) for found in map(NUMERIC.fullmatch, texts) if found]
    first, second = (sum(pair[place] > 12 for pair in pairs) for place in (0, 1))
    return Numeric(first > second, first != second)


def nanoseconds_by(form: str, text: str) -> Tuple[int, bool]:
    """Returns the nanoseconds since 1970-01-01 of a text that is written in a form of strptime, and whether it has a
    zone."""
    try:
        moment = datetime.strptime(text, form)
    except ValueError:
        raise ValueError(f"{shown(text)} is no date or time written as {form}") from None
    ahead = moment.utcoffset()
    microseconds = (moment.replace(tzinfo=None) - EPOCH) // MICROSECOND - (ahead // MICROSECOND if ahead else 0)
    return microseconds * 1000, ahead is not None
