"""What the whole numbers of a column represent: numbers, decimals, times, booleans or texts.

A kind turns values into whole numbers and back, and only where nothing is lost. A constant of a comparison need not be
one of the values: its *cut* are two whole numbers, `left` up to which the column's numbers represent less than the
constant, and `right` from which on they represent more. They differ by one if a number represents the constant
itself, and are equal if none does.
"""

from __future__ import annotations

import math
import numbers
import operator
import re
from bisect import bisect_left, bisect_right
from dataclasses import dataclass, field, replace
from datetime import date, datetime, timedelta, timezone, tzinfo
from decimal import Context, Decimal
from fractions import Fraction
from itertools import repeat
from typing import Any, Callable, Dict, Iterable, List, Optional, Tuple, Type

import numpy as np

Cut = Tuple[int, int]
COMPARE = {"=": operator.eq, "!=": operator.ne, "<": operator.lt, "<=": operator.le}
COMPARE.update({">": operator.gt, ">=": operator.ge})
GROWS = "; spare= leaves room for more"
# A number past all that a column can take.
FAR = 1 << 200
# More digits than a sum has.
EXACT = Context(prec=100)
NANOSECONDS = {"D": 86_400_000_000_000, "s": 1_000_000_000, "ms": 1_000_000, "us": 1_000, "ns": 1}
UNITS = {"D": "days", "s": "seconds", "ms": "milliseconds", "us": "microseconds", "ns": "nanoseconds"}
NUMBER = re.compile(r"-?(?:[0-9]+(?:\.[0-9]*)?|\.[0-9]+)(?:[eE][-+]?[0-9]{1,3})?")
CLOCK, ZONE = r"\d\d:\d\d(?::\d\d(?:\.\d{1,9})?)?", r"Z|UTC|[+-](?:[01]\d|2[0-3])(?::?[0-5]\d)?"
TIME = re.compile(rf"(\d{{4}}-\d\d-\d\d)(?:[T ]({CLOCK})(?: ?({ZONE}))?)?", re.ASCII)


class Misfit(ValueError):
    """The first value of an array that a kind does not accept: its place, and why."""

    def __init__(self, row: int, value: Any, reason: str):
        super().__init__(reason)
        self.row, self.value, self.reason = row, value, reason


class TooFine(Misfit):
    """The first float of more decimal places than a kind has."""


def first_misfit(bad: np.ndarray, values: np.ndarray, reason: str, kind: Type[Misfit] = Misfit) -> None:
    """Raises the first value that is marked as bad, if one is."""
    if bad.any():
        row = int(bad.argmax())
        raise kind(row, values[row], f"{shown(values[row])} {reason}")


def shown(value: Any) -> str:
    """Returns a value as an error shows it."""
    if isinstance(value, np.floating):
        return str(value)
    try:
        text = repr(value.item() if isinstance(value, np.generic) and value.dtype.kind in "iub" else value)
    except ValueError:
        text = f"what is of type {type(value).__name__} and too long to show"  # (a whole number of 4,300 digits)
    return text if len(text) <= 60 else text[:57] + "..."


def cut_of(value: Fraction) -> Cut:
    """Returns the cut of an exact number among the whole numbers."""
    return math.ceil(value), math.floor(value) + 1


class Kind:
    """What a column's numbers represent. This is the base of the five kinds, and has what most of them share."""

    names_values = False  # whether its numbers are no quantities, but places in a list
    takes = ""  # what its values are called in an error
    unfit = ""  # what is wrong with a value that no number stands for

    def cut(self, constant: Any) -> Cut:
        """Returns where the constant lies among the column's numbers. Refuses one of another type by TypeError or
        ValueError."""
        raise NotImplementedError

    def parse(self, text: str) -> Any:
        """Returns the constant that a text spells, or raises ValueError."""
        raise NotImplementedError

    def decode(self, number: int) -> Any:
        """Returns the value that a number of the column represents."""
        return number

    def show(self, number: int) -> str:
        """Returns the value that a number represents as a text."""
        return str(self.decode(number))

    def decode_sum(self, total: int) -> Any:
        """Returns what a sum of numbers represents, or raises TypeError where such values have no sum."""
        raise TypeError(f"{self.takes} have no sum")

    def decode_between(self, number: Fraction) -> Any:
        """Returns what a number represents that may lie between two of the column's, or raises TypeError where such
        values have none between them."""
        raise TypeError(f"{self.takes} have none between them")

    def decode_deviation(self, variance: Fraction) -> Any:
        """Returns what the root of a variance of numbers represents, or raises TypeError where values have none."""
        raise TypeError(f"{self.takes} have no standard deviation")

    def number(self, value: Any) -> int:
        """Returns the number that represents a value, or raises TypeError or ValueError."""
        left, right = self.cut(value)
        if left == right:
            raise ValueError(f"{shown(value)} {self.unfit}")
        return left

    def encode(self, values: np.ndarray, valid: np.ndarray) -> np.ndarray:
        """Returns the numbers that represent the values where they are valid, and 0 elsewhere. The first other value is
        a Misfit."""
        numbers_found = np.zeros(len(values), np.int64)
        for row in np.flatnonzero(valid):
            value = values[row]
            try:
                numbers_found[row] = self.number(value)
            except (TypeError, ValueError, ArithmeticError) as why:
                reason = f"{shown(value)} is past 64 bits" if isinstance(why, OverflowError) else str(why)
                raise Misfit(int(row), value, reason) from None
        return numbers_found


def decimal_of(text: str) -> Decimal:
    """Returns the number that a text spells, or raises ValueError."""
    if not NUMBER.fullmatch(text):
        raise ValueError(f"{shown(text)} is no number")
    return Decimal(text)


def fraction_of(constant: Any, read_float: Callable[[Any], Fraction] = Fraction) -> Fraction:
    """Returns the real number that a constant is, or one that stands as far out or as near to 0 for every column."""
    if isinstance(constant, np.generic) and constant.dtype.kind in "iub":
        constant = constant.item()
    is_number = isinstance(constant, (numbers.Rational, Decimal, float, np.floating))
    if not is_number or isinstance(constant, np.timedelta64):
        raise TypeError(f"{shown(constant)} is no number")
    if constant.is_nan() if isinstance(constant, Decimal) else constant != constant:
        raise ValueError("nan is no number; isnull() finds the nulls")
    if constant == math.inf or constant == -math.inf:
        return Fraction(FAR if constant == math.inf else -FAR)
    if isinstance(constant, (float, np.floating)):
        return read_float(constant)
    if isinstance(constant, Decimal) and abs(constant.adjusted()) > 100:
        return Fraction(int(constant.compare(0))) * (FAR if constant.adjusted() > 0 else Fraction(1, FAR))
    return Fraction(constant)


@dataclass(frozen=True)
class Whole(Kind):
    """Whole numbers. Answers are ints. A float represents the number that it is."""

    takes = "whole numbers"
    unfit = "is no whole number"

    def cut(self, constant: Any) -> Cut:
        if type(constant) is int:
            return constant, constant + 1
        return cut_of(fraction_of(constant, lambda number: Fraction(*number.as_integer_ratio())))

    def parse(self, text: str) -> Decimal:
        return decimal_of(text)

    def show(self, number: int) -> str:
        return f"{number:,}"

    def decode_sum(self, total: int) -> int:
        return total

    def decode_between(self, number: Fraction) -> float:
        return float(number)

    def decode_deviation(self, variance: Fraction) -> float:
        return float(root_of(variance))

    def encode(self, values: np.ndarray, valid: np.ndarray) -> np.ndarray:
        if values.dtype.kind in "iub":
            if values.dtype.kind == "u":
                first_misfit(valid & (values > np.uint64(2**63 - 1)), values, "is past 63 bits")
            # (a copy in each case, since the library reads the numbers while other threads run)
            return values.astype(np.int64) if valid.all() else np.where(valid, values, 0).astype(np.int64, copy=False)
        if values.dtype.kind == "f":
            return _whole_of_floats(values, valid)
        if values.dtype == object and set(map(type, values[valid])) <= {int, bool}:
            try:
                return np.where(valid, values, 0).astype(np.int64)
            except OverflowError:
                pass
        return super().encode(values, valid)

    def __str__(self) -> str:
        return "whole numbers"


def _whole_of_floats(values: np.ndarray, valid: np.ndarray) -> np.ndarray:
    kept = np.where(valid, values, 0)
    first_misfit(~(np.abs(kept) < 2.0**63), values, "is past 63 bits")
    found = kept.astype(np.int64)
    first_misfit(found != kept, values, Whole.unfit)
    return found


@dataclass(frozen=True)
class Decimals(Kind):
    """Decimals of a number of places, given as that number or as the scale, "0.01". Answers are Decimal. A float
    represents the decimal that it prints as. If `rounded`, a value of more places is stored as the nearest one, the
    even one of two, and a float is then its exact number."""

    places: Any = 2
    rounded: bool = field(default=False, compare=False)
    takes = "decimals"

    def __post_init__(self):
        is_number = isinstance(self.places, numbers.Integral) and not isinstance(self.places, bool)
        places = int(self.places) if is_number else _places_of_scale(self.places)
        if not 0 <= places <= 18:
            raise ValueError(f"decimals have 0 to 18 places, and not {places}")
        object.__setattr__(self, "places", places)

    def cut(self, constant: Any) -> Cut:
        return cut_of(fraction_of(constant, lambda number: Fraction(str(number))) * 10**self.places)

    @property
    def unfit(self) -> str:  # type: ignore[override]
        return f"has more than {self.places} decimal places"

    def number(self, value: Any) -> int:
        if not self.rounded:
            return super().number(value)
        found = round(fraction_of(value) * 10**self.places)
        if abs(found) >= FAR:
            raise ValueError(f"{shown(value)} is past 63 bits")
        return found

    def parse(self, text: str) -> Decimal:
        return decimal_of(text)

    def decode(self, number: int) -> Decimal:
        return _decimal(number, self.places)

    def show(self, number: int) -> str:
        return f"{self.decode(number):f}"

    def decode_sum(self, total: int) -> Decimal:
        return _decimal(total, self.places)

    def decode_between(self, number: Fraction) -> Decimal:
        if number.denominator == 1:
            return self.decode(int(number))
        return Decimal(number.numerator) / (number.denominator * 10**self.places)

    def decode_deviation(self, variance: Fraction) -> Decimal:
        return +EXACT.scaleb(root_of(variance), -self.places)

    def encode(self, values: np.ndarray, valid: np.ndarray) -> np.ndarray:
        scale = 10**self.places
        if values.dtype.kind in "iub":
            whole = Whole().encode(values, valid)
            most = (2**63 - 1) // scale
            first_misfit((whole > most) | (whole < -most), values, f"is past 63 bits at {self.places} decimal places")
            return whole * scale
        if values.dtype.kind == "f":
            return self._rounded(values, valid) if self.rounded else self._encode_floats(values, valid)
        return super().encode(values, valid)

    def _rounded(self, values: np.ndarray, valid: np.ndarray) -> np.ndarray:
        kept = np.where(valid, values, 0).astype(np.float64)
        with np.errstate(over="ignore", invalid="ignore"):
            scaled = kept * 10.0**self.places
            first_misfit(~(np.abs(scaled) < 2.0**63), values, f"is past 63 bits at {self.places} decimal places")
            found = np.rint(scaled).astype(np.int64)
            # (the product is rounded itself, so one that lies near the middle is looked at exactly)
            near = np.abs(np.abs(scaled - np.floor(scaled)) - 0.5) <= np.spacing(np.abs(scaled)) * 2
        for row in np.flatnonzero(near & valid).tolist():
            found[row] = self.number(float(kept[row]))
        return found

    def _encode_floats(self, values: np.ndarray, valid: np.ndarray) -> np.ndarray:
        # A decimal of as many digits as a float keeps (15 of a double) is the only such one that the float prints as.
        # Numbers go through doubles here, so a longer float has no more.
        most = 10.0 ** min(np.finfo(values.dtype).precision, 15)
        with np.errstate(over="ignore", invalid="ignore"):
            scaled = np.rint(np.where(valid, values, 0).astype(np.float64) * 10.0**self.places)
            back = (scaled / 10.0**self.places).astype(values.dtype)
        first_misfit(valid & ~np.isfinite(values), values, "is no finite number")
        fits = (np.abs(scaled) <= most) & (back == np.where(valid, values, 0))
        way = f"a column of Decimals({self.places}, rounded=True) rounds it"
        reason = f"can't be stored exactly with {self.places} decimal places; {way}"
        first_misfit(~fits, values, reason, TooFine)
        return scaled.astype(np.int64)

    def __str__(self) -> str:
        return f"decimals of {self.places} place{'' if self.places == 1 else 's'}"


def _places_of_scale(scale: Any) -> int:
    try:
        # (1.0 may be meant as one place)
        places = -Decimal(str(scale)).log10() if not isinstance(scale, float) or scale < 1 else Decimal("nan")
        if places == int(places):
            return int(places)
    except (ArithmeticError, ValueError):
        pass
    raise ValueError(f"{shown(scale)} is no number of places, as 2, and no scale, as '0.01'")


def root_of(number: Fraction) -> Decimal:
    """Returns the root of a number to 100 digits."""
    return EXACT.sqrt(EXACT.divide(Decimal(number.numerator), Decimal(number.denominator)))


def _decimal(number: int, places: int) -> Decimal:
    """Returns number / 10^places exactly, whatever the precision of the caller's context."""
    return EXACT.scaleb(Decimal(number), -places)


@dataclass(frozen=True)
class Times(Kind):
    """Points of time, as a count of days "D", seconds "s", "ms", "us" or "ns" since 1970-01-01, in UTC if there is a
    zone: a tzinfo, or a name as "Europe/Paris". Answers are datetime, and numpy.datetime64 in UTC for nanoseconds and
    years past 9999. Constants are dates, times, or texts such as 2026-01-31T12:00.
    """

    unit: str = "D"
    zone: Any = None
    takes = "times"

    def __post_init__(self):
        if self.unit not in UNITS:
            raise ValueError(f"{shown(self.unit)} is no unit of time; those are {', '.join(UNITS)}")
        object.__setattr__(self, "zone", _zone_of(self.zone))

    def cut(self, constant: Any) -> Cut:
        nanoseconds, is_aware = nanoseconds_of(constant)
        if is_aware != (self.zone is not None):
            has, column_has = ("a", "none") if is_aware else ("no", "one")
            raise TypeError(f"{shown(constant)} has {has} time zone, and the column has {column_has}")
        return cut_of(Fraction(nanoseconds, NANOSECONDS[self.unit]))

    @property
    def unfit(self) -> str:  # type: ignore[override]
        return f"is no whole number of {UNITS[self.unit]}"

    def parse(self, text: str) -> str:
        nanoseconds_of_text(text)
        return text

    def decode(self, number: int) -> Any:
        return _time(number, self.unit, self.zone)

    def decode_between(self, number: Fraction) -> Any:
        # (to the microseconds that a datetime has, unless the column is finer)
        unit = "ns" if self.unit == "ns" else "us"
        return _time(round(number * NANOSECONDS[self.unit] / NANOSECONDS[unit]), unit, self.zone)

    def show(self, number: int) -> str:
        return str(self.decode(number))[:10] if self.unit == "D" else str(self.decode(number))

    def encode(self, values: np.ndarray, valid: np.ndarray) -> np.ndarray:
        if values.dtype.kind != "M":
            return super().encode(values, valid)
        found = values.astype(f"M8[{self.unit}]")
        first_misfit(valid & (found.astype(values.dtype) != values), values, self.unfit)
        return np.where(valid, found.astype(np.int64), 0)

    def __str__(self) -> str:
        return (
            f"times in {UNITS[self.unit]}" + (f" in {self.zone}" if self.zone else "") if self.unit != "D" else "dates"
        )


def _zone_of(zone: Any) -> Any:
    """Returns a time zone that is given as such or by its name, or raises TypeError or ValueError."""
    if zone is None or isinstance(zone, tzinfo):
        return zone
    if not isinstance(zone, str):
        raise TypeError(f"a time zone is a tzinfo or a name, as 'Europe/Paris', and not {shown(zone)}")
    if zone == "UTC":
        return timezone.utc
    from zoneinfo import ZoneInfo

    try:
        return ZoneInfo(zone)
    except (LookupError, ValueError, OSError):
        raise ValueError(f"the time zone {shown(zone)} is not known here; one is 'Europe/Paris'") from None


EPOCH, MICROSECOND = datetime(1970, 1, 1), timedelta(microseconds=1)


def nanoseconds_of_text(text: str) -> Tuple[int, bool]:
    """Returns the nanoseconds since 1970-01-01 that a text spells, in UTC if it has a zone, and whether it has
    one."""
    found = TIME.fullmatch(text)
    if not found:
        raise ValueError(f"{shown(text)} is no date or time; one is 2026-01-31 or 2026-01-31T12:00:00")
    day, clock, zone = found.groups()
    clock, _, fraction = (clock or "00").partition(".")
    try:
        seconds = int(np.datetime64(f"{day}T{clock}", "s").astype(np.int64))
    except ValueError:
        raise ValueError(f"{shown(text)} is no date or time: the calendar or the clock has no such") from None
    return (seconds - seconds_ahead(zone)) * NANOSECONDS["s"] + int(fraction.ljust(9, "0")), zone is not None


def seconds_ahead(zone: Optional[str]) -> int:
    """Returns how many seconds a time zone is ahead of UTC, spelt as 2026-01-31T12:00+01:00 has it."""
    if not zone or zone in ("Z", "UTC"):
        return 0
    return (int(zone[1:3]) * 60 + int(zone[3:].strip(":") or 0)) * (-60 if zone[0] == "-" else 60)


def nanoseconds_of(moment: Any) -> Tuple[int, bool]:
    """Returns the nanoseconds since 1970-01-01, in UTC if the moment has a zone, and whether it has one."""
    if isinstance(moment, str):
        return nanoseconds_of_text(moment)
    if isinstance(moment, np.datetime64) and not np.isnat(moment):
        unit, count = np.datetime_data(moment.dtype)
        if unit in ("Y", "M", "W"):
            unit, count, moment = "D", 1, moment.astype("M8[D]")
        if unit not in ("h", "m", *NANOSECONDS):
            raise TypeError(f"{shown(moment)} is finer than nanoseconds")
        factor = {"h": 3600 * NANOSECONDS["s"], "m": 60 * NANOSECONDS["s"], **NANOSECONDS}[unit]
        return int(moment.astype(np.int64)) * count * factor, False
    if isinstance(moment, datetime) and moment == moment:
        ahead = moment.utcoffset()
        microseconds = (moment.replace(tzinfo=None) - EPOCH) // MICROSECOND - (ahead or timedelta()) // MICROSECOND
        # (pandas.Timestamp is a datetime that has nanoseconds besides)
        return microseconds * 1000 + getattr(moment, "nanosecond", 0), ahead is not None
    if isinstance(moment, date) and moment == moment:
        return (moment - EPOCH.date()).days * NANOSECONDS["D"], False
    raise TypeError(f"{shown(moment)} is no date or time")


def _time(number: int, unit: str, zone: Any) -> Any:
    """Returns the point of time as a datetime, and as a numpy.datetime64 in UTC where that can't be: in nanoseconds,
    and past the years 1 to 9999."""
    nanoseconds = number * NANOSECONDS[unit]
    if unit == "ns":
        return np.datetime64(nanoseconds, "ns")
    try:
        moment = EPOCH + timedelta(microseconds=nanoseconds // 1000)
    except OverflowError:
        return np.datetime64(nanoseconds // NANOSECONDS["s"], "s")
    try:
        return moment.replace(tzinfo=timezone.utc).astimezone(zone) if zone is not None else moment
    except OverflowError:
        return moment.replace(tzinfo=timezone.utc)  # (the zone is past the years 1 to 9999)


@dataclass(frozen=True)
class Flags(Kind):
    """Booleans, as 0 and 1. Answers are bools; a sum is how many are true."""

    takes = "booleans"

    def cut(self, constant: Any) -> Cut:
        if isinstance(constant, (bool, np.bool_)):
            return int(constant), int(constant) + 1
        raise TypeError(f"{shown(constant)} is neither True nor False")

    def parse(self, text: str) -> bool:
        if text.lower() not in ("true", "false"):
            raise ValueError(f"{shown(text)} is neither true nor false")
        return text.lower() == "true"

    def decode(self, number: int) -> bool:
        return bool(number)

    def decode_sum(self, total: int) -> int:
        return total

    def decode_deviation(self, variance: Fraction) -> float:
        return float(root_of(variance))

    def encode(self, values: np.ndarray, valid: np.ndarray) -> np.ndarray:
        return (
            np.where(valid, values, False).astype(np.int64) if values.dtype == bool else super().encode(values, valid)
        )

    def __str__(self) -> str:
        return "booleans"


@dataclass(frozen=True)
class Texts(Kind):
    """One of these texts, as its place among them. They compare in order of their characters, or in the order given if
    `ordered`. Answers are str. If it `grows`, further texts of an append get the next places, as far as the column
    has room, so that places are in no order."""

    values: Tuple[str, ...]
    ordered: bool = False
    grows: bool = field(default=False, compare=False)
    places: Dict[str, int] = field(init=False, repr=False, compare=False)
    names_values = True
    takes = "texts"

    def __post_init__(self):
        if isinstance(self.values, str):
            raise TypeError(f"a column of texts needs the list of them, and not one text: Texts([{self.values!r}])")
        values = tuple(self.values) if isinstance(self.values, Iterable) else ()
        if not values or any(not isinstance(value, str) for value in values):
            raise TypeError("a column of texts needs the list of them")
        values = values if self.ordered or self.grows else tuple(sorted(set(values)))
        object.__setattr__(self, "values", values)
        object.__setattr__(self, "places", {value: place for place, value in enumerate(values)})
        if len(self.places) < len(values):
            raise ValueError("a text is twice in the list")

    def cut(self, constant: Any) -> Cut:
        if not isinstance(constant, str):
            raise TypeError(f"{shown(constant)} is no text")
        if constant in self.places:
            return self.places[constant], self.places[constant] + 1
        if self.grows:
            return len(self.values), len(self.values)
        if self.ordered:
            raise ValueError(f"{shown(constant)} is not one of the texts, whose order was given")
        return bisect_left(self.values, constant), bisect_right(self.values, constant)

    def numbers_where(self, sign: str, constant: Any) -> List[int]:
        """Returns the places of the texts that compare so with a constant."""
        self.cut(constant)
        return [place for place, text in enumerate(self.values) if COMPARE[sign](text, constant)]

    def grown(self, values: np.ndarray, valid: np.ndarray) -> "Texts":
        """Returns the kind with the further texts among these values."""
        there = dict.fromkeys(values[valid].tolist() if values.dtype == object else ())
        more = [text for text in there if isinstance(text, str) and text not in self.places]
        return replace(self, values=(*self.values, *more)) if more else self

    @property
    def unfit(self) -> str:  # type: ignore[override]
        return f"is not one of its {len(self.values):,} texts" + ("" if self.ordered or self.grows else GROWS)

    def parse(self, text: str) -> str:
        return text

    def decode(self, number: int) -> str:
        return self.values[number]

    def encode(self, values: np.ndarray, valid: np.ndarray) -> np.ndarray:
        try:
            found = np.fromiter(map(self.places.get, values, repeat(-1)), np.int64, len(values))
        except TypeError:
            return super().encode(values, valid)
        return super().encode(values, valid) if (valid & (found < 0)).any() else np.where(valid, found, 0)

    def __str__(self) -> str:
        return f"{len(self.values)} texts"
