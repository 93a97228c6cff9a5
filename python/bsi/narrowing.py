"""Which kind a column of values is of: the narrowest that keeps each of them exactly, and how the kinds of several
parts go together."""

from __future__ import annotations

import numbers
import sys
from datetime import date, timezone
from decimal import Decimal
from typing import Any, Dict, List, Optional, Tuple

import numpy as np

from .dates import is_date
from .kinds import NANOSECONDS, UNITS, Decimals, Flags, Kind, Misfit, Texts, Times, TooFine, Whole
from .kinds import first_misfit, nanoseconds_of, shown
from .values import Values

# How many places of decimals are tried for floats, and how many different texts a column may have.
MAX_PLACES, MAX_TEXTS = 6, 1024
# What helps where decimals have too many digits.
ROUNDS = "; round= rounds its column"
# The kind of a column, None where all of it is null, and the numbers that stand for its values.
Narrowed = Tuple[Optional[Kind], np.ndarray]


def encode(kind: Kind, given: Values) -> np.ndarray:
    """Returns the numbers that represent the values under a kind that is known. The first other value is a Misfit."""
    if given.values.dtype.kind == "M" and isinstance(kind, Times) and (given.zone is None) != (kind.zone is None):
        has, column_has = ("no", "one") if given.zone is None else ("a", "none")
        first_misfit(given.valid, given.values, f"has {has} time zone, and the column has {column_has}")
    return kind.encode(given.values, given.valid)


def narrow(given: Values, texts: Optional[int] = MAX_TEXTS, round: Optional[int] = None) -> Narrowed:
    """Returns the narrowest kind of the values and the numbers that represent them. The first value that fits in none
    is a Misfit. There are at most so many texts, and decimals of more than so many places are rounded."""
    values, valid = given.values, given.valid
    if not valid.any():
        return _kind_of_dtype(given), np.zeros(len(values), np.int64)
    if values.dtype == object:
        return _of_objects(given, texts, round)
    most, last = (MAX_PLACES, []) if round is None else (round, [Decimals(round, rounded=True)])
    kinds: Dict[str, List[Kind]] = {
        "b": [Flags()],
        "i": [Whole()],
        "u": [Whole()],
        "f": [Whole(), *(Decimals(places) for places in range(1, most + 1)), *last],
        "M": [Times(unit, given.zone) for unit in UNITS],
    }
    try:
        return first_that_keeps(kinds[values.dtype.kind], values, valid)
    except TooFine as why:
        raise Misfit(why.row, why.value, too_fine(why.value)) from None


def _kind_of_dtype(given: Values) -> Optional[Kind]:
    """Returns the kind that the dtype of nulls alone tells, if it tells one: another array of it may follow."""
    if given.order:
        return Texts(given.order, ordered=True)
    return given.kind or {"M": Times("D", given.zone), "b": Flags()}.get(given.values.dtype.kind)


def first_that_keeps(kinds: list, values: np.ndarray, valid: np.ndarray) -> Narrowed:
    """Returns the first of the kinds that keeps all values. What the last one does not keep is the Misfit."""
    for kind in kinds[:-1]:
        try:
            return kind, kind.encode(values, valid)
        except Misfit:
            pass
    return kinds[-1], kinds[-1].encode(values, valid)


def _of_objects(given: Values, texts: Optional[int], round: Optional[int]) -> Narrowed:
    first = given.values[int(given.valid.argmax())]
    if isinstance(first, str):
        return _texts(given, texts)
    if isinstance(first, (bool, np.bool_)):
        return Flags(), Flags().encode(given.values, given.valid)
    if isinstance(first, (date, np.datetime64)):
        return _times(given)
    if isinstance(first, (numbers.Real, Decimal, np.number)):
        return _numbers(given, round)
    raise Misfit(int(given.valid.argmax()), first, f"{shown(first)} is not one of numbers, times, booleans or texts")


def _texts(given: Values, most: Optional[int]) -> Narrowed:
    there = given.values[given.valid].tolist()
    if set(map(type, there)) != {str} or most is not None and len(set(there)) > most:
        _refuse_texts(given, most)
    kind = Texts(given.order, ordered=True) if given.order else Texts(tuple(set(there)))
    return kind, kind.encode(given.values, given.valid)


def _refuse_texts(given: Values, most: Optional[int]) -> None:
    """Raises the first value that is no text, or one text more than a column may have."""
    found = set()
    for row in np.flatnonzero(given.valid).tolist():
        text = given.values[row]
        if not isinstance(text, str):
            raise Misfit(row, text, f"{shown(text)} is no text, as those before it are")
        found.add(text)
        if most is not None and len(found) > most:
            raise Misfit(row, text, too_many_texts(text))


def too_fine(value: Any) -> str:
    """Returns what is wrong with a float of more places than are tried."""
    return f"{shown(value)} can't be stored exactly with {MAX_PLACES} decimal places; round= rounds it"


def too_many_texts(text: str, for_dates: str = "pandas.to_datetime makes dates of texts") -> str:
    """Returns what is wrong with a text past those that a column may have, and what to do where it looks like a
    date."""
    ways = "kinds= with Texts accepts all of them, and drop= leaves the column out"
    ways = f"it looks like a date, and {for_dates}; {ways}" if is_date(text) else ways
    return f"{shown(text)} is one text more than the {MAX_TEXTS:,} that are accepted unasked; {ways}"


def _numbers(given: Values, round: Optional[int]) -> Narrowed:
    """Decimals of as many places as the values show, and whole numbers if none of them is a Decimal or has a
    fraction."""
    places, is_whole = 0, True
    for row in np.flatnonzero(given.valid).tolist():
        value = given.values[row]
        is_whole &= not isinstance(value, Decimal)
        places = max(places, _places(row, value, round))
    rounded = Decimals(places) if round is None or places <= round else Decimals(round, rounded=True)
    kind = Whole() if is_whole and places == 0 else rounded
    return kind, kind.encode(given.values, given.valid)


def _places(row: int, value: Any, round: Optional[int]) -> int:
    if isinstance(value, (bool, np.bool_)):
        raise Misfit(row, value, f"{shown(value)} is no number, as those before it are")
    if isinstance(value, numbers.Integral):
        return 0
    if isinstance(value, (float, np.floating)):
        is_whole = np.isfinite(value) and value % 1 == 0
        found = Decimal(0) if is_whole else Decimal(str(value))
        if round is None and found.is_finite() and found.as_tuple().exponent < -MAX_PLACES:  # type: ignore[operator]
            raise Misfit(row, value, too_fine(value))
        value = found
    if not isinstance(value, Decimal):
        raise Misfit(row, value, f"{shown(value)} is no number, or no decimal")
    exponent = value.as_tuple().exponent
    if not isinstance(exponent, int):
        raise Misfit(row, value, f"{shown(value)} is no finite number")
    if round is None and exponent < -18:
        raise Misfit(row, value, f"{shown(value)} has more than 18 decimal places")
    return max(0, -exponent)


def _times(given: Values) -> Narrowed:
    moments, zones = np.zeros(len(given.values), object), []
    for row in np.flatnonzero(given.valid).tolist():
        value = given.values[row]
        try:
            moments[row], is_aware = nanoseconds_of(value)
        except (TypeError, ValueError, ArithmeticError) as why:
            raise Misfit(row, value, str(why)) from None
        zone = zone_of(value.tzinfo) if is_aware else None
        if zone not in zones:  # (a list, since not every zone has a hash)
            zones.append(zone)
        if len(zones) > 1 and None in zones:
            has, other_has = ("a", "none") if is_aware else ("no", "one")
            raise Misfit(row, value, f"{shown(value)} has {has} time zone, and one before it has {other_has}")
    return times_of(moments, given.values, zones[0] if len(zones) == 1 else timezone.utc)


def zone_of(zone: Any) -> Any:
    """Returns the zone itself: pytz gives each time one that represents a part of the year alone."""
    pytz = sys.modules.get("pytz")
    is_part = pytz is not None and isinstance(zone, pytz.tzinfo.DstTzInfo)
    return pytz.timezone(zone.zone) if is_part else zone


def times_of(moments: np.ndarray, values: Any, zone: Any) -> Narrowed:
    """Returns times of the coarsest unit that keeps all of these nanoseconds, and the counts of it. `values` are what
    they came from."""
    unit = next(unit for unit in UNITS if all(moment % NANOSECONDS[unit] == 0 for moment in moments))
    counts = moments // NANOSECONDS[unit]
    is_far = np.array([abs(count) >= 1 << 63 for count in counts], bool)
    first_misfit(is_far, values, f"is past 63 bits of {UNITS[unit]}")
    return Times(unit, zone), counts.astype(np.int64)


def joined(one: Optional[Kind], other: Optional[Kind]) -> Optional[Kind]:
    """Returns the kind that keeps what both keep, or raises TypeError if there is none."""
    if one is None or other is None or one == other:
        return one or other
    if isinstance(one, (Whole, Decimals)) and isinstance(other, (Whole, Decimals)):
        return Decimals(max(getattr(one, "places", 0), getattr(other, "places", 0)))
    if isinstance(one, Times) and isinstance(other, Times) and (one.zone is None) == (other.zone is None):
        finer = max(one.unit, other.unit, key=list(UNITS).index)
        return Times(finer, one.zone if one.zone == other.zone else timezone.utc)
    if isinstance(one, Texts) and isinstance(other, Texts) and not one.ordered and not other.ordered:
        return Texts(one.values + other.values)
    raise TypeError(f"{other.takes} stand below {one.takes}")


def factor_of(old: Optional[Kind], new: Optional[Kind]) -> int:
    """Returns what numbers are multiplied by for a kind that keeps what the old one keeps, none of them texts."""
    if isinstance(old, Times) and isinstance(new, Times):
        return NANOSECONDS[old.unit] // NANOSECONDS[new.unit]
    return 10 ** (new.places - getattr(old, "places", 0)) if isinstance(new, Decimals) else 1


def recode(found: np.ndarray, valid: np.ndarray, old: Optional[Kind], new: Optional[Kind]) -> np.ndarray:
    """Returns the numbers under a kind that keeps what the old one keeps. The first that leaves 63 bits is a Misfit."""
    if old is None or old == new:
        return found
    if isinstance(old, Texts) and isinstance(new, Texts):
        return np.where(valid, np.array([new.places[text] for text in old.values], np.int64)[found], 0)
    factor = factor_of(old, new)
    most = (2**63 - 1) // factor
    if len(far := np.flatnonzero((found > most) | (found < -most))):
        row = int(far[0])
        value, more = old.decode(int(found[row])), ROUNDS if isinstance(new, Decimals) else ""
        raise Misfit(row, value, f"{value} leaves 63 bits as one of {new}{more}")
    return found * factor
