"""How the fields of a column of a file are read: as numbers, times, booleans or texts.

A reader turns the fields of a run into numbers, or into the places of their texts in a list: what these represent is
then found at the end, over all of the column. A field that it can't read is told with why.
"""

from __future__ import annotations

import re
from collections import Counter
from datetime import timezone
from decimal import Decimal
from typing import Any, Callable, Dict, List, NamedTuple, Optional, Sequence, Tuple, Type, Union

import numpy as np

from .dates import is_date, is_numeric, nanoseconds_by, nanoseconds_of_date, numeric_of
from .digits import DIGITS, POWERS, Numbers, moments_of, numbers_of, ungrouped
from .distinct import Distinct
from .fields import Fields, fields_of
from .kinds import NANOSECONDS, NUMBER, UNITS, Decimals, Flags, Kind, Texts, Times, Whole, shown
from .narrowing import MAX_TEXTS, ROUNDS

# What files write for nothing. Such a field is a null where `nulls` has it.
NOTHING = {"na", "n/a", "#n/a", "<na>", "nan", "-nan", "null", "none", "nil", "-", "--", ".", "?", "missing", "(null)"}
MOST, LEAST = (1 << 63) - 1, -(1 << 63)
# What stands between groups of three digits; " " stands for blanks of any width.
THOUSANDS, GAPS = (",", ".", " ", "'"), " \u00a0\u2009\u202f"
GROUPED = re.compile(rf"[-+]?[1-9]\d{{0,2}}([,.'{GAPS}])\d{{3}}(?:\1\d{{3}})*(?:(?!\1)([,.])\d*)?", re.ASCII)
# What stands before a number or behind it and is no part of it; and what looks like groups of digits and is an address.
MARK = re.compile(rf"(?<![^-+])[$€£¥₹₽%‰][{GAPS}]?|[{GAPS}]?[$€£¥₹₽%‰]$")
ADDRESS = re.compile(r"(?:(?:1?\d?\d|2[0-4]\d|25[0-5])(?:\.|$)){4}", re.ASCII)
Moment = Tuple[int, bool]
Bad = Dict[int, str]


class Options(NamedTuple):
    """What the caller says about the fields of a column."""

    kind: Union[Kind, Type[Texts], None] = None
    nulls: Tuple[str, ...] = ("",)
    decimal: str = "."
    dates: Optional[str] = None
    round: Optional[int] = None
    thousands: Optional[str] = None


class Read(NamedTuple):
    """Numbers of fields and their kind, or places of texts in a list if there is none yet; and the fields that are
    not read."""

    kind: Optional[Kind]
    numbers: np.ndarray
    bad: Bad


class Meaning(NamedTuple):
    """What the places in a list of texts represent, and those that are nulls."""

    kind: Kind
    numbers: np.ndarray
    bad: Bad


def told(text: str, reason: str, nulls: Sequence[str]) -> str:
    """Returns why a field is not read, and how it would be a null where it looks like one."""
    if text.lower() not in NOTHING:
        return reason
    return f"{reason}; nulls={[*nulls, text]} makes it a null"


# ---- Numbers ----


def decimal_in(text: str, options: Options) -> Decimal:
    """Returns the number that a field spells, or raises ValueError."""
    number = _number(text, options.decimal, options.thousands)
    if number is None:
        raise ValueError(f"{shown(text)} is no number{_hint(text, options)}")
    return number


def _number(text: str, decimal: str, thousands: Optional[str]) -> Optional[Decimal]:
    """Returns the number that a text spells with these signs, if it spells one."""
    found = GROUPED.fullmatch(text) if thousands else None
    if found and _sign_of(found) == thousands:
        text = text.replace(found[1], "")
    spelt = text if decimal == "." else text.replace(".", "x").replace(decimal, ".")
    spelt = spelt[1:] if spelt[:1] == "+" and spelt[1:2] != "-" else spelt
    return Decimal(spelt) if NUMBER.fullmatch(spelt) else None


def _sign_of(grouped: Any) -> str:
    """Returns what stands between the groups of digits of a number."""
    return " " if grouped[1] in GAPS else grouped[1]


def _hint(text: str, options: Options) -> str:
    """Returns how a text could be read that looks like a number."""
    if mark := MARK.search(text):
        return f"; take the {mark[0].strip()!r} out, or kinds= with Texts stores it" if is_like_number(text) else ""
    other = {".": ",", ",": "."}[options.decimal]
    if found := GROUPED.fullmatch(text):
        sign = _sign_of(found)
        point = found[2] or (other if sign == options.decimal else options.decimal)
        decimal = "" if point == options.decimal else f"decimal={point!r}, "
        reads = "read" if decimal else "reads"
        return f"; {decimal}thousands={sign!r} {reads} it as {_number(text, point, sign):f}"
    is_other = options.thousands != other and _number(text, other, None) is not None
    return f"; decimal={other!r} reads it as one" if is_other else ""


class NumberReader:
    """Whole numbers and decimals."""

    def __init__(self, options: Options):
        self._options = options
        self._given = options.kind if isinstance(options.kind, (Whole, Decimals)) else None

    def read(self, fields: Fields) -> Read:
        found = self._found(fields)
        is_read = found.read if self._given or not found.led.any() else found.read & ~found.led
        is_all = is_read.all()
        exact, bad = ({}, {}) if is_all else self._one_by_one(fields, np.flatnonzero(~is_read))
        places = int((found.places if is_all else found.places[is_read]).max(initial=0))
        places = max([places, *(-number.as_tuple().exponent for number in exact.values())])  # type: ignore[operator]
        is_decimal = found.pointed or any(number.as_tuple().exponent for number in exact.values())
        kind = self._given or (Decimals(self._places(places)) if is_decimal else Whole())
        numbers = self._scaled(found.mantissas, found.places, is_read, kind, bad, fields)
        for row, number in exact.items():
            try:
                numbers[row] = kind.number(number)
            except (ValueError, ArithmeticError) as why:
                text, is_long = _text(fields, row), isinstance(why, OverflowError) or getattr(kind, "rounded", False)
                bad[row] = self._too_long(text, kind) if is_long else f"{shown(text)} {kind.unfit}"
        return Read(kind, numbers, bad)

    def _too_long(self, text: str, kind: Kind) -> str:
        """Returns what is wrong with a number that is past 63 bits under a kind."""
        places = getattr(kind, "places", 0)
        at = f" at {places} decimal places{'' if self._given else ROUNDS}" if places else ""
        return f"{shown(text)} is past 63 bits{at}"

    def _found(self, fields: Fields) -> Numbers:
        """Returns the numbers of the fields that are spelt as nearly all are."""
        point, sign = ord(self._options.decimal), self._options.thousands
        if not sign:
            return numbers_of(fields, point)
        plain, fits = ungrouped(fields, ord(sign))
        found = numbers_of(plain, point)
        return found._replace(read=found.read & fits)

    def _places(self, places: int) -> int:
        return min(places, DIGITS if self._options.round is None else self._options.round)

    def _one_by_one(self, fields: Fields, rows: np.ndarray) -> Tuple[Dict[int, Decimal], Bad]:
        """Reads the fields that are not spelt as nearly all are."""
        exact: Dict[int, Decimal] = {}
        bad: Bad = {}
        for row, text in zip(rows.tolist(), fields.taken(rows).texts()):
            try:
                exact[row] = self._rounded(exact_number(text, self._options))
            except (ValueError, ArithmeticError) as why:
                bad[row] = told(text, str(why), self._options.nulls)
        return exact, bad

    def _rounded(self, number: Decimal) -> Decimal:
        """Returns a number that is rounded if it has more places than is said."""
        places = self._options.round
        if self._given or places is None or number.as_tuple().exponent >= -places:  # type: ignore[operator]
            return number
        return Decimals(places).decode(Decimals(places, rounded=True).number(number))

    def _scaled(
        self, mantissas: np.ndarray, places: np.ndarray, is_read: np.ndarray, kind: Kind, bad: Bad, fields: Fields
    ) -> np.ndarray:
        """Returns numbers of so many places under a kind of more or fewer."""
        wanted, is_rounded = getattr(kind, "places", 0), self._options.round is not None and self._given is None
        more = wanted - places
        if not more.any():
            return np.where(is_read, mantissas, 0) if bad or not is_read.all() else mantissas
        factors = POWERS[np.clip(more, 0, DIGITS)]
        wrong = is_read & (np.abs(mantissas) > MOST // factors)
        numbers = mantissas * factors
        if (more < 0).any():
            divisors = POWERS[np.clip(-more, 0, DIGITS)]
            rest = np.abs(numbers) % divisors
            whole = (np.abs(numbers) - rest) // divisors
            if is_rounded or getattr(kind, "rounded", False):
                whole += (2 * rest > divisors) | ((2 * rest == divisors) & (whole % 2 == 1) & (divisors > 1))
                rest = np.zeros_like(rest)
            numbers = np.where(numbers < 0, -whole, whole)
            wrong |= is_read & (rest != 0)
        for row in np.flatnonzero(wrong).tolist():
            text = _text(fields, row)
            bad[row] = f"{shown(text)} {getattr(kind, 'unfit', '')}" if more[row] < 0 else self._too_long(text, kind)
        return np.where(is_read, numbers, 0)


def exact_number(text: str, options: Options) -> Decimal:
    """Returns the number that a field spells, where a column takes it."""
    number = decimal_in(text, options)
    digits = text.lstrip("-+")
    needless = "+" if text[:1] == "+" else "0" if digits[:1] == "0" and digits[1:2].isdigit() else ""
    if options.kind is None and needless:
        code = f"number without the {needless} before it, which a code may need"
        raise ValueError(f"{shown(text)} is no {code}; give the column's kind, as Texts or Whole()")
    if options.kind is None and options.round is None and number.as_tuple().exponent < -DIGITS:  # type: ignore
        raise ValueError(f"{shown(text)} has more than {DIGITS} decimal places{ROUNDS}")
    if options.kind is None and not LEAST <= number <= MOST:
        raise ValueError(f"{shown(text)} is past 63 bits")
    return number


# ---- Times ----


class TimeReader:
    """Dates and times of the ISO's spelling, and others of which day and month can't be exchanged."""

    def __init__(self, options: Options, is_aware: bool):
        self._options, self._is_aware = options, is_aware

    def read(self, fields: Fields) -> Read:
        found = moments_of(fields, _text(fields, 0))
        rows, bad = len(fields.starts), {}  # type: Tuple[int, Bad]
        seconds, nanoseconds, is_read = np.zeros(rows, np.int64), np.zeros(rows, np.int64), np.zeros(rows, bool)
        if found is not None and found.is_aware == self._is_aware:
            if not found.has_clock and found.read.all() and self._options.kind in (None, Times("D")):
                return Read(Times("D"), found.days, bad)
            seconds, nanoseconds, is_read = found.days * 86_400 + found.seconds, found.nanoseconds.copy(), found.read
        memo: Dict[str, Union[Moment, str]] = {}
        others = np.flatnonzero(~is_read)
        for row, text in zip(others.tolist(), fields.taken(others).texts()):
            if text not in memo:
                memo[text] = self._moment(text)
            moment = memo[text]
            if isinstance(moment, str):
                bad[row], moment = moment, (0, False)
            seconds[row], nanoseconds[row] = divmod(moment[0], NANOSECONDS["s"])
        return counted(seconds, nanoseconds, self._options.kind, self._is_aware, bad, lambda row: _text(fields, row))

    def _moment(self, text: str) -> Union[Moment, str]:
        try:
            nanoseconds, is_aware = nanoseconds_of_date(text)
        except ValueError as why:
            return told(text, str(why), self._options.nulls)
        if is_aware != self._is_aware:
            return other_zone(text, is_aware)
        return nanoseconds, is_aware


def other_zone(text: str, is_aware: bool) -> str:
    """Returns what is wrong with a time that alone has a time zone, or alone has none."""
    return f"{shown(text)} has {'a' if is_aware else 'no'} time zone, like those before it"


def _text(fields: Fields, row: int) -> str:
    return fields.taken([row]).texts()[0]


def counted(
    seconds: np.ndarray, nanoseconds: np.ndarray, kind: Any, is_aware: bool, bad: Bad, text: Callable[[int], str]
) -> Read:
    """Returns times as counts of the unit of a kind, or of the coarsest that keeps all."""
    if not isinstance(kind, Times):
        kind = Times(_unit_of(seconds, nanoseconds), timezone.utc if is_aware else None)
    elif (kind.zone is not None) != is_aware:
        has, column_has = ("a", "none") if is_aware else ("no", "one")
        bad.update(dict.fromkeys(range(len(seconds)), f"it has {has} time zone, and the column has {column_has}"))
    size = NANOSECONDS[kind.unit]
    if size >= NANOSECONDS["s"]:
        each = size // NANOSECONDS["s"]
        numbers, wrong = seconds // each, (seconds % each != 0) | (nanoseconds != 0)
        reason = kind.unfit
    else:
        each = NANOSECONDS["s"] // size
        far = np.abs(seconds) > MOST // each - 1
        wrong = far | (nanoseconds % size != 0)
        numbers = np.where(wrong, 0, seconds) * each + nanoseconds // size
        reason = f"is past 63 bits of {UNITS[kind.unit]}" if far.any() else kind.unfit
    for row in np.flatnonzero(wrong).tolist():
        bad.setdefault(row, f"{shown(text(row))} {reason}")
    return Read(kind, numbers, bad)


def _unit_of(seconds: np.ndarray, nanoseconds: np.ndarray) -> str:
    if not nanoseconds.any():
        return "s" if (seconds % 86_400).any() else "D"
    return next(unit for unit in ("ms", "us", "ns") if not (nanoseconds % NANOSECONDS[unit]).any())


# ---- Columns of texts, of which the different ones are looked at in the end ----


class TextReader:
    """Places of the fields among the different texts. What they mean is told by a function of all of them."""

    def __init__(self, options: Options, meaning: Callable[[List[str], Options], Meaning], most: Optional[int] = None):
        self.options, self._meaning, self.most = options, meaning, most
        # (texts are kept as they are, and all else without the blanks around it)
        self.is_exact = meaning is texts_meant
        self.distinct = Distinct()

    @classmethod
    def knowing(cls, texts: List[str], *given: Any) -> "TextReader":
        """Returns a reader that knows texts already."""
        reader = cls(*given)
        reader.distinct.places(texts)
        reader.distinct.codes(fields_of(texts))
        return reader

    def __reduce__(self) -> Any:
        return TextReader.knowing, (self.distinct.texts, self.options, self._meaning, self.most)

    def read(self, fields: Fields) -> Read:
        return Read(None, self.distinct.codes(fields), {})

    def meaning(self) -> Meaning:
        """Returns what the places represent, when all fields are read."""
        self.distinct.end()
        return self._meaning(self.distinct.texts, self.options)


def texts_meant(texts: List[str], options: Options) -> Meaning:
    """Texts as they are."""
    kind = options.kind if isinstance(options.kind, Texts) else Texts(tuple(texts))
    bad = {place: f"{shown(text)} {kind.unfit}" for place, text in enumerate(texts) if text not in kind.places}
    return Meaning(kind, np.array([kind.places.get(text, 0) for text in texts], np.int64), bad)


def parsed(texts: List[str], options: Options) -> Meaning:
    """Texts as a kind that is given reads them."""
    assert isinstance(options.kind, Kind)
    numbers, bad = np.zeros(len(texts), np.int64), {}
    for place, text in enumerate(texts):
        try:
            numbers[place] = options.kind.number(options.kind.parse(text))
        except (TypeError, ValueError, ArithmeticError) as why:
            bad[place] = told(text, str(why), options.nulls)
    return Meaning(options.kind, numbers, bad)


def flags_meant(texts: List[str], options: Options) -> Meaning:
    """true and false, in letters of any size."""
    numbers = np.array([text.lower() == "true" for text in texts], np.int64)
    wrong = {place: text for place, text in enumerate(texts) if text.lower() not in ("true", "false")}
    bad = {place: told(text, f"{shown(text)} is no true or false", options.nulls) for place, text in wrong.items()}
    return Meaning(Flags(), numbers, bad)


def dates_meant(texts: List[str], options: Options) -> Meaning:
    """Dates in the form that is given, or with day and month in the order that all of them together tell."""
    one = numeric_of(texts).nanoseconds if options.dates is None else lambda text: nanoseconds_by(options.dates, text)
    seconds, nanoseconds = np.zeros(len(texts), np.int64), np.zeros(len(texts), np.int64)
    bad: Bad = {}
    are_aware: Optional[bool] = None
    for place, text in enumerate(texts):
        try:
            moment, is_aware = one(text)
        except ValueError as why:
            bad[place] = told(text, str(why), options.nulls)
            continue
        are_aware = is_aware if are_aware is None else are_aware
        if is_aware == are_aware:
            seconds[place], nanoseconds[place] = divmod(moment, NANOSECONDS["s"])
        else:
            bad[place] = other_zone(text, is_aware)
    read = counted(seconds, nanoseconds, options.kind, bool(are_aware), bad, texts.__getitem__)
    assert read.kind is not None
    return Meaning(read.kind, read.numbers, bad)


# ---- The choice ----


def looks_of(texts: Counter, options: Options) -> Dict[str, int]:
    """Returns how many of the texts look like numbers, dates, booleans, nothing and others."""
    looks = {"number": 0, "date": 0, "flag": 0, "nothing": 0, "text": 0, "form": 0}
    plain = _plain_looks(list(texts)) if options.dates is None else {}
    for text, count in texts.items():
        looks[plain.get(text) or _look(text.strip(" \t"), options)] += count
    looks["date"] += looks.pop("form")
    return looks


def _plain_looks(texts: List[str]) -> Dict[str, str]:
    """Returns what those texts look like that are spelt as nearly all numbers are, or as the first date is."""
    look = _look(texts[0], Options()) if texts else "text"
    if look not in ("date", "number"):
        return {}
    fields = fields_of(texts)
    found = moments_of(fields, texts[0]) if look == "date" else numbers_of(fields, ord("."))
    read = np.zeros(len(texts), bool) if found is None else found.read
    return {texts[place]: look for place in np.flatnonzero(read).tolist()}


def _look(text: str, options: Options) -> str:
    if text.lower() in NOTHING:
        return "nothing"
    if text.lower() in ("true", "false"):
        return "flag"
    if options.dates is not None:
        try:
            nanoseconds_by(options.dates, text)
            return "form"
        except ValueError:
            pass
    return "number" if is_like_number(text) else "date" if is_date(text) else "text"


def is_like_number(text: str) -> bool:
    """Returns whether a text looks like a number, in whatever way it is written."""
    bare = MARK.sub("", text, count=1).removeprefix("+")
    is_grouped = GROUPED.fullmatch(bare) and not ADDRESS.fullmatch(bare)
    return bool(is_grouped or NUMBER.fullmatch(bare.replace(",", ".")))


Reader = Union[NumberReader, TimeReader, TextReader]


def reader_for(texts: Counter, options: Options) -> Reader:
    """Returns how a column is read of which these are the first fields: as numbers or dates where at least half of them
    look so."""
    kind = options.kind
    looks = looks_of(texts, options)
    if isinstance(kind, (Whole, Decimals)):
        return NumberReader(options)
    if isinstance(kind, Times) or kind is None and _are(looks, "date"):
        return _dates(texts, options)
    if kind is not None:
        return TextReader(options, texts_meant if kind is Texts or isinstance(kind, Texts) else parsed)
    if _are(looks, "number"):
        return NumberReader(options)
    return TextReader(options, flags_meant) if _are(looks, "flag") else TextReader(options, texts_meant, MAX_TEXTS)


def _are(looks: Dict[str, int], what: str) -> bool:
    return looks[what] > 0 and 2 * looks[what] >= sum(looks.values()) - looks["nothing"]


def _dates(texts: Counter, options: Options) -> Reader:
    if options.dates is not None and not any(_look(text.strip(" \t"), options) == "form" for text in texts):
        options = options._replace(dates=None)
    if options.dates is not None or any(is_numeric(text.strip(" \t")) for text in texts):
        return TextReader(options, dates_meant)
    for text in texts:
        try:
            return TimeReader(options, nanoseconds_of_date(text.strip(" \t"))[1])
        except ValueError:
            pass
    return TimeReader(options, False)


def misread(texts: List[str], count: Callable[[], np.ndarray], options: Options) -> Bad:
    """Returns which of the texts stand among so many numbers or dates that they can't be meant as texts. Rows are counted
    where a text looks like something else."""
    looks = [_look(text.strip(" \t"), options) for text in texts]
    if set(looks) == {"text"}:
        return {}
    counts = count()
    total = {look: int(counts[[one == look for one in looks]].sum()) for look in set(looks)}
    there = sum(total.values()) - total.get("nothing", 0)
    for look, reason in (("number", "number"), ("date", "date or time")):
        if 2 * total.get(look, 0) >= there and total.get(look, 0):
            more = "; kinds= says what the column holds, as Texts"
            bad = {place: text for place, text in enumerate(texts) if looks[place] != look}
            reasons = {place: told(text, f"{shown(text)} is no {reason}", options.nulls) for place, text in bad.items()}
            return {place: why + ("" if "nulls=" in why else more) for place, why in reasons.items()}
    if not there and texts:
        each = enumerate(texts)
        return {place: told(text, f"{shown(text)} represents no text", options.nulls) for place, text in each}
    return {}
