"""Answers for each group of rows: those with the same value of a column, or of a part of its dates, or the same values of
several. How many rows each has, and figures of other columns in these."""

from __future__ import annotations

from typing import TYPE_CHECKING, Any, Callable, Dict, Iterator, List, Mapping, NamedTuple, Optional, Sequence, Tuple, Union

import numpy as np

from .dateparts import PARTS, part_of, refuse_other
from .errors import BadQuery
from .kinds import Kind, Texts, Times
from .predicates import Column, DatePart, Null, OfPart, Predicate, Stored, all_rows
from .report import Report, series_of

if TYPE_CHECKING:
    from .table import Name, Table

MAX_GROUPS = 4096
# How many groups by columns are put together to groups by parts of their dates.
MAX_JOINED = 1 << 16
# What a group is known by while it is made: of each key the number of its column, or the part; None for a null.
Identity = Tuple[Optional[int], ...]
Ask = Callable[[Predicate], Any]


class TooMany(BadQuery):
    """There are more groups than are made."""


class Key(NamedTuple):
    """What rows are grouped by: a column, or a part of its dates."""

    column: str
    part: Optional[str] = None

    @property
    def title(self) -> str:
        """What it is called in an answer."""
        return self.column if self.part is None else f"{self.column}.{self.part}"


class Groups(Dict[Any, Any]):
    """Answers by value, in order of the values, or by as many values as there are keys."""

    def __init__(self, keys: Tuple[str, ...], answers: Dict[Any, Any]):
        super().__init__(answers)
        # (what the groups are by)
        self.keys_named = keys

    def to_pandas(self) -> Any:
        """Returns the answers as a series of pandas, with the values as its index."""
        return series_of(self.keys_named, self)


def too_many(keys: Tuple[str, ...], most: int) -> TooMany:
    """Returns the refusal of a column that has more values than so many, or of several that have more groups."""
    if len(keys) == 1:
        return TooMany(f"column {keys[0]!r} has more than {most:,} values in these rows")
    named = ", ".join(map(repr, keys[:-1])) + f" and {keys[-1]!r}"
    return TooMany(f"columns {named} have more than {most:,} {'pairs' if len(keys) == 2 else 'groups'} of values in these rows")


class GroupBy:
    """The rows of a table by keys, of at most 4,096 groups. Where the library has the answer for all at once, it takes
    one question, and else one or two for each."""

    def __init__(self, table: "Table", keys: Sequence[Key], dropna: bool = True):
        self._table, self._keys, self._dropna = table, tuple(keys), dropna
        self._titles = tuple(key.title for key in self._keys)
        kinds = table.forms
        for key in self._keys:
            if key.part is not None:
                try:
                    refuse_other(kinds[key.column].kind, key.part)
                except TypeError as why:
                    raise BadQuery(f"column {key.column!r}: {why}") from None

    def count(self, column: Union["Name", Predicate, None] = None, where: Predicate = all_rows) -> Groups:
        """Returns how many rows each group has, or in how many of them a column has a value."""
        if isinstance(column, Predicate):
            column, where = None, column if where is all_rows else column & where
        if column is None:
            return self._answers(b"count", None, where, self._table.count)
        self._table.count(column, where)  # a column that can't be counted is refused
        there = self.count(where=Column(_name(column)).notnull() & where)
        return self._groups({value: there.get(value, 0) for value in self.count(where=where)})

    def sum(self, column: "Name", where: Predicate = all_rows) -> Groups:
        """Returns the sum of a column in the rows of each group."""
        return self._answers(b"sum", column, where, lambda one: self._table.sum(column, one))

    def mean(self, column: "Name", where: Predicate = all_rows) -> Groups:
        """Returns the mean of a column in the rows of each group."""
        name = _name(column)
        if name not in self._table.forms or isinstance(self._table.forms[name].kind, Times):
            return self._answers(None, column, where, lambda one: self._table.mean(column, one))
        totals, counts = self.sum(name, where), self.count(name, where)
        return self._groups({value: total / counts[value] if counts[value] else None for value, total in totals.items()})

    def median(self, column: "Name", where: Predicate = all_rows) -> Groups:
        """Returns the lower median of a column in the rows of each group."""
        return self._answers(b"median", column, where, lambda one: self._table.median(column, one))

    def least(self, column: "Name", where: Predicate = all_rows) -> Groups:
        """Returns the least value of a column in the rows of each group."""
        return self._answers(b"least", column, where, lambda one: self._table.least(column, one))

    def greatest(self, column: "Name", where: Predicate = all_rows) -> Groups:
        """Returns the greatest value of a column in the rows of each group."""
        return self._answers(b"greatest", column, where, lambda one: self._table.greatest(column, one))

    min, max = least, greatest

    def nunique(self, column: "Name", where: Predicate = all_rows) -> Groups:
        """Returns how many different values of a column the rows of each group have."""
        return self._answers(None, column, where, lambda one: self._table.distinct(column, one))

    def agg(self, figures: Mapping["Name", Union[str, Sequence[str]]], where: Predicate = all_rows) -> Report:
        """Returns several figures of columns in the rows of each group, as `{"price": ["sum", "mean"], "day": "max"}`
        names them: count, sum, mean, median, min, max, nunique, and missing, how many rows have no value."""
        if not isinstance(figures, Mapping):
            raise TypeError(f"agg needs a dict of columns with their figures, not {figures!r}")
        rows, found = self.count(where=where), {}
        for column, words in figures.items():
            for word in [words] if isinstance(words, str) else words:
                found[_name(column), word] = self._figure(column, word, where, rows)
        return Report(self._titles, rows, found)

    def _figure(self, column: "Name", word: str, where: Predicate, rows: Groups) -> Dict[Any, Any]:
        if word not in FIGURES:
            raise BadQuery(f"{word!r} is no figure of a group; those are {', '.join(FIGURES)}")
        if word != "missing":
            return getattr(self, word)(column, where)
        there = self.count(column, where)
        return {value: count - there[value] for value, count in rows.items()}

    def _groups(self, answers: Dict[Any, Any]) -> Groups:
        return Groups(self._titles, answers)

    def _answers(self, word: Optional[bytes], column: Optional["Name"], where: Predicate, ask: Ask) -> Groups:
        """Returns the answers that the library has at once, or asks for each group."""
        found: Dict[Identity, Any] = {}
        for identity, answer in self._each(self._keys, word, column, where, ask):
            found[identity] = answer
            if len(found) > MAX_GROUPS:
                raise too_many(self._titles, MAX_GROUPS)
        kinds = [self._table.forms[key.column].kind for key in self._keys]
        order = sorted(found, key=lambda one: tuple(map(_place, self._keys, kinds, one)))
        values = ([_value(*given) for given in zip(self._keys, kinds, one)] for one in order)
        return self._groups({key_of(tuple(value)): found[one] for value, one in zip(values, order)})

    def _each(
        self, keys: Tuple[Key, ...], word: Optional[bytes], column: Optional["Name"], where: Predicate, ask: Ask
    ) -> Iterator[Tuple[Identity, Any]]:
        """Yields the answers of the groups by some keys."""
        if not keys:
            yield (), ask(where)
            return
        found = self._at_once(keys, word, column, where)
        if found is not None:
            yield from found.items()
            return
        for number, here in self._classes(keys[0], where):
            rows = here if where is all_rows else where & here
            for others, answer in self._each(keys[1:], word, column, rows, ask):
                yield (number, *others), answer

    def _at_once(
        self, keys: Tuple[Key, ...], word: Optional[bytes], column: Optional["Name"], where: Predicate
    ) -> Optional[Dict[Identity, Any]]:
        """Returns the answers that the library has in one question, or None if it has not."""
        names, has_parts = tuple(dict.fromkeys(key.column for key in keys)), any(key.part for key in keys)
        if word is None or len(names) > 2 or has_parts and word == b"median":
            return None
        plain = tuple(key.column for key in keys)
        if not has_parts and len(plain) <= 2:
            found = self._table.grouped(plain, word, column, where, MAX_GROUPS, not self._dropna)
        else:
            try:
                found = self._table.grouped(names, word, column, where, MAX_JOINED, not self._dropna)
            except TooMany:
                return None
            found = found and self._joined(keys, names, word, found)
        if found is None:
            return None
        decode = self._table.decoder(word, column)
        return {identity: None if one is None else decode(one) for identity, one in found.items()}

    def _joined(
        self, keys: Tuple[Key, ...], names: Tuple[str, ...], word: bytes, found: Dict[Identity, Optional[int]]
    ) -> Dict[Identity, Optional[int]]:
        """Returns the answers by keys, of those by the numbers of their columns."""
        parts = [self._of_key(key, [numbers[names.index(key.column)] for numbers in found]) for key in keys]
        joined: Dict[Identity, List[int]] = {}
        for identity, answer in zip(zip(*parts), found.values()):
            joined.setdefault(identity, []).extend([] if answer is None else [answer])
        join = {b"least": min, b"greatest": max}.get(word, sum)
        return {identity: join(all_of) if all_of or join is sum else None for identity, all_of in joined.items()}

    def _of_key(self, key: Key, numbers: List[Optional[int]]) -> List[Optional[int]]:
        """Returns what a key has of numbers of its column."""
        if key.part is None:
            return numbers
        kind, there = self._table.forms[key.column].kind, sorted({one for one in numbers if one is not None})
        assert isinstance(kind, Times)
        parts = dict(zip(there, part_of(kind, key.part, np.array(there, np.int64)).tolist()))
        return [None if one is None else parts[one] for one in numbers]

    def _classes(self, key: Key, where: Predicate) -> Iterator[Tuple[Optional[int], Predicate]]:
        """Yields what a key has in these rows, and the rows that have it."""
        if key.part is None:
            for number in self._table.numbers_in(key.column, where):
                # (by its number: not every answer is a constant, as nanoseconds of a time zone are none)
                yield number, Predicate([Stored(key.column, "=", number)])
        else:
            for value in self._values_of(key, where):
                here = Predicate([OfPart(key.column, key.part, "=", (value,))])
                if self._table.count(where & here):
                    yield value, here
        missing = Predicate([Null(key.column)])
        if not self._dropna and self._table.count(where & missing):
            yield None, missing

    def _values_of(self, key: Key, where: Predicate) -> Sequence[int]:
        """Returns what a part of dates may be in these rows."""
        if key.part != "year":
            return PARTS[str(key.part)][1]
        ends = self._table.ends(key.column, where)
        if ends is None:
            return ()
        years = self._of_key(key, list(ends))
        return range(min(years) - 1, max(years) + 2)  # type: ignore[type-var, operator]


FIGURES = ("count", "missing", "sum", "mean", "median", "min", "max", "least", "greatest", "nunique")


def _name(column: "Name") -> str:
    return column.name if isinstance(column, Column) else column


def _place(key: Key, kind: Kind, number: Optional[int]) -> Tuple[bool, Any]:
    """Returns where a group comes among others: by the order of values, nulls last."""
    if number is not None and key.part is None and isinstance(kind, Texts) and kind.grows:
        return False, kind.values[number]
    return number is None, number or 0


def _value(key: Key, kind: Kind, number: Optional[int]) -> Any:
    return number if number is None or key.part is not None else kind.decode(number)


def keys_of(given: Any, name_of: Callable[[Any], str]) -> List[Key]:
    """Returns the keys that `groupby` is given: one, or a list of them."""
    if not isinstance(given, (list, tuple)):
        given = [given]
    if not given:
        raise BadQuery("groupby needs a column or more")
    return [Key(name_of(one.column), one.part) if isinstance(one, DatePart) else Key(name_of(one)) for one in given]


def key_of(values: Tuple[Any, ...]) -> Any:
    """Returns what the answers of some values are found by: the value, or all of them."""
    return values[0] if len(values) == 1 else values
