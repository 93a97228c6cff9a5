"""Typed questions over a store of rows: names, kinds and predicates on this side, whole numbers and fields of a query
on the other.

A *store* is a `native.Handle`, or a `gathered.Gathered` of several. Both have the calls `count`, `counts`, `sum`,
`value`, `ranked`, `ranks`, `moments`, `distinct`, `grouped`, `select`, `numbers`, `rows` and `close`, and but for Dask `append`.
"""

from __future__ import annotations

import contextlib
import itertools
import logging
import math
import re
from dataclasses import replace
from decimal import Decimal
from fractions import Fraction
from numbers import Integral, Real
from typing import (
    AbstractSet,
    Any,
    Callable,
    Dict,
    Iterable,
    Iterator,
    List,
    Mapping,
    Optional,
    Sequence,
    Tuple,
    TypeVar,
    Union,
)

import numpy as np

from .choosing import Chosen, of_each, refuse_misfit, refuse_no_kind
from .errors import BadColumns, BadQuery, BadRow, BadSchema, Error, IndexFull, NoMemory, Skipped
from .forms import Form
from .gathered import Numbers
from .groups import GroupBy, Groups, keys_of, too_many
from .kinds import Decimals, Flags, Misfit, Texts, Times, Whole, shown
from .narrowing import encode
from .native import BAD_ROW, INDEX_FULL, NO_MEMORY, Entries, Handle, check
from .predicates import Column, Comparison, DatePart, Predicate, Stored, all_rows
from .progress import Progress, told
from .queries import Name, name_among, queries_of
from .returning import column_of, frame_of, list_of
from .summary import Summary, html_of
from .taking import Found, Moments
from .values import columns_of, values_of

NAME = re.compile(r"[a-z][a-z0-9_]{0,31}")
WORDS = {"all", "null", "and", "or", "not"}
MAX_ROWS, MAX_COLUMNS = 1 << 32, 64
# How many numbers of all columns are appended at once, and of how many rows at least.
BLOCK, LEAST_ROWS = 1 << 16, 1 << 14
# How many fields it takes that the rows lie on one side of a number besides.
BOUND = 4
# What rows are grouped by.
Key = Union[Name, DatePart]
# A part of rows from 0 to 1.
Part = Union[float, Fraction]
Self = TypeVar("Self", bound="Table")
log = logging.getLogger("bsi")


def names_within(columns: Sequence[str]) -> Dict[str, str]:
    """Returns the names that the library gets: the column's own where that can be, and otherwise one with its
    number."""
    taken = {name for name in columns if NAME.fullmatch(name) and name not in WORDS}
    numbered = (f"c{number}" for number in range(2 * len(columns)) if f"c{number}" not in taken)
    return {name: name if name in taken else next(numbered) for name in columns}


def opened(columns: Mapping[str, Form], limit: Optional[int] = None) -> Handle:
    """Opens an index of these columns in the library."""
    try:
        return Handle(schema_of(columns, limit))
    except BadSchema as why:
        if not 1 <= why.record <= len(columns):
            raise
        name, form = list(columns.items())[why.record - 1]
        rule = "1 to 63 slices, or bases of 2 to 1,024 with a sum of at most 4,096 and a product of at most 2^63"
        reason = f"column {name!r} can't be stored as {form}: {rule}; all numbers within 64 bits"
        raise BadSchema(reason, why.record) from None


def schema_of(columns: Mapping[str, Form], limit: Optional[int]) -> bytes:
    """Returns the records of a schema. Refuses what is none, so that a record of the library is one of a column."""
    if not isinstance(columns, Mapping):
        raise BadSchema(f"an index has columns by name, as {{'price': slices(20)}}, and not {shown(columns)}")
    for name, form in columns.items():
        if not isinstance(name, str) or not isinstance(form, Form):
            shape = "slices(..), range(..) or equality(..)"
            raise BadSchema(f"an index has columns by name, each {shape}, and not {name!r}: {form!r}")
        refuse_no_kind(name, form.kind)
    if len(columns) > MAX_COLUMNS:
        raise BadSchema(f"an index has at most {MAX_COLUMNS} columns, and not {len(columns)}; name those to read")
    if limit is not None and (not isinstance(limit, Integral) or not 1 <= limit <= MAX_ROWS):
        raise BadSchema(f"the limit is 1 to {MAX_ROWS:,} rows, and not {shown(limit)}")
    within = names_within(list(columns))
    records = [form.record(within[name]) for name, form in columns.items()]
    records += [] if limit is None else [f"limit,{limit}"]
    return "".join(f"{record}\n" for record in records).encode()


def _own_names(columns: Iterable[str]) -> Dict[str, bytes]:
    return {name: within.encode() for name, within in names_within(list(columns)).items()}


class Table:
    """Rows of named columns, and answers to questions about them. Any thread may ask; questions to one store are asked
    one at a time."""

    def __init__(self, columns: Mapping[str, Form], limit: int, store: Any, within: Optional[Mapping[str, bytes]] = None):
        self._forms, self._limit, self._store = dict(columns), limit, store
        # (rows that read_csv left out)
        self.skipped = Skipped()
        # (the names that the store has for them)
        self._within = dict(within or _own_names(columns))

    # ---- What it is ----

    @property
    def columns(self) -> List[str]:
        """The names of the columns, in order."""
        return list(self._forms)

    @property
    def forms(self) -> Dict[str, Form]:
        """The form of each column."""
        return dict(self._forms)

    @property
    def limit(self) -> int:
        """The most rows that it takes."""
        return self._limit

    @property
    def nbytes(self) -> int:
        """How many bytes of memory its rows take, without the room for more."""
        return self._store.nbytes()

    def __len__(self) -> int:
        return self._store.rows()

    def __repr__(self) -> str:
        try:
            head = self._head()
        except Error as why:
            return f"{type(self).__name__} with the columns {', '.join(self._forms)}: {why}"
        width = max(map(len, self._forms))
        texts = max(len(str(form)) for form in self._forms.values())
        lines = [f"  {name:{width}}  {form!s:{texts}}  {form.kind}{_span(form)}" for name, form in self._forms.items()]
        return "\n".join([head, *lines])

    def _head(self) -> str:
        rows = self._store.rows()
        size = (sum(form.bitmaps for form in self._forms.values()) + 8) * rows / 8
        return f"{type(self).__name__} of {rows:,} rows, about {_bytes(size)}"

    def _repr_html_(self) -> str:
        """Shows the table in a notebook."""
        cells = [[name, str(form), f"{form.kind}{_span(form)}"] for name, form in self._forms.items()]
        return f"<p>{self._head()}</p>" + html_of([["column", "form", "values"], *cells])

    # ---- Rows ----

    def append(self, data: Any) -> int:
        """Appends rows, given as a dict of columns, a pandas frame or an Arrow record batch, and returns how many they
        are.

        A value that its column does not accept, and a row past the limit, are refused before anything changes."""
        grown: Dict[str, Form] = {}
        encoded = self._encoded(data, grown)
        try:
            rows = self._append(encoded)
        except NoMemory:
            self._forms.update(grown)  # (some rows may have their texts)
            raise
        self._forms.update(grown)
        return rows

    def _encoded(self, data: Any, grown: Dict[str, Form]) -> List[Tuple[np.ndarray, np.ndarray]]:
        """Returns the numbers of each column, and which of them are valid, and notes the columns that get texts."""
        given = columns_of(data)
        odd = {"missing": self._forms.keys() - given.keys(), "unknown": given.keys() - self._forms.keys()}
        told = [f"{what} columns: {_listed(sorted(names))}" for what, names in odd.items() if names]
        if told:
            raise BadColumns(f"{'; '.join(told)}; the index has {_listed(self._forms)}")
        encoded = list(of_each(self._forms, lambda name: self._entered(name, given[name], grown)).values())
        if len({len(numbers) for numbers, _ in encoded}) > 1:
            lengths = [f"{name!r} {len(numbers):,}" for name, (numbers, _) in zip(self._forms, encoded)]
            raise BadColumns(f"the columns differ in length: {', '.join(lengths)}")
        return encoded

    def _entered(self, name: str, data: Any, grown: Dict[str, Form]) -> Tuple[np.ndarray, np.ndarray]:
        found, form = values_of(name, data), self._forms[name]
        kind = form.kind
        if isinstance(kind, Texts) and kind.grows:
            kind = kind.grown(found.values, found.valid)
            if len(kind.values) > form.most + 1:
                kind = replace(kind, values=kind.values[: form.most + 1])
            grown[name] = form.of(kind)
        try:
            return encode(kind, found), found.valid
        except Misfit as why:
            raise BadRow(name, why.row, why.value, why.reason) from None

    def _append(self, encoded: Sequence[Tuple[np.ndarray, np.ndarray]]) -> int:
        status, row = self._store.append([_entries(numbers, valid) for numbers, valid in encoded])
        if status == BAD_ROW:
            self._refuse_misfits(encoded)
        if status == INDEX_FULL:
            self._refuse_full(len(encoded[0][0]))
        if status == NO_MEMORY:
            raise NoMemory(f"memory was refused; {row:,} rows were appended", row)
        check(status)
        return row

    def _filled(self: Self, chosen: Chosen, progress: Progress) -> Self:
        """Returns the table with these rows, or closes it where they can't be appended."""
        try:
            self._fill(chosen, progress)
        except BaseException:
            self.close()
            raise
        log.info("%r", self)
        return self

    def _fill(self, chosen: Chosen, progress: Progress) -> None:
        """Appends many rows in blocks, and tells the progress."""
        rows, done = chosen.rows(), 0
        self._refuse_full(rows)
        self._store.reserve(rows, self._block())
        with told(progress, rows, "rows") as tell:
            for encoded in chosen.taken(self._block()):
                done += self._append(encoded)
                tell(done)

    def _block(self) -> int:
        """Returns how many rows are appended at once."""
        return max(LEAST_ROWS, BLOCK // len(self._forms))

    def _refuse_full(self, more: int) -> None:
        """Refuses so many further rows where they leave the limit. The row that is named is that of the data given."""
        room = self._limit - self._store.rows()
        if more > room:
            raise IndexFull(f"row {room:,} is past the limit of {self._limit:,} rows; none was appended", room)

    def _refuse_misfits(self, encoded: Sequence[Tuple[np.ndarray, np.ndarray]]) -> None:
        """Refuses what columns do not take: of each of these columns the first number."""
        given = dict(zip(self._forms, encoded))
        of_each(self._forms, lambda name: refuse_misfit(name, self._forms[name], *given[name]))

    # ---- Questions ----

    def count(self, column: Union[Name, Predicate, None] = None, where: Predicate = all_rows) -> int:
        """Returns how many rows the predicate selects: `count(where)`. Where a column is named, as in
        `count("price", where)`, only those that have a value there."""
        if isinstance(column, Predicate):
            where = column if where is all_rows else column & where
        if column is None or isinstance(column, Predicate):
            return sum(self._store.counts(self._queries(where)))
        name = self._name(column)
        if isinstance(column, Column) and self._forms[name].kind == Flags():
            ways = f"count({name!r}) counts its values, and count({column!r} == True) its true rows"
            raise BadQuery(f"count({column!r}) could mean two things: {ways}")
        return sum(self._store.counts(self._queries(Column(name).notnull() & where)))

    def mean(self, column: Name, where: Predicate = all_rows) -> Any:
        """Returns the mean of the column's values in these rows: a float, a Decimal for decimals, and for times the
        nearest microsecond, or nanosecond. None if there is no value."""
        name = self._name(column)
        kind, count = self._forms[name].kind, self.count(name, where)
        if isinstance(kind, Times):
            return kind.decode_between(Fraction(self._sum(name, where), count)) if count else None
        total = self.sum(name, where)
        return total / count if count else None

    def std(self, column: Name, where: Predicate = all_rows) -> Any:
        """Returns the standard deviation of the column's values in these rows as pandas has it, by one less than their
        count: a float, or a Decimal for decimals, from the exact sums of their numbers and of the squares of these. None
        if there are fewer than two values. A column that takes more than 65,536 numbers takes memory as `save` does."""
        name = self._name(column)
        return self._deviations([name], where)[name]

    def _deviations(self, names: Sequence[str], where: Predicate) -> Dict[str, Any]:
        """Returns the standard deviation of each column."""
        for name in names:
            try:
                self._forms[name].kind.decode_deviation(Fraction(0))
            except TypeError as why:
                raise BadQuery(f"column {name!r}: {why}") from None
        bitmaps = sum(1 + form.places for form in self._forms.values())
        columns = [(self._within[name], self._forms[name].offset, self._forms[name].size) for name in names]
        each = [self._store.moments(columns, fields, bitmaps) for fields in self._queries(where)] if names else []
        found = {name: sum(moments, Moments(0, 0, 0)) for name, moments in zip(names, zip(*each))}
        return {
            name: self._forms[name].kind.decode_deviation(moments.variance) if moments.count > 1 else None
            for name, moments in found.items()
        }

    def min(self, column: Name, where: Predicate = all_rows) -> Any:
        """Returns the least value, as `least` does."""
        return self.least(column, where)

    def max(self, column: Name, where: Predicate = all_rows) -> Any:
        """Returns the greatest value, as `greatest` does."""
        return self.greatest(column, where)

    def distinct(self, column: Name, where: Predicate = all_rows) -> int:
        """Returns how many different values the column has in these rows."""
        name, queries = self._name(column), self._queries(where)
        if len(queries) == 1:
            return self._store.distinct(self._within[name], queries[0])
        return sum(1 for _ in self.numbers_in(name, where))

    def nunique(self, column: Name, where: Predicate = all_rows) -> int:
        """Returns how many different values there are, as `distinct` does."""
        return self.distinct(column, where)

    def quantile(
        self,
        column: Name,
        q: Union[float, Iterable[float]],
        where: Predicate = all_rows,
        interpolation: str = "lower",
    ) -> Any:
        """Returns the value of the column at a part of these rows from 0 to 1, or a list of such, as NumPy's method
        "lower" has it, or "linear": between two values a float, a Decimal or a datetime. None if there is no value.
        It takes a count and the time of a median."""
        if interpolation not in ("lower", "linear"):
            raise ValueError(f"interpolation is 'lower' or 'linear', and not {interpolation!r}")
        if isinstance(q, Iterable) and not isinstance(q, (str, bytes)) and not is_scalar(q):
            return self._quantiles(self._name(column), [part_of(one) for one in q], where, interpolation)
        return self._quantiles(self._name(column), [part_of(q)], where, interpolation)[0]

    def _quantiles(self, name: str, parts: List[Part], where: Predicate, interpolation: str) -> List[Any]:
        count = self.count(name, where)
        if interpolation == "linear":
            return [self._between(name, count, part, where) for part in parts]
        if not count:
            return [None] * len(parts)
        numbers = self._numbers_at(name, [rank_of(count, part) for part in parts], where)
        return [self._forms[name].kind.decode(number) for number in numbers]

    def _between(self, name: str, count: int, part: Part, where: Predicate) -> Any:
        """Returns what lies between the two values next to a part of these rows."""
        kind = self._forms[name].kind
        try:
            kind.decode_between(Fraction(0))
        except TypeError as why:
            raise BadQuery(f"column {name!r}: {why}") from None
        if not count:
            return None
        # (a float is the part that it prints as)
        place = (count - 1) * Fraction(str(part) if isinstance(part, float) else part)
        rank = math.floor(place)
        low, high = self._numbers_at(name, [rank, rank + (place > rank)], where)
        return kind.decode_between(low + (high - low) * (place - rank))

    def _numbers_at(self, name: str, ranks: List[int], where: Predicate) -> List[int]:
        """Returns the numbers of ranks as `_number_at` does, which the library finds in one call if it can."""
        kind, queries = self._forms[name].kind, self._queries(where, BOUND)
        if len(queries) > 1 or isinstance(kind, Texts) and kind.grows:
            return [self._number_at(name, rank, where) for rank in ranks]
        numbers = self._store.ranks(self._within[name], ranks, queries[0])
        assert None not in numbers
        return numbers

    def _number_at(self, name: str, rank: int, where: Predicate) -> int:
        """Returns the number of a rank among those of these rows, from 0. There are more of them than that."""
        form = self._forms[name]
        if isinstance(form.kind, Texts) and form.kind.grows:
            return self._place_at(name, rank, where)
        queries, within = self._queries(where, BOUND), self._within[name]
        if len(queries) == 1:
            number = self._store.ranked(within, rank, queries[0])
            assert number is not None
            return number
        low, high = (self._end(word, name, queries) for word in (b"least", b"greatest"))
        assert low is not None and high is not None
        while low < high:
            middle = (low + high) // 2
            below = sum(self._store.counts([[*fields, within, b"<=", b"%d" % middle, b"and"] for fields in queries]))
            low, high = (low, middle) if below > rank else (middle + 1, high)
        return low

    def nth(self, column: Name, rank: int, where: Predicate = all_rows) -> Any:
        """Returns the value of a rank among those of the column in these rows, from 0, the least. None past the last."""
        if not hasattr(rank, "__index__") or isinstance(rank, bool) or rank < 0:
            raise ValueError(f"a rank is a whole number from 0 up, and not {rank!r}")
        name = self._name(column)
        if rank >= self.count(name, where):
            return None
        return self._forms[name].kind.decode(self._number_at(name, int(rank), where))

    def rank(self, column: Name, value: Any, where: Predicate = all_rows, method: str = "average") -> Any:
        """Returns the place from 1 that a value has among those of the column in these rows, as pandas ranks them: of
        equal ones the mean of their places, or the "min" or "max" of these. None if none of the rows has it."""
        if method not in ("average", "min", "max"):
            raise ValueError(f"method is 'average', 'min' or 'max', and not {method!r}")
        if isinstance(value, Column):
            raise TypeError("rank needs a value of the column, not a column")
        one = Column(self._name(column))
        less, same = self.count((one < value) & where), self.count((one == value) & where)
        places = {"min": less + 1, "max": less + same, "average": less + (same + 1) / 2}
        return places[method] if same else None

    def nlargest(self, n: int, column: Name, where: Predicate = all_rows) -> np.ndarray:
        """Returns the numbers of the n rows that have the greatest values of the column, the greatest first, and of
        equal ones the first rows first, as pandas does. Fewer if fewer have a value."""
        return self._outermost(n, self._name(column), where, ">")

    def nsmallest(self, n: int, column: Name, where: Predicate = all_rows) -> np.ndarray:
        """Returns the numbers of the n rows that have the least values of the column, the least first, as `nlargest`
        does."""
        return self._outermost(n, self._name(column), where, "<")

    def _outermost(self, n: int, name: str, where: Predicate, sign: str) -> np.ndarray:
        """Returns the n rows of which the others lie on one side, the outermost first."""
        if not hasattr(n, "__index__") or isinstance(n, bool) or n < 0:
            raise ValueError(f"the number of rows is a whole number from 0 up, not {n!r}")
        count = self.count(name, where)
        n = min(n, count)
        if not n:
            return np.zeros(0, np.int64)
        kind, queries = self._forms[name].kind, self._queries(where)
        grows = isinstance(kind, Texts) and kind.grows
        if isinstance(self._store, Handle) and len(queries) == 1 and not grows:
            return self._store.top(self._within[name], n, sign == "<", queries[0])
        number = self._number_at(name, count - n if sign == ">" else n - 1, where)
        past = Comparison(name, sign, kind.decode(number)) if grows else Stored(name, sign, number)
        rows = self.rows(where & Predicate([past]))
        keys, _ = self._numbers([name], rows)[name]
        if grows:
            keys = np.argsort(sorted(range(len(kind.values)), key=kind.values.__getitem__))[keys]
        rows = rows[np.argsort(~keys if sign == ">" else keys, kind="stable")]
        equal = self.rows(where & Predicate([Stored(name, "=", number)]))
        return np.concatenate([rows, equal[: max(0, n - len(rows))]])[:n]

    def values_in(self, column: Name, where: Predicate = all_rows) -> Iterator[Any]:
        """Yields the different values of a column in these rows, in order, by a question each."""
        name = self._name(column)
        return map(self._forms[name].kind.decode, self.numbers_in(name, where))

    def numbers_in(self, column: Name, where: Predicate = all_rows) -> Iterator[int]:
        """Yields the numbers that represent the different values of a column in these rows, in order of the values."""
        name, queries = self._name(column), self._queries(where, BOUND)
        form, within = self._forms[name], self._within[name]
        if isinstance(form.kind, Texts) and form.kind.grows:
            for _, place in sorted(zip(form.kind.values, itertools.count())):
                if any(self._store.counts([[*fields, within, b"=", b"%d" % place, b"and"] for fields in queries])):
                    yield place
            return
        number: Optional[int] = form.offset - 1
        while number is not None and number < form.most:
            above = [within, b">=", b"%d" % (number + 1), b"and"]
            number = self._end(b"least", name, ([*fields, *above] for fields in queries))
            if number is not None:
                yield number

    def groupby(self, keys: Union[Key, Sequence[Key]], dropna: bool = True) -> GroupBy:
        """Returns the rows by the values of a column, or of a part of its dates: `groupby("station").sum("rain", where)`,
        `groupby(col.day.month)`, or by those of several: `groupby([col.day.month, "station"])`. Rows with a null there
        are left out, or a group of their own where `dropna` is False."""
        return GroupBy(self, keys_of(keys, self._name), dropna)

    def grouped(
        self, by: Tuple[str, ...], word: bytes, column: Optional[Name], where: Predicate, most: int, nulls: bool
    ) -> Optional[Dict[Numbers, Optional[int]]]:
        """Returns the answer to a question of one word, as a number, for each number of a column, or for each pair of
        numbers of two, with those of nulls as None if they are wanted. None if the library does not have them at
        once: of a median of parts, an end of texts whose numbers are in no order, and of too long a predicate."""
        if word == b"sum":
            self._refuse_no_sum(self._name(column))  # type: ignore[arg-type]
        kind = None if column is None else self._forms[self._name(column)].kind
        queries = self._queries(where, 2 * BOUND if len(by) == 2 else 0)
        if len(queries) > 1 or isinstance(kind, Texts) and kind.grows and word != b"count":
            return None
        if word == b"median" and not isinstance(self._store, Handle):
            return None
        fields = [word, *([] if column is None else [self._within[self._name(column)]]), *queries[0]]
        found = self._store.grouped(tuple(self._within[name] for name in by), fields, most, nulls)
        if found is None:
            raise too_many(by, most)
        return found

    def decoder(self, word: bytes, column: Optional[Name]) -> Callable[[int], Any]:
        """Returns what turns the number that answers a question of one word into its value."""
        if column is None or word == b"count":
            return int
        kind = self._forms[self._name(column)].kind
        return kind.decode_sum if word == b"sum" else kind.decode

    def ends(self, column: Name, where: Predicate = all_rows) -> Optional[Tuple[int, int]]:
        """Returns the least and the greatest number of a column in these rows, or None if it has none."""
        name, queries = self._name(column), self._queries(where)
        low, high = (self._end(word, name, queries) for word in (b"least", b"greatest"))
        return None if low is None or high is None else (low, high)

    def value_counts(self, column: Name, where: Predicate = all_rows) -> Groups:
        """Returns how many of these rows have each value of the column, the most frequent first."""
        name = self._name(column)
        counts = self.groupby(name).count(where=where)
        return Groups((name,), dict(sorted(counts.items(), key=lambda one: -one[1])))

    def describe(
        self,
        columns: Optional[Iterable[Name]] = None,
        where: Predicate = all_rows,
        interpolation: str = "lower",
    ) -> Summary:
        """Returns the count, the mean, the ends and the quartiles of columns in these rows, with the names that pandas
        gives them, the standard deviation of numbers as `std` does, and of texts and booleans how many different ones there
        are, the most frequent one and how frequent it is. The quartiles are those of `quantile`, and those of texts and
        booleans always the lower ones."""
        names = self._names(columns)
        are_numbers = [name for name in names if isinstance(self._forms[name].kind, (Whole, Decimals))]
        deviations = self._deviations(are_numbers, where)
        return Summary({name: self._figures(name, where, interpolation, deviations) for name in names})

    def _figures(
        self, name: str, where: Predicate, interpolation: str, deviations: Mapping[str, Any]
    ) -> Dict[str, Any]:
        figures: Dict[str, Any] = {"count": self.count(name, where)}
        has_between = not isinstance(self._forms[name].kind, (Flags, Texts))
        if not has_between:
            figures.update(self._frequent(name, where))
        with contextlib.suppress(BadQuery):  # (texts have none)
            figures["mean"] = self.mean(name, where)
        if name in deviations:
            figures["std"] = deviations[name]
        middle = self.quantile(name, (0.25, 0.5, 0.75), where, interpolation if has_between else "lower")
        low, high = self.least(name, where), self.greatest(name, where)
        return {**figures, "min": low, **dict(zip(("25%", "50%", "75%"), middle)), "max": high}

    def _frequent(self, name: str, where: Predicate) -> Dict[str, Any]:
        """Returns how many different values there are, and the most frequent one with how often it is there: of equally
        frequent ones the least."""
        figures: Dict[str, Any] = {"unique": self.distinct(name, where)}
        with contextlib.suppress(BadQuery):  # (of very many texts the counts are not to be had)
            figures["top"], figures["freq"] = next(iter(self.value_counts(name, where).items()), (None, None))
        return figures

    def sum(self, column: Name, where: Predicate = all_rows) -> Any:
        """Returns the sum of the column's values in the rows that the predicate selects, 0 if there are none."""
        name = self._name(column)
        self._refuse_no_sum(name)
        return self._forms[name].kind.decode_sum(self._sum(name, where))

    def _refuse_no_sum(self, name: str) -> None:
        try:
            self._forms[name].kind.decode_sum(0)
        except TypeError as why:
            raise BadQuery(f"column {name!r}: {why}") from None

    def _sum(self, name: str, where: Predicate) -> int:
        return sum(self._store.sum(self._within[name], fields) for fields in self._queries(where))

    def least(self, column: Name, where: Predicate = all_rows) -> Any:
        """Returns the least value of the column in these rows, or None if there is none."""
        return self._value(b"least", column, where)

    def greatest(self, column: Name, where: Predicate = all_rows) -> Any:
        """Returns the greatest value of the column in these rows, or None if there is none."""
        return self._value(b"greatest", column, where)

    def median(self, column: Name, where: Predicate = all_rows) -> Any:
        """Returns the lower median of the column in these rows: of an even count the lower one of the two in the
        middle. None if there is no value."""
        return self._value(b"median", column, where)

    def mask(self, where: Predicate = all_rows) -> np.ndarray:
        """Returns for each row whether the predicate selects it, as an array of bool."""
        words, rows = self._selected(where)
        return np.unpackbits(words.view(np.uint8), count=rows, bitorder="little").view(np.bool_)

    def rows(self, where: Predicate = all_rows) -> np.ndarray:
        """Returns the numbers of the rows that the predicate selects, from 0, in order."""
        words, _ = self._selected(where)
        some = np.flatnonzero(words)
        places = np.flatnonzero(np.unpackbits(words[some].view(np.uint8), bitorder="little"))
        return some[places >> 6] * 64 + (places & 63)

    def take(self, rows: Iterable[int], columns: Optional[Iterable[Name]] = None) -> Dict[str, List[Any]]:
        """Returns the values of rows, given by their numbers from 0 in any order, as lists by column with None for a
        null. A column takes some questions for each bit of its numbers; where these are very many, the call takes
        memory as `save` does."""
        found = self._numbers(self._names(columns), rows_of(rows, len(self)))
        return {name: list_of(self._forms[name].kind, one) for name, one in found.items()}

    def to_pandas(
        self, where: Union[Predicate, Iterable[int]] = all_rows, columns: Optional[Iterable[Name]] = None
    ) -> Any:
        """Returns the rows that the predicate selects, in order, or rows by their numbers, as `nlargest` gives them: a
        frame of pandas, whose index are these numbers. Decimals are Decimal, and texts objects, each with None for a
        null. It costs what `take` does."""
        import pandas

        is_predicate = isinstance(where, (Predicate, Column))
        rows = self.rows(where) if is_predicate else rows_of(where, len(self))  # type: ignore[arg-type]
        found = self._numbers(self._names(columns), rows).items()
        return frame_of(pandas, {name: column_of(pandas, self._forms[name].kind, one) for name, one in found}, rows)

    def _numbers(self, names: Sequence[str], rows: np.ndarray) -> Dict[str, Found]:
        """Returns of each column the numbers in these rows, and which of them are valid."""
        bitmaps = sum(1 + form.places for form in self._forms.values())
        within, are_sorted = [self._within[name] for name in names], (rows[:-1] < rows[1:]).all()
        if are_sorted:
            return dict(zip(names, self._store.numbers(within, rows, bitmaps)))
        different, places = np.unique(rows, return_inverse=True)
        found = self._store.numbers(within, different, bitmaps)
        return {name: (numbers[places], valid[places]) for name, (numbers, valid) in zip(names, found)}

    def _names(self, columns: Optional[Iterable[Name]]) -> List[str]:
        """Returns the columns that are wanted: all if none are named."""
        named = [columns] if isinstance(columns, (str, Column)) else self._forms if columns is None else columns
        if not isinstance(named, Iterable):
            raise TypeError(f"columns is a list of names, and not {columns!r}")
        return [self._name(column) for column in named]

    def _value(self, word: bytes, column: Name, where: Predicate) -> Any:
        name = self._name(column)
        kind = self._forms[name].kind
        if isinstance(kind, Texts) and kind.grows:
            count = self.count(name, where)
            rank = {b"least": 0, b"greatest": count - 1, b"median": (count - 1) // 2}[word]
            return kind.decode(self._place_at(name, rank, where)) if count else None
        queries = self._queries(where)
        if word == b"median" and len(queries) > 1:
            count = self.count(name, where)
            return kind.decode(self._number_at(name, (count - 1) // 2, where)) if count else None
        number = self._end(word, name, queries)
        return None if number is None else kind.decode(number)

    def _place_at(self, name: str, rank: int, where: Predicate) -> int:
        """Returns the place of the text that has a rank among those of these rows, by a count of each text: their
        places are in no order."""
        kind, queries, within = self._forms[name].kind, self._queries(where, BOUND), self._within[name]
        places = range(len(kind.values))
        asked = [[*fields, within, b"=", b"%d" % place, b"and"] for place in places for fields in queries]
        counts = np.reshape(self._store.counts(asked), (len(places), len(queries))).sum(axis=1).tolist()
        found = upto = 0
        for _, place, count in sorted(zip(kind.values, places, counts)):
            found, upto = place if count else found, upto + count
            if upto > rank:
                break
        return found

    def _name(self, column: Name) -> str:
        return name_among(self._forms, column)

    def _queries(self, where: Predicate, spare: int = 0) -> List[List[bytes]]:
        """Returns the fields of queries whose rows together are those of the predicate, each row in one, with room for
        so many fields more."""
        return queries_of(self._forms, self._within, where, spare)

    def _selected(self, where: Predicate) -> Tuple[np.ndarray, int]:
        """Returns the words whose bits say which rows the predicate selects, and how many rows there are."""
        queries = self._queries(where)
        while True:
            words, rows = self._store.select(queries[0])
            for fields in queries[1:]:
                more, count = self._store.select(fields)
                if count != rows:
                    break  # (another thread appended between the two; then all are asked again)
                words |= more
            else:
                return words, rows

    def _end(self, word: bytes, name: str, queries: Iterable[Sequence[bytes]]) -> Optional[int]:
        """Returns the least or the greatest number of a column in the rows of some queries."""
        numbers = [self._store.value(word, self._within[name], fields) for fields in queries]
        there = [number for number in numbers if number is not None]
        return (min if word == b"least" else max)(there, default=None)

    # ---- Its end ----

    def close(self) -> None:
        """Gives the memory back. Any further call is refused, but close()."""
        self._store.close()

    def __enter__(self):
        return self

    def __exit__(self, *why) -> None:
        self.close()

    def __reduce__(self):
        raise TypeError(f"{type(self).__name__} has no copy; an Index and Parts have")


def rows_of(rows: Any, count: int) -> np.ndarray:
    """Returns numbers of rows as an array, or raises TypeError or BadQuery where they are none of so many rows."""
    wrong = f"rows are a list of their numbers, as rows(where) returns them, not {shown(rows)}"
    try:
        given = np.asarray(list(rows) if isinstance(rows, (Iterator, AbstractSet)) else rows)
    except ValueError:
        raise TypeError(wrong) from None
    if given.ndim != 1 or given.dtype.kind not in "iu" and len(given):
        raise TypeError(wrong)
    bad = (given < 0) | (given >= count) if len(given) else np.zeros(0, bool)
    if bad.any():
        span = f"0 to {count - 1:,}" if count else "none"
        raise BadQuery(f"there is no row {given[int(bad.argmax())]:,}: the rows are {span}")
    return given.astype(np.int64)


def is_scalar(given: Any) -> bool:
    """Returns whether it is an array of one value without a length."""
    return isinstance(given, np.ndarray) and given.ndim == 0


def part_of(q: Any) -> Part:
    """Returns a part from 0 to 1, or raises TypeError or ValueError if it is none."""
    part = q[()] if is_scalar(q) else q
    is_number = isinstance(part, (Real, Decimal)) and not isinstance(part, (bool, np.timedelta64))
    if not is_number:
        raise TypeError(f"a quantile is a number from 0 to 1, and not {shown(q)}")
    if isinstance(part, Decimal) and part.is_nan() or not 0 <= part <= 1:
        raise ValueError(f"a quantile is from 0 to 1, and not {shown(q)}")
    return float(part) if isinstance(part, (float, np.floating)) else Fraction(part)


def rank_of(count: int, part: Part) -> int:
    """Returns the rank from 0 that NumPy's method "lower" has at a part of so many values: by the product of floats
    if it is one."""
    return math.floor((count - 1) * part)


def _listed(names: Iterable[str]) -> str:
    return ", ".join(map(repr, names))


def _entries(numbers: np.ndarray, valid: np.ndarray) -> Entries:
    return np.require(numbers, np.int64, ["C", "A"]), None if valid.all() else np.packbits(valid, bitorder="little")


def _span(form: Form) -> str:
    """Returns what the column takes as a text, where that is no matter of course."""
    is_known = form.kind.names_values or form.kind == Flags()
    return "" if is_known else f", from {form.show(form.offset)} to {form.show(form.most)}"


def _bytes(size: float) -> str:
    for unit in ("bytes", "KB", "MB"):
        if size < 1000:
            return f"{size:,.0f} {unit}" if unit == "bytes" else f"{size:.1f} {unit}"
        size /= 1000
    return f"{size:.1f} GB"
