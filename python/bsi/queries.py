"""Predicates as the fields of queries, over the numbers that represent the values of columns.

One that has too many constants in its lists for one query becomes several. Each of them is over the rows whose numbers
of a column lie in a span, or that have none there, so that no two share a row, and needs but the constants in that
span.
"""

from __future__ import annotations

from typing import Any, Dict, Iterable, Iterator, List, Mapping, Optional, Sequence, Tuple, Union

from .dateparts import runs_where
from .errors import BadQuery
from .forms import Form
from .kinds import FAR, Cut, Flags, Kind, Texts, Times, shown
from .predicates import (
    MATCHES,
    MAX_FIELDS,
    Among,
    Column,
    Comparison,
    Holds,
    Matching,
    Null,
    OfPart,
    Predicate,
    Related,
    Stored,
    refuse_long,
)
from .values import is_null

Name = Union[str, Column]
Fields = List[bytes]
# Of some columns the numbers from the one to the other that the rows have there, or that they have none.
Spans = Mapping[str, Optional[Tuple[int, int]]]


def name_among(forms: Mapping[str, Form], column: Name) -> str:
    """Returns the name of a column, or raises BadQuery if there is none."""
    name = column.name if isinstance(column, Column) else column
    if not isinstance(name, str) or name not in forms:
        raise BadQuery(f"there is no column {shown(name)}, only {', '.join(map(repr, forms))}")
    return name


def queries_of(forms: Mapping[str, Form], within: Mapping[str, bytes], where: Any, spare: int = 0) -> List[Fields]:
    """Returns the fields of queries that together select the rows of a predicate, each row in one of them, with room
    for so many fields more."""
    if isinstance(where, Column):
        where = where.holds()
    if not isinstance(where, Predicate):
        raise TypeError(f"a predicate is made of bsi.col, as col.price < 100, and is not {type(where).__name__}")
    writer = Writer(forms, within, {})
    fields = writer.fields(where)
    room = MAX_FIELDS - spare
    return [fields] if len(fields) <= room else list(_halves(writer, fields, where, room))


def _halves(writer: Writer, fields: Fields, where: Predicate, room: int) -> Iterator[Fields]:
    """Yields the queries of a predicate over the spans of the writer, for which the fields are too long."""
    forms, within, spans = writer.forms, writer.within, writer.spans
    name = max(writer.firsts, key=lambda one: len(writer.firsts[one]), default="")
    firsts = sorted(writer.firsts.get(name, ()))
    if len(firsts) < 2:
        refuse_long(len(fields) + MAX_FIELDS - room)
    low, high = spans.get(name) or (forms[name].offset, forms[name].most)
    middle = firsts[len(firsts) // 2]
    for span in ((low, middle - 1), (middle, high), *([] if name in spans else [None])):
        half = Writer(forms, within, {**spans, name: span})
        fields = half.fields(where)
        if len(fields) <= room:
            yield fields
        else:
            yield from _halves(half, fields, where, room)


class Writer:
    """Writes predicates over the rows of some spans as fields, and notes with which numbers the runs of each column's
    lists begin."""

    def __init__(self, forms: Mapping[str, Form], within: Mapping[str, bytes], spans: Spans):
        self.forms, self.within, self.spans = forms, within, spans
        self.firsts: Dict[str, set] = {}

    def fields(self, where: Predicate) -> Fields:
        """Returns the fields that select the rows of a predicate within the spans."""
        fields: Fields = []
        for term in where.terms:
            fields += [term.encode()] if isinstance(term, str) else self._term(term)
        for name, span in self.spans.items():
            column = self.within[name]
            if span is None:
                fields += [column, b"null", b"and"]
            else:
                fields += [column, b">=", b"%d" % span[0], b"and", column, b"<=", b"%d" % span[1], b"and"]
        return fields

    def _term(self, term: Any) -> Fields:
        name = name_among(self.forms, term.column)
        if isinstance(term, Comparison):
            return self._comparison(name, term)
        if isinstance(term, Related):
            return self._related(name, term)
        if isinstance(term, Null):
            return [self.within[name], b"null"]
        if isinstance(term, Among):
            cuts = [self._cut(name, constant) for constant in term.constants]
            return self._one_of(name, (left for left, right in cuts if left < right))
        if isinstance(term, Stored):
            return [self.within[name], term.sign.encode(), b"%d" % term.number]
        kind = self.forms[name].kind
        if isinstance(term, OfPart):
            return self._of_part(name, kind, term)
        if isinstance(term, Matching):
            if not isinstance(kind, Texts):
                raise BadQuery(f"column {name!r} holds {kind}: {term.word} is asked of texts")
            fits = MATCHES[term.word]
            return self._one_of(name, (place for place, text in enumerate(kind.values) if fits(text, term.text)))
        assert isinstance(term, Holds)
        if kind != Flags():
            raise BadQuery(f"column {name!r} holds {kind}: only one of booleans is a predicate by itself")
        return [self.within[name], b"=", b"1"]

    def _comparison(self, name: str, term: Comparison) -> Fields:
        cut, kind = self._cut(name, term.constant), self.forms[name].kind
        if isinstance(kind, Texts) and kind.grows:
            return self._one_of(name, kind.numbers_where(term.sign, term.constant))
        sign, number = among_numbers(term.sign, *cut)
        sign, number = clamped(self.forms[name], sign, number)
        return [self.within[name], sign.encode(), b"%d" % number]

    def _related(self, name: str, term: Related) -> Fields:
        other = name_among(self.forms, term.other)
        kind, second = self.forms[name].kind, self.forms[other].kind
        if not _are_comparable(kind, second):
            which = "other texts" if isinstance(kind, Texts) and isinstance(second, Texts) else f"{kind} and {second}"
            raise BadQuery(f"columns {name!r} and {other!r} can't be compared: they hold {which}; kinds= gives both one kind")
        if isinstance(kind, Texts) and (kind.grows or second.grows) and term.sign not in ("=", "!="):
            raise BadQuery(f"columns {name!r} and {other!r} hold texts that grow, which == and != alone compare")
        return [self.within[name], term.sign.encode(), self.within[other]]

    def _span(self, name: str) -> Tuple[int, int]:
        """Returns from which number of a column on, and up to which, rows are asked for."""
        form = self.forms[name]
        return self.spans.get(name, (form.offset, form.most)) or (FAR, -FAR)

    def _of_part(self, name: str, kind: Kind, term: OfPart) -> Fields:
        low, high = self._span(name)
        try:
            return self._runs(name, runs_where(kind, term.part, term.test, low, high) if low <= high else [])
        except (TypeError, ValueError) as why:
            raise BadQuery(f"column {name!r}: {why}") from None

    def _one_of(self, name: str, numbers: Iterable[int]) -> Fields:
        """Returns the fields that select some numbers of a column, of those in its span."""
        low, high = self._span(name)
        return self._runs(name, runs_of(sorted({number for number in numbers if low <= number <= high})))

    def _runs(self, name: str, runs: Iterable[Tuple[int, int]]) -> Fields:
        """Returns the fields that select the numbers of some runs of a column."""
        column, fields = self.within[name], []  # type: bytes, Fields
        firsts = self.firsts.setdefault(name, set())
        for first, last in runs:
            firsts.add(first)
            joined = [b"or"] if fields else []
            if first == last:
                fields += [column, b"=", b"%d" % first, *joined]
            else:
                fields += [column, b">=", b"%d" % first, column, b"<=", b"%d" % last, b"and", *joined]
        return fields or [b"all", b"not"]

    def _cut(self, name: str, constant: Any) -> Cut:
        kind = self.forms[name].kind
        try:
            return kind.cut(constant)
        except (TypeError, ValueError, ArithmeticError) as why:
            hint = "; isnull() finds the nulls" if is_null(constant) and "isnull" not in str(why) else ""
            raise BadQuery(f"column {name!r} is compared with one of {kind}: {why}{hint}") from None


def _are_comparable(kind: Kind, other: Kind) -> bool:
    """Returns whether equal numbers of the two kinds represent equal values, and others in the same order."""
    if isinstance(kind, Times) and isinstance(other, Times):
        return kind.unit == other.unit and (kind.zone is None) == (other.zone is None)
    return kind == other


def among_numbers(sign: str, left: int, right: int) -> Tuple[str, int]:
    """Returns the comparison of a number with a whole one that says the same as that with a constant of this cut."""
    if sign in ("<", ">="):
        return sign, left
    if sign in ("<=", ">"):
        return ("<", right) if sign == "<=" else (">=", right)
    return (sign, left) if left < right else ("<" if sign == "=" else ">=", -FAR)


def runs_of(numbers: Sequence[int]) -> Iterator[Tuple[int, int]]:
    """Yields the first and the last of each run of numbers that follow each other, which come in order."""
    first = 0
    for place, number in enumerate(numbers):
        if place + 1 == len(numbers) or numbers[place + 1] != number + 1:
            yield numbers[first], number
            first = place + 1


def clamped(form: Form, sign: str, number: int) -> Tuple[str, int]:
    """Returns the same comparison with a number that the column accepts: below its least one there is none, from it on
    are all."""
    if sign in ("=", "!="):
        if form.offset <= number <= form.most:
            return sign, number
        sign, number = "<" if sign == "=" else ">=", -FAR
    if number > form.most:
        return ("<=", form.most) if sign == "<" else (">", form.most)
    return sign, max(number, form.offset)
