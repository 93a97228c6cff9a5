"""Which rows a question is over: comparisons of columns with constants or with each other and tests for null, joined by
`&`, `|` and `~`.

A predicate is its terms in postfix order, as a query of the library has them, and never changes.
"""

from __future__ import annotations

from numbers import Integral
from typing import Any, Iterable, List, NamedTuple, Tuple, Union

import numpy as np

from .errors import BadQuery
from .kinds import COMPARE

MAX_FIELDS = 1000
MATCHES = {"startswith": str.startswith, "endswith": str.endswith, "contains": str.__contains__}
BETTER = "write & | ~ in place of 'and', 'or', 'not', and two comparisons for a < x < b"


class Comparison(NamedTuple):
    """A column, one of the signs = != < <= > >=, and a constant."""

    column: str
    sign: str
    constant: Any

    def __str__(self) -> str:
        return _shown(self.column, self.sign, repr(self.constant))


class Related(NamedTuple):
    """A column, another column, and the sign between them."""

    column: str
    other: str
    sign: str

    def __str__(self) -> str:
        return _shown(self.column, self.sign, _name(self.other))


class Null(NamedTuple):
    """A column, which is to be null."""

    column: str

    def __str__(self) -> str:
        return f"{_name(self.column)}.isnull()"


class Among(NamedTuple):
    """A column, which is to have one of the constants."""

    column: str
    constants: Tuple[Any, ...]

    def __str__(self) -> str:
        return f"{_name(self.column)}.isin([{', '.join(map(repr, self.constants))}])"


class Holds(NamedTuple):
    """A column of booleans, which is to be true."""

    column: str

    def __str__(self) -> str:
        return _name(self.column)


class Stored(NamedTuple):
    """A column, one of the signs, and a number of those that represent its values."""

    column: str
    sign: str
    number: int

    def __str__(self) -> str:
        return f"({_shown(self.column, self.sign, f'number {self.number}')})"


class Matching(NamedTuple):
    """A column of texts, one of the words of `MATCHES`, and what a text is to begin or end with or to contain."""

    column: str
    word: str
    text: str

    def __str__(self) -> str:
        return f"{_name(self.column)}.{self.word}({self.text!r})"


class OfPart(NamedTuple):
    """A column of times, a part of them, one of the signs or `in`, and whole numbers: one, or for `in` any."""

    column: str
    part: str
    sign: str
    constants: Tuple[int, ...]

    def __str__(self) -> str:
        name = f"{_name(self.column)}.{self.part}"
        if self.sign == "in":
            return f"{name}.isin([{', '.join(map(repr, self.constants))}])"
        return f"({name} {'==' if self.sign == '=' else self.sign} {self.constants[0]!r})"

    def test(self, values: np.ndarray) -> np.ndarray:
        """Returns which values of the part are selected."""
        if self.sign == "in":
            return np.isin(values, self.constants)
        return COMPARE[self.sign](values, self.constants[0])


Term = Union[Comparison, Related, Null, Among, Holds, Stored, Matching, OfPart, str]


def _shown(column: str, sign: str, other: str) -> str:
    return f"{_name(column)} {'==' if sign == '=' else sign} {other}"


def _name(column: str) -> str:
    return f"col.{column}" if column.isidentifier() else f"col[{column!r}]"


def _fields(terms: Iterable[Term]) -> int:
    """Returns how many fields the terms are in a query at least: the constants of `isin` are joined over a table."""
    return sum(1 if isinstance(term, str) else 2 if isinstance(term, Null) else 3 for term in terms)


def refuse_long(fields: int) -> None:
    """Refuses a predicate of too many fields."""
    if fields > MAX_FIELDS:
        rule = f"a predicate has at most {MAX_FIELDS:,} fields (a comparison has 3, isnull() 2, a run of isin() 8)"
        raise BadQuery(f"{rule}, and this one {fields:,}")


class Predicate:
    """Terms in postfix order: comparisons, tests for null, and the words all, and, or, not."""

    __slots__ = ("terms",)
    __array_ufunc__ = None  # (NumPy leaves operators to this class)
    terms: Tuple[Term, ...]

    def __init__(self, terms: Iterable[Term]):
        terms = tuple(terms)
        if 3 * len(terms) > MAX_FIELDS:
            refuse_long(_fields(terms))
        object.__setattr__(self, "terms", terms)

    def __setattr__(self, name: str, value: Any):
        raise AttributeError("a predicate never changes")

    def __reduce__(self):
        return Predicate, (self.terms,)

    def __eq__(self, other: Any) -> bool:
        return isinstance(other, Predicate) and self.terms == other.terms

    def __hash__(self) -> int:
        return hash(self.terms)

    def __and__(self, other: Union["Predicate", "Column"]) -> "Predicate":
        return self._with(other, "and")

    def __or__(self, other: Union["Predicate", "Column"]) -> "Predicate":
        return self._with(other, "or")

    def __invert__(self) -> "Predicate":
        return Predicate((*self.terms, "not"))

    def _with(self, other: Any, word: str) -> "Predicate":
        if isinstance(other, Column):
            other = other.holds()
        if not isinstance(other, Predicate):
            raise TypeError(f"a predicate is needed on each side of '{word}', not {type(other).__name__}")
        return Predicate((*self.terms, *other.terms, word))

    def __bool__(self) -> bool:
        raise TypeError(f"a predicate is neither true nor false: {BETTER}")

    def __repr__(self) -> str:
        stack: List[str] = []
        for term in self.terms:
            if term == "not":
                stack.append(f"~{stack.pop()}")
            elif term in ("and", "or"):
                right, left = stack.pop(), stack.pop()
                stack.append(f"({left} {'&' if term == 'and' else '|'} {right})")
            else:
                stack.append(
                    "all_rows" if term == "all" else f"({term})" if isinstance(term, (Comparison, Related)) else str(term)
                )
        return stack[0]


all_rows = Predicate(("all",))


def _scalar(constant: Any) -> Any:
    """Returns a constant as it was: NumPy gives its scalars as arrays where they stand on the left."""
    return constant[()] if isinstance(constant, np.ndarray) and constant.ndim == 0 else constant


class _Comparable:
    """What is compared with constants, by methods that `_compared` stands behind."""

    __slots__ = ()
    __array_ufunc__ = None  # (NumPy leaves comparisons to this class)

    def __setattr__(self, name: str, value: Any):
        raise AttributeError("a column never changes")

    def _compared(self, sign: str, constant: Any) -> Predicate:
        raise NotImplementedError

    def __eq__(self, constant: Any) -> Predicate:  # type: ignore[override]
        return self._compared("=", constant)

    def __ne__(self, constant: Any) -> Predicate:  # type: ignore[override]
        return self._compared("!=", constant)

    def __lt__(self, constant: Any) -> Predicate:
        return self._compared("<", constant)

    def __le__(self, constant: Any) -> Predicate:
        return self._compared("<=", constant)

    def __gt__(self, constant: Any) -> Predicate:
        return self._compared(">", constant)

    def __ge__(self, constant: Any) -> Predicate:
        return self._compared(">=", constant)

    __hash__ = None  # type: ignore[assignment]

    def __bool__(self) -> bool:
        raise TypeError(f"a column is neither true nor false: {BETTER}")

    def between(self, least: Any, greatest: Any) -> Predicate:
        """Selects the rows from the one constant to the other, both included."""
        return (self >= least) & (self <= greatest)


def _listed(constants: Any) -> Tuple[Any, ...]:
    """Returns the constants of `isin`."""
    if isinstance(constants, (str, bytes)):
        raise TypeError(f"isin needs a list of constants, not a text: isin([{constants!r}])")
    if not isinstance(constants, Iterable):
        raise TypeError(f"isin needs a list of constants, not {constants!r}")
    return tuple(map(_scalar, constants))


class DatePart(_Comparable):
    """A part of the dates or times of a column, as `col.day.month`, to be compared with whole numbers. It groups rows
    too. Weekdays count from Monday, 0, and weeks are those of ISO 8601."""

    __slots__ = ("column", "part")
    column: str
    part: str

    def __init__(self, column: str, part: str):
        object.__setattr__(self, "column", column)
        object.__setattr__(self, "part", part)

    def __reduce__(self):
        return DatePart, (self.column, self.part)

    def _compared(self, sign: str, constant: Any) -> Predicate:
        return Predicate((OfPart(self.column, self.part, sign, (self._whole(constant),)),))

    def _whole(self, constant: Any) -> int:
        number = _scalar(constant)
        if not isinstance(number, Integral) or isinstance(number, bool):
            raise TypeError(f"the {self.part} of a column is compared with a whole number, and not {number!r}")
        return int(number)

    def isin(self, constants: Iterable[int]) -> Predicate:
        """Selects the rows whose part is one of these numbers."""
        return Predicate((OfPart(self.column, self.part, "in", tuple(map(self._whole, _listed(constants)))),))

    def __repr__(self) -> str:
        return f"{_name(self.column)}.{self.part}"


class Column(_Comparable):
    """A column by its name, to be compared with constants of the column's own type, and with columns of its kind."""

    __slots__ = ("name",)
    name: str

    def __init__(self, name: str):
        if not isinstance(name, str):
            raise TypeError(f"the name of a column is a text, and not {name!r}")
        object.__setattr__(self, "name", name)

    def __reduce__(self):
        return Column, (self.name,)

    def _compared(self, sign: str, constant: Any) -> Predicate:
        if isinstance(constant, Predicate):
            raise TypeError("a column is compared with a constant or a column, and not with a predicate")
        if isinstance(constant, DatePart):
            raise TypeError("a column is compared with a constant or a column, and not with a part of dates")
        if isinstance(constant, Column):
            return Predicate((Related(self.name, constant.name, sign),))
        return Predicate((Comparison(self.name, sign, _scalar(constant)),))

    def holds(self) -> Predicate:
        """Selects the rows that have True here. `&`, `|` and `~` take a column of booleans as this."""
        return Predicate((Holds(self.name),))

    def __and__(self, other: Union[Predicate, "Column"]) -> Predicate:
        return self.holds() & other

    def __or__(self, other: Union[Predicate, "Column"]) -> Predicate:
        return self.holds() | other

    def __invert__(self) -> Predicate:
        return ~self.holds()

    def isnull(self) -> Predicate:
        """Selects the rows that have a null here."""
        return Predicate((Null(self.name),))

    def notnull(self) -> Predicate:
        """Selects the rows that have a value here."""
        return ~self.isnull()

    def isin(self, constants: Iterable[Any]) -> Predicate:
        """Selects the rows that have one of the constants here. Those that follow each other are asked as one run, and
        about 120 runs at once, so that more of them take several questions."""
        return Predicate((Among(self.name, _listed(constants)),))

    def startswith(self, text: str) -> Predicate:
        """Selects the rows whose text here begins with another."""
        return self._matching("startswith", text)

    def endswith(self, text: str) -> Predicate:
        """Selects the rows whose text here ends with another."""
        return self._matching("endswith", text)

    def contains(self, text: str) -> Predicate:
        """Selects the rows whose text here has another within it, as it is spelt: no pattern."""
        return self._matching("contains", text)

    def _matching(self, word: str, text: str) -> Predicate:
        text = _scalar(text)
        if not isinstance(text, str):
            raise TypeError(f"{word} needs a text, not {text!r}")
        return Predicate((Matching(self.name, word, str(text)),))

    @property
    def year(self) -> DatePart:
        """The year of the column's dates or times, as the other parts are."""
        return DatePart(self.name, "year")

    @property
    def quarter(self) -> DatePart:
        """The quarter, from 1."""
        return DatePart(self.name, "quarter")

    @property
    def month(self) -> DatePart:
        """The month, from 1."""
        return DatePart(self.name, "month")

    @property
    def week(self) -> DatePart:
        """The week of ISO 8601, which is the first or the last of a year next to it at times."""
        return DatePart(self.name, "week")

    @property
    def day(self) -> DatePart:
        """The day of the month."""
        return DatePart(self.name, "day")

    @property
    def weekday(self) -> DatePart:
        """The day of the week, from Monday, 0."""
        return DatePart(self.name, "weekday")

    @property
    def hour(self) -> DatePart:
        """The hour of times."""
        return DatePart(self.name, "hour")

    def __repr__(self) -> str:
        return _name(self.name)


class _Columns:
    """Columns by name: `col.price`, or `col["Amount (EUR)"]`."""

    def __getattr__(self, name: str) -> Column:
        if name.startswith("__"):
            raise AttributeError(name)
        # (kept, so that the next use of the name finds it there)
        column = self.__dict__[name] = Column(name)
        return column

    def __getitem__(self, name: str) -> Column:
        return Column(name)

    def __repr__(self) -> str:
        return "bsi.col"


col = _Columns()
