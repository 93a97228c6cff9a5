"""Questions as texts: `count price < 100 and temp null`.

    count [P]    rows [P], or list    sum COLUMN [P]    mean COLUMN [P]    median COLUMN [P]
    least COLUMN [P]    greatest COLUMN [P], or min and max    distinct COLUMN [P]
    rank COLUMN K [P]    quantile COLUMN PART WHOLE [P]    top COLUMN K [P]    bottom COLUMN K [P]
    by KEY.. count [P]    by KEY.. sum COLUMN [P], or mean, median, least, greatest, distinct

rank gives the value of rank K, from 0, and quantile that of the share PART / WHOLE. A KEY is a column, or a part of its
dates: day.year, .quarter, .month, .week, .day, .weekday (from Monday, 0) or .hour. Nulls are groups of their own.
P is made of `COLUMN SIGN CONSTANT` with one of = == != < <= > >= startswith endswith contains, `COLUMN null`,
`COLUMN not null`, `all`, `and`, `or`, `not` and brackets; `where` may precede it. COLUMN may be a part of dates. A word that is no constant of the column may name another column. `not`
binds closest, then `and`. A name or a constant that is no plain word, or one of these words, is in quotes:
"Amount (EUR)", 'Okafor, Ada'; a quote within them is written twice.
Constants are read as the column's own kind: 100, 12.50, 2026-01-31, true, Meyer.

A record of `bsi ask`, whose first word a comma follows, is answered by its line: by,day,sum,price,qty,>,3
"""

from __future__ import annotations

import re
from fractions import Fraction
from typing import Any, List, Tuple, Union

from .dateparts import PARTS
from .errors import BadQuery
from .groups import Groups
from .kinds import Texts
from .predicates import MATCHES, Column, DatePart, Predicate, all_rows, col
from .records import is_record, line_of
from .table import Table

TOTALS = ("sum", "mean", "median", "least", "greatest", "min", "max", "distinct")
SELECTIONS = ("count", "rows", "list")
# The words that take whole numbers behind the column, and how many.
NUMBERED = {"rank": 1, "top": 1, "bottom": 1, "quantile": 2}
WORDS = (*SELECTIONS, *TOTALS, *NUMBERED, "by")
SIGNS = ("=", "==", "!=", "<=", ">=", "<", ">", *MATCHES)
TOKEN = re.compile(r"""\s*(?:("(?:[^"]|"")*"|'(?:[^']|'')*')|(==|!=|<=|>=|[=<>()])|([^\s=<>!()"']+))""")
# How close an operator binds; a bracket holds all of them.
BINDS = {"(": 0, "or": 1, "and": 2, "not": 3}


class NoSign(BadQuery):
    """A column that is to be compared is named, and no sign follows."""


class Token(str):
    """A word of a question, and whether it was in quotes."""

    quoted: bool

    def __new__(cls, text: str, quoted: bool = False):
        token = super().__new__(cls, text)
        token.quoted = quoted
        return token


def tokens_of(text: str) -> List[Token]:
    """Returns the words of a question."""
    found, at = [], 0
    text = text.rstrip()
    while at < len(text):
        match = TOKEN.match(text, at)
        if not match:
            raise BadQuery(f"{text[at:].strip()[:30]!r} is no word of a question")
        quoted, sign, word = match.groups()
        found.append(Token(quoted[1:-1].replace(quoted[0] * 2, quoted[0]), True) if quoted else Token(sign or word))
        at = match.end()
    return found


def is_question(text: str) -> bool:
    """Returns whether the text begins as a question does."""
    return is_record(text) or text.split(None, 1)[:1] != [] and text.split(None, 1)[0] in WORDS


def awaits_figure(text: str) -> bool:
    """Returns whether the text begins as a question about groups does, and has no figure yet."""
    words = text.split()
    return words[:1] == ["by"] and not any(word in (*TOTALS, "count") for word in words)


def ask(table: Table, text: str) -> Any:
    """Returns the answer of an Index, or of parts, to a question that is a text. Of a record it is the line."""
    if not isinstance(table, Table) or not isinstance(text, str):
        given = f"{type(table).__name__} and {type(text).__name__}"
        raise TypeError(f"ask needs an index and a question that is a text, not {given}")
    if is_record(text):
        return line_of(table, text)
    tokens = tokens_of(text)
    if not tokens or tokens[0].quoted or tokens[0] not in WORDS:
        raise BadQuery(f"a question begins with one of {', '.join(WORDS)}")
    word, rest = str(tokens[0]), tokens[1:]
    if word == "by":
        return _groups(table, rest)
    if word in SELECTIONS:
        where = _predicate(table, _without_where(rest))
        return table.count(where) if word == "count" else table.rows(where)
    if not rest:
        raise BadQuery(f"'{word}' is asked of a column")
    return _of_column(table, word, str(rest[0]), rest[1:])


def _of_column(table: Table, word: str, column: str, rest: List[Token]) -> Any:
    """Returns the answer to a question that is asked of a column."""
    many = NUMBERED.get(word, 0)
    given = [int(token) for token in rest[:many] if token.isdecimal() and not token.quoted]
    if len(given) < many:
        raise BadQuery(f"'{word}' is asked of a column and {'a whole number' if many == 1 else 'two whole numbers'}")
    where = _predicate(table, _without_where(rest[many:]))
    if word == "rank":
        return table.nth(column, given[0], where)
    if word == "quantile":
        if not 0 <= given[0] <= given[1] or not given[1]:
            raise BadQuery(f"a share is a part of a whole from 1 up, and not {given[0]} of {given[1]}")
        return table.quantile(column, Fraction(*given), where)
    if word in ("top", "bottom"):
        rows = (table.nlargest if word == "top" else table.nsmallest)(given[0], column, where)
        return Groups(("row",), dict(zip(rows.tolist(), table.take(rows, column)[column])))
    return getattr(table, word)(column, where)


def _groups(table: Table, tokens: List[Token]) -> Groups:
    """Returns the answers for each group by the keys that come first."""
    words = [token if not token.quoted and str(token) in (*TOTALS, "count") else "" for token in tokens]
    place = next((place for place, word in enumerate(words) if word), 0)
    if not place:
        raise BadQuery("'by' is asked of columns or parts of their dates, and then count, sum and so on")
    keys = [_key(table, str(token)) for token in tokens[:place]]
    word, rest, grouped = words[place], tokens[place + 1 :], table.groupby(keys, dropna=False)
    if word == "count":
        return grouped.count(where=_predicate(table, _without_where(rest)))
    if not rest:
        raise BadQuery(f"'{word}' is asked of a column")
    call = grouped.nunique if word == "distinct" else getattr(grouped, word)
    return call(str(rest[0]), _predicate(table, _without_where(rest[1:])))


def _key(table: Table, name: str) -> Union[Column, DatePart]:
    """Returns the column of a name, or the part of dates that it names."""
    column, _, part = name.rpartition(".")
    if name not in table.columns and part in PARTS and column in table.columns:
        return DatePart(column, part)
    return col[name]


def predicate(table: Table, text: str) -> Predicate:
    """Returns the predicate that a text spells, over the columns of an index."""
    return _predicate(table, tokens_of(text))


def _without_where(tokens: List[Token]) -> List[Token]:
    return tokens[1:] if tokens and tokens[0] == "where" and not tokens[0].quoted and len(tokens) > 1 else tokens


def _predicate(table: Table, tokens: List[Token]) -> Predicate:
    """Reads a predicate in the order of its words, with the operators that wait for an operand on a stack."""
    if not tokens:
        return all_rows
    operands: List[Predicate] = []
    waiting: List[str] = []
    at, is_operand = 0, True
    while at < len(tokens):
        token = tokens[at]
        word = "" if token.quoted else str(token)
        if is_operand and word in ("not", "("):
            waiting.append(word)
            at += 1
        elif is_operand:
            operand, at = _operand(table, tokens, at)
            operands.append(operand)
            is_operand = False
        elif word in ("and", "or"):
            _apply(operands, waiting, BINDS[word])
            waiting.append(word)
            at, is_operand = at + 1, True
        elif word == ")":
            _apply(operands, waiting, 1)
            if not waiting:
                raise BadQuery("a bracket is closed that was not opened")
            waiting.pop()
            at += 1
        else:
            raise BadQuery(f"'and', 'or' or the end must follow, not {str(token)!r}")
    if is_operand:
        raise BadQuery("the question ends before a column")
    _apply(operands, waiting, 1)
    if waiting:
        raise BadQuery("a bracket is opened and not closed")
    return operands[0]


def _apply(operands: List[Predicate], waiting: List[str], least: int) -> None:
    """Applies the operators that wait and bind at least so close."""
    while waiting and BINDS[waiting[-1]] >= least:
        operator = waiting.pop()
        right = operands.pop()
        operands.append(
            ~right if operator == "not" else operands.pop() & right if operator == "and" else operands.pop() | right
        )


def _operand(table: Table, tokens: List[Token], at: int) -> Tuple[Predicate, int]:
    """Reads `all`, a comparison or a test for null, and returns it with the place behind it."""
    name, rest = tokens[at], [None if token.quoted else str(token) for token in tokens[at + 1 : at + 3]]
    if name == "all" and not name.quoted:
        return all_rows, at + 1
    column = _key(table, str(name))
    if isinstance(column, Column) and column.name not in table.columns:
        raise BadQuery(f"there is no column {column.name!r}, only {', '.join(map(repr, table.columns))}")
    tested = col[column.column] if isinstance(column, DatePart) else column
    if rest[:1] == ["null"]:
        return tested.isnull(), at + 2
    if rest == ["not", "null"]:
        return tested.notnull(), at + 3
    if rest[:1] == [None] or not rest or rest[0] not in SIGNS or at + 2 >= len(tokens):
        raise NoSign(f"a sign and a constant, or 'null', must follow {str(name)!r}")
    return _compared(table, column, str(rest[0]), tokens[at + 2]), at + 3


def _compared(table: Table, column: Union[Column, DatePart], sign: str, constant: Token) -> Predicate:
    sign, name = "=" if sign == "==" else sign, str(constant)
    if isinstance(column, DatePart):
        if sign in MATCHES or not re.fullmatch("-?[0-9]+", name, re.ASCII):
            raise BadQuery(f"{column.part!r} of column {column.column!r} is compared with a whole number, and not {name!r}")
        return column._compared(sign, int(name))
    if sign in MATCHES:
        return column._matching(sign, name)
    kind = table.forms[column.name].kind
    other = col[name] if name in table.columns else None
    if other is not None and isinstance(kind, Texts) and name not in kind.places:
        return column._compared(sign, other)
    try:
        value = kind.parse(name)
    except (ValueError, ArithmeticError) as why:
        if other is not None:
            return column._compared(sign, other)
        raise BadQuery(f"column {column.name!r} is compared with one of {kind}: {why}") from None
    return column._compared(sign, value)
