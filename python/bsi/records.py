"""Questions as records, in the words of `bsi ask`: `by,day,sum,price,qty,>,3`. The library answers one by its line."""

from __future__ import annotations

import csv
import re
from typing import List

from .errors import BadQuery, NoMemory
from .index import Index
from .table import Table

RECORD = re.compile("(count|sum|least|greatest|median|list|rank|quantile|distinct|top|bottom|by),")


def is_record(text: str) -> bool:
    """Returns whether the text begins as a record of `bsi ask` does."""
    return RECORD.match(text) is not None


def line_of(table: Table, text: str) -> str:
    """Returns the line that answers this record."""
    if not isinstance(table, Index):
        raise BadQuery("a question with commas is asked of one index, and these are several")
    line = table.answer_line(_fields(text))
    if line == "bad":
        raise BadQuery(f"{text!r} asks nothing: a question with commas is written as for `bsi ask`")
    if line == "no memory":
        raise NoMemory()
    return line


def _fields(text: str) -> List[str]:
    try:
        return next(csv.reader([text.strip("\r\n")], strict=True))
    except csv.Error as why:
        raise BadQuery(f"{text!r} is no record: {why}") from None
