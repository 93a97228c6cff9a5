"""Runs of records as numbers, column by column: what the caller and the processes that read do alike."""

from __future__ import annotations

from collections import Counter
from typing import Any, Callable, Dict, List, NamedTuple, Optional, Sequence, Tuple

import numpy as np

from .blanks import BlankLines, tabbed
from .fields import Fields, Lines, Records, read_each, split
from .files import Run
from .kinds import Kind
from .packing import Packed, all_of, packed
from .spelling import Options, Reader, TextReader, reader_for


# Rows of which a field is not read, each with its text and why.
Misread = Dict[int, Tuple[str, str]]


class Piece(NamedTuple):
    """Fields of a column in a run: their kind and numbers, and which are not read; or the fields themselves, where
    nothing said before how the column is read."""

    packed: Packed
    kind: Optional[Kind] = None
    bad: Misread = {}
    fields: Optional[Fields] = None


# The records of a run, and its columns: None where a column is not wanted any more.
Pieces = Tuple[Records, List[Optional[Piece]]]


class ColumnReader:
    """How the fields of a column are read: its place in the header, what is said of it, and what its first fields say,
    or None before they are there."""

    def __init__(self, place: int, options: Options):
        self.place, self.options = place, options
        self.reader: Optional[Reader] = None

    def piece(self, fields: Fields) -> Piece:
        """Reads the fields of a run, if it is known how."""
        stripped = fields.stripped() if self._is_stripped() else fields
        valid = all_of(len(fields.starts))
        for text in self.options.nulls:
            found = stripped.equal(text)
            valid = valid & ~found if found.any() else valid
        if self.reader is None or not valid.any():
            nothing = packed(np.zeros(len(valid), np.int8), np.zeros(len(valid), bool))
            return Piece(nothing, fields=fields if valid.any() else None)
        return self._read(stripped, valid)

    def _is_stripped(self) -> bool:
        return not (isinstance(self.reader, TextReader) and self.reader.is_exact)

    def choose(self, fields: Fields) -> Piece:
        """Chooses by the fields how the column is read, and reads them."""
        stripped = fields.stripped()
        nulls = frozenset(self.options.nulls)
        texts = Counter(text for text in stripped.texts() if text not in nulls)
        self.reader = reader_for(texts, self.options)
        return self.piece(fields)

    def _read(self, fields: Fields, valid: np.ndarray) -> Piece:
        """Reads the fields that are valid."""
        assert self.reader is not None
        places = None if valid.all() else np.flatnonzero(valid)
        there = fields if places is None else fields.taken(places)
        kind, numbers, bad = self.reader.read(there)
        texts = dict(zip(bad, there.taken(list(bad)).texts())) if bad else {}
        rows = {row: row if places is None else int(places[row]) for row in bad}
        told = {rows[row]: (texts[row], reason) for row, reason in sorted(bad.items())}
        if places is not None:
            spread = np.zeros(len(valid), numbers.dtype)
            spread[places] = numbers
            numbers = spread
        return Piece(packed(numbers, valid), kind, told)


class RunReader(NamedTuple):
    """How runs are read: the fields of a record, the delimiter and the quote, the words for the module csv, whether any
    run of blanks stands for the delimiter, and the columns that are wanted."""

    width: int
    marks: Tuple[bytes, bytes]
    dialect: Dict[str, Any]
    by_blanks: bool
    columns: List[ColumnReader]

    def read(self, run: Run, wanted: Sequence[bool]) -> Pieces:
        """Reads a run of whole records."""
        return self.pieces(self.records(run), wanted)

    def records(self, run: Run) -> Records:
        """Returns the records of a run that is whole."""
        run = tabbed(run, self.marks[1]) if self.by_blanks else run
        return split(run, self.width, *self.marks) or self.each(self.lines(run.text, bytes))

    def lines(self, text: bytes, more: Callable[[], bytes]) -> Lines:
        """Returns the lines of a text, and of those behind it where a record goes on there."""
        return BlankLines(text, more, self.dialect["quotechar"] or "") if self.by_blanks else Lines(text, more)

    def each(self, lines: Lines) -> Records:
        """Reads lines one by one."""
        return read_each(lines, self.width, self.dialect)

    def pieces(self, records: Records, wanted: Sequence[bool]) -> Pieces:
        """Reads those columns of records that are wanted."""
        return records, [
            column.piece(records.column(column.place)) if is_wanted else None
            for column, is_wanted in zip(self.columns, wanted)
        ]
