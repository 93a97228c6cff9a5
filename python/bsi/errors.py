"""The refusals of the library and of the package, each an exception named for its status in bsi.h."""

from __future__ import annotations

from typing import Any, Dict, List, Optional, Tuple, Type

# How many refusals are kept of rows that are left out.
KEPT = 1000


class Error(Exception):
    """A refused call. `status` is its number in bsi.h, if the library has one. If several columns do not fit, it is that
    of the first, and `others` has those of the others."""

    status: Optional[int] = None
    why = "the call was refused"
    others: Tuple["Error", ...] = ()

    def __init__(self, reason: Optional[str] = None):
        super().__init__(reason or self.why)

    def __str__(self) -> str:
        return "\n".join([super().__str__(), *map(str, self.others)])


class Closed(Error):
    """The index is closed."""

    status, why = 1, "the index is closed"


class Open(Error):
    """The handle is open already."""

    status, why = 2, "the handle is open already"


class NoMemory(Error, MemoryError):
    """Memory was refused. `appended` says how many rows of an append are in the index."""

    status, why = 3, "memory was refused"

    def __init__(self, reason: Optional[str] = None, appended: int = 0):
        super().__init__(reason)
        self.appended = appended


class BadSchema(Error, ValueError):
    """A column can't be stored in that form. `record` is that of the schema which the library refused, from 1."""

    status, why = 4, "a column can't be stored in that form"

    def __init__(self, reason: Optional[str] = None, record: int = 0):
        super().__init__(reason)
        self.record = record


class NoColumns(BadSchema):
    """An index needs a column."""

    status, why = 5, "an index needs a column"


class BadFeeder(Error, ValueError):
    """There is no such feeder."""

    status, why = 6, "there is no such feeder"


class BadColumns(Error, ValueError):
    """The columns given are not those of the index, or differ in length."""

    status, why = 7, "the columns given are not those of the index, or differ in length"


class BadRow(Error, ValueError):
    """A value that its column does not accept: `column` and `row` say where it is, from 0, and `value` what it is."""

    status = 8

    def __init__(self, column: str, row: int, value: Any, reason: str, place: str = ""):
        super().__init__(f"column {column!r}, row {row}{place}: {reason}")
        self.column, self.row, self.value, self.reason, self.place = column, row, value, reason, place

    def because(self, reason: str) -> "BadRow":
        """Returns the same refusal for another reason."""
        return BadRow(self.column, self.row, self.value, reason, self.place)

    def __reduce__(self):
        return BadRow, (self.column, self.row, self.value, self.reason, self.place), {"others": self.others}


class IndexFull(Error):
    """The rows are more than the limit. `row` is the first of them, from 0, that has no place."""

    status, why = 9, "the rows are more than the limit"

    def __init__(self, reason: Optional[str] = None, row: int = 0):
        super().__init__(reason)
        self.row = row


class Shared(Error):
    """A shared index accepts no rows."""

    status, why = 10, "a shared index takes no rows"


class BadQuery(Error, ValueError):
    """The index does not know that question."""

    status, why = 11, "the index does not know that question"


class NoRoom(Error):
    """The room for an answer is too small."""

    status, why = 12, "the room for an answer is too small"


class BadText(Error, ValueError):
    """The text of a schema is too long, or is none."""

    status, why = 13, "the text of a schema is too long or invalid"


class LongNotes(Error, ValueError):
    """What columns mean is too long for a file, as that of very many texts."""

    status, why = 14, "what the columns mean is too long for a file"


class KeptError(Error, ValueError):
    """A file that is not opened. `path` is its path, if there is one, `rows` how many rows are whole before the
    fault, and `whole` in how many bytes: `bsi.open(path, so_far=True)` opens these."""

    why = "the file is not opened"

    def __init__(self, reason: Optional[str] = None, path: Optional[str] = None, rows: int = 0, whole: int = 0):
        text = reason or self.why
        text += f" after {rows:,} whole rows; so_far=True opens these" if whole else ""
        super().__init__(text if path is None else f"{path}: {text}")
        self.reason, self.path, self.rows, self.whole = reason, path, rows, whole

    def __reduce__(self):
        return type(self), (self.reason, self.path, self.rows, self.whole)


class NotKept(KeptError):
    """A file without an index."""

    status, why = 15, "it contains no index"


class OtherVersion(KeptError):
    """A saved index of another version."""

    status, why = 16, "it contains an index in another version of the format"


class CutShort(KeptError):
    """A saved index whose file ends too soon."""

    status, why = 17, "it is cut short"


class Damaged(KeptError):
    """A saved index that is not as it was written."""

    status, why = 18, "it is damaged"


class BadKinds(KeptError):
    """A saved index whose text of kinds, which says what numbers represent, is of other columns."""

    status, why = 19, "its text of kinds is of other columns"


class BadNotes(KeptError):
    """A saved index with notes that this package cannot read."""

    why = "its notes can't be read"


class LostWorker(Error):
    """A worker with a part of the rows is gone, and its part with it."""


def several(refusals: List[Error]) -> Error:
    """Returns the first of the refusals, which names the others too."""
    first, *others = refusals
    first.others = tuple(others)
    return first


class Skipped(List[Error]):
    """The refusals of the first rows that were left out; `count` says how many rows they are."""

    count = 0

    def add(self, why: Error) -> None:
        """Counts one more."""
        self.count += 1
        if len(self) < KEPT:
            self.append(why)

    def __repr__(self) -> str:
        more = [f".. and {self.count - len(self):,} more"] if self.count > len(self) else []
        head = "1 row was left out" if self.count == 1 else f"{self.count:,} rows were left out"
        return "\n".join([head, *map(str, self), *more])


_KINDS: Tuple[Type[Error], ...] = (
    Closed, Open, NoMemory, BadSchema, NoColumns, BadFeeder, BadColumns, BadRow, IndexFull, Shared, BadQuery, NoRoom,
    BadText, LongNotes, NotKept, OtherVersion, CutShort, Damaged, BadKinds,
)  # fmt: skip
BY_STATUS: Dict[Optional[int], Type[Error]] = {kind.status: kind for kind in _KINDS}
