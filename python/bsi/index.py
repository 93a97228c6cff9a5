"""An index: rows of named columns in one process, kept as bitmaps by the C library."""

from __future__ import annotations

from typing import Any, Iterable, Mapping, Optional, Union

from .choosing import chosen_of
from .errors import BadQuery
from .forms import Form
from .kept import Kept, Path, kept_bytes, opened_bytes, opened_file, replace, say_kinds
from .kinds import Kind
from .progress import Progress
from .table import MAX_ROWS, Table, opened


class Index(Table):
    """Rows of named columns, and exact answers to questions about them.

    >>> index = bsi.Index({"price": bsi.slices(20), "temp": bsi.range(10, 10, 10, offset=-400)})
    >>> index.append({"price": [100, 250], "temp": [-12, None]})
    2
    >>> index.median("price", ~bsi.col.temp.isnull())
    100

    Each call has the index alone while it runs. `share` opens it once more, for another thread to ask at the same time.
    """

    def __init__(self, columns: Mapping[str, Form], *, limit: Optional[int] = None):
        super().__init__(columns, MAX_ROWS if limit is None else limit, opened(columns, limit))

    @classmethod
    def from_frame(
        cls,
        frame: Any,
        columns: Optional[Iterable[str]] = None,
        *,
        kinds: Optional[Mapping[str, Kind]] = None,
        forms: Optional[Mapping[str, Form]] = None,
        drop: Iterable[str] = (),
        round: Union[int, Mapping[str, int], None] = None,
        spare: int = 0,
        limit: Optional[int] = None,
        progress: Progress = None,
    ) -> "Index":
        """Makes an index of a pandas frame, a dict of columns, or Arrow record batches, and chooses kinds, widths and
        offsets from the data. `repr` of the index shows the choice, and so does the logger "bsi".

        `columns` are the columns to use; without it all but those of `drop` are used. `kinds` and `forms` override the
        choice. A value that can't be stored exactly raises BadRow; decimals are rounded to `round` places if it is
        given. `spare` reserves extra bits for each column.
        """
        found = chosen_of([frame], columns, kinds, forms, drop=drop, round=round, spare=spare)
        return cls(found.forms, limit=limit)._filled(found, progress)

    @property
    def schema(self) -> str:
        """The records of the schema, as `bsi files --schema` reads them. A column whose name is none there has one with
        its number."""
        return self._store.schema().decode()

    def answer_line(self, fields: Iterable[str]) -> str:
        """Returns the line that the command `bsi ask` writes for a record of these fields, without its end."""
        if not say_kinds(self._store, self._forms):
            raise BadQuery("a record is answered in kinds that a file can have, and a column has another")
        return self._store.answer_line([field.encode("utf-8", "surrogateescape") for field in fields]).decode().rstrip("\n")

    def share(self) -> "Index":
        """Opens the index once more, for another thread: both can be asked at the same time, and from then on neither
        accepts rows."""
        # (a shared handle takes no kinds, so one that is to be saved has them before)
        say_kinds(self._store, self._forms)
        other = object.__new__(type(self))
        Table.__init__(other, self._forms, self._limit, self._store.share(), self._within)
        return other

    def save(self, path: Path) -> None:
        """Writes the index to a file, which `open` opens. The file is replaced once the disk has the whole new one; until
        then, and after an error, it is unchanged."""
        replace(path, self._kept())

    def _kept(self) -> Any:
        """Returns the bytes that keep the index."""
        return kept_bytes(self._store, self._forms)

    def __reduce__(self):
        return _copied, (type(self), self._kept().tobytes())


def _of(cls: type, kept: Kept) -> Any:
    """Returns an index of what was opened."""
    index = object.__new__(cls)
    Table.__init__(index, kept.forms, kept.limit, kept.handle, kept.within)
    return index


def _copied(cls: type, data: bytes) -> Any:
    """Returns the index that the bytes keep, as pickle and copy want it."""
    return _of(cls, opened_bytes(data))


def open(path: Path, *, so_far: bool = False) -> Index:
    """Opens the index in a file that `save` or the command `bsi save` wrote. Rows that are appended to it are written
    to the file only by another `save`.

    A file that is cut short or damaged is refused; with `so_far` the rows before the fault are opened. Columns have the
    titles and kinds that the file says; else they are whole numbers."""
    return _of(Index, opened_file(path, so_far))
