"""A proved index of numbers: load many rows once, then ask for counts, sums, medians and lists of them.

>>> import bsi
>>> index = bsi.Index({"price": bsi.slices(20), "day": bsi.equality(7)})
>>> index.append({"price": [100, 250, None], "day": [0, 1, 1]})
3
>>> p = bsi.col.price
>>> index.count((p < 200) | p.isnull())
2

`Index.from_frame` and `read_csv` read data as it is; `Parts` splits rows over threads, and `bsi.dask` over the workers
of a cluster.
"""

from .errors import (
    BadColumns,
    BadFeeder,
    BadKinds,
    BadNotes,
    BadQuery,
    BadRow,
    BadSchema,
    BadText,
    Closed,
    CutShort,
    Damaged,
    Error,
    IndexFull,
    KeptError,
    LongNotes,
    LostWorker,
    NoColumns,
    NoMemory,
    NoRoom,
    NotKept,
    Open,
    OtherVersion,
    Shared,
)
from .forms import Form, equality, range, slices
from .index import Index, open
from .kinds import Decimals, Flags, Kind, Texts, Times, Whole
from .parts import Parts, open_parts
from .predicates import Column, DatePart, Predicate, all_rows, col
from .questions import ask
from .reading import read_csv
from .report import Report
from .summary import Summary
from .version import __version__

# (`open` and `range` are left out, so that an import of all names hides none of Python's own)
__all__ = [
    "BadColumns",
    "BadFeeder",
    "BadKinds",
    "BadNotes",
    "BadQuery",
    "BadRow",
    "BadSchema",
    "BadText",
    "Closed",
    "Column",
    "CutShort",
    "Damaged",
    "DatePart",
    "Decimals",
    "Error",
    "Flags",
    "Form",
    "Index",
    "IndexFull",
    "KeptError",
    "Kind",
    "LongNotes",
    "LostWorker",
    "NoColumns",
    "NoMemory",
    "NoRoom",
    "NotKept",
    "Open",
    "OtherVersion",
    "Parts",
    "Predicate",
    "Report",
    "Shared",
    "Summary",
    "Texts",
    "Times",
    "Whole",
    "__version__",
    "all_rows",
    "ask",
    "col",
    "equality",
    "open_parts",
    "read_csv",
    "slices",
]
