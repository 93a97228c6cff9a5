"""What goes out: numbers of a column turned back to the values that they represent, as a list or as a column of pandas.
"""

from __future__ import annotations

from typing import Any, List

import numpy as np

from .kinds import NANOSECONDS, Flags, Kind, Texts, Times, Whole
from .taking import Found


def objects_of(kind: Kind, found: Found) -> np.ndarray:
    """Returns the values that numbers represent as an array of objects, with None for a null. Each different number is
    turned once."""
    numbers, valid = found
    different, places = np.unique(numbers[valid], return_inverse=True)
    values = np.full(len(numbers), None, object)
    values[valid] = np.fromiter(map(kind.decode, different.tolist()), object, len(different))[places]
    return values


def list_of(kind: Kind, found: Found) -> List[Any]:
    """Returns the values that numbers represent, with None for a null."""
    if kind == Whole() and found[1].all():
        return found[0].tolist()
    return objects_of(kind, found).tolist()


def column_of(pandas: Any, kind: Kind, found: Found) -> Any:
    """Returns a column of pandas that has the values which numbers represent: whole numbers and booleans, of a nullable
    dtype if there are nulls; times in nanoseconds where these can have them; an ordered category; and else objects,
    with None for a null."""
    numbers, valid = found
    if kind == Whole():
        return numbers if valid.all() else pandas.arrays.IntegerArray(numbers, ~valid)
    if kind == Flags():
        return numbers.astype(bool) if valid.all() else pandas.arrays.BooleanArray(numbers.astype(bool), ~valid)
    if isinstance(kind, Times) and are_near(kind, found):
        return _times(pandas, kind, found)
    if isinstance(kind, Texts) and kind.ordered:
        return pandas.Categorical.from_codes(np.where(valid, numbers, -1), list(kind.values), ordered=True)
    return objects_of(kind, found)


def are_near(kind: Times, found: Found) -> bool:
    """Returns whether all times lie within 63 bits of nanoseconds."""
    there, most = found[0][found[1]], (2**63 - 1) // NANOSECONDS[kind.unit]
    return bool(((there >= -most) & (there <= most)).all())


def _times(pandas: Any, kind: Times, found: Found) -> Any:
    numbers, valid = found
    nanoseconds = np.where(valid, numbers * NANOSECONDS[kind.unit], np.datetime64("NaT").view(np.int64))
    times = pandas.Series(nanoseconds.view("M8[ns]"))
    return (times if kind.zone is None else times.dt.tz_localize("UTC").dt.tz_convert(kind.zone)).array


def frame_of(pandas: Any, columns: dict, rows: np.ndarray) -> Any:
    """Returns a frame of columns by name, whose index are the numbers of the rows."""
    return pandas.DataFrame(columns, index=pandas.Index(rows))
