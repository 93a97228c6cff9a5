"""What comes in: NumPy arrays, masked arrays, pandas, Arrow arrays and lists, each as one NumPy array and which of its
places are valid.

None, NaN, NaT, pandas.NA, masked places and those that an Arrow bitmap clears are nulls.
"""

from __future__ import annotations

import sys
from collections.abc import Iterable, Mapping
from datetime import date
from decimal import Decimal
from typing import Any, Dict, List, NamedTuple, Optional, Tuple

import numpy as np

from . import arrow
from .errors import BadColumns
from .kinds import Decimals, Flags, Kind, Texts, Times

# (a column of texts has one at least)
NO_TEXTS = Texts(("",))
NEVER_NULL = {int, bool, str, date}
NUMPY_TYPES: Dict[type, Any] = {int: np.int64, bool: np.bool_, float: np.float64}


class Values(NamedTuple):
    """An array of the dtypes b, i, u, f, M or object, which of its places are valid, the time zone of its times, and
    the order of its texts, if it has these; and the kind that it has without values, where its dtype tells one."""

    values: np.ndarray
    valid: np.ndarray
    zone: Any = None
    order: Optional[Tuple[str, ...]] = None
    kind: Optional[Kind] = None


def columns_of(data: Any) -> Dict[str, Any]:
    """Returns the columns of a mapping, a pandas frame, or an Arrow record batch or stream of them, by name."""
    pandas = sys.modules.get("pandas")
    if pandas is not None and isinstance(data, pandas.DataFrame):
        names = list(data.columns)
        _refuse_names(names)
        return {name: data[name] for name in names}
    if isinstance(data, Mapping):
        _refuse_names(list(data))
        return dict(data)
    if _is_arrow(data):
        columns = arrow.struct_of(data)
        _refuse_names([name for name, _ in columns])
        return dict(columns)
    kinds = "a dict of columns, a pandas frame, an Arrow table or record batch"
    raise BadColumns(f"rows come as {kinds}, and not as {type(data).__name__}")


def _is_arrow(data: Any) -> bool:
    return hasattr(data, "__arrow_c_array__") or hasattr(data, "__arrow_c_stream__")


def _refuse_names(names: list) -> None:
    for name in names:
        if not isinstance(name, str):
            raise BadColumns(f"the name of a column is a text, and not {name!r}")
        if names.count(name) > 1:
            raise BadColumns(f"two columns have the name {name!r}")


def values_of(column: str, data: Any) -> Values:
    """Returns the values of a column, from wherever they come."""
    try:
        return _values_of(data)
    except BadColumns as why:
        raise BadColumns(f"column {column!r}: {why}") from None


def _values_of(data: Any) -> Values:
    pandas = sys.modules.get("pandas")
    if isinstance(data, Values):
        return data
    if isinstance(data, arrow.Field):
        return _of_arrow(data.read())
    if isinstance(data, np.ma.MaskedArray):
        found = _of_array(np.ma.getdata(data), np.ma.getmaskarray(data))
        return found._replace(valid=found.valid & ~np.ma.getmaskarray(data))
    if pandas is not None and isinstance(data, (pandas.Series, pandas.Index, pandas.api.extensions.ExtensionArray)):
        return _of_pandas(pandas, pandas.Series(data))
    if isinstance(data, np.ndarray):
        return _of_array(data)
    if _is_arrow(data):
        return _of_arrow(arrow.array_of(data))
    if isinstance(data, (str, bytes, Mapping)) or not isinstance(data, Iterable):
        raise BadColumns(f"a column is an array, a list or a series, and not {type(data).__name__}")
    return _of_objects(list(data))


def _of_array(array: np.ndarray, hidden: Optional[np.ndarray] = None) -> Values:
    """Returns the values of an array, of which those that are hidden are not looked at."""
    if array.ndim != 1:
        raise BadColumns(f"a column has one dimension, and not {array.ndim}")
    kind = array.dtype.kind
    if kind == "f":
        return Values(array, ~np.isnan(array))
    if kind == "M":
        return Values(array, ~np.isnat(array))
    if kind in "iub":
        return Values(array, np.ones(len(array), bool))
    if kind in "OU":
        objects = array.tolist()
        if hidden is not None:
            objects = [None if is_hidden else value for value, is_hidden in zip(objects, hidden.tolist())]
        return _of_objects(objects)._replace(kind=NO_TEXTS if kind == "U" else None)
    raise BadColumns(f"an array of {array.dtype} is not one of numbers, times, booleans or texts")


def _of_arrow(chunks: List[arrow.Read]) -> Values:
    """Returns the values of chunks that follow each other. Texts keep an order that all chunks have."""
    values, valid = (np.concatenate([chunk[place] for chunk in chunks]) for place in (0, 1))
    orders, first = {chunk.order for chunk in chunks}, chunks[0]
    found = _of_array(values, ~valid)
    kind = NO_TEXTS if first.are_texts else None if first.scale is None else decimals_of(first.scale)
    order = orders.pop() if len(orders) == 1 else None
    return found._replace(valid=found.valid & valid, zone=first.zone, order=order, kind=kind)


def _of_pandas(pandas: Any, series: Any) -> Values:
    dtype = series.dtype
    if isinstance(dtype, pandas.CategoricalDtype):
        # (one place more than the categories, for the code -1)
        texts = np.array([*dtype.categories, None], object)
        found = _of_objects(texts[series.cat.codes.to_numpy()].tolist())
        is_order = dtype.ordered and all(isinstance(text, str) for text in dtype.categories)
        kind = _kind_of(dtype.categories.dtype) or _kind_of_first(dtype.categories)
        return found._replace(order=tuple(dtype.categories) if is_order else None, kind=kind)
    if isinstance(dtype, pandas.DatetimeTZDtype):
        return _of_array(series.dt.tz_convert("UTC").dt.tz_localize(None).to_numpy())._replace(zone=dtype.tz)
    if isinstance(dtype, np.dtype):
        return _of_array(series.to_numpy())
    valid, plain = series.notna().to_numpy(), getattr(dtype, "numpy_dtype", None)
    if isinstance(plain, np.dtype) and plain.kind in "iufb":
        values = series.to_numpy(dtype=plain, na_value=False if plain.kind == "b" else 0)
        return Values(values, valid & ~np.isnan(values) if plain.kind == "f" else valid)
    if isinstance(dtype, (pandas.PeriodDtype, pandas.IntervalDtype)):
        raise BadColumns(f"a series of {dtype} is not one of numbers, times, booleans or texts")
    if isinstance(dtype, pandas.SparseDtype):
        return _of_array(np.asarray(series))
    return _of_objects(series.to_numpy(object).tolist())._replace(kind=_kind_of(dtype))


def _kind_of(dtype: Any) -> Optional[Kind]:
    """Returns the kind of values that a dtype of NumPy or pandas tells, if it tells one."""
    if getattr(dtype, "type", None) is str:
        return NO_TEXTS
    of_arrow = getattr(dtype, "pyarrow_dtype", None)
    if (scale := getattr(of_arrow, "scale", None)) is not None:
        return decimals_of(scale)
    zone = getattr(dtype, "tz", None) or arrow.zone_named(getattr(of_arrow, "tz", None) or "")
    return {"M": Times("D", zone), "b": Flags()}.get(getattr(dtype, "kind", ""))


def decimals_of(scale: int) -> Decimals:
    """Returns the decimals of a scale, as far as there are such."""
    return Decimals(min(max(scale, 0), 18))


def _kind_of_first(values: Any) -> Optional[Kind]:
    """Returns the kind that the first of some objects is of, where that is a text or a date."""
    first = next(iter(values), None)
    if isinstance(first, date):
        return Times("D", getattr(first, "tzinfo", None))
    return NO_TEXTS if isinstance(first, str) else None


def is_null(value: Any) -> bool:
    """Returns whether the value represents no value: None, NaN, NaT or pandas.NA."""
    if value is None:
        return True
    try:
        return bool(value != value)
    except (TypeError, ValueError, ArithmeticError):
        pandas = sys.modules.get("pandas")
        return pandas is not None and value is pandas.NA or isinstance(value, Decimal) and value.is_nan()


def _of_objects(objects: list) -> Values:
    types = set(map(type, objects))
    if types <= NEVER_NULL | {type(None)}:
        valid = np.array([value is not None for value in objects], bool)
        types.discard(type(None))
    else:
        valid = np.array([not is_null(value) for value in objects], bool)
        types = {type(value) for value, is_valid in zip(objects, valid) if is_valid}
    if len(types) == 1 and (plain := NUMPY_TYPES.get(next(iter(types)))) is not None:
        try:
            return Values(np.array([value if is_valid else 0 for value, is_valid in zip(objects, valid)], plain), valid)
        except OverflowError:
            pass
    array = np.empty(len(objects), object)
    for place, value in enumerate(objects):
        array[place] = value
    return Values(array, valid)
