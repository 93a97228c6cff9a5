"""The Arrow C data interface, read by ctypes: what any library gives by `__arrow_c_array__` or, in chunks, by
`__arrow_c_stream__`, without Arrow itself.

The values are copied, so nothing of the producer is kept. Its capsules release what they hold when they go.
"""

from __future__ import annotations

import ctypes
import re
from ctypes import POINTER, Structure, addressof, c_char_p, c_int, c_int64, c_void_p
from datetime import timedelta, timezone
from decimal import Decimal
from typing import Any, List, NamedTuple, Optional, Tuple

import numpy as np

from .errors import BadColumns

NUMBERS = {
    "c": "i1",
    "C": "u1",
    "s": "i2",
    "S": "u2",
    "i": "i4",
    "I": "u4",
    "l": "i8",
    "L": "u8",
    "e": "f2",
    "f": "f4",
    "g": "f8",
}
TIMES = {
    "tdD": ("i4", "D"),
    "tdm": ("i8", "ms"),
    "tss:": ("i8", "s"),
    "tsm:": ("i8", "ms"),
    "tsu:": ("i8", "us"),
    "tsn:": ("i8", "ns"),
}
# The schema of a stream, and its arrays.
Chunks = Tuple["_Taken", List["_Taken"]]
ORDERED, INLINE = 1, 12
OFFSET = re.compile(r"([+-])([01]\d|2[0-3]):([0-5]\d)", re.ASCII)


class Read(NamedTuple):
    """Values, which of them are valid, the time zone of times, and the order of the texts of an ordered dictionary;
    whether they are texts, and the scale of decimals."""

    values: np.ndarray
    valid: np.ndarray
    zone: Any = None
    order: Optional[Tuple[str, ...]] = None
    are_texts: bool = False
    scale: Optional[int] = None


class _Schema(Structure):
    pass


class _Array(Structure):
    pass


_Schema._fields_ = [
    ("format", c_char_p),
    ("name", c_char_p),
    ("metadata", c_char_p),
    ("flags", c_int64),
    ("n_children", c_int64),
    ("children", POINTER(POINTER(_Schema))),
    ("dictionary", POINTER(_Schema)),
    ("release", c_void_p),
    ("private_data", c_void_p),
]
_Array._fields_ = [
    ("length", c_int64),
    ("null_count", c_int64),
    ("offset", c_int64),
    ("n_buffers", c_int64),
    ("n_children", c_int64),
    ("buffers", POINTER(c_void_p)),
    ("children", POINTER(POINTER(_Array))),
    ("dictionary", POINTER(_Array)),
    ("release", c_void_p),
    ("private_data", c_void_p),
]

class _Stream(Structure):
    _fields_ = [(name, c_void_p) for name in ("get_schema", "get_next", "get_last_error", "release", "private_data")]


_CALL, _ERROR = ctypes.CFUNCTYPE(c_int, c_void_p, c_void_p), ctypes.CFUNCTYPE(c_char_p, c_void_p)
_RELEASE = ctypes.CFUNCTYPE(None, c_void_p)
_pointer_of = ctypes.pythonapi.PyCapsule_GetPointer
_pointer_of.argtypes, _pointer_of.restype = [ctypes.py_object, c_char_p], c_void_p


def _opened(data: Any) -> Tuple[_Schema, _Array, Any]:
    """Returns the two structs that the data gives, and what must live as long as they."""
    capsules = data.__arrow_c_array__()
    schema = _Schema.from_address(_pointer_of(capsules[0], b"arrow_schema"))
    array = _Array.from_address(_pointer_of(capsules[1], b"arrow_array"))
    if not schema.release or not array.release:
        raise BadColumns("the Arrow array was released before")
    return schema, array, capsules


class _Taken:
    """A struct that a stream wrote, which is released when it goes."""

    def __init__(self, struct: Any):
        self.struct = struct

    def __del__(self) -> None:
        if self.struct.release:
            _RELEASE(self.struct.release)(addressof(self.struct))


def _chunks(data: Any) -> Chunks:
    """Returns the schema of a stream, and its arrays."""
    capsule = data.__arrow_c_stream__()
    stream = _Stream.from_address(_pointer_of(capsule, b"arrow_array_stream"))
    if not stream.release:
        raise BadColumns("the Arrow stream was read before")
    schema, arrays = _Taken(_Schema()), []
    _next(stream, stream.get_schema, schema.struct)
    while True:
        array = _Taken(_Array())
        _next(stream, stream.get_next, array.struct)
        if not array.struct.release:
            return schema, arrays
        arrays.append(array)


def _next(stream: _Stream, call: int, struct: Any) -> None:
    """Lets a stream write a struct."""
    if _CALL(call)(addressof(stream), addressof(struct)):
        why = _ERROR(stream.get_last_error)(addressof(stream)) if stream.get_last_error else None
        raise BadColumns(f"the Arrow stream broke off: {(why or b'it says no more').decode(errors='replace')}")


def array_of(data: Any) -> List[Read]:
    """Returns the values of an Arrow array, or of each chunk of one."""
    if hasattr(data, "__arrow_c_array__"):
        schema, array, _kept = _opened(data)
        return [_read(schema, array)]
    taken, arrays = _chunks(data)
    return [_read(taken.struct, array.struct) for array in arrays] or [_none(taken.struct)]


class Field(NamedTuple):
    """A column of record batches, whose values are read when they are wanted."""

    schema: Any
    batches: List[Any]
    place: int
    kept: Any

    def read(self) -> List[Read]:
        """Returns the values of the column in each batch."""
        field = self.schema.children[self.place].contents
        return [self._read(field, batch) for batch in self.batches] or [_none(field)]

    def _read(self, field: _Schema, batch: _Array) -> Read:
        column = batch.children[self.place].contents
        found = _read(field, column, batch.offset, batch.length)
        return found._replace(valid=found.valid & _validity(batch))


def struct_of(data: Any) -> List[Tuple[str, Field]]:
    """Returns the columns of an Arrow struct array, which is how a record batch is given, or of a stream of them."""
    if hasattr(data, "__arrow_c_array__"):
        schema, array, kept = _opened(data)
        batches: List[Any] = [array]
    else:
        kept = _chunks(data)
        schema, batches = kept[0].struct, [array.struct for array in kept[1]]
    if schema.format != b"+s":
        raise BadColumns("pass rows as an Arrow record batch, not as one array")
    names = [_text(schema.children[place].contents.name or b"") for place in range(schema.n_children)]
    return [(name, Field(schema, batches, place, kept)) for place, name in enumerate(names)]


def _text(encoded: bytes) -> str:
    """Returns the text of these bytes."""
    try:
        return encoded.decode()
    except UnicodeDecodeError:
        raise BadColumns(f"the Arrow array has a text that is no UTF-8: {encoded[:60]!r}") from None


def _bytes(array: _Array, place: int, size: int) -> np.ndarray:
    """Returns the first bytes of a buffer, as they lie there."""
    if place >= array.n_buffers or size < 0:
        raise BadColumns("the Arrow array has too few buffers")
    address = array.buffers[place]
    if size == 0:
        return np.empty(0, np.uint8)
    if not address:
        raise BadColumns("the Arrow array has no values")
    return np.ctypeslib.as_array((ctypes.c_uint8 * size).from_address(address))


def _bits(array: _Array, place: int, start: int, length: int) -> np.ndarray:
    packed = _bytes(array, place, (start + length + 7) // 8)
    return np.unpackbits(packed, bitorder="little")[start : start + length].astype(bool)


def _validity(array: _Array, skipped: int = 0, length: Optional[int] = None) -> np.ndarray:
    length = array.length if length is None else length
    if array.null_count == 0 or not array.n_buffers or not array.buffers[0]:
        return np.ones(length, bool)
    return _bits(array, 0, array.offset + skipped, length)


def _read(schema: _Schema, array: _Array, skipped: int = 0, length: Optional[int] = None) -> Read:
    """Returns the values from `skipped` on, as many as `length`, or all."""
    length = array.length - skipped if length is None else length
    if length < 0 or array.offset < 0 or skipped + length > array.length:
        raise BadColumns("the Arrow array has a length below 0")
    layout, start = _text(schema.format), array.offset + skipped
    if layout == "n":
        return Read(np.zeros(length, np.int64), np.zeros(length, bool))
    valid = _validity(array, skipped, length)
    if schema.dictionary:
        return _from_dictionary(schema, array, layout, start, valid)
    if layout in NUMBERS:
        return Read(_fixed(array, NUMBERS[layout], start, length), valid)
    if layout == "b":
        return Read(_bits(array, 1, start, length), valid)
    for prefix, (stored, unit) in TIMES.items():
        if layout == prefix or prefix.endswith(":") and layout.startswith(prefix):
            times = _fixed(array, stored, start, length).astype(np.int64).view(f"M8[{unit}]")
            return Read(times, valid, zone_named(layout[len(prefix) :]))
    if layout in ("u", "U", "vu"):
        sizes = {"u": "i4", "U": "i8"}
        texts = _texts(array, sizes[layout], start, valid) if layout in sizes else _viewed(array, start, valid)
        return Read(texts, valid, are_texts=True)
    if decimal := re.fullmatch(r"d:\d+,(-?\d+)(?:,(32|64|128))?", layout):
        size, scale = int(decimal.group(2) or 128) // 8, int(decimal.group(1))
        return Read(_decimals(array, scale, size, start, valid), valid, scale=scale)
    raise BadColumns(f"an Arrow array of format {layout!r} is not one of numbers, times, booleans or texts")


def _none(schema: _Schema) -> Read:
    """Returns the values of a stream without arrays: none, of the dtype that its schema tells."""
    nothing = (ctypes.c_uint64 * 1)()
    address = (c_void_p * 3)(*[addressof(nothing)] * 3)
    array = _Array(0, 0, 0, 3, 0, address)
    if schema.dictionary:
        array.dictionary = ctypes.pointer(_Array(0, 0, 0, 3, 0, address))
    return _read(schema, array)


def _fixed(array: _Array, stored: str, start: int, length: int) -> np.ndarray:
    item = np.dtype(stored).itemsize
    return _bytes(array, 1, (start + length) * item)[start * item :].view(stored).copy()


def _from_dictionary(schema: _Schema, array: _Array, layout: str, start: int, valid: np.ndarray) -> Read:
    if layout not in NUMBERS:
        raise BadColumns(f"the Arrow array has a dictionary, and format {layout!r}")
    places = np.where(valid, _fixed(array, NUMBERS[layout], start, len(valid)), 0).astype(np.int64)
    found = _read(schema.dictionary.contents, array.dictionary.contents)
    values, is_valid = found.values, found.valid
    if not len(values):
        return found._replace(values=np.zeros(len(valid), values.dtype), valid=np.zeros(len(valid), bool))
    if ((places < 0) | (places >= len(values))).any():
        raise BadColumns("the Arrow array names places that its dictionary has not")
    is_ordered = schema.flags & ORDERED and values.dtype == object and is_valid.all()
    # (a text that stands twice has the first of its places)
    order = tuple(dict.fromkeys(values.tolist())) if is_ordered else None
    return found._replace(values=values[places], valid=valid & is_valid[places], order=order)


def _texts(array: _Array, stored: str, start: int, valid: np.ndarray) -> np.ndarray:
    texts = np.empty(len(valid), object)
    if not len(valid):
        return texts
    ends = _fixed(array, stored, start, len(valid) + 1).tolist()
    if ends[0] < 0 or any(end < begin for begin, end in zip(ends, ends[1:])):
        raise BadColumns("the texts of the Arrow array do not follow each other")
    joined = _bytes(array, 2, ends[-1]).tobytes()
    for place in np.flatnonzero(valid).tolist():
        texts[place] = _text(joined[ends[place] : ends[place + 1]])
    return texts


def _viewed(array: _Array, start: int, valid: np.ndarray) -> np.ndarray:
    """Returns texts that are given by views: of few bytes in the view itself, and else in one of several buffers."""
    texts = np.empty(len(valid), object)
    size = 4 + INLINE
    views = _bytes(array, 1, (start + len(valid)) * size)[start * size :].reshape(-1, size)
    fields = views.view("<i4")
    sizes = _bytes(array, array.n_buffers - 1, 8 * (array.n_buffers - 3)).view("<i8") if len(valid) else np.empty(0)
    buffers = [_bytes(array, 2 + place, int(size)).tobytes() for place, size in enumerate(sizes)]
    for place in np.flatnonzero(valid).tolist():
        length, _, buffer, offset = fields[place].tolist()
        if length <= INLINE:
            texts[place] = _text(views[place, 4 : 4 + max(length, 0)].tobytes())
        elif not 0 <= buffer < len(buffers) or not 0 <= offset <= len(buffers[buffer]) - length:
            raise BadColumns("the Arrow array names bytes that its buffers have not")
        else:
            texts[place] = _text(buffers[buffer][offset : offset + length])
    return texts


def _decimals(array: _Array, scale: int, size: int, start: int, valid: np.ndarray) -> np.ndarray:
    stored = _bytes(array, 1, (start + len(valid)) * size)[start * size :].tobytes()
    decimals = np.empty(len(valid), object)
    for place in np.flatnonzero(valid).tolist():
        number = int.from_bytes(stored[place * size : place * size + size], "little", signed=True)
        decimals[place] = Decimal((number < 0, tuple(map(int, str(abs(number)))), -scale))
    return decimals


def zone_named(name: str) -> Any:
    """Returns the time zone of a name, and None for an empty one."""
    if name in ("", "UTC"):
        return timezone.utc if name else None
    if offset := OFFSET.fullmatch(name):
        ahead = timedelta(hours=int(offset[2]), minutes=int(offset[3]))
        return timezone(-ahead if offset[1] == "-" else ahead)
    from zoneinfo import ZoneInfo

    try:
        return ZoneInfo(name)
    except (LookupError, ValueError, OSError):
        raise BadColumns(f"the Arrow array has the time zone {name!r}, which is not known here") from None
