"""The C library by ctypes: its structs, and a handle whose calls take and give whole numbers alone.

A call lets go of Python's lock, and the library wants each handle to itself, so a handle has a lock of its own. No
pointer is null, not even one to nothing.
"""

from __future__ import annotations

import ctypes
import os
import struct
import threading
from array import array
from ctypes import POINTER, Structure, byref, c_bool, c_int64, c_size_t, c_uint32, c_uint64, c_void_p
from functools import lru_cache
from typing import Any, Dict, List, NamedTuple, Optional, Sequence, Tuple

import numpy as np

from . import errors
from .predicates import MAX_FIELDS
from .taking import Found, Moments, kept_of, numbers_of

OK, BAD_SCHEMA, BAD_ROW, INDEX_FULL, NO_ROOM, NO_MEMORY, BAD_KINDS = 0, 4, 8, 9, 12, 3, 19
MAX_NOTES = 1 << 26
# Of how many numbers that a column may take the library counts each in one pass.
MAX_TALLIES = 1 << 16
COUNT, SUM = 1, 2
# The numbers of one column, and an Arrow validity bitmap of them or none.
Entries = Tuple[np.ndarray, Optional[np.ndarray]]


class _Index(Structure):
    _fields_ = [("at", c_void_p), ("full", c_bool), ("reserved", c_uint64 * 2)]


class _Column(Structure):
    _fields_ = [("values", c_void_p), ("values_len", c_size_t), ("valid", c_void_p), ("valid_len", c_size_t)]


class _Answer(Structure):
    _fields_ = [
        ("kind", c_uint32),
        ("present", c_bool),
        ("value", c_int64),
        ("count", c_uint64),
        ("low", c_uint64),
        ("high", c_uint64),
    ]


class _Group(Structure):
    _fields_ = [("present", c_bool), ("entry", c_int64), ("answer", _Answer)]


class _Entry(Structure):
    _fields_ = [("present", c_bool), ("number", c_int64)]


class _Pair(Structure):
    _fields_ = [("entries", _Entry * 2), ("answer", _Answer)]


# A rank, and the number that has it, or None where that is the first from a number on.
Known = Tuple[int, Optional[int]]


class Near(NamedTuple):
    """How many numbers lie below a span, how many within it, and these, or None if they are too many."""

    below: int
    many: int
    numbers: Optional[np.ndarray]


_CALLS: Dict[str, List[Any]] = {
    "bsi_open": [c_void_p, c_size_t, c_uint32, POINTER(c_uint64)],
    "bsi_reserve": [c_uint64],
    "bsi_append": [c_uint32, c_void_p, c_size_t, POINTER(c_uint64), POINTER(c_size_t)],
    "bsi_ask": [c_void_p, c_size_t, POINTER(_Answer), c_void_p, c_size_t],
    "bsi_answer_line": [c_void_p, c_size_t, c_void_p, c_size_t, POINTER(c_size_t)],
    "bsi_group_by": [c_void_p, c_size_t, c_void_p, c_size_t, c_void_p, c_size_t, POINTER(c_size_t)],
    "bsi_group_by_two": [*[c_void_p, c_size_t] * 4, POINTER(c_size_t)],
    "bsi_select": [c_void_p, c_size_t, c_void_p, c_size_t],
    "bsi_distinct": [c_void_p, c_size_t, c_void_p, c_size_t, POINTER(c_uint64)],
    "bsi_ranks": [c_void_p, c_size_t, c_void_p, c_size_t, c_void_p, c_size_t, c_void_p, c_size_t],
    "bsi_top": [c_void_p, c_size_t, c_void_p, c_size_t, c_bool, c_void_p, c_size_t, POINTER(c_size_t)],
    "bsi_rows": [POINTER(c_uint64)],
    "bsi_memory": [POINTER(c_uint64)],
    "bsi_schema": [c_void_p, c_size_t, POINTER(c_size_t)],
    "bsi_set_kinds": [c_void_p, c_size_t],
    "bsi_kinds": [c_void_p, c_size_t, POINTER(c_size_t)],
    "bsi_save": [c_void_p, c_size_t, c_void_p, c_size_t, POINTER(c_size_t)],
    "bsi_open_kept": [c_void_p, c_size_t, c_void_p, c_size_t, POINTER(c_size_t), POINTER(c_uint64)],
    "bsi_share": [POINTER(_Index)],
    "bsi_close": [],
}
_nothing = (c_uint64 * 1)()
_NOTHING = ctypes.addressof(_nothing)
_NO_PLACES, _NO_LENGTH = c_void_p(_NOTHING), c_size_t(0)


def _load() -> ctypes.CDLL:
    """Loads the library: that of the variable BSI_LIBRARY, the one of the wheel, or the one that `make lib` leaves in
    the repository."""
    here, named = os.path.dirname(os.path.abspath(__file__)), os.environ.get("BSI_LIBRARY")
    beside = [os.path.join(here, "libbsi.so"), os.path.join(here, "..", "..", "out", "lib", "libbsi.so")]
    path = next((place for place in ([named] if named else beside) if os.path.isfile(place)), None)
    if path is None and named:
        raise ImportError(f"there is no {named}, which the variable BSI_LIBRARY names")
    if path is None:
        raise ImportError("there is no libbsi.so: `make wheel` puts it beside the package, or BSI_LIBRARY names it")
    library = ctypes.CDLL(path)
    for name, arguments in _CALLS.items():
        call = getattr(library, name)
        call.argtypes, call.restype = [POINTER(_Index)] + arguments, c_uint32
    return library


_library = _load()
# The same call for arguments that are of C's types as they are: ctypes turns those of the others, one by one.
_ask = _library["bsi_ask"]
_ask.restype = c_uint32


def _address(array: Optional[np.ndarray]) -> int:
    return _NOTHING if array is None or not len(array) else array.ctypes.data


def _entry_of(entry: _Entry) -> Optional[int]:
    return entry.number if entry.present else None


@lru_cache(256)
def _slices(fields: Tuple[bytes, ...]) -> Tuple[bytes, c_size_t, array]:
    """Returns the fields as C has them, an address and a length each, how many they are, and the bytes there, which
    must live as long. Those of the last questions are kept."""
    text, slices = array("B", b"".join(fields)), []
    at = text.buffer_info()[0] or _NOTHING
    for field in fields:
        slices += (at, len(field))
        at += len(field)
    return struct.pack(f"{len(slices)}Q", *slices), c_size_t(len(fields)), text


class Handle:
    """One open index of the library. Fields are those of a query record, as docs/FORMATS.md has them."""

    def __init__(self, schema: Optional[bytes] = None):
        # (reentrant: a signal's handler may ask in the midst of a call of its own thread, when the library is done)
        self._lock, self._index = threading.RLock(), _Index()
        self._at = byref(self._index)
        if schema is not None:
            bad_record, text = c_uint64(), np.frombuffer(schema, np.uint8)
            status = self._call("bsi_open", _address(text), len(text), 1, byref(bad_record))
            if status == BAD_SCHEMA:
                raise errors.BadSchema(
                    f"the library does not accept record {bad_record.value} of the schema", bad_record.value
                )
            check(status)

    def _call(self, name: str, *arguments) -> int:
        with self._lock:
            return getattr(_library, name)(self._at, *arguments)

    def reserve(self, rows: int, block: int = 0) -> None:
        """Makes room for rows that are appended in blocks, just so much. An append tells of memory that is refused."""
        self._call("bsi_reserve", rows)

    def append(self, columns: Sequence[Entries]) -> Tuple[int, int]:
        """Appends rows, and returns the status and the row that it tells. Which column is refused the caller finds by itself,
        since it tells of each."""
        given = (_Column * max(1, len(columns)))()
        for column, (values, valid) in zip(given, columns):
            column.values, column.values_len = _address(values), len(values)
            column.valid, column.valid_len = _address(valid), 0 if valid is None else len(valid)
        row, places = c_uint64(), (ctypes.addressof(given), len(columns))
        return self._call("bsi_append", 0, *places, byref(row), byref(c_size_t())), row.value

    def _ask(self, *fields: bytes) -> _Answer:
        answer, (slices, length, _kept) = _Answer(), _slices(fields)
        with self._lock:
            status = _ask(self._at, slices, length, byref(answer), _NO_PLACES, _NO_LENGTH)
        if status != OK:
            check(status)
        return answer

    def count(self, fields: Sequence[bytes]) -> int:
        """Returns how many rows the predicate selects."""
        return self._ask(b"count", *fields).count

    def counts(self, questions: Sequence[Sequence[bytes]]) -> list[int]:
        """Returns how many rows each of these predicates selects."""
        return [self.count(fields) for fields in questions]

    def sum(self, name: bytes, fields: Sequence[bytes]) -> int:
        """Returns the sum of the column's numbers in the rows that the predicate selects."""
        return _sum_of(self._ask(b"sum", name, *fields))

    def value(self, word: bytes, name: bytes, fields: Sequence[bytes]) -> Optional[int]:
        """Returns the least, greatest or lower median number in these rows, or None if there is none."""
        answer = self._ask(word, name, *fields)
        return answer.value if answer.present else None

    def ranked(self, name: bytes, rank: int, fields: Sequence[bytes]) -> Optional[int]:
        """Returns the number of a rank among those in these rows, from 0, or None past the last."""
        return self.value(b"rank", name, [b"%d" % rank, *fields])

    def ranks(self, name: bytes, ranks: Sequence[int], fields: Sequence[bytes]) -> List[Optional[int]]:
        """Returns the numbers of some ranks, as `ranked` does each."""
        column, wanted = np.frombuffer(name, np.uint8), np.array(ranks, np.uint64)
        (slices, length, _kept), found = _slices(tuple(fields)), (_Entry * max(1, len(ranks)))()
        room = (_address(wanted), len(wanted), ctypes.addressof(found), len(found))
        check(self._call("bsi_ranks", slices, length, _address(column), len(column), *room))
        return [one.number if one.present else None for one in found[: len(ranks)]]

    def top(self, name: bytes, most: int, least: bool, fields: Sequence[bytes]) -> np.ndarray:
        """Returns the rows with the greatest numbers of the column, or the least, at most so many, in this order."""
        return self._top(name, most, least, fields)[:, 0]

    def _top(self, name: bytes, most: int, least: bool, fields: Sequence[bytes]) -> np.ndarray:
        """Returns these rows, each with its number."""
        column, rows, count = np.frombuffer(name, np.uint8), np.empty((most, 2), np.int64), c_size_t()
        slices, length, _kept = _slices(tuple(fields))
        room = (_address(rows), most, byref(count))
        check(self._call("bsi_top", slices, length, _address(column), len(column), least, *room))
        return rows[: count.value]

    def near(self, name: bytes, low: int, high: int, most: int, fields: Sequence[bytes], known: Known) -> Near:
        """Returns how many numbers in these rows lie below one number, and how many from it up to another, which are
        given where they are at most so many. Of one number the rank is known, or that of the first. The predicate has at
        most 996 fields."""
        within = [*fields, name, b">=", b"%d" % low, b"and"]
        if len(within) + 4 <= MAX_FIELDS:
            within += [name, b"<=", b"%d" % high, b"and"]
        numbers = self._top(name, most + 1, True, within)[:, 1]
        numbers = numbers[: np.searchsorted(numbers, high, "right")]
        rank, number = known
        first, last = (0, 1) if number is None else (np.searchsorted(numbers, number, side) for side in ("left", "right"))
        # (of equal numbers it is not known which one has the rank)
        below = rank - int(first) if last == first + 1 else self.count([*fields, name, b"<", b"%d" % low, b"and"])
        if len(numbers) <= most:
            return Near(below, len(numbers), numbers)
        return Near(below, self.count([*fields, name, b"<=", b"%d" % high, b"and"]) - below, None)

    def distinct(self, name: bytes, fields: Sequence[bytes]) -> int:
        """Returns how many different numbers the column has in these rows."""
        count, column, (slices, length, _kept) = c_uint64(), np.frombuffer(name, np.uint8), _slices(tuple(fields))
        check(self._call("bsi_distinct", slices, length, _address(column), len(column), byref(count)))
        return count.value

    def median_and_count(self, name: bytes, fields: Sequence[bytes]) -> Tuple[Optional[int], int]:
        """Returns the lower median number in these rows, and how many numbers there are."""
        return self.value(b"median", name, fields), self.count([*fields, name, b"null", b"not", b"and"])

    def grouped(
        self, by: Tuple[bytes, ...], fields: Sequence[bytes], most: int, nulls: bool = False
    ) -> Optional[Dict[Tuple[Optional[int], ...], Optional[int]]]:
        """Returns the query's answer over the rows of each number of a column, or of each pair of numbers of two, in
        order of these, and over the nulls, as None, only where they are wanted. None if there are more than so many.
        For two columns it takes eight fields more."""
        if len(by) == 2:
            # (there may be more pairs with a null in them than others)
            there = [] if nulls else [word for name in by for word in (name, b"null", b"not", b"and")]
            pairs = self._groups("bsi_group_by_two", (_Pair * most)(), by, [*fields, *there])
            if pairs is None:
                return None
            return {tuple(map(_entry_of, pair.entries)): _number_of(pair.answer) for pair in pairs}
        groups = self._groups("bsi_group_by", (_Group * (most + 1))(), by, fields)
        if groups is None:
            return None
        there = (group for group in groups if group.present or nulls)
        found = {(group.entry if group.present else None,): _number_of(group.answer) for group in there}
        return found if len(found) <= most else None

    def _groups(self, call: str, room: Any, by: Tuple[bytes, ...], fields: Sequence[bytes]) -> Optional[List[Any]]:
        """Returns the groups of the rows, or None if there are more than this room has."""
        count = self._grouped(call, room, by, fields)
        return None if count is None else room[:count]

    def _grouped(self, call: str, room: Any, by: Tuple[bytes, ...], fields: Sequence[bytes]) -> Optional[int]:
        """Writes the groups of the rows, and returns how many they are, or None if this room has fewer."""
        slices, length, _kept = _slices(tuple(fields))
        count, names = c_size_t(), [np.frombuffer(name, np.uint8) for name in by]
        named = (word for name in names for word in (_address(name), len(name)))
        status = self._call(call, slices, length, *named, ctypes.addressof(room), len(room), byref(count))
        if status == NO_ROOM:
            return None
        check(status)
        return count.value

    def select(self, fields: Sequence[bytes]) -> Tuple[np.ndarray, int]:
        """Returns the words whose bits say which rows the predicate selects, and how many rows there are."""
        (slices, length, _kept), status, rows = _slices(tuple(fields)), NO_ROOM, 0
        while status == NO_ROOM:
            # (another thread may append between the two calls; then there is too little room, and both are made again)
            rows = self.rows()
            words = np.empty((rows + 63) // 64, np.uint64)
            status = self._call("bsi_select", slices, length, _address(words), len(words))
        check(status)
        return words, rows

    def numbers(self, names: Sequence[bytes], rows: np.ndarray, bitmaps: int) -> List[Found]:
        """Returns of each column the numbers in these rows, and which of them are valid, of an index whose file has so
        many bitmaps."""
        return numbers_of(self, names, rows, bitmaps)

    def moments(self, columns: Sequence[Tuple[bytes, int, int]], fields: Sequence[bytes], bitmaps: int) -> List[Moments]:
        """Returns of columns the moments of how far the numbers in these rows lie above the least one that their column
        takes. A column comes with its name, this number, and how many it takes; bitmaps are those of a file."""
        with self._lock:
            most = min(MAX_TALLIES, 8 * self.rows())
            found = {name: self._tallied(name, least, size, fields) for name, least, size in columns if size <= most}
            if len(found) < len(columns):
                words, kept = self.select(fields)[0], kept_of(self, bitmaps)
                found.update({name: kept.moments(name, words) for name, _, _ in columns if name not in found})
        return [found[name] for name, _, _ in columns]

    def _tallied(self, name: bytes, least: int, size: int, fields: Sequence[bytes]) -> Moments:
        """Returns the same of a column that takes few numbers, by how often each of them is there."""
        room = (_Group * (size + 1))()
        many = self._grouped("bsi_group_by", room, (name,), [b"count", *fields])
        groups = np.frombuffer(room, np.dtype(_Group), many)
        there = groups[groups["present"]]
        counts, distances = there["answer"]["count"], (there["entry"] - least).astype(np.uint64)
        # (within 64 bits: of at most 2^32 numbers each is below 2^16)
        sums = (np.dot(counts, distances), np.dot(counts, distances * distances))
        return Moments(int(counts.sum()), *map(int, sums))

    def rows(self) -> int:
        """Returns how many rows the index has."""
        rows = c_uint64()
        check(self._call("bsi_rows", byref(rows)))
        return rows.value

    def nbytes(self) -> int:
        """Returns how many bytes the rows take."""
        size = c_uint64()
        check(self._call("bsi_memory", byref(size)))
        return size.value

    def schema(self) -> bytes:
        """Returns the records of the schema."""
        return self._text("bsi_schema")

    def kinds(self) -> bytes:
        """Returns the text of kinds, which is empty if the numbers are whole numbers."""
        return self._text("bsi_kinds")

    def answer_line(self, fields: Sequence[bytes]) -> bytes:
        """Returns the line that `bsi ask` writes for a record of these fields."""
        slices, length, _kept = _slices(tuple(fields))
        return self._text("bsi_answer_line", slices, length)

    def _text(self, name: str, *given: Any) -> bytes:
        """Returns the text that a call writes."""
        size = c_size_t()
        status, text = NO_ROOM, np.empty(0, np.uint8)
        while status == NO_ROOM:
            text = np.empty(size.value, np.uint8)
            status = self._call(name, *given, _address(text), len(text), byref(size))
        check(status)
        return text[: size.value].tobytes()

    def set_kinds(self, text: bytes) -> bool:
        """Gives the index a text of kinds, and returns whether it says something of its columns."""
        given = np.frombuffer(text, np.uint8)
        status = self._call("bsi_set_kinds", _address(given), len(given))
        if status == BAD_KINDS:
            return False
        check(status)
        return True

    def save(self, notes: bytes, room: int) -> np.ndarray:
        """Returns the bytes that keep the index and these notes, where a guess of how many they are spares a call."""
        size, given = c_size_t(room), np.frombuffer(notes, np.uint8)
        status, found = NO_ROOM, np.empty(0, np.uint8)
        while status == NO_ROOM:
            found = np.empty(size.value, np.uint8)
            status = self._call("bsi_save", _address(given), len(given), _address(found), len(found), byref(size))
        check(status)
        return found[: size.value]

    @classmethod
    def of_kept(cls, data: np.ndarray) -> Tuple["Handle", bytes]:
        """Opens the index that all these bytes keep, and returns its notes too. Raises a KeptError with how many of the
        first bytes keep one."""
        # (the notes are some of the bytes)
        notes = np.empty(min(MAX_NOTES, len(data)), np.uint8)
        handle, size, whole = cls(), c_size_t(), c_uint64()
        room = (_address(notes), len(notes), byref(size), byref(whole))
        status = handle._call("bsi_open_kept", _address(data), len(data), *room)
        if status != OK and issubclass(errors.BY_STATUS.get(status, errors.Error), errors.KeptError):
            raise errors.BY_STATUS[status](None, None, 0, whole.value)
        check(status)
        return handle, notes[: size.value].tobytes()

    def share(self) -> "Handle":
        """Returns another handle of the same index. From then on it accepts no rows."""
        other = Handle()
        check(self._call("bsi_share", byref(other._index)))
        return other

    def close(self) -> None:
        """Closes the handle; one that is closed stays so."""
        self._call("bsi_close")

    def __del__(self):
        if getattr(self, "_index", None) is not None and _library is not None:
            self.close()


def _sum_of(answer: _Answer) -> int:
    return (answer.high << 64 | answer.low) - (answer.high >> 63 << 128)


def _number_of(answer: _Answer) -> Optional[int]:
    """Returns the number that an answer is, or None if it is none."""
    if answer.kind == COUNT:
        return answer.count
    return _sum_of(answer) if answer.kind == SUM else answer.value if answer.present else None


def check(status: int) -> None:
    """Raises the exception of a status that is a refusal."""
    if status in (BAD_ROW, INDEX_FULL) or status not in errors.BY_STATUS and status != OK:
        raise errors.Error(f"the library answered with status {status}")
    if status != OK:
        raise errors.BY_STATUS[status]()
