"""Fields as slices of bytes: the records of a run are split at once, and a column is where its fields begin and end.

A run that is none of plain records is read one by one by the module csv, with the same result.
"""

from __future__ import annotations

import csv
import io
from typing import Any, Callable, List, NamedTuple, Optional, Sequence, Tuple

import numpy as np

from .files import NEWLINE, RETURN, Run

# (eight bytes are read at once, also before a field and behind it)
PAD = 32
LEFT, RIGHT = b"\0" * (PAD - 1) + b"\n", b"\0" * PAD
WORD = 8
MASKS = np.array([(1 << 8 * size) - 1 for size in range(WORD + 1)], np.uint64)
BLANKS = b" \t"
# So many fields are taken from their bytes one by one.
FEW = 100


class Fields(NamedTuple):
    """Fields of one column, as slices of UTF-8 with some bytes before and behind, and whether blanks may stand around
    them."""

    data: np.ndarray
    starts: np.ndarray
    ends: np.ndarray
    are_loose: bool = True

    def taken(self, places: Any) -> "Fields":
        """Returns the fields at these places."""
        return Fields(self.data, self.starts[places], self.ends[places], self.are_loose)

    def texts(self) -> List[str]:
        """Returns the fields as texts."""
        bounds = zip(self.starts.tolist(), self.ends.tolist())
        data: Any = memoryview(self.data) if len(self.starts) < FEW else self.data.tobytes()
        return [bytes(data[start:end]).decode() for start, end in bounds]

    def stripped(self) -> "Fields":
        """Returns the fields without blanks around them."""
        data, starts, ends, are_loose = self
        if not are_loose:
            return self
        while (led := (starts < ends) & _are_blank(data[starts])).any():
            starts = starts + led
        while (led := (starts < ends) & _are_blank(data[ends - 1])).any():
            ends = ends - led
        return Fields(data, starts, ends, False)

    def equal(self, text: str) -> np.ndarray:
        """Returns which of the fields are this text."""
        encoded = text.encode("utf-8", "surrogatepass")
        found = self.ends - self.starts == len(encoded)
        for place, byte in enumerate(encoded):
            if not found.any():
                break
            found[found] = self.data[self.starts[found] + place] == byte
        return found

    def words(self) -> List[np.ndarray]:
        """Returns the bytes of each field by eights, zero behind its end."""
        lengths, windows = self.ends - self.starts, windows_of(self.data)
        last = len(windows) - 1
        words = [windows[self.starts] & MASKS[np.minimum(lengths, WORD)]]
        for place in range(WORD, int(lengths.max(initial=0)), WORD):
            left = np.minimum(np.maximum(lengths - place, 0), WORD)
            words.append(windows[np.minimum(self.starts + place, last)] & MASKS[left])
        return words


def _are_blank(data: np.ndarray) -> np.ndarray:
    return (data == BLANKS[0]) | (data == BLANKS[1])


def windows_of(data: np.ndarray) -> np.ndarray:
    """Returns the eight bytes from each byte on, as one number of which the first is the lowest."""
    return np.ndarray((len(data) - WORD + 1,), "<u8", data, 0, (1,))


def fields_of(texts: Sequence[str]) -> Fields:
    """Returns texts as fields."""
    encoded = [text.encode("utf-8", "surrogatepass") for text in texts]
    ends = np.cumsum([PAD, *map(len, encoded)])
    return Fields(np.frombuffer(b"".join([LEFT, *encoded, RIGHT]), np.uint8), ends[:-1], ends[1:])


class Records(NamedTuple):
    """The records of a run: how many they are, the fields of a column, the line of each from 0 if they are not one
    a line, how many lines the run has, of each record of another width its place, its line and its width, and the line
    that is no record with why."""

    rows: int
    column: Callable[[int], Fields]
    places: Optional[np.ndarray]
    lines: int
    odd: List[Tuple[int, int, int]]
    broken: Optional[Tuple[int, str]] = None


def split(run: Run, width: int, delimiter: bytes, quote: bytes) -> Optional[Records]:
    """Returns the records of a run, or None if it is not certain that each has so many fields."""
    text = run.text
    if not text.isascii():
        text.decode()  # (or it raises UnicodeError)
    if not run.is_whole or len(delimiter) != 1 or b"\0" in text:
        return None
    if b"\r" in text and text.count(b"\r") != text.count(b"\r\n"):
        return None
    data = np.frombuffer(b"".join([LEFT, text, b"" if text.endswith(b"\n") else b"\n", RIGHT]), np.uint8)
    inner = data[PAD:-PAD]
    are_newlines, are_marks = inner == NEWLINE, inner == delimiter[0]
    are_marks |= are_newlines
    lines = int(np.count_nonzero(are_newlines))
    if len(run.quotes):
        are_marks &= np.bitwise_xor.accumulate((inner == quote[0]).view(np.uint8)) == 0
    marks = np.flatnonzero(are_marks)
    if len(marks) % width:
        return None
    marks += PAD
    marks = marks.reshape(-1, width)
    ends = np.ascontiguousarray(marks[:, -1])
    breaks = lines if not len(run.quotes) else np.count_nonzero(are_marks & are_newlines)
    is_even = breaks == len(ends) and (data[ends] == NEWLINE).all()
    firsts = np.concatenate([[PAD], ends[:-1] + 1])
    is_long = (ends - firsts).max(initial=0) > csv.field_size_limit()
    if not is_even or is_long or width == 1 and (_before_return(data, ends) == firsts).any():
        return None
    are_loose, doubled = b" " in text or b"\t" in text, _doubled(run.quotes + PAD)
    ends = _before_return(data, ends) if b"\r" in text else ends

    def column(place: int) -> Fields:
        starts = firsts if place == 0 else marks[:, place - 1] + 1
        fields = Fields(data, starts, ends if place == width - 1 else np.ascontiguousarray(marks[:, place]), are_loose)
        return _unquoted(fields, quote, doubled) if len(run.quotes) else fields

    places = None if lines == len(ends) else np.searchsorted(np.flatnonzero(are_newlines) + PAD, firsts)
    return Records(len(ends), column, places, lines, [])


def _before_return(data: np.ndarray, ends: np.ndarray) -> np.ndarray:
    """Returns where the last field of each record ends: before a carriage return."""
    return ends - (data[ends - 1] == RETURN)


def _doubled(quotes: np.ndarray) -> np.ndarray:
    """Returns where two quotes represent one, of quotes that are in pairs."""
    return quotes[2::2][quotes[2::2] == quotes[1:-1:2] + 1]


def _unquoted(fields: Fields, quote: bytes, doubled: np.ndarray) -> Fields:
    """Returns fields without the quotes around them, and with one for each two within."""
    data, starts, ends, are_loose = fields
    is_quoted = (data[starts] == quote[0]) & (starts < ends)
    if not is_quoted.any():
        return fields
    starts, ends = starts + is_quoted, ends - is_quoted
    rows = np.minimum(np.searchsorted(ends, doubled), len(ends) - 1)
    rows = np.unique(rows[(starts[rows] <= doubled) & (doubled < ends[rows])])
    if not len(rows):
        return Fields(data, starts, ends, are_loose)
    whole = data.tobytes()
    bounds = zip(starts[rows].tolist(), ends[rows].tolist())
    added = [whole[start:end].replace(quote * 2, quote) for start, end in bounds]
    places = np.cumsum([len(data), *map(len, added)])
    starts[rows], ends[rows] = places[:-1], places[1:]
    return Fields(np.frombuffer(b"".join([whole, *added, RIGHT]), np.uint8), starts, ends, are_loose)


class Lines:
    """The lines of a run, and of those behind it where a record goes on there."""

    def __init__(self, text: bytes, more: Callable[[], bytes]):
        self._lines, self._more, self._is_first = _lines_of(text), more, True

    def __iter__(self) -> "Lines":
        return self

    def __next__(self) -> str:
        line = self._lines.readline()
        while not line:
            more = self._more()
            if not more:
                raise StopIteration
            self._lines, self._is_first = _lines_of(more), False
            line = self._lines.readline()
        return line

    def is_done(self) -> bool:
        """Returns whether all lines of the first run have been taken."""
        place = self._lines.tell()
        is_done = not self._is_first or not self._lines.read(1)
        self._lines.seek(place)
        return is_done

    def rest(self) -> bytes:
        """Returns what has not been taken."""
        return self._lines.read().encode("utf-8", "surrogatepass")


def _lines_of(text: bytes) -> io.StringIO:
    return io.StringIO(text.decode("utf-8", "surrogatepass"), newline="")


def read_each(lines: Lines, width: int, dialect: dict) -> Records:
    """Reads the records of a run one by one, up to one that is none. Empty lines are no records."""
    reader = csv.reader(lines, strict=True, **dialect)
    kept: List[List[str]] = []
    places: List[int] = []
    odd: List[Tuple[int, int, int]] = []
    broken: Optional[Tuple[int, str]] = None
    while not lines.is_done():
        place = reader.line_num
        try:
            record = next(reader, None)
        except csv.Error as why:
            broken = reader.line_num, str(why)
            break
        if not record:
            continue
        if len(record) != width:
            odd.append((len(kept) + len(odd), place, len(record)))
            continue
        kept.append(record)
        places.append(place)
    columns = list(zip(*kept))
    return Records(
        len(kept),
        lambda place: fields_of(columns[place] if columns else ()),
        np.array(places, np.int64),
        reader.line_num,
        odd,
        broken,
    )
