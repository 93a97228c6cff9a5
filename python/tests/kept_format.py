"""A reader and writer of the bytes of kept indexes that is made from the page of the format alone, and shares no code with the library."""

import struct
from math import prod
from typing import Any, List, NamedTuple, Tuple

MASK = (1 << 64) - 1


class Words:
    """Words that are taken from the front."""

    def __init__(self, words):
        self.words, self.at = list(words), 0

    def take(self, count=1):
        found = self.words[self.at : self.at + count]
        assert len(found) == count
        self.at += count
        return found

    def number(self):
        return self.take()[0]

    def signed(self):
        return struct.unpack("<q", struct.pack("<Q", self.number()))[0]

    def text(self):
        size = self.number()
        data = struct.pack(f"<{-(-size // 8)}Q", *self.take(-(-size // 8)))
        assert not any(data[size:])
        return data[:size]

    def left(self):
        return self.take(len(self.words) - self.at)


class Column(NamedTuple):
    """A column as a segment declares it."""

    name: str
    form: str
    # Of slices as many twos as there are, and otherwise the bases, the least significant first.
    sizes: List[int]
    offset: int

    def bitmaps(self):
        return 1 + sum((base - 1).bit_length() for base in self.sizes)


class Segment(NamedTuple):
    """A segment: what it says, and as words what is not looked into."""

    version: int
    rows: int
    feeders: int
    limit: int
    notes: bytes
    kinds: bytes
    columns: List[Column]
    # The words of the schema, those behind it in the head, and those of the rows.
    schema: List[int]
    sums: List[int]
    body: List[int]

    def bitmaps(self):
        """Returns the words of each bitmap of each column, and those of the feeders."""
        words, size = Words(self.body), -(-self.rows // 64)
        return [[words.take(size) for _ in range(column.bitmaps())] for column in self.columns], words.left()


# ---- Checksums ----


def step(found, word):
    found = (found ^ word) * 0x9E3779B97F4A7C15 & MASK
    return (found << 29 | found >> 35) & MASK


def checksum(words):
    found = len(words)
    for word in words:
        found = step(found, word)
    return found


def lanes_checksum(words):
    lanes = [len(words), 1, 2, 3]
    for k, word in enumerate(words):
        lanes[k % 4] = step(lanes[k % 4], word)
    found, *others = [lanes[(len(words) + k) % 4] for k in range(4)]
    for word in others:
        found = step(found, word)
    return found


# ---- Bytes ----


def packed(words):
    return struct.pack(f"<{len(words)}Q", *words)


def text_words(text):
    return [len(text), *struct.unpack(f"<{-(-len(text) // 8)}Q", text + bytes(-len(text) % 8))]


def counted(version, words):
    """Returns the bytes with which a segment begins: its version, how many words follow, these, and their checksum."""
    return b"bsikept" + bytes([version]) + packed([len(words), *words, checksum(words)])


def encode(segment):
    """Returns the bytes of a segment."""
    front = [segment.rows, segment.feeders, segment.limit, *text_words(segment.notes)]
    if segment.version == 1:
        return counted(1, [*front, *segment.schema, *segment.body])
    return counted(2, [*front, *text_words(segment.kinds), *segment.schema, *segment.sums]) + packed(segment.body)


def in_version_1(data):
    """Returns the same index with all segments in version 1, which has no kinds."""
    return b"".join(encode(segment._replace(version=1)) for segment in segments(data))


def take_counted(data):
    """Returns the version of a segment, the words that are counted, and the data behind their checksum."""
    assert data[:7] == b"bsikept" and data[7] in (1, 2)
    (count,) = struct.unpack("<Q", data[8:16])
    *words, found = struct.unpack(f"<{count + 1}Q", data[16 : 24 + 8 * count])
    assert found == checksum(words)
    return data[7], Words(words), data[24 + 8 * count :]


def read_column(words):
    name, form, count = words.text().decode(), words.number(), words.number()
    return Column(name, ("slices", "equality", "range")[form], [2] * count if form == 0 else words.take(count), words.signed())


def take_segment(data) -> Tuple[Segment, Any]:
    """Returns the first segment, and the data behind it."""
    version, words, data = take_counted(data)
    rows, feeders, limit = words.take(3)
    notes, kinds = words.text(), words.text() if version == 2 else b""
    first = words.at
    count, _signed = words.take(2)
    columns = [read_column(words) for _ in range(count)]
    schema, left = words.words[first : words.at], words.left()
    if version == 1:
        return Segment(version, rows, feeders, limit, notes, kinds, columns, schema, [], left), data
    size = -(-rows // 64) * sum(column.bitmaps() for column in columns) + (-(-rows // 8) if feeders > 1 else 0)
    body = list(struct.unpack(f"<{size}Q", data[: 8 * size]))
    return Segment(version, rows, feeders, limit, notes, kinds, columns, schema, left, body), data[8 * size :]


def segments(data):
    """Yields each segment."""
    while data:
        segment, data = take_segment(data)
        yield segment


# ---- Rows ----


def bits(words, rows):
    number = sum(word << (64 * place) for place, word in enumerate(words))
    assert number >> rows == 0
    return [number >> row & 1 for row in range(rows)]


def entries_of(column, bitmaps, rows):
    """Returns the entries of a column's rows, None for a null."""
    bitmaps = iter(bitmaps)
    there, numbers, weight = bits(next(bitmaps), rows), [0] * rows, 1
    for base in column.sizes:
        for place in range((base - 1).bit_length()):
            for row, bit in enumerate(bits(next(bitmaps), rows)):
                numbers[row] += bit * weight << place
        weight *= base
    assert all(number < prod(column.sizes) and (is_there or number == 0) for number, is_there in zip(numbers, there))
    return [number + column.offset if is_there else None for number, is_there in zip(numbers, there)]


def check_sums(segment, bitmaps, feeders, entries):
    """Checks the zone of each column, and the checksum of each bitmap and of the feeders, of a segment of version 2."""
    words = Words(segment.sums)
    for column_bitmaps, column_entries in zip(bitmaps, entries):
        numbers = [entry for entry in column_entries if entry is not None]
        assert (words.number(), words.signed(), words.signed()) == (len(numbers), min(numbers, default=0), max(numbers, default=0))
        assert words.take(len(column_bitmaps)) == [*map(lanes_checksum, column_bitmaps)]
    assert words.left() == ([lanes_checksum(feeders)] if segment.feeders > 1 else [])


def read(data):
    """Returns the limit, the feeder of each row, the columns with their entries, and the notes of the last segment."""
    row_feeders, columns, first = [], {}, None
    for segment in segments(data):
        first = first or segment
        assert (segment.feeders, segment.limit, segment.kinds, segment.schema) == (first.feeders, first.limit, first.kinds, first.schema)
        bitmaps, feeders = segment.bitmaps()
        entries = [entries_of(column, found, segment.rows) for column, found in zip(segment.columns, bitmaps)]
        if segment.version == 2:
            check_sums(segment, bitmaps, feeders, entries)
        for (name, form, sizes, offset), found in zip(segment.columns, entries):
            columns.setdefault((name, form, tuple(sizes), offset), []).extend(found)
        row_feeders += (packed(feeders) if segment.feeders > 1 else bytes(segment.rows))[: segment.rows]
    return first.limit, row_feeders, columns, segment.notes
