"""Files as they are, whatever packs and encodes them, as runs of whole records in UTF-8.

A name's ending says how a file is packed: .gz, .bz2, .xz or .zip. What has a `read` is taken too. A run ends behind a
line end that stands in no quotes.
"""

from __future__ import annotations

import codecs
import os
import zlib
from contextlib import ExitStack, contextmanager
from typing import IO, Any, Iterator, NamedTuple, Optional, Union

import numpy as np

from .errors import BadColumns

Path = Union[str, "os.PathLike[str]", IO[Any]]
READ = 1 << 18
# How far a run goes on without an end before the records are read one by one.
LONGEST = 16 * READ
MARKS = {codecs.BOM_UTF32_LE: "utf-32", codecs.BOM_UTF32_BE: "utf-32"}
MARKS.update({codecs.BOM_UTF16_LE: "utf-16", codecs.BOM_UTF16_BE: "utf-16"})
NEWLINE, RETURN = b"\n"[0], b"\r"[0]
# The first bytes of files in other formats, what some further ones are, what such a file is, and what reads it.
WORKBOOK = "save it as CSV, or give what pandas.read_excel reads to Index.from_frame"
FORMATS = (
    (b"PK\3\4", b"xl/", "is an Excel workbook (.xlsx)", WORKBOOK),
    (b"PK\3\4", b"opendocument.spreadsheet", "is a workbook of LibreOffice (.ods)", WORKBOOK),
    (b"\xd0\xcf\x11\xe0\xa1\xb1\x1a\xe1", b"", "is an Excel workbook (.xls)", WORKBOOK),
    (b"PAR1\x15", b"", "is a Parquet file", "give what pandas.read_parquet reads to Index.from_frame"),
    (b"PK\3\4", b"", "is packed by zip", "give it a name that ends in .zip"),
    (b"\x1f\x8b\x08", b"", "is packed by gzip", "give it a name that ends in .gz"),
    (b"BZh", b"1AY&SY", "is packed by bzip2", "give it a name that ends in .bz2"),
    (b"\xfd7zXZ\0", b"", "is packed by xz", "give it a name that ends in .xz"),
)
# Of how many bytes those tell an encoding that are 0.
BEGIN = 1000


def name_of(path: Path) -> str:
    """Returns what an error calls a file."""
    return str(getattr(path, "name", None) or f"the {type(path).__name__}") if hasattr(path, "read") else str(path)


def size_of(path: Path) -> int:
    """Returns how many bytes a file has, and 0 if that is not known."""
    return 0 if hasattr(path, "read") else os.path.getsize(path)  # type: ignore[arg-type]


@contextmanager
def opened(path: Path, encoding: Optional[str]) -> Iterator["Source"]:
    """Opens a file, which is closed at the end where it was opened here."""
    _refuse_no_encoding(encoding)
    with ExitStack() as stack:
        if hasattr(path, "read"):
            yield Source(name_of(path), path, None, encoding)
            return
        raw = stack.enter_context(open(path, "rb", buffering=0))  # type: ignore[arg-type]
        yield Source(name_of(path), _unpacked(stack, raw, os.fspath(path)), raw, encoding)  # type: ignore[arg-type]


def _refuse_no_encoding(encoding: Optional[str]) -> None:
    try:
        found = None if encoding is None else codecs.lookup(encoding)
    except (LookupError, TypeError, ValueError):
        raise BadColumns(f"there is no encoding {encoding!r}; one is 'cp1252'") from None
    if not getattr(found, "_is_text_encoding", True):
        raise BadColumns(f"{encoding!r} encodes no text; an encoding is 'cp1252'")


def _unpacked(stack: ExitStack, raw: IO[bytes], name: str) -> IO[bytes]:
    """Returns the bytes that a file packs, by the ending of its name."""
    ending = os.path.splitext(name)[1].lower()
    if ending == ".gz":
        import gzip

        return stack.enter_context(gzip.GzipFile(fileobj=raw))  # type: ignore[return-value]
    if ending == ".bz2":
        import bz2

        return stack.enter_context(bz2.BZ2File(raw))
    if ending == ".xz":
        import lzma

        return stack.enter_context(lzma.LZMAFile(raw))
    if ending == ".zip":
        import zipfile

        try:
            packed = stack.enter_context(zipfile.ZipFile(raw))
        except zipfile.BadZipFile as why:
            raise BadColumns(f"{name}: it can't be unpacked: {why}") from None
        if len(packed.namelist()) != 1:
            raise BadColumns(f"{name}: it packs {len(packed.namelist())} files, not one")
        return stack.enter_context(packed.open(packed.namelist()[0]))
    if ending in (".zst", ".lz4", ".7z"):
        raise BadColumns(f"{name}: such files are not unpacked here; .gz, .bz2, .xz and .zip are")
    return raw


class Source:
    """A file's text in UTF-8, read from its begin to its end. That a file in UTF-8 is such is looked at later."""

    def __init__(self, name: str, stream: Any, raw: Optional[IO[bytes]], encoding: Optional[str]):
        self.name, self._stream, self._raw, self._encoding = name, stream, raw, encoding
        self._decoder: Optional[codecs.IncrementalDecoder] = None
        self._is_utf8 = False

    def place(self) -> int:
        """Returns how many bytes of the file have been read, and 0 for a pipe, which does not know."""
        return self._raw.tell() if self._raw is not None and self._raw.seekable() else 0

    def read(self, size: int) -> bytes:
        """Returns some further text, of about so many bytes, and nothing at its end."""
        while True:
            data = self._packed(size)
            if isinstance(data, str):
                return data.encode("utf-8", "surrogateescape")
            if self._decoder is None and not self._is_utf8:
                if reason := _other_format(data) or _other_encoding(data, self._encoding):
                    raise BadColumns(f"{self.name}: it {reason}")
                encoding = self._encoding or _marked(data)
                if codecs.lookup(encoding).name in ("utf-8", "utf-8-sig"):
                    self._is_utf8, data = True, data.removeprefix(codecs.BOM_UTF8)
                else:
                    self._decoder = codecs.getincrementaldecoder(encoding)()
            if self._decoder is None:
                return data
            try:
                text = self._decoder.decode(data, not data)
            except UnicodeError as why:
                raise self.no_text(why) from None
            if text or not data:
                return text.encode("utf-8", "surrogatepass")

    def no_text(self, why: UnicodeError) -> BadColumns:
        """Returns the refusal of bytes that are no text."""
        told = self._encoding or "UTF-8"
        what = getattr(why, "reason", str(why))
        reason = f"it is no {told} text ({what}); name its encoding, as encoding='cp1252'"
        return BadColumns(f"{self.name}: {reason}")

    def _packed(self, size: int) -> Any:
        try:
            return self._stream.read(size) or b""
        except (zlib.error, EOFError, OSError, ValueError, RuntimeError) as why:
            if self._raw is None or self._stream is self._raw:
                raise
            raise BadColumns(f"{self.name}: it can't be unpacked: {why}") from None
        except Exception as why:  # (lzma has an error of its own, and may not be there)
            if type(why).__name__ != "LZMAError":
                raise
            raise BadColumns(f"{self.name}: it can't be unpacked: {why}") from None


def _marked(data: bytes) -> str:
    """Returns the encoding that the first bytes of a file tell."""
    return next((encoding for mark, encoding in MARKS.items() if data.startswith(mark)), "utf-8-sig")


def _other_format(data: bytes) -> Optional[str]:
    """Returns in which other format a file is that begins so, and what helps, or None if it is none of these."""
    found = (each for each in FORMATS if data.startswith(each[0]) and each[1] in data)
    return next((f"{what}; {way}" for _, _, what, way in found), None)


def _other_encoding(data: bytes, given: Optional[str]) -> Optional[str]:
    """Returns in which encoding a file is that begins so, if it is another than the one that is given or is read unasked,
    and what helps, or None if nothing tells."""
    found = _marked(data)
    if given is not None and codecs.lookup(given).name.startswith(("utf-16", "utf-32")):
        return None
    if found in MARKS.values():
        return f"is {found.upper()} text, and not {given}; leave encoding= out" if given is not None else None
    each = [data[first:BEGIN:2] for first in (0, 1)]
    zeros = [half.count(0) for half in each]
    for first, encoding in enumerate(("utf-16-be", "utf-16-le")):
        if 4 * zeros[first] > len(each[first]) and not zeros[1 - first]:
            return f"is UTF-16 text without a mark; encoding={encoding!r} reads it"
    return None


class Run(NamedTuple):
    """Records that follow each other, where their quotes stand, and whether it ends where a record does for certain."""

    text: bytes
    quotes: np.ndarray
    is_whole: bool


class Runs:
    """The text of a file in runs of records."""

    def __init__(self, source: Source, delimiter: bytes, quote: bytes):
        self._source, self._delimiter, self._quote = source, delimiter, quote
        self._rest, self._is_end = b"", False
        # (whether lines end by a carriage return alone, as its first bytes tell)
        self._by_returns: Optional[bool] = None

    def line(self) -> bytes:
        """Returns the next line with its end, whatever stands in it."""
        while b"\n" not in self._rest and self._more():
            pass
        line, end, self._rest = self._rest.partition(b"\n")
        return line + end

    def ahead(self, size: int) -> bytes:
        """Returns the whole lines among the next bytes, so many at most, which stay to be read."""
        while len(self._rest) < size and self._more():
            pass
        text = self._rest[:size]
        is_all = self._is_end and len(text) == len(self._rest)
        return text if is_all else text[: text.rfind(b"\n") + 1]

    def next(self, size: int) -> Run:
        """Returns a run of about so many bytes, and an empty one at the end."""
        while len(self._rest) < size and self._more(size - len(self._rest)):
            pass
        while True:
            text = self._rest[:size]
            quotes = places_of(text, self._quote)
            cut = self._cut(text, quotes)
            if cut or size >= len(self._rest) and (self._is_end or size > LONGEST):
                return self._run(cut or len(self._rest), quotes)
            size += READ
            self._more()

    def back(self, text: bytes) -> None:
        """Takes text that was not used."""
        self._rest = text + self._rest

    def _more(self, size: int = READ) -> bool:
        more = b"" if self._is_end else self._source.read(size)
        if self._by_returns is None and more:
            self._by_returns = b"\n" not in more and b"\r" in more
        self._is_end |= not more
        self._rest += more.replace(b"\r", b"\n") if self._by_returns else more
        return bool(more)

    def _cut(self, text: bytes, quotes: np.ndarray) -> int:
        """Returns where the last record ends that the text has as a whole, and 0 if it has none."""
        if self._is_end and len(text) == len(self._rest):
            return len(text)
        if not len(quotes):
            return text.rfind(b"\n") + 1
        ends = places_of(text, b"\n")
        ends = ends[np.searchsorted(quotes, ends) & 1 == 0]
        return int(ends[-1]) + 1 if len(ends) else 0

    def _run(self, cut: int, quotes: np.ndarray) -> Run:
        text, self._rest = self._rest[:cut], self._rest[cut:]
        quotes = quotes[: np.searchsorted(quotes, cut)]
        is_whole = text.endswith(b"\n") or self._is_end
        return Run(text, quotes, is_whole and self._are_pairs(text, quotes))

    def _are_pairs(self, text: bytes, quotes: np.ndarray) -> bool:
        """Returns whether each quote opens a field, closes one or is one of two within it."""
        if not len(quotes):
            return True
        if len(quotes) % 2:
            return False
        data = np.frombuffer(b"\n" + text + b"\n", np.uint8)
        before, after, opens, closes = data[quotes[::2]], data[quotes[1::2] + 2], quotes[::2], quotes[1::2]
        doubled = np.concatenate([[False], opens[1:] == closes[:-1] + 1, [False]])
        ends = np.array([*self._delimiter, NEWLINE, RETURN], np.uint8)
        return bool((np.isin(before, ends) | doubled[:-1]).all() and (np.isin(after, ends) | doubled[1:]).all())


def places_of(text: bytes, byte: bytes) -> np.ndarray:
    """Returns where a byte stands in a text."""
    if not byte or byte not in text:
        return np.zeros(0, np.int64)
    return np.flatnonzero(np.frombuffer(text, np.uint8) == byte[0])
