"""An index that is kept in a file, with what its columns mean, and a file that is replaced at once.

The library makes the bytes of the file and opens an index from them. What the schema of the library does not say of a
column, its title and its kind, the text of kinds says, or else notes in packed JSON. A file without both has whole numbers.
"""

from __future__ import annotations

import errno
import fcntl
import json
import mmap
import os
import stat
import zlib
from contextlib import ExitStack, contextmanager
from datetime import datetime, timedelta, timezone
from typing import IO, Any, Dict, Iterable, Iterator, Mapping, NamedTuple, Optional, Tuple, Union

import numpy as np

from . import kinds_text
from .errors import BadKinds, BadNotes, Error, KeptError, LongNotes, NotKept, Shared
from .forms import Form
from .kinds import Decimals, Flags, Kind, Texts, Times, Whole
from .native import MAX_NOTES, Handle
from .table import names_within

Path = Union[str, "os.PathLike[str]"]
VERSION = 1
# What notes may take before they are packed: texts that pack well, and not memory without end.
MAX_UNPACKED = 1 << 28
# Room in a file for its head without the notes.
SPARE = 1 << 17
MAGIC = b"bsikept"


class Meaning(NamedTuple):
    """What the notes of a file say: the kind of each column by its name, and what its writer keeps besides."""

    kinds: Dict[str, Kind]
    more: Dict[str, Any]


class Kept(NamedTuple):
    """An index that was opened: its columns, the names that the library has for them, its limit, its handle, and what its
    notes say besides."""

    forms: Dict[str, Form]
    within: Dict[str, bytes]
    limit: int
    handle: Handle
    more: Dict[str, Any]


# ---- Notes ----


def notes_of(forms: Mapping[str, Form], **more: Any) -> bytes:
    """Returns the notes that say what columns mean, or raises LongNotes."""
    columns = [{"name": name, **_spelt(name, form.kind)} for name, form in forms.items()]
    notes = json.dumps({"bsi": VERSION, "columns": columns, **more}).encode()
    packed = b"" if len(notes) > MAX_UNPACKED else zlib.compress(notes, 9)
    for size, most, when in ((len(notes), MAX_UNPACKED, ""), (len(packed), MAX_NOTES, " when packed")):
        if size > most:
            texts = sum(len(form.kind.values) for form in forms.values() if isinstance(form.kind, Texts))
            what = f"the names and the {texts:,} texts of the columns take {size:,} bytes{when}"
            raise LongNotes(f"{what}, and a file has room for {most:,}; nothing was written")
    return packed


def _spelt(name: str, kind: Kind) -> Dict[str, Any]:
    """Returns a kind as JSON has it."""
    if isinstance(kind, Decimals):
        return {"kind": "decimals", "places": kind.places, "rounded": kind.rounded}
    if isinstance(kind, Times):
        return {"kind": "times", "unit": kind.unit, "zone": _zone_name(name, kind.zone)}
    if isinstance(kind, Texts):
        return {"kind": "texts", "values": list(kind.values), "ordered": kind.ordered, "grows": kind.grows}
    return {"kind": "flags" if isinstance(kind, Flags) else "whole"}


def _zone_name(name: str, zone: Any) -> Optional[str]:
    """Returns a time zone's name, or the seconds that it is ahead of UTC, as +7200."""
    if zone is None:
        return None
    found = getattr(zone, "key", None) or getattr(zone, "zone", None)
    if isinstance(found, str):
        return found
    if isinstance(zone, timezone):
        return f"{round(zone.utcoffset(None).total_seconds()):+d}"
    if zone.utcoffset(datetime(2026, 1, 1)) == timedelta(0) and "utc" in repr(zone).lower():
        return "+0"
    raise Error(f"column {name!r} has the time zone {zone!r}, which has no name to be saved by; zoneinfo.ZoneInfo has")


def _zone(name: Optional[str]) -> Any:
    if name is None:
        return None
    if name[:1] in ("+", "-"):
        return timezone(timedelta(seconds=int(name)))
    if name == "UTC":
        return timezone.utc
    from zoneinfo import ZoneInfo

    return ZoneInfo(name)


def meaning_of(notes: bytes) -> Meaning:
    """Returns what notes say, or raises ValueError, KeyError or TypeError where they are none of this package."""
    unpacker = zlib.decompressobj()
    try:
        text = unpacker.decompress(notes, MAX_UNPACKED)
    except zlib.error:
        raise ValueError("they are not packed by zlib") from None
    if not unpacker.eof or unpacker.unused_data:
        raise ValueError("they are not packed as a whole")
    found = json.loads(text)
    if not isinstance(found, dict) or "bsi" not in found:
        raise ValueError("they are another program's")
    if found["bsi"] != VERSION:
        raise ValueError(f"they are of version {found['bsi']!r}, and this package knows {VERSION}")
    kinds = {column["name"]: _kind(column) for column in found["columns"]}
    if len(kinds) < len(found["columns"]) or not all(isinstance(name, str) for name in kinds):
        raise ValueError("they name a column twice, or by no text")
    return Meaning(kinds, {key: value for key, value in found.items() if key not in ("bsi", "columns")})


def _kind(column: Mapping[str, Any]) -> Kind:
    word = column["kind"]
    if word == "decimals":
        return Decimals(column["places"], column["rounded"])
    if word == "times":
        return Times(column["unit"], _zone(column["zone"]))
    if word == "texts":
        return Texts(tuple(column["values"]), column["ordered"], column["grows"])
    if word not in ("flags", "whole"):
        raise ValueError(f"they have the kind {word!r}, which this package does not know")
    return Flags() if word == "flags" else Whole()


# ---- The schema ----


def read_schema(text: str) -> Tuple[Dict[str, Form], int]:
    """Returns the forms by the names that the library has, and the limit, of a schema that it wrote."""
    forms: Dict[str, Form] = {}
    limit = 1 << 32
    for record in text.splitlines():
        word, *fields = record.split(",")
        if word == "limit":
            limit = int(fields[0])
        else:
            name, form, sizes, *offset = fields
            forms[name] = Form(form, tuple(map(int, sizes.split())), int(offset[0]) if offset else 0)
    return forms, limit


def _named(forms: Dict[str, Form], notes: bytes) -> Tuple[Dict[str, Form], Dict[str, Any]]:
    """Returns the forms under the names and with the kinds that the notes give, and what they say besides."""
    if not notes:
        return forms, {}
    kinds, more = meaning_of(notes)
    if list(names_within(list(kinds)).values()) != list(forms):
        raise ValueError("they are of other columns")
    return {name: form.of(kind) for (name, kind), form in zip(kinds.items(), forms.values())}, more


def _said(forms: Dict[str, Form], text: bytes, notes: bytes) -> Tuple[Dict[str, Form], Dict[str, Any]]:
    """Returns the same of a text of kinds, beside which notes may say more."""
    said = kinds_text.read(text)
    try:
        more = meaning_of(notes).more if notes else {}
    except (ValueError, KeyError, TypeError, AttributeError, RecursionError):
        more = {}  # (they are another program's)
    return {said[name].title: form.of(said[name].kind) for name, form in forms.items()}, more


def _refuse_unknown(handle: Handle, within: Iterable[str], forms: Mapping[str, Form]) -> None:
    """Raises ValueError where a column has a number that represents no text, or is neither true nor false."""
    for name, (column, form) in zip(within, forms.items()):
        count = len(form.kind.values) if isinstance(form.kind, Texts) else 2
        if isinstance(form.kind, (Texts, Flags)):
            ends = [handle.value(word, name.encode(), [b"all"]) for word in (b"least", b"greatest")]
            if not all(end is None or 0 <= end < count for end in ends):
                raise ValueError(f"column {column!r} has a number that represents no value")


# ---- Bytes ----


def say_kinds(handle: Handle, forms: Mapping[str, Form]) -> bool:
    """Gives an index the text of kinds that says what its columns mean, where one can and there is need of it. Returns
    whether notes need not say it."""
    if handle.kinds():
        return True
    text = kinds_text.written(handle.schema().decode(), forms)
    if not text:
        return text is not None
    try:
        return handle.set_kinds(text)
    except Shared:
        return bool(handle.kinds())  # (another thread has just given it kinds)


def kept_bytes(handle: Handle, forms: Mapping[str, Form], **more: Any) -> np.ndarray:
    """Returns the bytes that keep an index, or raises LongNotes. Of these bytes the library makes a copy besides."""
    notes = b"" if not more and say_kinds(handle, forms) else notes_of(forms, **more)
    bitmaps = sum(1 + form.places for form in forms.values())
    return handle.save(notes, 8 * bitmaps * (handle.rows() // 64 + 2) + len(notes) + SPARE)


def opened_bytes(data: Any, path: Optional[str] = None, so_far: bool = False) -> Kept:
    """Opens the index that the bytes keep. Raises a KeptError with the path where they do not, unless the rows before
    the fault are wanted."""
    given = np.frombuffer(data, np.uint8)
    try:
        handle, notes = _handle_of(given, path)
    except BadKinds:
        raise
    except KeptError as why:
        # (what stands whole is opened, to tell how many rows it has)
        before = _handle_of(given[: why.whole], path) if why.whole else None
        if before is None or not so_far:
            rows = before[0].rows() if before else 0
            raise type(why)(None, path, rows, why.whole) from None
        handle, notes = before
    found, limit = read_schema(handle.schema().decode())
    text = handle.kinds()
    try:
        forms, more = _said(found, text, notes) if text else _named(found, notes)
        _refuse_unknown(handle, found, forms)
    except (ValueError, KeyError, TypeError, AttributeError, RecursionError) as why:
        what = "text of kinds" if text else "notes"
        raise BadNotes(f"its {what} can't be read: {_reason(why)}", path, handle.rows()) from None
    within = {title: name.encode() for title, name in zip(forms, found)}
    return Kept(forms, within, limit, handle, more)


def _handle_of(given: np.ndarray, path: Optional[str]) -> Tuple[Handle, bytes]:
    """Opens the index that all these bytes keep. Where their text of kinds is bad, nothing of them can be opened."""
    try:
        return Handle.of_kept(given)
    except BadKinds:
        raise BadKinds(None, path) from None


def _reason(why: BaseException) -> str:
    if isinstance(why, KeyError) and "time zone" not in str(why):
        return f"they lack {why}"
    return str(why)


def opened_file(path: Path, so_far: bool = False) -> Kept:
    """Opens the index in a file. The file is mapped, and not read into memory of its own."""
    name = os.fspath(path)
    if not (stat.S_ISREG(os.stat(name).st_mode) or os.path.isdir(name)):
        raise NotKept("it is no regular file", name)
    with open(name, "rb", buffering=0) as file:
        if not os.fstat(file.fileno()).st_size:
            raise NotKept(None, name)
        # (no close of the map: an exception may still hold what lies over it)
        return opened_bytes(mmap.mmap(file.fileno(), 0, access=mmap.ACCESS_READ), name, so_far)


def is_kept(path: str) -> bool:
    """Returns whether a file's first bytes are those of a saved index."""
    try:
        with open(path, "rb") as file:
            return stat.S_ISREG(os.fstat(file.fileno()).st_mode) and file.read(len(MAGIC)) == MAGIC
    except OSError:
        return False


# ---- Replacing a file ----

# How many names are tried for the new file beside another one.
MAX_NEW = 1000


def replace(path: Path, data: Any) -> None:
    """Replaces a file by these bytes, or leaves it as it is. They go to a new file beside it, which takes its place
    when the disk has all of it. No other file is opened."""
    name = os.path.realpath(os.fspath(path))
    if os.path.isdir(name):
        raise IsADirectoryError(errno.EISDIR, os.strerror(errno.EISDIR), os.fspath(path))
    if os.path.islink(path) and not os.path.exists(name):
        raise FileNotFoundError(errno.ENOENT, os.strerror(errno.ENOENT), os.fspath(path))
    # (opened first, so that a folder that can't be opened leaves the old file)
    folder = os.open(os.path.dirname(name), os.O_RDONLY | os.O_DIRECTORY)
    try:
        with _unless_added_to(name):
            old = _stat(name)
            number, new = _create(name, 0o666 if old is None else stat.S_IMODE(old.st_mode) & 0o777)
            try:
                with open(number, "wb", buffering=0) as file:
                    if old is not None:
                        os.fchmod(number, stat.S_IMODE(old.st_mode))
                    _write_all(file, memoryview(data))
                    os.fsync(number)
                    _refuse_another(name, old)
                    os.replace(new, name)
            except BaseException:
                os.unlink(new)
                raise
        os.fsync(folder)
    finally:
        os.close(folder)


def _create(name: str, mode: int) -> Tuple[int, str]:
    """Creates a new file beside one, under the first name that is free."""
    for number in range(1, MAX_NEW + 1):
        new = f"{name}.new{number}"
        try:
            return os.open(new, os.O_WRONLY | os.O_CREAT | os.O_EXCL | os.O_CLOEXEC, mode), new
        except FileExistsError:
            pass
    raise FileExistsError(errno.EEXIST, os.strerror(errno.EEXIST), f"{name}.new")


def _stat(name: str) -> Optional[os.stat_result]:
    """Returns what the system says of a file, or None if there is none."""
    try:
        return os.stat(name)
    except FileNotFoundError:
        return None


def _refuse_another(name: str, old: Optional[os.stat_result]) -> None:
    """Raises an Error where another file stands there than before."""
    now = _stat(name)
    if (now is None) != (old is None) or now is not None and not os.path.samestat(now, old):
        raise Error(f"{name}: another program is writing it")


@contextmanager
def _unless_added_to(name: str) -> Iterator[None]:
    """Locks a file that is to be replaced, beside its readers. One to which a command adds rows is refused."""
    with ExitStack() as stack:
        try:
            # (without a wait, since it may be a pipe)
            number = os.open(name, os.O_RDONLY | os.O_NONBLOCK | os.O_CLOEXEC)
            stack.callback(os.close, number)
            fcntl.flock(number, fcntl.LOCK_SH | fcntl.LOCK_NB)
        except BlockingIOError:
            raise Error(f"{name}: another program is writing it") from None
        except OSError:
            pass  # there is none, or none that can be read
        yield


def _write_all(file: IO[bytes], data: memoryview) -> None:
    while len(data):
        data = data[file.write(data[: 1 << 30]) :]
