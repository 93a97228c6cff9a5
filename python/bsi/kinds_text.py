"""The text of kinds of a file: what the numbers of its columns represent, as the command reads and writes it.

docs/FORMATS.md has its records. A kind that it can't say, as a time zone or texts in an order that was given, is said by
notes alone.
"""

from __future__ import annotations

import re
from datetime import timezone
from typing import Dict, Iterator, List, Mapping, NamedTuple, Optional

from .forms import Form
from .kinds import Decimals, Flags, Kind, Texts, Times, Whole

MAX_TEXTS = 1 << 16
UNITS = ("s", "ms", "us")
# A field of a record, and what ends it.
FIELD = re.compile(r'(?:"((?:[^"]|"")*)"|([^,\r\n]*))(,|\r?\n|\Z)')
SPECIAL = re.compile(r'[",\r\n]')


class Said(NamedTuple):
    """What a text says of a column: its title, and the kind of its values."""

    title: str
    kind: Kind


def read(text: bytes) -> Dict[str, Said]:
    """Returns what a text says of each column, by the name that the library has. Bytes that are no UTF-8 become
    surrogates. Raises ValueError for what is none."""
    titles: Dict[str, str] = {}
    kinds: Dict[str, List[str]] = {}
    texts: Dict[str, List[str]] = {}
    for word, *fields in _records(text.decode("utf-8", "surrogateescape")):
        if word == "column":
            titles[fields[0]] = fields[0]
        elif word == "title":
            titles[fields[0]] = fields[1]
        elif word == "kind":
            kinds[fields[0]] = fields[1:]
        elif word == "text":
            texts.setdefault(fields[0], []).append(fields[1])
    return {name: Said(title, _kind(kinds.get(name), texts.get(name, []))) for name, title in titles.items()}


def _records(text: str) -> Iterator[List[str]]:
    """Yields the fields of each record; an empty line is none."""
    at, fields = 0, []  # type: int, List[str]
    while at < len(text):
        found = FIELD.match(text, at)
        if found is None:
            raise ValueError("it has a quote within a field")
        quoted, plain, end = found.groups()
        fields.append(plain if quoted is None else quoted.replace('""', '"'))
        at = found.end()
        if end != ",":
            if fields != [""]:
                yield fields
            fields = []
    if fields:
        yield [*fields, ""]


def _kind(words: Optional[List[str]], texts: List[str]) -> Kind:
    """Returns the kind that the words of a record say; without one, that of whole numbers."""
    if words is None:
        return Whole()
    word, *more = words
    if word == "decimal":
        return Decimals(int(more[0]), rounded=more[1:] == ["rounded"])
    if word == "date":
        return Times("D")
    if word == "time":
        return Times(more[0], timezone.utc if more[1] == "utc" else None)
    if word == "boolean":
        return Flags()
    if word != "text":
        raise ValueError(f"it has the kind {word!r}, which this package does not know")
    # (a column of nulls has no text, and a kind has at least one; their order is that of their bytes)
    values = tuple(texts) or ("",)
    return Texts(values, ordered=list(values) != sorted(values))


def written(schema: str, forms: Mapping[str, Form]) -> Optional[bytes]:
    """Returns the text for columns whose schema the library wrote, which is empty where each is of whole numbers under
    its own name, or None where a text can't say what they mean."""
    records: List[List[str]] = []
    names = [record.split(",")[1] for record in schema.splitlines() if record.startswith("column,")]
    for name, (title, form) in zip(names, forms.items()):
        words = _words(form.kind)
        if words is None:
            return None
        if title != name:
            records.append(["title", name, title])
        if words:
            records.append(["kind", name, *words])
        if isinstance(form.kind, Texts):
            records += [["text", name, value] for value in form.kind.values]
    try:
        text = "".join(",".join(map(_quoted, fields)) + "\n" for fields in records).encode()
        return schema.encode() + text if text else b""
    except UnicodeEncodeError:
        return None


def _words(kind: Kind) -> Optional[List[str]]:
    """Returns the words of a kind, none for whole numbers, or None where there are none that say it."""
    if isinstance(kind, Whole):
        return []
    if isinstance(kind, Decimals):
        return _words_of_decimals(kind)
    if isinstance(kind, Times):
        return _words_of_times(kind)
    if isinstance(kind, Flags):
        return ["boolean", "true", "false"]
    return ["text"] if isinstance(kind, Texts) and _are_sayable(kind) else None


def _words_of_decimals(kind: Decimals) -> Optional[List[str]]:
    if kind.rounded:
        # (a library that does not know the word refuses the text, and notes say it)
        return ["decimal", str(kind.places), "rounded"]
    return ["decimal", str(kind.places)] if kind.places else None


def _words_of_times(kind: Times) -> Optional[List[str]]:
    if kind.unit == "D" and kind.zone is None:
        return ["date", "ymd", "-"]
    if kind.unit not in UNITS or kind.zone not in (None, timezone.utc):
        return None
    return ["time", kind.unit, "local" if kind.zone is None else "utc"]


def _are_sayable(kind: Texts) -> bool:
    # (texts in the order of their characters are in that of their bytes)
    return not (kind.ordered or kind.grows or "" in kind.places) and len(kind.values) <= MAX_TEXTS


def _quoted(field: str) -> str:
    return '"' + field.replace('"', '""') + '"' if SPECIAL.search(field) else field
