"""How files are laid out, as the caller says and their first lines show: delimiter, quotes, header and titles."""

from __future__ import annotations

import csv
import io
from collections import Counter
from typing import AbstractSet, Any, Collection, Dict, Iterable, Iterator, List, Mapping, NamedTuple, Optional
from typing import Tuple, Union

from .blanks import TAB, TabbedLines
from .errors import BadColumns
from .fields import BLANKS
from .files import Runs
from .kinds import shown
from .spelling import NOTHING, is_like_number

# What may stand between fields in place of a comma, and what stands for any run of blanks.
MARKS, BLANK = ";\t|", " "
INFER = "infer"


class Layout(NamedTuple):
    """What the caller says of the files."""

    delimiter: Optional[str]
    quote: Optional[str]
    skipped: int
    encoding: Optional[str]
    header: Union[int, str, None]
    names: Optional[List[str]]

    def checked(self) -> "Layout":
        """Returns the layout with a list of names. Refuses what can't be meant."""
        for what, sign in (("delimiter", self.delimiter), ("quotechar", self.quote)):
            if sign and (not isinstance(sign, str) or len(sign) != 1 or sign in "\r\n\0"):
                more = "; ' ' is any run of blanks" if sign == r"\s+" else ""
                raise ValueError(f"{what} is one character, and no end of a line, and not {sign!r}{more}")
        if self.by_blanks and self.quote in (" ", "\t"):
            raise ValueError(f"quotechar is no blank where these stand between fields, and not {self.quote!r}")
        if not isinstance(self.skipped, int) or isinstance(self.skipped, bool) or self.skipped < 0:
            raise ValueError(f"skiprows is a number of lines, and not {self.skipped!r}")
        if isinstance(self.header, bool) or self.header not in (INFER, 0, None):
            reason = f"header is 0, or None if files have none, and not {self.header!r}"
            raise ValueError(f"{reason}; skiprows= leaves out lines before it")
        return self if self.names is None else self._replace(names=_listed(self.names))

    @property
    def has_header(self) -> bool:
        """Whether files have a header. If that is not said, files with names have none."""
        return self.header == 0 or self.header == INFER and self.names is None

    @property
    def by_blanks(self) -> bool:
        """Whether any run of blanks stands between fields, which is read as a tab."""
        return self.delimiter == BLANK

    @property
    def separators(self) -> Tuple[bytes, bytes]:
        """The bytes that stand between fields, and the quote."""
        return BLANKS if self.by_blanks else self.marks[0], self.marks[1]

    @property
    def marks(self) -> Tuple[bytes, bytes]:
        """The delimiter as it is read, and the quote."""
        return TAB if self.by_blanks else (self.delimiter or ",").encode(), (self.quote or "").encode()

    @property
    def dialect(self) -> Dict[str, Any]:
        """The words for the module csv."""
        quoting = {"quotechar": self.quote} if self.quote else {"quoting": csv.QUOTE_NONE, "quotechar": None}
        return {"delimiter": self.marks[0].decode(), **quoting}


def _listed(names: Any) -> List[str]:
    """Returns the titles that are given, or raises an error if they are none."""
    is_list = isinstance(names, Iterable) and not isinstance(names, (str, bytes, Mapping, AbstractSet))
    titles = list(names) if is_list else []
    if not is_list or any(not isinstance(title, str) for title in titles):
        raise TypeError(f"names is a list of titles, and not {names!r}")
    if not titles:
        raise ValueError("names has no title")
    for title, count in Counter(titles).items():
        if count > 1:
            raise ValueError(f"names has the title {title!r} {count} times")
    return titles


class Head(NamedTuple):
    """The fields of a file's first record, the text up to its end, and how many lines that has."""

    fields: List[str]
    text: bytes
    lines: int


def read_head(runs: Runs, layout: Layout, name: str) -> Head:
    """Reads the first record of a file that is no empty line."""
    taken: List[bytes] = []
    reader = csv.reader(_lines(runs, layout, taken), strict=True, **layout.dialect)
    try:
        fields = next((record for record in reader if record), [])
    except csv.Error as why:
        raise BadColumns(f"{name}: line {layout.skipped + reader.line_num}: {why}") from None
    return Head(fields, b"".join(taken), reader.line_num)


def _lines(runs: Runs, layout: Layout, taken: List[bytes]) -> Iterator[str]:
    """Yields the next lines, and lists them as they stand."""
    tabs = TabbedLines(layout.quote or "")
    while line := runs.line():
        taken.append(line)
        text = line.decode("utf-8", "surrogatepass")
        yield tabs.of(text) if layout.by_blanks else text


def titles_of(fields: List[str]) -> List[str]:
    """Returns the titles of a header: its fields, and x_2 for a second x."""
    counts: Counter = Counter()
    titles = []
    for field in fields:
        counts[field] += 1
        titles.append(field if counts[field] == 1 else f"{field}_{counts[field]}")
    return titles


def titles_in(head: Head, layout: Layout) -> List[str]:
    """Returns the titles of the columns of a file that begins so."""
    if layout.names is not None:
        return layout.names
    return titles_of(head.fields) if layout.has_header else [f"column_{at + 1}" for at in range(len(head.fields))]


# ---- What first lines show that is not as the caller says ----


def other_layout(head: Head, layout: Layout, named: Collection[str]) -> Optional[str]:
    """Returns how the first record of a file shows another layout, and what says so, or None if it does not. The caller
    names some titles."""
    if not head.fields:
        return None
    field, what = head.fields[0], "header" if layout.has_header else "first record"
    mark = next((mark for mark in MARKS if mark in field), None)
    if len(head.fields) == 1 and mark and _may_be_split(layout):
        return f"its {what} is one field, {field!r}; delimiter={mark!r} splits it{_more(field.split(mark), layout)}"
    if layout.header == INFER and head.fields == layout.names:
        return "its first line has the titles of names; header=0 reads it as a header"
    if _is_row(head.fields, layout) and not any(field in named for field in head.fields):
        ways = "header=None reads it as a row, and header=0 as titles"
        return f"its first line has numbers alone, as {shown(field)}; {ways}"
    return None


def between_blanks(ahead: bytes, layout: Layout, named: Collection[str]) -> Optional[str]:
    """Returns that blanks make as many fields of each of the first lines, most of them numbers, and what splits these,
    or None if it is not so, or if the caller names the first line as one title."""
    lines = [line for line in io.StringIO(ahead.decode("utf-8", "replace"), newline=None) if line.strip()]
    if not _may_be_split(layout) or not lines or any(mark in lines[0] for mark in f",{MARKS}"):
        return None
    tabs, quote = TabbedLines(layout.quote or ""), layout.quote or ""
    rows = [[field.strip(quote) for field in tabs.of(line).rstrip("\n").split("\t")] for line in lines]
    width = len(rows[0])
    if width < 2 or any(len(row) != width for row in rows) or lines[0].rstrip("\n").strip(quote) in named:
        return None
    there = [field for row in rows[1:] or rows for field in row if field.lower() not in NOTHING]
    if 2 * sum(map(is_like_number, there)) <= len(there):
        return None
    ways = f"delimiter=' ' splits them{_more(rows[0], layout)}; delimiter=',' leaves them whole"
    return f"its lines have {width} fields between blanks, and most are numbers; {ways}"


def _may_be_split(layout: Layout) -> bool:
    """Returns whether a line that is one field may be more: the caller names no delimiter, and not one title."""
    return layout.delimiter is None and (layout.names is None or len(layout.names) > 1)


def _is_row(fields: List[str], layout: Layout) -> bool:
    """Returns whether all fields are numbers, and so no titles, where the caller does not say that they are titles."""
    return layout.header == INFER and layout.has_header and all(is_like_number(field.strip(" \t")) for field in fields)


def _more(fields: List[str], layout: Layout) -> str:
    """Returns what else is to be said where a first line that is split so is a row."""
    return ", and header=None reads the first as a row" if _is_row(fields, layout) else ""


def odd_width(width: int, titles: int, layout: Layout, before: Optional[int]) -> str:
    """Returns what is wrong with a record of more or fewer fields than titles, and, where it is the first and so many
    lines are before it, what leaves these out."""
    if layout.names is not None or not layout.has_header:
        return f"has {width} fields, and {'the first row' if layout.names is None else 'names'} {titles}"
    hint = f"; skiprows={before} begins there, with header=None if that is a row" if before and width > titles else ""
    return f"has {width} fields, and the header {titles}{hint}"
