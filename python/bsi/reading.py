"""CSV files as they are: any header names, decimals, dates and times, booleans, texts of few values.

The first fields of a column that are no nulls say what it holds, and a later one that is none of these is refused with
its line. Runs of records are turned into numbers as they are read, by columns, in as many processes as there are parts.
"""

from __future__ import annotations

from collections import deque
from contextlib import contextmanager, suppress
from typing import Any, Callable, Collection, Deque, Dict, Iterable, Iterator, List, Mapping, NamedTuple, Optional
from typing import Set, Tuple, Type, Union

import numpy as np

from .choosing import Chosen, PackedBlock, Wishes, by_column, misfits, refuse_no_kind, settled, wanted_of
from .errors import BadColumns, BadRow, Error, Skipped, several
from .fields import Fields, Records
from .files import Path, Run, Runs, Source, name_of, opened, size_of
from .forms import Form
from .index import Index
from .kinds import FAR, Kind, Texts, Whole, shown
from .layout import BLANK, INFER, Head, Layout, between_blanks, odd_width, other_layout, read_head, titles_in
from .narrowing import ROUNDS, too_many_texts
from .packing import Packed, Room, all_of, packed
from .parts import Parts, refuse_no_parts
from .pieces import ColumnReader, Misread, Pieces, RunReader
from .progress import Progress, told
from .reach import Reach, first_past, reach_at, reach_of
from .spelling import NOTHING, THOUSANDS, Bad, Meaning, NumberReader, Options, Reader, TextReader
from .spelling import decimal_in, is_like_number, misread
from .processes import Answers, Processes

# How many bytes say what columns hold, how many are read at once of four columns, and up to how many columns these are
# more for more columns.
FIRST, RUN, WIDE = 1 << 16, 1 << 19, 32
# How many runs stay where they were read too.
LAST = 4


def read_csv(
    paths: Union[Path, Iterable[Path]],
    columns: Optional[Iterable[str]] = None,
    *,
    drop: Collection[str] = (),
    kinds: Optional[Mapping[str, Union[Kind, Type[Texts]]]] = None,
    forms: Optional[Mapping[str, Form]] = None,
    nulls: Collection[str] = ("",),
    decimal: str = ".",
    thousands: Optional[str] = None,
    dates: Union[str, Mapping[str, str], None] = None,
    round: Union[int, Mapping[str, int], None] = None,
    bad: str = "refuse",
    delimiter: Optional[str] = None,
    quotechar: Optional[str] = '"',
    header: Union[int, str, None] = INFER,
    names: Optional[Iterable[str]] = None,
    skiprows: int = 0,
    encoding: Optional[str] = None,
    spare: int = 0,
    limit: Optional[int] = None,
    parts: int = 1,
    progress: Progress = None,
) -> Union[Index, Parts]:
    """Makes an index of CSV files with one header, and chooses kinds, widths and offsets from their fields. `repr` of the
    index shows the choice. If two titles are `x`, the second is `x_2`.

    `columns`: the columns to read; without it all but those of `drop`.
    `kinds`, `forms`: override the choice (`Texts` stores a column of codes as text).
    `nulls`: the fields that are nulls.
    `decimal`, `thousands`: the decimal sign, and the sign between groups of three digits (" " for blanks of any width).
    `dates`: the format of dates, as for strptime, also by column.
    `round`: decimals of more places are rounded to this number of places, also by column.
    `bad="skip"`: leaves out rows that can't be stored and lists them in `skipped`; otherwise they raise BadRow.
    `delimiter`: the sign between fields; " " is any run of blanks, and those at the ends of a line do not count.
    `header=None`: the files have no header; then `names` are the titles, by default column_1, column_2 and so on. As in
    pandas, `names` alone means this too, and with `header=0` they replace a header.
    `skiprows`: how many lines before the header, or the first row, are left out.
    `spare`: reserves this number of extra bits for each column.
    `parts`: splits rows over this number of indexes; as many processes read a large file, at most one a processor.
    """
    if bad not in ("refuse", "skip"):
        raise ValueError(f"bad is 'refuse' or 'skip', and not {bad!r}")
    refuse_no_parts(parts)
    asked = _Asked(columns, drop, kinds, forms, spare, _options(nulls, decimal, thousands), dates, round)
    layout = Layout(delimiter, quotechar, skiprows, encoding, header, names).checked()
    with Processes(parts if parts > 1 else 0) as processes:
        reader = _Reader(asked, layout, bad == "skip", processes)
        reader.read_all(paths, progress)
    chosen = reader.chosen()
    index: Any = Index(chosen.forms, limit=limit) if parts == 1 else Parts(parts, chosen.forms, limit=limit)
    index.skipped = reader.skipped
    return index._filled(chosen, None)


def _options(nulls: Collection[str], decimal: str, thousands: Optional[str]) -> Options:
    """Returns what is said of all fields."""
    given = nulls if isinstance(nulls, str) or not isinstance(nulls, Iterable) else tuple(nulls)
    if not isinstance(given, tuple) or any(not isinstance(one, str) for one in given):
        raise TypeError(f"nulls is a list of texts, and not {nulls!r}")
    if decimal not in (".", ","):
        raise ValueError(f"decimal is '.' or ',', and not {decimal!r}")
    if thousands is not None and (thousands not in THOUSANDS or thousands == decimal):
        signs = ", ".join(repr(sign) for sign in THOUSANDS if sign != decimal)
        raise ValueError(f"thousands is one of {signs} beside decimal={decimal!r}, and not {thousands!r}")
    return Options(None, given, decimal, thousands=thousands)


class _Asked(NamedTuple):
    """What the caller says of the columns."""

    columns: Optional[Iterable[str]]
    drop: Collection[str]
    kinds: Optional[Mapping[str, Any]]
    forms: Optional[Mapping[str, Form]]
    spare: int
    options: Options
    dates: Union[str, Mapping[str, str], None]
    round: Union[int, Mapping[str, int], None]

    def titles(self) -> List[Any]:
        """Returns the titles of columns that the caller names in lists and dicts."""
        given = ([self.columns] if isinstance(self.columns, str) else self.columns, self.drop, self.kinds, self.forms)
        return [title for each in given if isinstance(each, (list, tuple, Mapping)) for title in each]

    def options_of(self, wishes: Wishes) -> Dict[str, Options]:
        """Returns what is said of the fields of each column."""
        dates = by_column("dates", "a form of strptime, as '%d.%m.%Y'", self.dates, wishes.names, str)
        said = {name: (wishes.kinds.get(name), dates.get(name), wishes.round.get(name)) for name in wishes.names}
        return {
            name: self.options._replace(kind=kind, dates=form, round=places)
            for name, (kind, form, places) in said.items()
        }


def _listed(paths: Any) -> List[Path]:
    """Returns the paths or open files that are given, or raises TypeError."""
    files = [paths] if _is_file(paths) or not isinstance(paths, Iterable) else list(paths)
    for path in files:
        if not _is_file(path):
            raise TypeError(f"a file is a path or an open file, and not {path!r}")
    return files


def _is_file(path: Any) -> bool:
    return isinstance(path, str) or hasattr(path, "__fspath__") or hasattr(path, "read")


class _Rows(NamedTuple):
    """Where the rows of a run stand: in which file, from which row and line on, and how many lines each one is behind
    the one before where they are not one a line."""

    name: str
    row: int
    line: int
    steps: Optional[Packed]

    @classmethod
    def of(cls, name: str, row: int, line: int, lines: Optional[np.ndarray]) -> "_Rows":
        """Returns the rows of these lines, counted from the first line of the run."""
        return cls(name, row, line, None if lines is None else packed(np.diff(lines, prepend=0), all_of(len(lines))))

    def lines(self, rows: int) -> np.ndarray:
        """Returns the lines of so many rows, counted from the first line of the run."""
        return np.arange(rows) if self.steps is None else np.cumsum(self.steps.numbers)

    def place(self, row: int) -> str:
        """Returns where a row stands."""
        return f" (line {self.line + int(self.lines(row + 1)[row])} of {self.name})"

    def bad(self, column: str, row: int, text: str, reason: str) -> BadRow:
        """Returns the refusal of a field."""
        return BadRow(column, self.row + row, text, reason, self.place(row))


class _Column:
    """A column that is wanted: how its fields are read, and its blocks."""

    def __init__(self, name: str, fields: ColumnReader):
        self.name, self.fields = name, fields
        self.blocks: List[PackedBlock] = []
        self.refusal: Optional[Error] = None
        self.form: Any = None
        # From where to where its decimals go, and whether these are still read for that alone.
        self.reach: Optional[Reach] = None
        self.is_measured = False

    @property
    def reader(self) -> Optional[Reader]:
        """What reads its fields, or None before it is known."""
        return self.fields.reader

    @property
    def options(self) -> Options:
        """What is said of its fields."""
        return self.fields.options

    @property
    def is_read(self) -> bool:
        """Whether its fields are still read."""
        return self.refusal is None or self.is_measured

    def refuse(self, why: BadRow) -> None:
        """Refuses it. Where digits are too many, it is still read, as whole numbers, to tell how many would do."""
        self.refusal, self.is_measured = why, why.reason.endswith(ROUNDS)
        if self.is_measured:
            self.fields.reader = NumberReader(self.options._replace(round=0))

    def measure(self, block: PackedBlock, texts: Iterable[str]) -> None:
        """Takes in how far the numbers of a block go, and those of fields that do not fit."""
        reaches = [reach_of(block.kind, block.ends, self.is_measured)]
        for text in texts:
            with suppress(ValueError):
                reaches.append(reach_at(decimal_in(text, self.options)))
        for reach in filter(None, reaches):
            self.reach = reach.joined(self.reach)

    def told(self) -> Error:
        """Returns why it is refused, and with how many places it is not where its digits are too many."""
        why = self.refusal
        assert why is not None
        if not isinstance(why, BadRow) or not why.reason.endswith(ROUNDS):
            return why
        for block in self.blocks if self.reach is None else ():
            self.measure(block, ())
        places = self.reach.most_places() if self.reach else None
        more = "; kinds= with Texts stores it" if places is None else ROUNDS.replace("=", f"={places}")
        return why.because(why.reason.removesuffix(ROUNDS) + more)

    def meaning(self) -> Tuple[Optional[Meaning], Bad, bool]:
        """Returns what the places of texts represent, which of them are nulls, and whether the column is
        refused for those: where its texts are no texts."""
        if not isinstance(self.reader, TextReader) or not self.reader.distinct.texts:
            return None, {}, False
        is_chosen = self.reader.is_exact and self.options.kind is None
        if is_chosen and (bad := misread(self.reader.distinct.texts, self._counts, self.options)):
            return None, bad, True
        meaning = self.reader.meaning()
        return meaning, meaning.bad, False

    def _counts(self) -> np.ndarray:
        """Returns how many rows have each of the texts."""
        assert isinstance(self.reader, TextReader)
        counts = np.zeros(len(self.reader.distinct.texts), np.int64)
        for block in (block.plain() for block in self.blocks):
            counts += np.bincount(block.numbers[block.valid], minlength=len(counts))
        return counts

    def apply(self, meaning: Meaning) -> None:
        """Puts what the places of texts represent in their place."""
        for at, block in enumerate(self.blocks):
            self.blocks[at] = block.meaning(meaning.kind, meaning.numbers)


@contextmanager
def _as_text(source: Source) -> Iterator[None]:
    """Refuses a file that is no text."""
    try:
        yield
    except UnicodeError as why:
        raise source.no_text(why) from None


def _is_title(why: Error) -> bool:
    """Returns whether a refusal is of a field in the first row that may be a title."""
    is_first = isinstance(why, BadRow) and why.row == 0 and isinstance(why.value, str)
    return is_first and why.value.lower() not in NOTHING and not is_like_number(why.value)


class _Reader:
    """What has been read of the files: their header, and the blocks of each wanted column."""

    def __init__(self, asked: _Asked, layout: Layout, skips: bool, processes: Processes):
        self._asked, self._layout, self._skips, self._processes = asked, layout, skips, processes
        self._header: List[str] = []
        self._titles: List[str] = []
        self._columns: List[_Column] = []
        # (runs that have been begun, and where a answers of a process are)
        self._waiting: Deque[Tuple[Run, Optional[Answers]]] = deque()
        self._rows: List[_Rows] = []
        self._room = Room()
        # (without these the system takes the memory of a run back behind it, and the next run asks for it again)
        self._last: Deque[List[Packed]] = deque(maxlen=LAST)
        self._count = self._bytes = self._line = 0
        self.skipped = Skipped()

    # ---- Files ----

    def read_all(self, paths: Union[Path, Iterable[Path]], progress: Progress) -> None:
        """Reads one file or several, and tells how far it is."""
        files = _listed(paths)
        if not files:
            raise BadColumns("there is no file")
        size = sum(map(size_of, files))
        self._processes.start_for(size)
        with told(progress, size, "B") as tell:
            for path in files:
                self.read(path, tell)

    def read(self, path: Path, tell: Callable[[int], None]) -> None:
        """Reads a file, and keeps the numbers of its wanted columns."""
        name = name_of(path)
        with opened(path, self._layout.encoding) as source:
            runs = Runs(source, *self._layout.separators)
            with _as_text(source):
                self._line = self._begin(runs, name)
            while (run := self._next(runs, source, name)).text:
                self._start(run, runs, source, name)
                tell(self._bytes + source.place())
            self._keep_all(source, name)
            self._bytes += source.place()
            tell(self._bytes)

    def _next(self, runs: Runs, source: Source, name: str) -> Run:
        """Returns the next run. Where it can't be had, what came before is told first."""
        size = min(WIDE, max(4, len(self._titles))) * RUN // 4
        try:
            return runs.next(size if self._count else FIRST)
        except Exception:
            self._keep_all(source, name)
            raise

    def _keep_all(self, source: Source, name: str, ahead: int = 0) -> None:
        """Keeps the runs that wait, but for so many."""
        while len(self._waiting) > ahead:
            run, answers = self._waiting.popleft()
            with _as_text(source):
                answer = None if answers is None else answers.get()
                read = self._runs.read(run, self._wanted()) if answer is None else answer.joined(self._runs.columns)
            self._keep(read, name, lambda place: self._runs.records(run).column(place))

    def _begin(self, runs: Runs, name: str) -> int:
        """Reads the header of a file, if it has one, and returns the line behind it."""
        layout = self._layout
        for _ in range(layout.skipped):
            runs.line()
        if not self._titles and self._asked.options.thousands != BLANK:
            self._refuse_other(between_blanks(runs.ahead(FIRST), layout, self._asked.titles()), name)
        head = read_head(runs, layout, name)
        if not head.fields and (layout.has_header or not (layout.names or self._titles)):
            raise BadColumns(f"{name}: there is no {'header' if layout.has_header else 'row'}")
        if not self._titles:
            self._choose(head, name)
        elif layout.has_header and head.fields != self._header:
            raise BadColumns(f"{name}: its header is {head.fields}, and that of the first file {self._header}")
        if not layout.has_header:
            runs.back(head.text)
        return layout.skipped + 1 + (head.lines if layout.has_header else 0)

    def _refuse_other(self, reason: Optional[str], name: str) -> None:
        """Refuses a file that shows another layout, for this reason."""
        if reason is not None:
            raise BadColumns(f"{name}: {reason}")

    def _choose(self, head: Head, name: str) -> None:
        """Takes the header of the first file, and what is said of its columns."""
        layout, asked = self._layout, self._asked
        self._refuse_other(other_layout(head, layout, asked.titles()), name)
        self._header, self._titles = head.fields, titles_in(head, layout)
        wanted = wanted_of(asked.columns, self._titles, asked.drop)
        self._wishes = Wishes(wanted, asked.kinds, asked.forms, asked.spare, asked.round)
        for column, options in asked.options_of(self._wishes).items():
            if options.kind is not None and options.kind is not Texts:
                refuse_no_kind(column, options.kind)
            self._columns.append(_Column(column, ColumnReader(self._titles.index(column), options)))
        fields = [column.fields for column in self._columns]
        self._runs = RunReader(len(self._titles), layout.marks, layout.dialect, layout.by_blanks, fields)

    # ---- Runs ----

    def _start(self, run: Run, runs: Runs, source: Source, name: str) -> None:
        """Begins to read a run. Where it may not end as a record does, it is read with what follows it."""
        if run.is_whole:
            # (the first one is read alone, since it says what columns hold)
            answers = self._processes.read(self._runs, run, self._wanted()) if self._count else None
            self._waiting.append((run, answers))
            self._keep_all(source, name, 0 if answers is None else 2 * self._processes.ready)
            return
        self._keep_all(source, name)
        with _as_text(source):
            lines = self._runs.lines(run.text, lambda: runs.next(RUN).text)
            records = self._runs.each(lines)
            runs.back(lines.rest())
        self._keep(self._runs.pieces(records, self._wanted()), name, records.column)

    def _wanted(self) -> List[bool]:
        """Returns which of the columns are still read."""
        return [column.is_read for column in self._columns]

    def _keep(self, read: Pieces, name: str, fields: Callable[[int], Fields]) -> None:
        """Keeps the numbers of a run, or refuses what does not fit. A function gives the fields of a column."""
        records, pieces = read
        rows = _Rows.of(name, self._count, self._line, records.places)
        self._last.append([piece.packed for piece in pieces if piece is not None])
        self._refuse_odd(records, name)
        left: Dict[int, BadRow] = {}
        for column, piece in zip(self._columns, pieces):
            if piece is None or not column.is_read:
                continue
            if piece.fields is not None:
                piece = column.fields.piece(piece.fields) if column.reader else column.fields.choose(piece.fields)
            moved = self._room.moved(piece.packed)
            column.blocks.append(PackedBlock(piece.kind, moved, self._count, moved.ends))
            if not self._skips:
                self._refuse_first(column, piece.bad, rows, fields)
                continue
            for row, (text, reason) in piece.bad.items():
                left.setdefault(row, rows.bad(column.name, row, text, reason))
        self._rows.append(rows)
        self._count, self._line = self._count + records.rows, self._line + records.lines
        if self._skips:
            self._leave(left, len(self._rows) - 1)
        for column in self._columns:
            self._refuse_many_texts(column)

    def _refuse_first(self, column: _Column, bad: Misread, rows: _Rows, fields: Callable[[int], Fields]) -> None:
        """Refuses a column by its first field in a run that does not fit, or that does not fit beside those before."""
        before = column.reach
        column.measure(column.blocks[-1], (text for text, _ in bad.values()))
        if column.refusal:
            return
        for row, (text, reason) in bad.items():
            column.refuse(rows.bad(column.name, row, text, reason))
            return
        if column.options.kind is None and column.reach and column.reach.places and not column.reach.fits():
            row, text, places = first_past(before, fields(column.fields.place), column.options)
            reason = f"{shown(text)} and those before it are past 63 bits at {places} decimal places{ROUNDS}"
            column.refuse(rows.bad(column.name, row, text, reason))

    def _refuse_odd(self, records: Records, name: str) -> None:
        """Refuses the records that have more or fewer fields than there are titles, or leaves them out."""
        if records.broken is not None:
            line, reason = records.broken
            raise BadColumns(f"{name}: line {self._line - 1 + line}: {reason}")
        for row, place, width in records.odd:
            before = self._line - 1 if self._count + row == 0 else None
            reason = odd_width(width, len(self._titles), self._layout, before)
            why = BadColumns(f"row {self._count + row} (line {self._line + place} of {name}) {reason}")
            if not self._skips:
                raise why
            self.skipped.add(why)

    def _leave(self, left: Mapping[int, Error], place: int) -> None:
        """Leaves rows of a run out."""
        for _, why in sorted(left.items()):
            self.skipped.add(why)
        taken = [column for column in self._columns if not column.refusal]
        if not left or not taken:
            return
        keep = np.ones(taken[0].blocks[place].rows, bool)
        keep[list(left)] = False
        rows = self._rows[place]
        self._rows[place] = _Rows.of(rows.name, rows.row, rows.line, rows.lines(len(keep))[keep])
        for column in taken:
            block = column.blocks[place].plain()
            kept = block._replace(numbers=block.numbers[keep], valid=block.valid[keep])
            column.blocks[place] = PackedBlock.of(kept)

    def _refuse_many_texts(self, column: _Column) -> None:
        """Refuses a column that has more different texts than are taken unasked, by the first one too many."""
        reader = column.reader
        if column.refusal or not isinstance(reader, TextReader) or len(reader.distinct.texts) <= (reader.most or FAR):
            return
        seen: Set[int] = set()
        for block, rows in zip((block.plain() for block in column.blocks), self._rows):
            codes, firsts = np.unique(np.where(block.valid, block.numbers, -1), return_index=True)
            for first, code in sorted(zip(firsts.tolist(), codes.tolist())):
                seen |= {code} - {-1}
                if len(seen) > (reader.most or FAR):
                    text = reader.distinct.texts[code]
                    reason = too_many_texts(text, "dates= says how to read it")
                    column.refusal = rows.bad(column.name, first, text, reason)
                    return

    # ---- The end ----

    def chosen(self) -> Chosen:
        """Returns the forms of the columns and their blocks, or raises all that does not fit."""
        self._last.clear()
        for column in self._columns:
            if not column.refusal:
                self._mean(column)
        self._refuse()
        for column in self._columns:
            if self._skips and column.name in self._wishes.forms:
                self._leave_misfits(column)
            try:
                column.form = settled(column.name, column.blocks, self._wishes)
            except BadRow as why:
                column.refusal = self._placed(why)
            except Error as why:
                column.refusal = why
        self._refuse()
        columns, self._columns = self._columns, []  # (so that blocks can go when they are appended)
        return Chosen({one.name: one.form for one in columns}, [one.blocks for one in columns])

    def _refuse(self) -> None:
        """Raises why columns are refused, if some are."""
        refusals = [column.told() for column in self._columns if column.refusal]
        if refusals:
            hint = self._hint(refusals)
            raise several([why.because(why.reason + hint) if _is_title(why) else why for why in refusals])

    def _hint(self, refusals: List[Error]) -> str:
        """Returns what to say if the first row, with titles in it, is the header."""
        if self._layout.names is not None and self._layout.header == INFER:
            return "; header=0 if that line is the header"
        if self._layout.has_header and 1 < len(self._columns) == sum(map(_is_title, refusals)):
            first = self._rows[0]
            return f"; skiprows={first.line + int(first.lines(1)[0]) - 1} if that line is the header"
        return ""

    def _placed(self, why: BadRow) -> BadRow:
        """Returns a refusal with the line of its row."""
        at = next((at for at, rows in enumerate(self._rows) if rows.row > why.row), len(self._rows)) - 1
        rows = self._rows[at]
        return BadRow(why.column, why.row, why.value, why.reason, rows.place(why.row - rows.row))

    def _mean(self, column: _Column) -> None:
        """Finds what the texts of a column represent, and leaves out or refuses those that are nulls."""
        meaning, bad, is_refused = column.meaning()
        if bad:
            places = np.array(list(bad), np.int64)
            for at, (block, rows) in enumerate(zip(map(PackedBlock.plain, column.blocks), self._rows)):
                found = np.flatnonzero(block.valid & np.isin(block.numbers, places)).tolist()
                texts = column.reader.distinct.texts  # type: ignore[union-attr]
                if found and (is_refused or not self._skips):
                    place = int(block.numbers[found[0]])
                    column.refusal = rows.bad(column.name, found[0], texts[place], bad[place])
                    return
                numbers = {row: int(block.numbers[row]) for row in found}
                why = {row: rows.bad(column.name, row, texts[place], bad[place]) for row, place in numbers.items()}
                self._leave(why, at)
        if meaning is not None:
            column.apply(meaning)

    def _leave_misfits(self, column: _Column) -> None:
        """Leaves the rows out that a form which is given does not accept."""
        for at, rows in enumerate(self._rows):
            block = column.blocks[at].plain()
            form = self._wishes.forms[column.name].of(block.kind or column.options.kind or Whole())
            bad = np.flatnonzero(misfits(form, block.numbers, block.valid)).tolist()
            why = {row: form.misfit(column.name, rows.row + row, int(block.numbers[row])) for row in bad}
            self._leave({row: rows.bad(one.column, row, one.value, one.reason) for row, one in why.items()}, at)
