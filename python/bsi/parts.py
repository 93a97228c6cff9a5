"""Rows split over several indexes of one process, each asked on a thread of its own."""

from __future__ import annotations

import os
import threading
import uuid
from operator import itemgetter
from queue import SimpleQueue
from typing import Any, Callable, ContextManager, Iterable, List, Mapping, Optional, Sequence, Tuple, Union

from .choosing import chosen_of
from .errors import BadNotes, BadSchema, Error, NoMemory
from .forms import Form
from .gathered import Gathered
from .kept import Kept, Path, kept_bytes, opened_bytes, opened_file, replace
from .kinds import Kind
from .native import INDEX_FULL, OK, Entries, Handle, check
from .progress import Progress
from .table import MAX_ROWS, Table, opened, schema_of

BOUNDS = 3
# How many rows of each part are worth a thread.
FEW_ROWS = 1 << 16


def _work(tasks: "SimpleQueue[Any]") -> None:
    """Makes calls as they come, up to a None, and puts what each answered or raised where it is waited for."""
    while (task := tasks.get()) is not None:
        place, call, arguments, answers = task
        try:
            answers.put((place, call(*arguments), None))
        except BaseException as why:
            answers.put((place, None, why))
        del task, call, arguments, answers


class _Threads(Gathered):
    """The handles of the parts, and a thread for each, which gets its calls by a queue: a signal's handler may put some
    there too."""

    def __init__(self, handles: List[Handle], limit: int, runs: Iterable[Tuple[int, int]] = ()):
        super().__init__(BOUNDS)
        self.handles, self.limit, self._process = handles, limit, os.getpid()
        self.runs += runs
        self._rows = sum(rows for _, rows in self.runs)
        self._tasks: List["SimpleQueue[Any]"] = [SimpleQueue() for _ in handles]
        for tasks in self._tasks:
            threading.Thread(target=_work, args=(tasks,), name="bsi", daemon=True).start()

    def __del__(self) -> None:
        for tasks in self._tasks:
            tasks.put(None)

    def _each(self, call: str, *arguments: Any) -> List[Any]:
        return self._each_of(call, [arguments] * len(self.handles))

    def _each_of(self, call: str, arguments: Sequence[Sequence[Any]]) -> List[Any]:
        calls = [(getattr(handle, call), given) for handle, given in zip(self.handles, arguments)]
        return [call(*given) for call, given in calls] if self._are_few() else self._at_once(calls)

    def _are_few(self) -> bool:
        """Returns whether there are so few rows that a question takes less than its hand-over."""
        return self._rows < FEW_ROWS * len(self.handles)

    def _parts(self) -> int:
        return len(self.handles)

    def _at_once(self, calls: Sequence[Tuple[Callable[..., Any], Sequence[Any]]]) -> List[Any]:
        """Makes a call on the thread of each part, or of the first so many."""
        answers: "SimpleQueue[Any]" = SimpleQueue()
        for place, (tasks, (call, arguments)) in enumerate(zip(self._tasks, calls)):
            tasks.put((place, call, arguments, answers))
        found = sorted((answers.get() for _ in calls), key=itemgetter(0))
        for _, _, why in found:
            if why is not None:
                raise why
        return [answer for _, answer, _ in found]

    def _step(self, rows: int) -> int:
        """Returns how many of so many rows each part takes but the last: a multiple of 8, so that no bitmap is moved."""
        return -(-rows // (8 * len(self.handles))) * 8

    def reserve(self, rows: int, block: int) -> None:
        """Makes room for rows that are appended in blocks."""
        with self.alone():
            self._each("reserve", rows // block * self._step(block) + self._step(rows % block))

    def append(self, columns: Sequence[Entries]) -> Tuple[int, int]:
        """Gives each part a run of the rows, which all fit."""
        rows = len(columns[0][0])
        step = self._step(rows)
        with self.alone():
            if self.rows() + rows > self.limit:
                return INDEX_FULL, 0
            starts = range(0, rows, step or 1)
            runs = [[_run(column, start, start + step) for column in columns] for start in starts]
            try:
                for status, _ in self._at_once([(one.append, (run,)) for one, run in zip(self.handles, runs)]):
                    check(status)
            except BaseException as why:
                # (some parts may have taken their rows, and others not)
                self.close()
                if isinstance(why, NoMemory):
                    raise NoMemory("memory was refused to one of the parts; they are closed") from None
                raise
            self.runs += [(part, len(run[0][0])) for part, run in enumerate(runs)]
            self._rows += rows
            return OK, rows

    def close(self) -> None:
        if os.getpid() != self._process:
            return  # (the memory goes with the child)
        with self.alone():
            for handle in self.handles:
                handle.close()

    def each_kept(self, forms: Mapping[str, Form]) -> List[Any]:
        """Returns the bytes that keep each part. The notes of the first say which rows lie where, and those of all that
        they belong together."""
        with self.alone():
            one = {"saved": uuid.uuid4().hex, "parts": len(self.handles)}
            more = [{**one, "part": place} for place in range(len(self.handles))]
            more[0].update(runs=_joined(self.runs), limit=self.limit)
            return [kept_bytes(handle, forms, **notes) for handle, notes in zip(self.handles, more)]

    def alone(self) -> ContextManager[Any]:
        # (a forked child has none of the threads, and a lock may never be free there)
        if os.getpid() != self._process:
            raise Error(f"these parts live in the process {self._process}, and not in a forked child: make them there")
        return self.lock


def _run(column: Entries, start: int, end: int) -> Entries:
    numbers, valid = column
    return numbers[start:end], None if valid is None else valid[start // 8 : -(-min(end, len(numbers)) // 8)]


def _joined(runs: Sequence[Tuple[int, int]]) -> List[List[int]]:
    """Returns the runs with those of one part that follow each other as one."""
    found: List[List[int]] = []
    for part, rows in runs:
        if found and found[-1][0] == part:
            found[-1][1] += rows
        elif rows:
            found.append([part, rows])
    return found


def refuse_no_parts(n: Any) -> None:
    """Refuses a number of parts that is none."""
    if not isinstance(n, int) or isinstance(n, bool) or not 1 <= n <= 256:
        raise ValueError(f"rows are split over 1 to 256 parts, and not {n!r}")


class Parts(Table):
    """Rows split over n indexes, each asked on a thread of its own. Counts, sums, least and greatest values, masks and
    exact lower medians are combined, so every answer is that of one index over all rows in the order of appending."""

    def __init__(self, n: int, columns: Mapping[str, Form], *, limit: Optional[int] = None):
        refuse_no_parts(n)
        schema_of(columns, limit)
        most = MAX_ROWS if limit is None else limit
        super().__init__(columns, most, _Threads([opened(columns) for _ in range(n)], most))

    @classmethod
    def from_frame(
        cls,
        n: int,
        frame: Any,
        columns: Optional[Iterable[str]] = None,
        *,
        kinds: Optional[Mapping[str, Kind]] = None,
        forms: Optional[Mapping[str, Form]] = None,
        drop: Iterable[str] = (),
        round: Union[int, Mapping[str, int], None] = None,
        spare: int = 0,
        limit: Optional[int] = None,
        progress: Progress = None,
    ) -> "Parts":
        """Makes parts of a frame, as Index.from_frame makes an index."""
        found = chosen_of([frame], columns, kinds, forms, drop=drop, round=round, spare=spare)
        return cls(n, found.forms, limit=limit)._filled(found, progress)

    def _block(self) -> int:
        # (a part takes more at once, since each hand-over takes its time)
        return 4 * super()._block() * len(self._store.handles)

    def _append(self, encoded: Any) -> int:
        self._refuse_misfits(encoded)
        return super()._append(encoded)

    def save(self, folder: Path) -> List[str]:
        """Writes a file for each part into a folder, which is made if it is not there, and returns their paths.
        `open_parts` opens these."""
        os.makedirs(folder, exist_ok=True)
        kept = self._store.each_kept(self._forms)
        width = len(str(len(kept) - 1))
        paths = [os.path.join(os.fspath(folder), f"part-{place:0{width}}.bsi") for place in range(len(kept))]
        for path, data in zip(paths, kept):
            replace(path, data)
        return paths

    def __reduce__(self):
        return _copied, (type(self), [data.tobytes() for data in self._store.each_kept(self._forms)])


def _of(cls: type, each: List[Kept], paths: Sequence[str]) -> Any:
    """Returns parts of what was opened, whose rows keep their order where one call saved them all."""
    first = each[0]
    for path, kept in zip(paths, each):
        if kept.forms != first.forms or kept.within != first.within:
            raise BadSchema(f"{path} has other columns than {paths[0]}")
    try:
        runs, limit = _placed(each)
    except (ValueError, KeyError, TypeError, AttributeError) as why:
        raise BadNotes(f"it is not one of these parts: {why}", paths[0], first.handle.rows()) from None
    parts, store = object.__new__(cls), _Threads([kept.handle for kept in each], limit, runs)
    Table.__init__(parts, first.forms, limit, store, first.within)
    return parts


def _placed(each: Sequence[Kept]) -> Tuple[List[Tuple[int, int]], int]:
    """Returns which rows lie where, and the limit. Raises an error where some of the files were saved together, and
    these are not they."""
    rows = [kept.handle.rows() for kept in each]
    notes = each[0].more
    if not any("saved" in kept.more for kept in each):
        return list(enumerate(rows)), MAX_ROWS
    if [(kept.more.get("saved"), kept.more.get("part")) for kept in each] != [
        (notes.get("saved"), place) for place in range(notes.get("parts", 0))
    ]:
        raise ValueError("all files that were saved together are opened together, in their order, and no others")
    runs = [(int(part), int(count)) for part, count in notes["runs"]]
    if [sum(count for part, count in runs if part == place) for place in range(len(each))] != rows:
        raise ValueError("its notes describe other rows")
    return runs, min(MAX_ROWS, int(notes["limit"]))


def _copied(cls: type, each: List[bytes]) -> Any:
    return _of(cls, [opened_bytes(data) for data in each], [f"part {place}" for place in range(len(each))])


def open_parts(paths: Iterable[Path]) -> Parts:
    """Opens the indexes in files as the parts of one, each asked on a thread of its own. Files that
    `Parts.save` wrote are all given, in their order. Any others of the same columns are taken too: their rows come file
    by file."""
    names = [os.fspath(path) for path in paths]
    if not 1 <= len(names) <= 256:
        raise ValueError(f"rows are split over 1 to 256 parts, and not {len(names)}")
    return _of(Parts, [opened_file(name) for name in names], names)
