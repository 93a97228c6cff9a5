"""Processes that read runs of records, since threads of Python take turns.

Each is an interpreter that starts anew. So it has no lock that a thread of the caller holds, as a forked one would, and it
does not import the caller's program, as those of multiprocessing do. It gets runs by a socket, gives numbers back by
it, and ends with it. A run that it can't read, or that it had when it ended, is read by the caller, who then tells what
is wrong with it.
"""

from __future__ import annotations

import contextlib
import csv
import os
import pickle
import socket
import subprocess
import sys
import threading
from array import array
from queue import SimpleQueue
from typing import Any, Dict, List, NamedTuple, Optional, Sequence, Tuple

import numpy as np

from .files import Run
from .packing import packed
from .pieces import ColumnReader, Piece, Pieces, RunReader
from .spelling import TextReader

# How many bytes of text are worth the start of processes.
LARGE = 1 << 25
# What a process runs. Of the package it has the modules that read, and not the library.
CODE = """import sys, types
sys.path[:] = {path!r}
sys.modules["bsi"] = bsi = types.ModuleType("bsi")
bsi.__path__ = [{home!r}]
import bsi.processes
bsi.processes.main()
"""


class How(NamedTuple):
    """How runs are read, packed for a process, how long a field may be, and how many texts each column has that the
    process then knows."""

    reader: bytes
    longest: int
    texts: List[int]

    @classmethod
    def of(cls, reader: RunReader) -> "How":
        """Packs how runs are read."""
        return cls(pickle.dumps(reader), csv.field_size_limit(), _counts(reader))


def _texts(column: ColumnReader) -> List[str]:
    """Returns the texts that were found in a column."""
    return column.reader.distinct.texts if isinstance(column.reader, TextReader) else []


def _counts(reader: RunReader) -> List[int]:
    return [len(_texts(column)) for column in reader.columns]


class Answer(NamedTuple):
    """What a process has read: the pieces of a run, and of each column the texts that are new to the process, and the
    places that all texts it knew before have here."""

    pieces: Pieces
    new: List[List[str]]
    known: List[array]

    def joined(self, columns: Sequence[ColumnReader]) -> Pieces:
        """Returns the pieces with the places that texts have here."""
        records, pieces = self.pieces
        each = zip(pieces, columns, self.new, self.known)
        return records, [piece and self._joined(piece, *one) for piece, *one in each]

    @staticmethod
    def _joined(piece: Piece, column: ColumnReader, new: List[str], known: array) -> Piece:
        if new:
            known.extend(column.reader.distinct.places(new))  # type: ignore[union-attr]
        if not isinstance(column.reader, TextReader) or piece.packed.ends is None:
            return piece
        (low, high), places = piece.packed.ends, np.frombuffer(known, np.int64)
        if (places[low : high + 1] == np.arange(low, high + 1)).all():
            return piece
        return piece._replace(packed=packed(places[piece.packed.numbers], piece.packed.valid))


Answers = SimpleQueue  # of one Answer, or None where the run is to be read here


class _Process:
    """A process, as its caller sees it, and a socket to it: one that is shut down has ended for all that hold it, also
    for a Python that a script has started."""

    def __init__(self) -> None:
        path = [place for place in sys.path if isinstance(place, str)]
        code = CODE.format(path=path, home=os.path.dirname(os.path.abspath(__file__)))
        self._how: Optional[How] = None
        self._known: List[array] = []
        self._socket, other = socket.socketpair()
        for one in (self._socket, other):
            one.setblocking(True)  # (sockets of the caller may have a time limit)
        self._stream = self._socket.makefile("rwb")
        streams: Dict[str, Any] = {"stdin": other, "stdout": other, "stderr": subprocess.DEVNULL}
        try:
            # (in a session of its own it gets no Ctrl-C)
            line = [sys.executable, "-I", "-S", "-c", code]
            self._process = subprocess.Popen(line, **streams, start_new_session=True)
        except BaseException:
            self.close()
            raise
        finally:
            other.close()

    def await_start(self) -> None:
        """Waits until it can read. Raises an error where it does not start."""
        pickle.load(self._stream)

    def read(self, how: How, run: Run, wanted: Sequence[bool]) -> Optional[Answer]:
        """Reads a run, or raises an error where the process has ended or its answer is none."""
        is_new, self._how = how is not self._how, how
        if is_new:
            self._known = [array("q", range(count)) for count in how.texts]
        pickle.dump((how if is_new else None, run, wanted), self._stream, 5)
        self._stream.flush()
        found = pickle.load(self._stream)
        return None if found is None else Answer(*found, self._known)

    def end(self) -> None:
        """Ends it, whatever it does, and with the socket what it has started and what waits for it."""
        with contextlib.suppress(OSError):
            self._socket.shutdown(socket.SHUT_RDWR)
        self._process.kill()
        self._process.wait()

    def close(self) -> None:
        """Closes its socket, which no thread uses any more."""
        for one in (self._stream, self._socket):
            with contextlib.suppress(OSError):
                one.close()


def _most(count: int) -> int:
    """Returns how many of so many processes may be started: one a processor at most, and none if there is but one or
    where this program is not Python itself, which can be started anew."""
    is_python = "python" in os.path.basename(sys.executable or "").lower() and not getattr(sys, "frozen", False)
    processors = len(os.sched_getaffinity(0)) if count and is_python else 0
    return min(count, processors) if processors > 1 else 0


class Processes:
    """Some processes, started when there is so much to read that it is worth it, and a thread for each that waits for
    it."""

    def __init__(self, count: int):
        self._count = count
        self._lock, self._tasks = threading.Lock(), SimpleQueue()  # type: Any, SimpleQueue[Any]
        self._processes: List[_Process] = []
        self._threads: List[threading.Thread] = []
        self._size = 0
        self._how: Optional[How] = None
        self._readers: List[Any] = []
        # How many of them can read.
        self.ready = 0

    def start_for(self, size: int) -> None:
        """Starts them for a text of so many bytes, if it is large."""
        if size < LARGE or self._processes:
            return
        most, self._count = _most(self._count), 0
        with contextlib.suppress(OSError, RuntimeError):
            while len(self._processes) < most:
                self._start()

    def _start(self) -> None:
        """Starts a process and its thread, or neither, and raises OSError or RuntimeError then."""
        process = _Process()
        thread = threading.Thread(target=self._serve, args=(process,), name="bsi", daemon=True)
        try:
            thread.start()
        except BaseException:
            process.end()
            process.close()
            raise
        self._processes.append(process)
        self._threads.append(thread)

    def read(self, reader: RunReader, run: Run, wanted: Sequence[bool]) -> Optional[Answers]:
        """Lets a process read a run, and returns where its answer will be, or None if there is none that can."""
        self._size += len(run.text)
        self.start_for(self._size)
        with self._lock:
            if not self.ready:
                return None
            how, answers = self._packed(reader), Answers()  # type: Optional[How], Answers
            if how is None:
                return None
            self._tasks.put((how, run, wanted, answers))
            return answers

    def _packed(self, reader: RunReader) -> Optional[How]:
        """Returns how runs are read, packed anew where a column has come to be read, or None if that can't be."""
        readers = [column.reader for column in reader.columns]
        if readers != self._readers:
            self._how, self._readers = None, readers
            with contextlib.suppress(Exception):  # (what the caller's own kinds raise)
                self._how = How.of(reader)
        return self._how

    def _serve(self, process: _Process) -> None:
        """Hands tasks over to a process as long as it lives."""
        # (whatever goes wrong with an answer, the caller reads the run)
        with contextlib.suppress(Exception):
            process.await_start()
            with self._lock:
                self.ready += 1
            try:
                while (task := self._tasks.get()) is not None:
                    self._answer(process, *task)
            finally:
                self._leave()

    def _answer(self, process: _Process, how: How, run: Run, wanted: Sequence[bool], answer: Any) -> None:
        found = None
        try:
            found = process.read(how, run, wanted)
        finally:
            answer.put(found)

    def _leave(self) -> None:
        """Takes a process out. With the last one, what waits is left to the caller."""
        with self._lock:
            self.ready -= 1
            while not self.ready and not self._tasks.empty():
                task = self._tasks.get()
                if task is not None:
                    task[-1].put(None)

    def __enter__(self) -> "Processes":
        return self

    def __exit__(self, *why: Any) -> None:
        for process in self._processes:
            process.end()
            self._tasks.put(None)
        for thread in self._threads:
            thread.join()
        for process in self._processes:
            process.close()


def main() -> None:
    """Reads the runs that come by standard input, as a process does, up to its end."""
    # (what modules of the caller print goes elsewhere)
    tasks, answers = sys.stdin.buffer, os.fdopen(os.dup(1), "wb")
    os.dup2(2, 1)
    reader: Optional[RunReader] = None
    told: List[int] = []
    with contextlib.suppress(OSError, EOFError):
        pickle.dump(None, answers)
        answers.flush()
        while True:
            how, run, wanted = pickle.load(tasks)
            if how is not None:
                reader, told = pickle.loads(how.reader), how.texts
                csv.field_size_limit(how.longest)
            pickle.dump(_read(reader, run, wanted, told), answers, 5)
            answers.flush()


def _read(reader: Any, run: Run, wanted: Sequence[bool], told: List[int]) -> Optional[Tuple[Pieces, List[List[str]]]]:
    """Returns the pieces of a run with the texts that were not told before, or None if the caller has to read it."""
    try:
        records, pieces = reader.read(run, wanted)
    except Exception:  # (the caller meets it too)
        return None
    if records.broken is not None or any(piece is not None and piece.fields is not None for piece in pieces):
        return None
    new = [_texts(column)[count:] for column, count in zip(reader.columns, told)]
    told[:] = _counts(reader)
    return (records._replace(column=None), pieces), new
