"""Files that are read by processes: what comes of them is that of one process, whatever becomes of these."""

import csv
import importlib
import io
import os
import signal
import socket
import subprocess
import sys
import threading
import time

import numpy as np
import pytest

import bsi
from bsi import processes


@pytest.fixture
def by_processes(monkeypatch):
    """Lets files be read by processes from the first run on, and by so many bytes at once. Returns how many runs were."""
    start, read, answered = processes.Processes.start_for, processes._Process.read, []

    def started(self, size):
        before = len(self._threads)
        start(self, size)
        if len(self._threads) > before:
            awaited(lambda: self.ready == len(self._threads))

    def noted(self, *given):
        answer = read(self, *given)
        answered.append(answer is not None)
        return answer

    monkeypatch.setattr(processes, "LARGE", 0)
    monkeypatch.setattr(processes.Processes, "start_for", started)
    monkeypatch.setattr(processes._Process, "read", noted)
    for name in ("FIRST", "RUN"):
        monkeypatch.setattr(f"bsi.reading.{name}", 400)
    return answered


def children(process=None):
    """Returns the processes that a process has started and that are there."""
    process = process or os.getpid()
    with open(f"/proc/{process}/task/{process}/children", encoding="ascii") as file:
        return file.read().split()


@pytest.fixture
def left_none():
    """Returns what tells whether all processes have ended that a test has started."""
    before = set(children())
    return lambda: set(children()) <= before


def awaited(call):
    """Returns what a call gives as soon as that is something, or in the end nothing."""
    end = time.monotonic() + 60
    while not (found := call()) and time.monotonic() < end:
        time.sleep(0.02)
    return found


def come_of(text, parts, **more):
    """Returns the forms and the values of a file, or its refusal."""
    data = text if isinstance(text, bytes) else text.encode()
    try:
        index = bsi.read_csv(io.BytesIO(data), parts=parts, **more)
    except bsi.Error as why:
        return type(why), str(why)
    return index.forms, index.take(range(len(index))), list(map(str, index.skipped))


def field(rng, style, row):
    """Returns a field of a column; some columns are empty at first, and some have new texts again and again."""
    if rng.random() < 0.05 or style.startswith("late") and row < 150:
        return ""
    return {
        "whole": lambda: str(rng.integers(-(10 ** int(rng.integers(1, 17))), 10**6)),
        "late whole": lambda: str(row),
        "decimal": lambda: str(rng.integers(0, 9999) / 100),
        "text": lambda: f"x{rng.integers(0, 1 + row // 10)}",
        "late text": lambda: f"{'y' * int(rng.integers(0, 70))}{rng.integers(0, 3)}",
        "quoted": lambda: f'"a\n""{rng.integers(0, 9)}"',
        "day": lambda: str(np.datetime64("2026-01-01") + int(rng.integers(0, 999))),
        "german day": lambda: f"{rng.integers(1, 29)}.{rng.integers(1, 13)}.2026",
        "flag": lambda: str(rng.random() < 0.5),
        "mostly whole": lambda: "x" if rng.random() < 0.005 else "7",
    }[style]()


STYLES = ["whole", "late whole", "decimal", "text", "late text", "quoted", "day", "german day", "flag", "mostly whole"]


@pytest.mark.parametrize("seed", range(8))
def test_random_files_beside_one_process(by_processes, seed, left_none):
    rng = np.random.default_rng(seed)
    styles = [str(style) for style in rng.choice(STYLES, rng.integers(2, 6))]
    lines = [",".join(field(rng, style, row) for style in styles) for row in range(400)]
    if seed % 4 == 3:
        lines[int(rng.integers(0, 400))] += ",one more"
    text = ",".join(f"c{place}" for place in range(len(styles))) + "\n" + "\n".join(lines) + "\n"
    more = {"bad": ("refuse", "skip")[seed % 2], "spare": int(rng.choice([0, 2]))}
    assert come_of(text, 3, **more) == come_of(text, 1, **more)
    assert any(by_processes) and left_none()


ROWS = "n,t\n" + "".join(f"{row},t{row % 7}\n" for row in range(600))


REFUSED = [
    (ROWS + "x,t1\n" + "5,t1\n" * 300 + "y,t1\n", {}),
    (ROWS + "x,t1\n" + "5,t1\n" * 300 + "y,t1\n", {"bad": "skip"}),
    (ROWS + "5,t1,6\n" + "x,t1\n" * 300, {}),
    (ROWS + '5,"t1\n' + "5,t1\n" * 300, {}),
    (ROWS + '5,"t\n1"\n' + "5,t1\n" * 300 + "y,t1\n", {}),
    (ROWS.encode() + b"5,\xff\n" + b"6\n" * 300, {}),
    (ROWS.encode() + b"6\n" + b"5,t1\n" * 300 + b"5,\xff\n", {}),
    (ROWS + "".join(f"1,u{row}\n" for row in range(2000)), {}),
    (ROWS + "9999,t1\n" + "5,t1\n" * 300, {"forms": {"n": bsi.slices(10)}}),
    (ROWS.replace("\n", "\r\n") + "x,t1\r\n" + "5,t1\r\n" * 300, {}),
    (ROWS.encode("utf-16"), {}),
]


@pytest.mark.parametrize("place", range(len(REFUSED)))
def test_a_refusal_is_that_of_one_process(by_processes, place, left_none):
    text, more = REFUSED[place]
    assert come_of(text, 3, **more) == come_of(text, 1, **more)
    assert any(by_processes) and left_none()


def test_processes_that_are_killed(by_processes, monkeypatch, left_none):
    noted, killed = processes._Process.read, []

    def read(self, *given):
        if len(by_processes) in (3, 8):
            killed.append(self.end())
        return noted(self, *given)

    monkeypatch.setattr(processes._Process, "read", read)
    assert come_of(ROWS, 2) == come_of(ROWS, 1) and killed and left_none()


@pytest.mark.parametrize("program", ["/nowhere/python3", "/bin/false", None])
def test_processes_that_do_not_start(monkeypatch, tmp_path, program, left_none):
    (tmp_path / "python3").symlink_to("/bin/false")
    monkeypatch.setattr(processes, "LARGE", 0)
    monkeypatch.setattr(sys, "executable", str(tmp_path / "python3") if program == "/bin/false" else program)
    assert come_of(ROWS, 3) == come_of(ROWS, 1) and left_none()


@pytest.mark.parametrize("most", [0, 1])
def test_threads_that_do_not_start(by_processes, monkeypatch, most, left_none):
    start, asked = threading.Thread.start, []

    def started(self):
        if self._target.__name__ == "_serve":
            asked.append(self)
            if len(asked) > most:
                raise RuntimeError("can't start new thread")
        start(self)

    monkeypatch.setattr(threading.Thread, "start", started)
    assert come_of(ROWS, 3) == come_of(ROWS, 1)
    assert len(asked) == most + 1 and any(by_processes) == bool(most) and left_none()


def wrapper(folder, line):
    """Makes a program that starts another by a line of the shell, and waits for it. Returns its path, and what tells
    which processes these were."""
    program, noted = folder / "python3", folder / "noted"
    program.write_text(f"#!/bin/sh\nsh -c 'echo $$ >> {noted}; exec {line}' python3 \"$@\"\n:\n")
    program.chmod(0o755)
    return str(program), lambda: noted.read_text().split() if noted.exists() else []


def have_ended(found):
    """Returns whether processes of these numbers have ended."""
    return not any(os.path.exists(f"/proc/{one}") for one in found)


def test_a_program_that_starts_python(by_processes, monkeypatch, tmp_path, left_none):
    program, noted = wrapper(tmp_path, f'{sys.executable} "$@"')
    monkeypatch.setattr(sys, "executable", program)
    assert come_of(ROWS, 3) == come_of(ROWS, 1)
    assert any(by_processes) and left_none() and noted() and awaited(lambda: have_ended(noted()))


def test_a_program_that_starts_another(monkeypatch, tmp_path, left_none):
    # (it says nothing, keeps its pipe, and goes on up to the end of what it reads)
    program, noted = wrapper(tmp_path, "cat 3>&1 >&2")
    monkeypatch.setattr(processes, "LARGE", 0)
    monkeypatch.setattr(sys, "executable", program)
    assert come_of(ROWS, 3, progress=lambda *done: awaited(noted)) == come_of(ROWS, 1)
    assert left_none() and noted() and awaited(lambda: have_ended(noted()))


@pytest.fixture
def time_limit():
    """Gives sockets a time limit, which is put back in the end."""
    before = socket.getdefaulttimeout()
    socket.setdefaulttimeout(0.01)
    yield
    socket.setdefaulttimeout(before)


def test_a_time_limit_of_sockets(by_processes, time_limit, left_none):
    assert come_of(ROWS, 3) == come_of(ROWS, 1)
    assert any(by_processes) and left_none()


@pytest.mark.parametrize("error", ["AttributeError", "ImportError", "MemoryError"])
def test_answers_that_the_caller_can_not_unpack(by_processes, own, error, left_none):
    kind = own(
        "def made(caller):",
        f"    if os.getpid() == caller: raise {error}",
        "    return Own()",
        "class Own(Whole):",
        f"    def __reduce__(self): return made, ({os.getpid()},)",
    )
    assert come_of(ROWS, 3, kinds={"n": kind}) == come_of(ROWS, 1, kinds={"n": kind})
    assert left_none()


def test_a_kind_that_no_other_program_knows(by_processes, left_none):
    class Own(bsi.Whole):
        pass

    assert come_of(ROWS, 3, kinds={"n": Own()})[1] == come_of(ROWS, 1)[1]
    assert not any(by_processes) and left_none()


@pytest.fixture
def own(tmp_path, monkeypatch):
    """Makes a module of a caller's own kind `Own` of these lines, which processes import too."""

    def made(*lines):
        (tmp_path / "own.py").write_text("\n".join(["import os", "from bsi.kinds import Whole", *lines, ""]))
        monkeypatch.syspath_prepend(tmp_path)
        monkeypatch.delitem(sys.modules, "own", raising=False)
        return importlib.import_module("own").Own()

    yield made
    sys.modules.pop("own", None)


@pytest.mark.parametrize("call", ["print('x' * 9, flush=True)", "os.write(1, b'x' * 9)", "os.system('echo x')"])
def test_a_kind_that_prints_when_it_is_imported(by_processes, own, call, left_none):
    kind = own(call, "class Own(Whole): pass")
    assert come_of(ROWS, 3, kinds={"n": kind}) == come_of(ROWS, 1, kinds={"n": kind})
    assert any(by_processes) and left_none()


@pytest.fixture
def field_limit():
    """Returns what limits the size of a field, which is put back in the end."""
    before = csv.field_size_limit()
    yield csv.field_size_limit
    csv.field_size_limit(before)


LONG = f"{ROWS}5,{'y' * 200_000}\n" + "5,t1\n" * 300


@pytest.mark.parametrize("limit", [1 << 30, 1000])
def test_a_field_is_as_long_as_in_one_process(by_processes, field_limit, limit, left_none):
    field_limit(limit)
    wanted = come_of(LONG, 1)
    assert (wanted[0] is bsi.BadColumns) == (limit == 1000)
    assert come_of(LONG, 3) == wanted
    assert by_processes.count(False) == (limit == 1000) and left_none()


def test_a_field_may_be_longer_from_some_row_on(by_processes, field_limit, left_none):
    field_limit(1000)
    told = []

    def progress(done, size):
        told.append(done)
        if len(told) == 4:
            field_limit(1 << 30)

    index = bsi.read_csv(io.BytesIO(LONG.encode()), parts=3, progress=progress)
    assert len(index) == 901 and by_processes.count(False) == 1 and left_none()


def test_small_files_start_none(monkeypatch):
    monkeypatch.setattr(processes, "_Process", None)
    monkeypatch.delattr(os, "sched_getaffinity")
    assert come_of(ROWS, 3) == come_of(ROWS, 1)


def test_one_part_starts_none(monkeypatch):
    monkeypatch.setattr(processes, "LARGE", 0)
    monkeypatch.delattr(os, "sched_getaffinity")
    assert len(bsi.read_csv(io.StringIO(ROWS))) == 600


# A program without a test of its name, which threads and a lock that is held do not hinder.
PROGRAM = """
import io, signal, sys, threading, time
signal.signal(signal.SIGINT, signal.default_int_handler)  # (a program that begins in the background ignores it)
import bsi
from bsi import processes
processes.LARGE = 0
print("begins", flush=True)
lock = threading.Lock()
lock.acquire()
threading.Thread(target=lock.acquire, daemon=True).start()
class Slow(io.BytesIO):
    def read(self, size):
        time.sleep(float(sys.argv[1]))
        return super().read(size)
rows = b"n,t\\n" + b"12345678,text\\n" * 200_000
print(bsi.read_csv(Slow(rows), parts=3).count(), flush=True)
"""


def test_a_program_is_not_begun_again(tmp_path):
    (tmp_path / "program.py").write_text(PROGRAM)
    ran = subprocess.run(
        [sys.executable, str(tmp_path / "program.py"), "0.05"], capture_output=True, text=True, check=False, timeout=60
    )
    assert (ran.returncode, ran.stdout, ran.stderr) == (0, "begins\n200000\n", "")


@pytest.mark.parametrize("word", ["SIGINT", "SIGKILL"])
def test_a_program_that_is_ended_leaves_no_process(tmp_path, word):
    (tmp_path / "program.py").write_text(PROGRAM)
    line = [sys.executable, str(tmp_path / "program.py"), "0.5"]
    with subprocess.Popen(line, stdout=subprocess.PIPE, stderr=subprocess.PIPE, text=True) as started:
        assert started.stdout.readline() == "begins\n"
        # (in a session of its own it gets no Ctrl-C of the terminal)
        found = awaited(lambda: [one for one in children(started.pid) if os.getsid(int(one)) == int(one)])
        started.send_signal(getattr(signal, word))
        err = started.communicate(timeout=60)[1]
    assert found and ("KeyboardInterrupt" in err) == (word == "SIGINT")
    assert awaited(lambda: have_ended(found))
