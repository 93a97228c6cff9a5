"""What the tools share: where things lie, the crates, a run with bytes, how a process ended, and the count of checks."""

import contextlib
import itertools
import os
import struct
import subprocess
import sys
import threading
from collections import namedtuple

TOP = os.path.dirname(os.path.dirname(os.path.abspath(__file__)))
TOOLS = os.path.join(TOP, "tools")
CASES = os.path.join(TOP, "cases")
PROGRAM = os.path.join(TOP, "crates", "bsi", "out", "bsi")
# How a run ended: its status (minus the signal's number where one ended it, None where its time was over), and what it wrote.
Ran = namedtuple("Ran", "status out err")
# What refuse.c writes before what a run wrote: how it ended, its growths, and two lengths.
REFUSED = struct.Struct("=4Q")


def opened(files, path, how):
    """Opens the file for as long as the stack of files stands, or gives a pipe where no path is named."""
    if path is None:
        return subprocess.PIPE
    file = os.open(path, how)
    files.callback(os.close, file)
    return file


def run(words, given=b"", variables=None, folder=None, seconds=60, source=None, sink=None):
    """Runs a command on the bytes given, and returns how it ended. Standard input is the file source where one is
    named, and standard output the file sink."""
    with contextlib.ExitStack() as files:
        how = {"stdin": opened(files, source, os.O_RDONLY)} if source else {"input": given}
        how.update(stdout=opened(files, sink, os.O_WRONLY), stderr=subprocess.PIPE, env=dict(os.environ, **(variables or {})))
        try:
            ran = subprocess.run(words, cwd=folder, timeout=seconds, **how)
        except subprocess.TimeoutExpired as late:
            return Ran(None, late.stdout or b"", late.stderr or b"")
        return Ran(ran.returncode, ran.stdout or b"", ran.stderr)


def refused_runs(said):
    """Returns of each run that refuse.c wrote down how it ended and how many growths it asked for, or None where that is not what it writes."""
    runs, at = [], 0
    with contextlib.suppress(struct.error):
        while at < len(said):
            status, growths, out, err = REFUSED.unpack_from(said, at)
            at += REFUSED.size
            runs.append((Ran(os.waitstatus_to_exitcode(status), said[at : at + out], said[at + out : at + out + err]), growths))
            at += out + err
    return runs if runs and at == len(said) else None


def run_in_turns(words, given, folder=None, seconds=10, turns=()):
    """Runs a command on the lines given, and returns how it ended. A turn is how many lines are given at once, and how many lines are awaited
    before the next turn; without turns each line is given once the one before it was answered by a line."""
    late = threading.Event()
    how = {"stdin": subprocess.PIPE, "stdout": subprocess.PIPE, "stderr": subprocess.PIPE}
    with subprocess.Popen(words, cwd=folder, bufsize=0, **how) as started:
        timer = threading.Timer(seconds, lambda: (late.set(), started.kill()))
        timer.start()
        out = b""
        with contextlib.suppress(BrokenPipeError):
            lines = iter(given.splitlines(keepends=True))
            for many, answers in turns or itertools.repeat((1, 1)):
                part = b"".join(itertools.islice(lines, many))
                if not part:
                    break
                started.stdin.write(part)
                out += b"".join(started.stdout.readline() for _ in range(answers))
        rest, err = started.communicate()
        timer.cancel()
    return Ran(None if late.is_set() else started.returncode, out + rest, err)


def ending(status):
    """Returns in words how a run ended."""
    if status is None:
        return "no end in time"
    return f"signal {-status}" if status < 0 else f"status {status}"


def listed():
    """Returns what crates.txt lists, in its order: by a crate's name the words behind it, and the libraries that it uses."""
    with open(os.path.join(TOP, "crates.txt"), encoding="utf-8") as file:
        lines = [line.partition("#")[0].strip().partition(":") for line in file]
    heads = [(head.split(), uses.split()) for head, _, uses in lines if head]
    return {head[0]: (head[1:], uses) for head, uses in heads}


def crates():
    """Returns the names of the crates that crates.txt lists, in its order."""
    return list(listed())


def libraries(crate):
    """Returns the names of the libraries that a crate uses."""
    return listed()[crate][1]


def options_of(crate):
    """Returns the words by which the compiler makes a static library of a crate that is listed as one."""
    return ["--crate-type", "staticlib"] if "staticlib" in listed()[crate][0] else []


class Tally:
    """Counts checks, with a line for each."""

    def __init__(self):
        self.passed = self.failed = self.skipped = 0

    def fails(self, text):
        self.failed += 1
        print(f"FAILED  {text}", flush=True)

    def check(self, text, fault):
        """Counts one check, which fails where there is a fault to name."""
        if fault:
            return self.fails(f"{text}: {fault}")
        self.passed += 1
        print(f"ok      {text}", flush=True)

    def lacks(self, text):
        """Counts what this machine can't check: as skipped, or in .ci/run, which sets CI, as failed."""
        if os.environ.get("CI"):
            return self.fails(f"{text}: this machine lacks it")
        self.skipped += 1
        print(f"skipped {text}: this machine lacks it", flush=True)

    def add(self, passed, failed, skipped=0):
        self.passed, self.failed, self.skipped = self.passed + passed, self.failed + failed, self.skipped + skipped

    def close(self):
        """Prints the count as the last line, and returns the status: 0 where checks ran and none failed."""
        skipped = f", {self.skipped} skipped" if self.skipped else ""
        print(f"{self.passed} passed, {self.failed} failed{skipped}", flush=True)
        return 0 if self.passed and not self.failed else 1
