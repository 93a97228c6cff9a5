"""The runs of `bsi files` over plain lists: what a schema, row files and asks are answered.

Run as a command it takes the program's words behind `files` and writes what the program must write. It reads the files
one after the other, in one thread, so no order of threads can show in it. The tools use it to judge the program's runs,
also those in which memory was refused.
"""

import argparse
import os
import re
import sys
from collections import namedtuple

import script_model
from script_model import BAD, Machine, records, text_of

MAX_FILES = 64
MAX_ROWS = 1_000_000

# What a run writes on standard output and on standard error, and the status that it ends with.
Written = namedtuple("Written", "out err status")

QUERIES = (b"count", b"sum", b"least", b"greatest", b"median", b"list")


class Fault(Exception):
    """One line on standard error, behind the lines that were written before it."""

    def __init__(self, text):
        super().__init__(text)
        self.line = b"bsi: " + text + b"\n"


def read_schema(data):
    """Returns the machine that the schema file declares, with no feeder yet."""
    machine, found = Machine(), records(data)
    for number, record in enumerate(found[:MAX_ROWS], 1):
        step = machine.step(record)
        if record[0] not in (b"column", b"limit") or step.line == BAD:
            raise Fault(b"schema: bad record %d" % number)
        step.change()
    if len(found) > MAX_ROWS:
        raise Fault(b"schema: input too long")
    if not machine.columns:
        raise Fault(b"schema: no columns")
    return machine


def read_header(machine, file, found):
    """Returns the places of the columns in the order of the header's fields."""
    names = [column.name for column in machine.columns]
    if not found or sorted(found[0]) != sorted(names):
        raise Fault(b"file %d: bad header" % file)
    return [names.index(field) for field in found[0]]


def read_row(machine, places, record):
    """Returns the row of the record, or None where it is bad."""
    values = script_model.read_values(record, machine.read)
    if len(record) != len(places) or values is None:
        return None
    row = [value for _, value in sorted(zip(places, values), key=lambda pair: pair[0])]
    return row if machine.fits(row) else None


def fed(machine, files):
    """Returns the good rows of each file, and how many records were bad."""
    found = [records(data) for data in files]
    places = [read_header(machine, file, records_of) for file, records_of in enumerate(found)]
    read = [
        [read_row(machine, order, record) for record in records_of[1 : MAX_ROWS + 1]] for order, records_of in zip(places, found)
    ]
    read = [([row for row in rows if row is not None], rows.count(None)) for rows in read]
    if sum(len(good) for good, _ in read) > machine.limit:
        raise Fault(b"index full")
    for file, records_of in enumerate(found):
        if len(records_of) > MAX_ROWS + 1:
            raise Fault(b"file %d: input too long" % file)
    return read


def answer(machine, record):
    """Returns the line that answers a record of the asks file."""
    return machine.step(record).line if record[0] in QUERIES else BAD


def run(schema, asks, files):
    """Returns what a run over the files' bytes writes, and how it ends."""
    lines = []
    try:
        if len(files) > MAX_FILES:
            raise Fault(b"more than 64 files")
        machine = read_schema(schema)
        read = fed(machine, files)
        lines += [b"fed %d %d %d" % (file, len(good), bad) for file, (good, bad) in enumerate(read)]
        machine.indexed = [(file, row) for file, (good, _) in enumerate(read) for row in good]
        machine.has_begun = True
        asked = records(asks)
        lines += [answer(machine, record) for record in asked[:MAX_ROWS]]
        if len(asked) > MAX_ROWS:
            raise Fault(b"asks: input too long")
    except Fault as fault:
        return Written(text_of(lines), fault.line, 1)
    return Written(text_of(lines), b"", 0)


# What standard error may say where memory was refused.
WANTS_MEMORY = re.compile(rb"bsi: (file \d+: )?no memory\n")


def fault_in_run(given, ran, refused):
    """Returns what is wrong with a run over the files given, in which so many growths were refused, or None."""
    usual = run(*given)
    if (ran.out, ran.err, ran.status) == usual:
        return None
    lines, wanted = ran.out.split(b"\n"), usual.out.split(b"\n")[:-1]
    if lines.pop():
        return f"the last line has no end: {ran.out[-40:]!r}"
    lacks = ran.status == 1 and WANTS_MEMORY.fullmatch(ran.err) is not None
    told = lines.count(script_model.NO_MEMORY) + lacks
    if told > refused:
        return f"{told} times no memory, and {refused} growths refused"
    if not lacks and (ran.status, ran.err, len(lines)) != (usual.status, usual.err, len(wanted)):
        return f"{len(lines)} lines in place of {len(wanted)}, then status {ran.status} and {ran.err!r}"
    _, asks, files = given
    return fault_in_lines(lines, wanted, [None] * len(files) + records(asks))


def fault_in_lines(lines, wanted, asked):
    """Returns what is wrong with these first lines of a run, or None. `asked` has the record of each, or None for a line `fed`."""
    if len(lines) > len(wanted):
        return f"{len(lines)} lines in place of {len(wanted)}"
    for number, (line, usual, record) in enumerate(zip(lines, wanted, asked), 1):
        may_lack = line == script_model.NO_MEMORY and usual != BAD and record is not None and script_model.takes_memory(record)
        if line != usual and not may_lack:
            return f"line {number} is {line!r} and not {usual!r}"
    return None


def paths_of(words):
    """Returns the paths of the schema, of the asks and of the row files that well-formed words name."""
    parser = argparse.ArgumentParser(allow_abbrev=False)
    parser.add_argument("--schema", nargs=1)
    parser.add_argument("--asks", nargs=1)
    parser.add_argument("files", nargs="+")
    given = parser.parse_args(words)
    return given.schema, given.asks, given.files


def read_file(path):
    with open(path, "rb") as file:
        return file.read()


def words_of(case):
    """Returns the words behind `files` of a case that is a run over files, or None."""
    args, status = (os.path.join(case, name) for name in ("args", "status"))
    words = os.fsdecode(read_file(args)).splitlines() if os.path.isfile(args) else []
    is_wrong = os.path.isfile(status) and read_file(status).strip() == b"2"
    return words[1:] if words[:1] == ["files"] and not is_wrong else None


def given_to(words, folder="."):
    """Returns the bytes of the schema, the asks and the row files that the words behind `files` name in the folder, or
    None where one can't be read."""
    schema, asks, files = ([os.path.join(folder, path) for path in part] for part in paths_of(words))
    if not all(map(os.path.isfile, schema + asks + files)):
        return None
    return read_file(*schema), read_file(*asks), list(map(read_file, files))


def main():
    written = run(*given_to(sys.argv[1:]))
    sys.stdout.buffer.write(written.out)
    sys.stdout.buffer.flush()
    sys.stderr.buffer.write(written.err)
    return written.status


if __name__ == "__main__":
    sys.exit(main())
