"""The script machine over plain lists: what each record of a script may be answered.

Run as a command it reads a script on standard input and prints the answers. The tools use it to judge a run in
which memory was refused: at a line `no memory` the machine stays as it was, and every later line is that of the
machine as it then stands.
"""

import operator
import re
import sys
from collections import namedtuple
from functools import lru_cache
from math import prod
from types import SimpleNamespace

NO_MEMORY = b"no memory"
BAD = b"bad"
OUT_OF_MEMORY = b"bsi: no memory\n"
TOO_LONG = b"bsi: input too long\n"

RESERVED = (b"all", b"null", b"and", b"or", b"not")
MAX_NUMBER = 2**64 - 1
MAX_FEEDER = 2**32 - 1
MAX_LIMIT = 2**32
MAX_CAPACITY = 65_536
MAX_SLICES = 63
MAX_BASE = 1_024
MAX_SUM_OF_BASES = 4_096
MAX_SIZE = 2**63
MAX_BASES = 63
MAX_COLUMNS = MAX_FEEDERS = 64
MAX_FIELDS = 1_000
MAX_RECORDS = 1_000_000

# (each field of a predicate may be a call within a call)
sys.setrecursionlimit(10 * MAX_FIELDS)

# What a record may be answered: the usual line, whether memory may be refused in its place, and the change it makes.
Step = namedtuple("Step", "line may_lack_memory change")
Column = namedtuple("Column", "name least size")


# A field: what stands in quotes, what stands behind or without them, and what ends it.
FIELD = re.compile(rb'(?:"([^"]*(?:""[^"]*)*)(?:"|\Z))?([^,\r\n]*)(,|[\r\n]|\Z)')


@lru_cache(maxsize=64)
def records(data):
    """Returns the records of the bytes, each a list of fields. They are kept, as one script is judged many times."""
    found, fields, data, at = [], [], data.removeprefix(b"\xef\xbb\xbf"), 0
    while at < len(data) or fields:
        if not fields and data[at] in b"\r\n":
            at += 1
            continue
        field = FIELD.match(data, at)
        quoted, plain, end = field.groups()
        fields.append((quoted or b"").replace(b'""', b'"') + plain)
        at = field.end()
        if end != b",":
            found.append(fields)
            fields = []
    return found


def read_number(field):
    """Returns the number that the field spells, or None."""
    is_spelled = 1 <= len(field) <= 20 and all(byte in b"0123456789" for byte in field)
    value = int(field) if is_spelled else MAX_NUMBER + 1
    return value if value <= MAX_NUMBER else None


def read_signed(field):
    """Returns the whole number that the field spells, with one minus sign before it or none, or None."""
    value = read_number(field[1:] if field[:1] == b"-" else field)
    return -value if value is not None and field[:1] == b"-" else value


def number_within(field, least, most):
    """Returns the number that the field spells, or None where it is no number from least to most."""
    value = read_number(field)
    return value if value is not None and least <= value <= most else None


def read_bases(field):
    """Returns the bases that the field spells, with one space between two, or None where they can't be had."""
    bases = [number_within(part, 2, MAX_BASE) for part in field.split(b" ")]
    can_be_had = None not in bases and len(bases) <= MAX_BASES and sum(bases) <= MAX_SUM_OF_BASES
    return bases if can_be_had and prod(bases) <= MAX_SIZE else None


def is_name(field):
    """Returns whether the field has the form of a column's name."""
    letters = b"abcdefghijklmnopqrstuvwxyz"
    is_long_enough = 1 <= len(field) <= 32 and field[0] in letters
    return is_long_enough and all(byte in letters + b"0123456789_" for byte in field) and field not in RESERVED


def read_feeder(field):
    """Returns the feeder that the field names, one past the last where it is a larger number, or None."""
    value = read_number(field)
    return None if value is None else min(value, MAX_FEEDER)


def read_values(fields, read):
    """Returns the row that the fields spell, with None at a null, or None where one is no value."""
    values = [None if field == b"" else read(field) for field in fields]
    spelled = all(field == b"" or value is not None for field, value in zip(fields, values))
    return values if spelled else None


SIGNS = {b"=": operator.eq, b"!=": operator.ne, b"<": operator.lt, b"<=": operator.le, b">": operator.gt, b">=": operator.ge}
JOINS = {b"and": all, b"or": any}


def new_feeder(capacity):
    """Returns one bounded queue: its capacity, the rows that wait, and whether it is closed."""
    return SimpleNamespace(capacity=capacity, waiting=[], is_closed=False)


class Machine:
    """A script's machine: the schema, then the queues and the list of rows that are indexed."""

    def __init__(self):
        self.columns = []
        self.is_signed = False
        self.feeders = []
        self.limit = MAX_LIMIT
        self.has_begun = False
        # (those that keep an index do)
        self.compares_columns = False
        self.indexed = []

    def step(self, record):
        """Returns what the record may be answered as the machine stands."""
        kinds = RUNNING if self.has_begun else SETUP
        read = kinds.get(record[0])
        step = read(self, record[1:]) if read else None
        return step or Step(BAD, False, nothing)

    def position(self, name):
        """Returns the place of the column of that name, or None."""
        names = [column.name for column in self.columns]
        return names.index(name) if name in names else None

    def fits(self, row):
        """Returns whether the row has one value for each column, each null or one of those that the column takes."""
        is_as_long = len(row) == len(self.columns)
        return is_as_long and all(
            v is None or column.least <= v < column.least + column.size for v, column in zip(row, self.columns)
        )

    def read(self, field):
        """Returns the number that the field spells, with a sign where a column was declared with one."""
        return read_signed(field) if self.is_signed else read_number(field)


def nothing():
    """Changes nothing."""


def ok(change):
    return Step(b"ok", False, change)


def refused(line):
    return Step(line, False, nothing)


def read_size(form, field):
    """Returns the size of the column that the form and the field declare, or None."""
    if form == b"slices":
        width = number_within(field, 1, MAX_SLICES)
        return None if width is None else 2**width
    bases = read_bases(field) if form in (b"equality", b"range") else None
    return None if bases is None else prod(bases)


def setup_column(machine, fields):
    size = read_size(fields[1], fields[2]) if len(fields) in (3, 4) else None
    least = 0 if len(fields) < 4 else read_signed(fields[3])
    if size is None or least is None or not -(2**63) <= least <= 2**63 - size:
        return None
    if not is_name(fields[0]) or machine.position(fields[0]) is not None or len(machine.columns) == MAX_COLUMNS:
        return None

    def declare():
        machine.columns.append(Column(fields[0], least, size))
        machine.is_signed |= len(fields) == 4

    return ok(declare)


def setup_feeder(machine, fields):
    capacity = number_within(fields[0], 1, MAX_CAPACITY) if len(fields) == 1 else None
    if capacity is None or len(machine.feeders) == MAX_FEEDERS:
        return None
    return ok(lambda: machine.feeders.append(new_feeder(capacity)))


def setup_limit(machine, fields):
    limit = number_within(fields[0], 1, MAX_LIMIT) if len(fields) == 1 else None
    return None if limit is None else ok(lambda: setattr(machine, "limit", limit))


def setup_begin(machine, fields):
    is_ready = not fields and machine.columns and machine.feeders
    return ok(lambda: setattr(machine, "has_begun", True)) if is_ready else None


def at_feeder(machine, fields, run):
    """Returns what `run` answers for the feeder that the only field names, or None where that spells no number."""
    place = read_feeder(fields[0]) if len(fields) == 1 else None
    if place is None:
        return None
    return run(place, machine.feeders[place]) if place < len(machine.feeders) else refused(b"no feeder")


def run_submit(machine, fields):
    row = read_values(fields[1:], machine.read)

    def submit(place, feeder):
        if feeder.is_closed:
            return refused(b"closed")
        if not machine.fits(row):
            return refused(b"misfit")
        if len(feeder.waiting) == feeder.capacity:
            return refused(b"full")
        return Step(b"accepted", False, lambda: feeder.waiting.append(row))

    return None if row is None else at_feeder(machine, fields[:1], submit)


def run_load(machine, fields):
    def load(place, feeder):
        if not feeder.waiting:
            return refused(b"ended" if feeder.is_closed else b"empty")
        if len(machine.indexed) == machine.limit:
            return refused(b"index full")
        take = lambda: machine.indexed.append((place, feeder.waiting.pop(0)))
        return Step(b"loaded %d" % len(machine.indexed), True, take)

    return at_feeder(machine, fields, load)


def run_close(machine, fields):
    def close(place, feeder):
        if feeder.is_closed:
            return refused(b"closed")
        return ok(lambda: setattr(feeder, "is_closed", True))

    return at_feeder(machine, fields, close)


def negation(test):
    return lambda row: not test(row)


def joined(join, first, second):
    return lambda row: join((first(row), second(row)))


def read_comparison(machine, name, left):
    """Returns the test of a column that the name and the next fields spell, which it takes from the list, or None. In place
    of a constant may stand a column's name where the machine compares columns."""
    place, sign = machine.position(name), left.pop() if left else None
    if place is not None and sign == b"null":
        return lambda row: row[place] is None
    compares, text = SIGNS.get(sign), left.pop() if left else b""
    other = machine.position(text) if machine.compares_columns else None
    constant = machine.read(text)
    if None in (place, compares) or constant is None and other is None:
        return None
    if other is not None:
        return lambda row: None not in (row[place], row[other]) and compares(row[place], row[other])
    return lambda row: row[place] is not None and compares(row[place], constant)


def read_predicate(machine, fields):
    """Returns a function from a row to whether it is selected, or None where the fields spell no predicate."""
    found, left = [], fields[::-1] if len(fields) <= MAX_FIELDS else []
    while left:
        word = left.pop()
        if word == b"all":
            found.append(lambda row: True)
        elif word == b"not" and found:
            found.append(negation(found.pop()))
        elif word in JOINS and len(found) > 1:
            second = found.pop()
            found.append(joined(JOINS[word], found.pop(), second))
        else:
            found.append(read_comparison(machine, word, left))
            if found[-1] is None:
                return None
    return found[0] if len(found) == 1 else None


def selected(machine, fields):
    """Returns the places of the rows that the fields select, or None where they spell no predicate."""
    selects = read_predicate(machine, fields)
    return selects and [at for at, (_, row) in enumerate(machine.indexed) if selects(row)]


def takes_memory(query):
    """Returns whether the answer to a query takes memory: a count by a predicate without `or` and `not` takes none."""
    return query[0] != b"count" or b"or" in query or b"not" in query


def run_count(machine, fields):
    places = selected(machine, fields)
    return None if places is None else Step(b"count %d" % len(places), takes_memory([b"count", *fields]), nothing)


def run_list(machine, fields):
    places = selected(machine, fields)
    if places is None:
        return None
    sources = [feeder for feeder, _ in machine.indexed]
    pairs = [b" %d:%d" % (sources[at], sources[:at].count(sources[at])) for at in places]
    return Step(b"rows" + b"".join(pairs), True, nothing)


def run_total(total):
    """Returns what runs a query for the total of a column's numbers."""

    def run(machine, fields):
        place = machine.position(fields[0]) if fields else None
        places = None if place is None else selected(machine, fields[1:])
        if places is None:
            return None
        numbers = sorted(row[place] for _, row in map(machine.indexed.__getitem__, places) if row[place] is not None)
        return Step(total(numbers), True, nothing)

    return run


def sum_line(numbers):
    return b"sum %d" % sum(numbers)


def value_line(place):
    """Returns what writes the number at a place, as a function of how many there are, of sorted numbers."""
    return lambda numbers: b"value %d" % numbers[place(len(numbers))] if numbers else b"none"


SETUP = {b"column": setup_column, b"feeder": setup_feeder, b"limit": setup_limit, b"begin": setup_begin}
RUNNING = {
    b"submit": run_submit,
    b"load": run_load,
    b"close": run_close,
    b"count": run_count,
    b"list": run_list,
    b"sum": run_total(sum_line),
    b"least": run_total(value_line(lambda count: 0)),
    b"greatest": run_total(value_line(lambda count: count - 1)),
    b"median": run_total(value_line(lambda count: (count - 1) // 2)),
}


def text_of(lines):
    """Returns the bytes of these lines, each with its end."""
    return b"".join(line + b"\n" for line in lines)


def answers(script):
    """Returns the lines of the script's usual answers, without their ends."""
    machine, lines = Machine(), []
    for record in records(script)[:MAX_RECORDS]:
        step = machine.step(record)
        step.change()
        lines.append(step.line)
    return lines


def fault_in_lines(script, lines):
    """Returns what is wrong with these first lines of a run, or None. Where a line `no memory` may stand, nothing has changed."""
    machine = Machine()
    for number, (record, line) in enumerate(zip(records(script), lines), 1):
        step = machine.step(record)
        if line == NO_MEMORY and step.may_lack_memory:
            continue
        if line != step.line:
            return f"line {number} is {line!r} and not {step.line!r}"
        step.change()
    return None


def fault_in_run(script, ran, refused):
    """Returns what is wrong with a run in which so many growths were refused, or None. Each want of memory stands for one of them."""
    found = records(script)
    lines = ran.out.split(b"\n")
    if lines.pop():
        return f"the last line has no end: {ran.out[-40:]!r}"
    if len(lines) > min(len(found), MAX_RECORDS):
        return f"{len(lines)} lines answer {len(found)} records"
    is_whole = len(lines) == min(len(found), MAX_RECORDS)
    usual = (1, TOO_LONG) if len(found) > MAX_RECORDS else (0, b"")
    allowed = [(1, OUT_OF_MEMORY)] + [usual] * is_whole
    if (ran.status, ran.err) not in allowed:
        return f"{len(lines)} lines for {len(found)} records, then status {ran.status} and {ran.err!r}"
    told = lines.count(NO_MEMORY) + (ran.err == OUT_OF_MEMORY)
    if told > refused:
        return f"{told} times no memory, and {refused} growths refused"
    return fault_in_lines(script, lines)


def main():
    for line in answers(sys.stdin.buffer.read()):
        sys.stdout.buffer.write(line + b"\n")
    return 0


if __name__ == "__main__":
    sys.exit(main())
