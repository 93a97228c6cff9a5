"""Random tables: a schema, row files and questions, and the plain lists of the rows that each segment of their saved index has."""

import collections
import copy
import itertools
import random
from math import prod

import files_model
import script_model

NAMES = ("a", "b_2", "day", "price", "x")
WIDTHS = (1, 3, 10, 31, 63)
BASES = (2, 3, 4, 7, 10, 16, 33, 100)
ROWS = (0, 1, 5, 63, 64, 65, 300)
MOST_FILES = 4
SIGNS = [sign.decode() for sign in script_model.SIGNS]
TOTALS = ("sum", "least", "greatest", "median")


def column_record(chance, name):
    """Returns the record of a random column."""
    form = chance.choice(("slices", "range", "equality"))
    sizes = [chance.choice(WIDTHS)] if form == "slices" else chance.choices(BASES, k=chance.randint(1, 4))
    size = 2 ** sizes[0] if form == "slices" else prod(sizes)
    offset = chance.choice(("", "", ",0", ",-20", f",{-size // 2}", f",{2**63 - size}", f",{-2**63}"))
    return f"column,{name},{form},{' '.join(map(str, sizes))}{offset}\n"


def numbers_at(machine, name, fields):
    """Returns the rows that a predicate selects, and the place of a column of them, or None."""
    place = machine.position(name)
    places = None if place is None else script_model.selected(machine, list(fields))
    return None if places is None else (place, [machine.indexed[at] for at in places])


def rank(machine, name, rank, *fields):
    """Returns the line of a rank."""
    asked = numbers_at(machine, name, fields) if rank.isdigit() else None
    if asked is None:
        return files_model.BAD
    place, rows = asked
    numbers = sorted(row[place] for _, row in rows if row[place] is not None)
    return b"".join(b"value %d" % number for number in numbers[int(rank) :][:1]) or b"none"


def quantile(machine, name, part, whole, *fields):
    """Returns the line of the number at the end of a share."""
    share = [script_model.read_number(text) for text in (part, whole)]
    asked = numbers_at(machine, name, fields) if None not in share and 0 < share[1] >= share[0] else None
    if asked is None:
        return files_model.BAD
    place, rows = asked
    numbers = sorted(row[place] for _, row in rows if row[place] is not None)
    return b"value %d" % numbers[(len(numbers) - 1) * share[0] // share[1]] if numbers else b"none"


def distinct(machine, name, *fields):
    """Returns the line that tells how many different numbers there are."""
    asked = numbers_at(machine, name, fields)
    if asked is None:
        return files_model.BAD
    place, rows = asked
    return b"count %d" % len({row[place] for _, row in rows} - {None})


def first_rows(sign):
    """Returns what makes the line of the first rows, where these have the greatest sign times number. It needs rows of one feeder."""

    def line(machine, name, most, *fields):
        asked = numbers_at(machine, name, fields) if most.isdigit() else None
        if asked is None:
            return files_model.BAD
        place, rows = asked
        kept = {id(row) for row in rows}
        numbered = [(number, row[1][place]) for number, row in enumerate(machine.indexed) if id(row) in kept and row[1][place] is not None]
        numbered.sort(key=lambda row: -sign * row[1])
        return b"".join([b"top", *(b" 0:%d=%d" % row for row in numbered[: int(most)])])

    return line


def groups(machine, name, *query):
    """Returns the line of a query over each group, by one column or more."""
    by = [machine.position(name)]
    while query[:1] == (b"by",):
        by, query = [*by, machine.position(query[1]) if query[1:] else None], query[2:]
    is_query = query[:1] != (b"list",) and (query[:1] == (b"rank",) or query[:1] and query[0] not in REPORTS)
    if None in by or not is_query or answer(machine, list(query)) == files_model.BAD:
        return files_model.BAD
    # (a copy of the machine for each group, whose rows are those that have its entry)
    part = copy.copy(machine)
    told = []
    selected = numbers_at(machine, name, query[PREDICATE_AT.get(query[0], 2) :])[1]
    found = {tuple(row[at] for at in by) for _, row in selected}
    rows_of = collections.defaultdict(list)
    for row in machine.indexed:
        rows_of[tuple(row[1][at] for at in by)].append(row)
    for entries in sorted(found, key=lambda entries: [(entry is None, entry or 0) for entry in entries]):
        part.indexed = rows_of[entries]
        words = [b"null" if entry is None else b"%d" % entry for entry in entries]
        told.append(b" %s=%s" % (b":".join(words), answer(part, list(query)).split()[-1]))
    return b"".join([b"groups", *told])


REPORTS = {b"rank": rank, b"quantile": quantile, b"distinct": distinct, b"top": first_rows(1), b"bottom": first_rows(-1), b"by": groups}
# Where the predicate begins in a query, if not behind a column.
PREDICATE_AT = {b"count": 1, b"rank": 3}


def answer(machine, record):
    """Returns the line that answers a question of a kept index."""
    report = REPORTS.get(record[0])
    if not report:
        return files_model.answer(machine, record)
    try:
        return report(machine, *record[1:])
    except TypeError:  # a field is missing
        return files_model.BAD


def notice(out):
    """Returns what a command that gave rows says on standard error of bad records, if some are, by the lines that it wrote."""
    bad = sum(int(line.split()[3]) for line in out.splitlines() if line.startswith(b"fed "))
    return b"bsi: bad records: %d; bsi check says which\n" % bad if bad else b""


class Table:
    """A random table. `segments` has the rows of each segment, each with its feeder, and `ends` where it ends in the file."""

    def __init__(self, seed):
        self.chance, self.segments, self.ends = random.Random(seed), [], []
        self.names = self.chance.sample(NAMES, self.chance.randint(1, len(NAMES)))
        self.feeders = self.chance.randint(1, MOST_FILES)
        records = [column_record(self.chance, name) for name in self.names]
        # (the rows that are saved come to this limit at most, and those that are added may pass it)
        limit = f"limit,{max(ROWS) * self.feeders}\n"
        self.schema = "".join([*records, self.chance.choice(("", limit))]).encode()
        self.machine = files_model.read_schema(self.schema)
        self.machine.has_begun = self.machine.compares_columns = True
        # (numbers that come often)
        self.often = [[0, column.size - 1, *(self.chance.randrange(column.size) for _ in range(5))] for column in self.machine.columns]

    def number(self, at):
        """Returns a number that column `at` takes."""
        column = self.machine.columns[at]
        return column.least + (self.chance.choice(self.often[at]) if self.chance.random() < 0.5 else self.chance.randrange(column.size))

    def record(self, order):
        """Returns a record of a row file, which is seldom bad."""
        if self.chance.random() < 0.05:
            past = [str(column.least + column.size) for column in self.machine.columns]
            return self.chance.choice(("bad", "1,2,3,4,5,6", ",".join("-1" for _ in order), ",".join(past[at] for at in order)))
        return ",".join("" if self.chance.random() < 0.2 else str(self.number(at)) for at in order) or '""'

    def row_file(self):
        """Returns a random row file."""
        order = self.chance.sample(range(len(self.names)), len(self.names))
        records = [self.record(order) for _ in range(self.chance.choice(ROWS))]
        return "\n".join([",".join(self.names[at] for at in order), *records, ""]).encode()

    def predicate(self, depth=3):
        """Returns the fields of a random predicate. Constants lie among the numbers of a column and past both ends."""
        shape, at = self.chance.random(), self.chance.randrange(len(self.names))
        if depth and shape < 0.15:
            return [*self.predicate(depth - 1), "not"]
        if depth and shape < 0.6:
            return [*self.predicate(depth - 1), *self.predicate(depth - 1), self.chance.choice(("and", "or"))]
        if self.chance.random() < 0.2:
            return self.chance.choice((["all"], [self.names[at], "null"]))
        if self.chance.random() < 0.2:
            return [self.names[at], self.chance.choice(SIGNS), self.chance.choice(self.names)]
        return [self.names[at], self.chance.choice(SIGNS), str(self.number(at) + self.chance.choice((-1, 0, 0, 1)))]

    def asks(self):
        """Returns random questions, and a line that is none."""
        heads = [[word] for word in ("count", "list")] + [[word, self.chance.choice(self.names)] for word in TOTALS]
        heads += [["rank", self.chance.choice(self.names), rank] for rank in ("0", str(self.chance.randrange(200)), "-1", str(2**64 - 1))]
        shares = [["1", "2"], ["0", "1"], [str(2**64 - 1)] * 2, sorted(self.chance.choices(range(1, 10), k=2)), ["2", "1"], ["0", "0"], ["-1", "2"]]
        heads += [["quantile", self.chance.choice(self.names), *map(str, share)] for share in shares]
        heads += [["distinct", self.chance.choice(self.names)]] + [["by", self.chance.choice(self.names), *head] for head in heads[:8]]
        heads += [["by", self.chance.choice(self.names), "by", self.chance.choice(self.names), *head] for head in heads[:8]]
        if self.feeders == 1:  # of several, which of two rows was loaded first is not told
            heads += [[word, self.chance.choice(self.names), most] for word in ("top", "bottom") for most in ("0", str(self.chance.randrange(1, 20)), "-1")]
        lines = [",".join([*head, *self.predicate()]) for head in 2 * heads]
        short = [f"{words}{self.names[0]}{end}" for words in ("rank,", "quantile,", "top,", "distinct,", "by,", f"by,{self.names[0]},by,") for end in ("", ",0", ",0,1")]
        nested = [f"by,{self.names[0]},{words},{self.names[0]}{end},all" for words, end in (("distinct", ""), ("quantile", ",1,2"), ("by,by", ",count"))]
        nested += [f"by,{self.names[0]}," * 2 + f"by,{self.names[0]},count,all"]
        return "\n".join([*lines, "wrong", *short, *nested, f"quantile,{self.names[0]},1,2,{self.names[0]},null", ""]).encode()

    def answers(self, asks):
        """Returns the lines that answer questions over the rows of all segments."""
        self.machine.indexed = sorted(itertools.chain(*self.segments), key=lambda row: row[0])
        return script_model.text_of(answer(self.machine, record) for record in script_model.records(asks))

    def rows(self):
        return sum(map(len, self.segments))

    def put(self, word, files):
        """Takes the good rows of row files as a further segment, and returns what the command must write that does so, and how it ends."""
        try:
            read = files_model.fed(self.machine, files)
            rows = [(file, row) for file, (good, _) in enumerate(read) for row in good]
            if self.rows() + len(rows) > self.machine.limit:
                raise files_model.Fault(b"index full")
        except files_model.Fault as fault:
            return files_model.Written(b"", fault.line, 1)
        self.segments.append(rows)
        lines = [b"fed %d %d %d" % (file, len(good), bad) for file, (good, bad) in enumerate(read)]
        out = script_model.text_of([*lines, b"%s %d" % (word, len(rows))])
        return files_model.Written(out, notice(out), 0)
