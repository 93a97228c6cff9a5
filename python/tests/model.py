"""What the tests judge by: random tables with random questions, and their answers by NumPy over plain arrays."""

import datetime
from dataclasses import replace
from decimal import Decimal
from zoneinfo import ZoneInfo

import numpy as np

import bsi

WORDS = np.array(["ape", "bee", "cat", "dog", "eel", "fox"])
# As many texts as a form takes numbers, in order.
TEXTS = tuple(f"w{number:04}" for number in range(1024))
EPOCH, UTC = datetime.datetime(1970, 1, 1), datetime.datetime(1970, 1, 1, tzinfo=datetime.timezone.utc)
EAST = datetime.timezone(datetime.timedelta(hours=5, minutes=30))
COMPARE = {
    "<": np.less,
    "<=": np.less_equal,
    ">": np.greater,
    ">=": np.greater_equal,
    "=": np.equal,
    "!=": np.not_equal,
}


def random_form(rng):
    """Returns a form of slices or of digits, with or without an offset."""
    offset = int(rng.choice([0, 0, -5, 7, -400, 10**6]))
    shape = rng.integers(3)
    if shape == 0:
        return bsi.slices(int(rng.integers(1, 11)), offset=offset)
    bases = [int(base) for base in rng.integers(2, 9, rng.integers(1, 4))]
    return (bsi.equality if shape == 1 else bsi.range)(*bases, offset=offset)


def zoned(zone):
    """Returns the time of a number of seconds, in a zone."""
    return lambda number: (UTC + datetime.timedelta(seconds=number)).astimezone(zone)


def text(number):
    """Returns the text of a number. Those past both ends of the texts come before the first and behind the last."""
    return TEXTS[number] if 0 <= number < len(TEXTS) else "" if number < 0 else "~"


HALF = datetime.timedelta(milliseconds=500)
NUMBERS = [(bsi.Whole(), int, lambda value: Decimal(value) + Decimal("0.001"))]
NUMBERS += [(bsi.Decimals(2), lambda number: Decimal(number).scaleb(-2), lambda value: value + Decimal("0.001"))]
TIMES = [
    (bsi.Times("D"), lambda number: EPOCH + datetime.timedelta(days=number), lambda value: value + HALF),
    (bsi.Times("s"), lambda number: EPOCH + datetime.timedelta(seconds=number), lambda value: value + HALF),
    (bsi.Times("s", datetime.timezone.utc), zoned(datetime.timezone.utc), lambda value: value + HALF),
    (bsi.Times("s", "Europe/Berlin"), zoned(ZoneInfo("Europe/Berlin")), lambda value: value + HALF),
    (bsi.Times("s", EAST), zoned(EAST), lambda value: value + HALF),
]
LISTED = [
    (bsi.Texts(TEXTS), text, lambda value: value + "!"),
    (bsi.Texts(TEXTS, ordered=True), text, None),
    (bsi.Flags(), bool, None),
]
KINDS = [NUMBERS[0]] * 4 + [NUMBERS[1]] * 2 + TIMES + LISTED


def random_kind(rng):
    """Returns a kind, a function from the column's numbers to its values, and one from a value to one just above it
    that no number stands for, or None where there is no such."""
    return KINDS[rng.integers(len(KINDS))]


class Table:
    """A random table: for each column its form, its numbers, which of them are there, and what a number stands for."""

    def __init__(self, rng):
        self.rng, self.rows = rng, int(rng.choice([0, 1, 2, 5, 63, 64, 65, 100, 129]))
        self.columns, self.above = {}, {}
        for name in ["a", "B c", "null", "d"][: rng.integers(1, 5)]:
            kind, value, self.above[name] = random_kind(rng)
            form = random_form(rng).of(kind)
            form = replace(form, offset=0) if isinstance(kind, (bsi.Texts, bsi.Flags)) else form
            most = min(form.most, 1) if kind == bsi.Flags() else form.most
            numbers = rng.integers(form.offset, most + 1, self.rows)
            there = rng.random(self.rows) < rng.choice([1.0, 0.8, 0.3, 0.0], p=[0.4, 0.3, 0.2, 0.1])
            self.columns[name] = (form, numbers, there, value)

    def data(self):
        """Returns the values of each column as a list, with None for a null."""
        return {
            name: [value(int(number)) if is_there else None for number, is_there in zip(numbers, there)]
            for name, (_, numbers, there, value) in self.columns.items()
        }

    def forms(self):
        return {name: form for name, (form, *_) in self.columns.items()}

    def related(self, name):
        """Returns a comparison of a column with one of its kind, which may be itself, and the rows that it selects."""
        form, numbers, there, _ = self.columns[name]
        other = str(self.rng.choice([one for one, (second, *_) in self.columns.items() if second.kind == form.kind]))
        _, others, other_there, _ = self.columns[other]
        sign = str(self.rng.choice(list(COMPARE)))
        return bsi.col[name]._compared(sign, bsi.col[other]), COMPARE[sign](numbers, others) & there & other_there

    def comparison(self):
        """Returns a comparison and the rows that it selects. Constants lie among the numbers, between two of them and
        past both ends, where the kind has such."""
        name = str(self.rng.choice(list(self.columns)))
        form, numbers, there, value = self.columns[name]
        column, above = bsi.col[name], self.above[name]
        if self.rng.random() < 0.15:
            return column.isnull(), ~there
        if self.rng.random() < 0.2:
            return self.related(name)
        sign, number = str(self.rng.choice(list(COMPARE))), int(self.rng.integers(form.offset - 3, form.most + 4))
        number = int(self.rng.choice([-(10**5), 2 * 10**6])) if self.rng.random() < 0.05 else number
        if above is None:  # (booleans, and texts whose order is given, have no other constants)
            number = min(max(number, 0), 1 if form.kind == bsi.Flags() else len(TEXTS) - 1)
        half = above is not None and self.rng.random() < 0.2
        constant = above(value(number)) if half else value(number)
        return column._compared(sign, constant), COMPARE[sign](numbers, number + 0.5 if half else number) & there

    def predicate(self, depth=3):
        """Returns a predicate and the rows that it selects."""
        shape = self.rng.random()
        if depth == 0 or shape < 0.3:
            return self.comparison()
        left, rows = self.predicate(depth - 1)
        if shape < 0.45:
            return ~left, ~rows
        right, others = self.predicate(depth - 1)
        return (left & right, rows & others) if shape < 0.75 else (left | right, rows | others)

    def answers(self, name, rows):
        """Returns the sum (None for times and texts), least, greatest and lower median of a column in these rows."""
        form, numbers, there, value = self.columns[name]
        found = np.sort(numbers[rows & there])
        total = {bsi.Flags: int, bsi.Times: lambda _: None, bsi.Texts: lambda _: None}.get(type(form.kind), value)
        if not len(found):
            return total(0), None, None, None
        ends = [value(int(number)) for number in (found[0], found[-1], found[(len(found) - 1) // 2])]
        return (total(int(found.sum())), *ends)
