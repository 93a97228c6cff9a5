"""Random texts, files and values: each is answered, kept exactly, or refused by an error of the package, and by no
other."""

import datetime
import itertools
import math
import operator
import random
from decimal import Decimal
from fractions import Fraction

import numpy as np
import pytest

import bsi

try:
    import pandas
except ImportError:
    pandas = None

WORDS = "count sum rows median least greatest where and or not null all ( ) = == != < <= > >= !".split()
WORDS += "' \" a b 5 -3 2.5 1e9 true \\ , ''".split()
# fmt: off
VALUES = [
    None, 0, 1, -1, 2**62, 2**63, -(2**63), -(2**64), True, False, 0.5, -0.0, 1e308, float("nan"), float("inf"),
    Decimal("1.50"), Decimal("-1e-18"), Decimal("1e40"), Decimal("sNaN"), Fraction(1, 3), Fraction(1, 4),
    "", "a", "ä\0", "5", b"x", 1j, [], {}, (), object(), Ellipsis, int, bsi.col.x, bsi.all_rows,
    datetime.date.min, datetime.date.max, datetime.datetime.max, datetime.timedelta(1),
    datetime.datetime(2026, 1, 1, tzinfo=datetime.timezone.utc),
    np.int8(-5), np.uint64(2**64 - 1), np.float32(0.1), np.float16("inf"), np.longdouble(1) / 3, np.bool_(True),
    np.datetime64("NaT"), np.datetime64("2026-01"), np.datetime64(2**62, "s"), np.datetime64(5, "ps"),
    np.timedelta64(1, "s"), np.array([1, 2]), np.array(7), np.str_("t"), np.void(b"v"),
]
PIECES = [
    "1", "-2", "0.5", "007", "", "x", '"', '""', ",", ",", ",", "\n", "\n", "\r\n", "2026-01-31", "T12:00Z", "true",
    "é", "\0", " ", "1e5", "nan", "-",
]
# fmt: on


def test_random_questions():
    rng = random.Random(1)
    index = bsi.Index.from_frame({"a": [1, None, 3], "b": ["x", "y", None]})
    answered = 0
    for _ in range(20_000):
        text = rng.choice(["count ", "sum a ", ""]) + " ".join(rng.choices(WORDS, k=rng.randrange(9)))
        try:
            bsi.ask(index, text)
            answered += 1
        except bsi.BadQuery:
            pass
    assert answered > 100


def test_random_values():
    rng = random.Random(2)
    kept = 0
    for _ in range(8_000):
        one = rng.choice(VALUES)
        values = [rng.choice([one, one, rng.choice(VALUES), None]) for _ in range(rng.randrange(1, 5))]
        try:
            index = bsi.Index.from_frame({"x": values})
        except bsi.Error:
            continue
        kept += 1
        kind = index.forms["x"].kind
        there, taken = index.rows(~bsi.col.x.isnull()), index.take(range(len(values)))["x"]
        assert [row for row, value in enumerate(taken) if value is not None] == there.tolist()
        for row in there:
            assert index.mask(bsi.col.x == values[row])[row] and kind.decode(kind.number(values[row])) == taken[row]
        if pandas:
            found = index.to_pandas()["x"]
            assert found.notna().tolist() == [value is not None for value in taken]
            assert all(one == value for one, value in zip(found, taken) if value is not None)
    assert kept > 800


def exact(value):
    """Returns a number exactly, or None where it is none."""
    if isinstance(value, np.timedelta64) or not isinstance(value, (int, float, Decimal, Fraction, np.number, np.bool_)):
        return None
    try:
        return Fraction(*(int(value) if isinstance(value, (np.integer, np.bool_)) else value).as_integer_ratio())
    except OverflowError:
        return math.inf if value > 0 else -math.inf
    except (AttributeError, ValueError):
        return None


def moment(value):
    """Returns a time without a zone, or None where it is none or finer than nanoseconds."""
    is_time = isinstance(value, datetime.date) and getattr(value, "tzinfo", None) is None
    found = np.datetime64(value) if is_time or isinstance(value, np.datetime64) else np.datetime64("NaT")
    return None if np.isnat(found) or np.datetime_data(found)[0] in ("ps", "fs", "as") else found


# A value of each column, and what makes a constant of it comparable.
STORED = {
    "n": (1, exact),
    "d": (Decimal("0.5"), exact),
    "t": (datetime.date(2026, 1, 1), moment),
    "f": (True, lambda value: bool(value) if isinstance(value, (bool, np.bool_)) else None),
    "s": ("a", lambda value: str(value) if isinstance(value, str) else None),
    "z": (None, exact),
}
SIGNS = {"=": "eq", "!=": "ne", "<": "lt", "<=": "le", ">": "gt", ">=": "ge"}


def test_random_constants():
    index, answered = bsi.Index.from_frame({name: [value] for name, (value, _) in STORED.items()}), 0
    # (an array of one number may be a constant, and may be none)
    constants = [value for value in VALUES if not isinstance(value, (bsi.Column, bsi.Predicate, np.ndarray))]
    for name, value, sign in itertools.product(STORED, constants, SIGNS):
        stored, made = STORED[name]
        constant = made(value)
        if constant is None:
            with pytest.raises(bsi.BadQuery):
                index.count(bsi.col[name]._compared(sign, value))
            continue
        wanted = stored is not None and getattr(operator, SIGNS[sign])(made(stored), constant)
        assert index.count(bsi.col[name]._compared(sign, value)) == wanted, (name, sign, value)
        answered += 1
    assert answered > 400


OPTIONS = {
    "bad": ["skip", "refuse"],
    "decimal": [",", "."],
    "dates": ["%d.%m.%Y", "%Y-%m-%d", {"a": "%H"}],
    "round": [0, 2, {"b": 1}],
    "nulls": [("",), ("", "x", "-"), ()],
    "quotechar": ["'", None, '"'],
    "delimiter": [",", ";", "\t", "é", " "],
    "header": [0, None, "infer"],
    "names": [["a", "b"], ("b",), ["", "a", "b"]],
    "skiprows": [0, 1],
    "parts": [1, 2],
    "spare": [0, 5],
    "encoding": ["latin-1", "utf-16", "utf-8"],
    "kinds": [{"a": bsi.Texts}, {"a": bsi.Whole(), "b": bsi.Times("D")}, {"b": bsi.Flags()}, {"a": bsi.Decimals(1)}],
    "forms": [{"a": bsi.slices(2)}, {"b": bsi.equality(3, offset=-1)}],
}


def test_random_files(tmp_path, monkeypatch):
    rng = random.Random(3)
    path, read = tmp_path / "rows.csv", 0
    for turn in range(4_000):
        monkeypatch.setattr("bsi.reading.FIRST", rng.choice([9, 1 << 16]))
        monkeypatch.setattr("bsi.reading.RUN", rng.choice([9, 1 << 16]))
        names = rng.sample(sorted(OPTIONS), rng.randrange(4)) if turn % 2 else []
        more = {name: rng.choice(OPTIONS[name]) for name in names}
        lines = ["a,b"] + [f"{rng.choice(PIECES)},{rng.choice(PIECES)}" for _ in range(rng.randrange(4))]
        text = "\n".join(lines) if rng.random() < 0.6 else "".join(rng.choices(PIECES, k=rng.randrange(12)))
        path.write_bytes(text.encode() if rng.random() < 0.9 else bytes(rng.randrange(256) for _ in range(20)))
        try:
            read += len(bsi.read_csv(path, **more)) >= 0
        except bsi.Error:
            pass
    assert read > 500
