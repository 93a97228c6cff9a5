"""What an index says of itself, what it refuses, and that a refusal changes nothing."""

import copy
import datetime
import zoneinfo
import pickle
from decimal import Context, Decimal
from fractions import Fraction

import numpy as np
import pytest

import bsi
import model
from bsi import col


def small(**more):
    index = bsi.Index(
        {"price": bsi.slices(20), "temp": bsi.range(10, 10, 10, offset=-400), "day": bsi.equality(7)}, **more
    )
    index.append({"price": [100, 250, None, 7], "temp": [-400, 599, 0, None], "day": [0, 6, 3, 3]})
    return index


def test_the_first_example():
    index, p = small(), col.price
    assert index.count((p < 200) & ~col.temp.isnull()) == 1
    assert (index.sum("price", p >= 5), index.median("temp"), index.least("temp", ~p.isnull())) == (357, 0, -400)
    assert (index.greatest("price"), index.rows(p == 7).tolist(), index.mask(p == 7).tolist()) == (
        250,
        [3],
        [False, False, False, True],
    )
    assert index.median("temp", p == 7) is None and index.least(p, p > 250) is None and index.sum("price", p > 250) == 0


def test_it_says_what_it_is():
    index = small()
    assert repr(index).splitlines()[0].startswith("Index of 4 rows, about ")
    assert "temp   range(10, 10, 10, offset=-400)  whole numbers, from -400 to 599" in repr(index)
    assert index.columns == ["price", "temp", "day"] and str(index.forms["day"]) == "equality(7)"
    assert index.schema == "column,price,slices,20\ncolumn,temp,range,10 10 10,-400\ncolumn,day,equality,7\n"
    index.close()
    assert "closed" in repr(index)


def test_names_that_the_library_does_not_take():
    names = ["Amount (EUR)", "c0", "all", "größe", "", "c2", "x" * 40]
    index = bsi.Index({name: bsi.slices(4) for name in names})
    index.append({name: [place] for place, name in enumerate(names)})
    assert [index.greatest(name) for name in names] == list(range(7))
    assert all(index.count(col[name] == place) == 1 for place, name in enumerate(names))


def test_rows_that_do_not_fit_change_nothing():
    index = small(limit=6)
    for column, values, row, why in (
        ("price", [1, 1 << 20], 1, "1,048,576 is not from 0 to 1,048,575"),
        ("temp", [-401, 0], 0, "-401 is not from -400 to 599"),
        ("day", [6, 7], 1, "7 is not from 0 to 6"),
        ("day", [6, 2.5], 1, "2.5 is no whole number"),
    ):
        with pytest.raises(bsi.BadRow) as refused:
            index.append({"price": [0, 0], "temp": [0, 0], "day": [0, 0], column: values})
        assert str(refused.value) == f"column {column!r}, row {row}: {why}" and len(index) == 4
    with pytest.raises(bsi.IndexFull, match="row 2 is past the limit of 6 rows") as refused:
        index.append({"price": [0] * 3, "temp": [0] * 3, "day": [0] * 3})
    assert refused.value.row == 2 and len(index) == 4 and index.count(col.price == 0) == 0
    assert index.append({"price": [0] * 2, "temp": [0] * 2, "day": [0] * 2}) == 2


@pytest.mark.parametrize(
    "data, why",
    [
        ({"price": [1], "temp": [1]}, "missing columns: 'day'"),
        ({"price": [1], "temp": [1], "day": [1], "more": [1]}, "unknown columns: 'more'"),
        ({"price": [1], "tmp": [1], "day": [1]}, "missing columns: 'temp'; unknown columns: 'tmp'; the index has"),
        ({"price": [1], "temp": [1, 2], "day": [1]}, "'temp' 2"),
        ({"price": [1], "temp": [1], "day": np.zeros((1, 1))}, "one dimension"),
        ({}, "missing columns: 'day', 'price', 'temp'; the index has 'price', 'temp', 'day'"),
        ([1, 2, 3], "a dict of columns"),
    ],
)
def test_columns_that_differ(data, why):
    index = small()
    with pytest.raises((bsi.BadColumns, bsi.BadRow), match=why):
        index.append(data)
    assert len(index) == 4


@pytest.mark.parametrize(
    "columns, why",
    [
        ({}, "needs a column"),
        ({"a": 5}, "slices"),
        ({5: bsi.slices(1)}, "by name"),
        ({"a": bsi.slices(5), "b": bsi.slices(0)}, r"column 'b' can't be stored as slices\(0\)"),
        ({"a": bsi.slices(64)}, "1 to 63 slices"),
        ({"a": bsi.slices(-1)}, r"slices\(-1\): 1 to 63 slices"),
        ({"a": bsi.equality()}, "bases of 2 to 1,024"),
        ({"a": bsi.range(10, 1)}, "bases of 2 to 1,024"),
        ({"a": bsi.range(*[1024] * 7)}, "product of at most"),
        ({"a": bsi.slices(63, offset=1)}, "within 64 bits"),
        ({"a": bsi.slices(5, offset=-(2**63) - 1)}, "within 64 bits"),
        ({f"a{number}": bsi.slices(1) for number in range(65)}, "at most 64 columns"),
    ],
)
def test_schemas_that_are_none(columns, why):
    with pytest.raises(bsi.BadSchema, match=why):
        bsi.Index(columns)


def test_limits():
    for limit in (0, -1, 2**32 + 1, 2.5, "5"):
        for make in (bsi.Index, lambda columns, limit: bsi.Parts(2, columns, limit=limit)):
            with pytest.raises(bsi.BadSchema, match="the limit is 1 to"):
                make({"a": bsi.slices(1)}, limit=limit)
    assert bsi.Index({"a": bsi.slices(1)}, limit=2**32).limit == bsi.Index({"a": bsi.slices(1)}).limit == 2**32


def test_constants_are_compared_exactly():
    index = bsi.Index({"x": bsi.slices(4, offset=-8), "c": bsi.slices(6, kind=bsi.Decimals("0.1"))})
    index.append({"x": [-8, -1, 0, 2, 3, 7, None], "c": [0, Decimal("0.2"), 0.3, 0.4, 5, 6.3, None]})
    x, c = col.x, col.c
    for where, rows in (
        (x < 2.5, [0, 1, 2, 3]),
        (x <= 2.5, [0, 1, 2, 3]),
        (x > 2.5, [4, 5]),
        (x >= 2.5, [4, 5]),
        (x == 2.5, []),
        (x != 2.5, [0, 1, 2, 3, 4, 5]),
        (x < Fraction(-1, 2), [0, 1]),
        (x >= Decimal("-8.0"), [0, 1, 2, 3, 4, 5]),
        (x < 10**30, [0, 1, 2, 3, 4, 5]),
        (x > -(10**30), [0, 1, 2, 3, 4, 5]),
        (x < -9, []),
        (x <= -8, [0]),
        (x < -8, []),
        (x > 7, []),
        (x >= 8, []),
        (x <= 8, [0, 1, 2, 3, 4, 5]),
        (x == 99, []),
        (x != 99, [0, 1, 2, 3, 4, 5]),
        (x < float("inf"), [0, 1, 2, 3, 4, 5]),
        (x <= -np.inf, []),
        (x == np.inf, []),
        (x == np.int8(2), [3]),
        (x == np.float32(2), [3]),
        (x == True, []),
        (np.int64(2) <= x, [3, 4, 5]),
        (2.5 > x, [0, 1, 2, 3]),
        (x < Decimal("1e999999"), [0, 1, 2, 3, 4, 5]),
        (x <= Decimal("-1e-999999"), [0, 1]),
        (x < 2.0**60 + 1, [0, 1, 2, 3, 4, 5]),
        (x.between(-1, 2), [1, 2, 3]),
        (x.isin([7, -8, 50]), [0, 5]),
        (x.isin([]), []),
        (x.notnull() & x.isnull(), []),
        (c < 0.3, [0, 1]),
        (c == 0.3, [2]),
        (c <= Decimal("0.25"), [0, 1]),
        (c == 0.25, []),
        (c == Fraction(1, 3), []),
        (c > Fraction(1, 3), [3, 4, 5]),
        (c < 1, [0, 1, 2, 3]),
        (c == 6.3, [5]),
        (c > 6.35, []),
        (c != 0.31, [0, 1, 2, 3, 4, 5]),
        (c == np.float32(0.3), [2]),
        (c >= Decimal("Infinity"), []),
    ):
        assert index.rows(where).tolist() == rows, where
    assert index.sum("c") == Decimal("12.2") and str(index.sum("c", c > 7)) == "0.0"


@pytest.mark.parametrize(
    "constant",
    [
        None,
        "5",
        b"5",
        float("nan"),
        Decimal("nan"),
        Decimal("sNaN"),
        1j,
        [1],
        np.array([1, 2]),
        object(),
        np.datetime64(5, "D"),
    ],
)
def test_constants_that_are_none(constant):
    with pytest.raises(bsi.BadQuery, match="column 'price' is compared with one of whole numbers"):
        small().count(col.price < constant)


def test_predicates_never_change():
    where = (col.price < 5) & ~col["Amount (EUR)"].isnull() | bsi.all_rows
    assert repr(where) == "(((col.price < 5) & ~col['Amount (EUR)'].isnull()) | all_rows)"
    assert pickle.loads(pickle.dumps(where)) == where == copy.deepcopy(where) and len({where, where}) == 1
    with pytest.raises(AttributeError):
        where.terms = ()
    with pytest.raises(AttributeError):
        col.price.name = "x"
    for wrong in (
        lambda: 1 < col.price < 5,
        lambda: not where,
        lambda: where and where,
        lambda: where & True,
        lambda: where | 5,
    ):
        with pytest.raises(TypeError):
            wrong()
    with pytest.raises(TypeError, match="a predicate is made of bsi.col"):
        small().sum("price", "price < 5")
    with pytest.raises(bsi.BadQuery, match="there is no column 'price < 5'"):
        small().count("price < 5")
    with pytest.raises(TypeError):
        col[5]


def test_a_column_is_no_truth():
    for wrong in (lambda: col.flag and (col.x < 3), lambda: not col.flag, lambda: col.a or col.b):
        with pytest.raises(TypeError, match="a column is neither true nor false"):
            wrong()


def test_a_text_is_no_list():
    for text in ("Meyer", b"Meyer"):
        with pytest.raises(TypeError, match="a list of constants, not a text"):
            col.who.isin(text)
    with pytest.raises(TypeError, match="and not one text"):
        bsi.Texts("abc")


def test_columns_of_booleans():
    index = bsi.Index.from_frame({"flag": [True, False, None, True], "x": [1, 2, 3, 4]})
    for where, rows in (
        (~col.flag, [1, 2]),
        (col.flag & (col.x < 3), [0]),
        ((col.x > 1) & col.flag, [3]),
        (col.flag | (col.x == 2), [0, 1, 3]),
        (col.flag & ~col.flag, []),
        (col.flag.holds(), [0, 3]),
    ):
        assert index.rows(where).tolist() == rows, where
    assert repr(~col.flag & (col.x < 3)) == "(~col.flag & (col.x < 3))"
    assert pickle.loads(pickle.dumps(~col.flag)) == ~col.flag
    with pytest.raises(bsi.BadQuery, match="column 'x' holds whole numbers: only one of booleans is a predicate"):
        index.count(~col.x)


def test_isin_of_many_constants():
    index = bsi.Index.from_frame({"x": [*range(2000), None], "t": [f"{number % 1000:04}" for number in range(2001)]})
    assert index.count(col.x.isin(range(5, 1500))) == 1495 and index.count(col.x.isin(range(-5, 9999))) == 2000
    assert index.count(col.x.isin([7, 7.0, Decimal(8), 9, 2.5, 10**30, -1])) == 3
    assert index.rows(~col.x.isin(np.arange(1, 2000))).tolist() == [0, 2000]
    assert index.count(col.t.isin({f"{number:04}" for number in range(1000)} | {"none"})) == 2001
    assert repr(col.x.isin([1, 2])) == "col.x.isin([1, 2])" and col.x.isin([1]) == col.x.isin((1,))
    assert pickle.loads(pickle.dumps(col.x.isin([1, 2]))) == col.x.isin([1, 2])
    with pytest.raises(bsi.BadQuery, match="'a' is no number"):
        index.count(col.x.isin([1, "a"]))


def test_lists_that_are_longer_than_a_question():
    x = np.random.default_rng(6).integers(-3000, 3000, 4000)
    data = {"x": np.ma.MaskedArray(x, x % 7 == 0), "y": np.arange(4000)}
    index, evens = bsi.Index.from_frame(data), np.arange(-2999, 3000, 2)
    rows = (x % 2 == 1) & (x % 7 != 0)
    assert index.count(col.x.isin(evens)) == rows.sum() and index.sum("y", ~col.x.isin(evens)) == data["y"][~rows].sum()
    many = col.y != 5
    for _ in range(248):
        many = many & (col.y != 5)
    with pytest.raises(bsi.BadQuery, match="at most 1,000 fields .* and this one 1,007"):
        index.count(many & col.x.isin([1, 3]))


@pytest.mark.parametrize("room", [60, 100])
def test_lists_that_are_longer_than_a_question_beside_plain_python(room, monkeypatch):
    monkeypatch.setattr("bsi.queries.MAX_FIELDS", room)
    rng = np.random.default_rng(room)
    x, there, y = rng.integers(-30, 30, 300), rng.random(300) < 0.9, rng.integers(0, 500, 300)
    texts = np.array([f"{number:02}" for number in rng.integers(0, 25, 300)])
    data = {"x": np.ma.MaskedArray(x, ~there), "t": texts, "y": y}
    forms = bsi.Index.from_frame(data).forms
    grows = forms["t"].of(bsi.Texts(tuple(rng.permutation(sorted(set(texts)))), grows=True))
    odds, some = list(range(-29, 30, 2)), {f"{number:02}" for number in range(0, 25, 3)}
    in_x, in_t = np.isin(x, odds) & there, np.isin(texts, list(some))
    for table in (bsi.Index(forms), bsi.Parts(3, forms), bsi.Index({**forms, "t": grows})):
        table.append(data)
        for where, rows in (
            (col.x.isin(odds), in_x),
            (~col.x.isin(odds), ~in_x),
            (~col.x.isin(odds) & (col.x < 20) | col.x.isnull(), ~in_x & (x < 20) | ~there),
            (col.x.isin(odds) & ~col.t.isin(some), in_x & ~in_t),
            (col.x.isin(odds) | col.x.isin([2]) & (col.t < "07"), in_x | (x == 2) & there & (texts < "07")),
            (col.x.isin(odds) & (col.y < 0), in_x & (y < 0)),
        ):
            assert table.mask(where).tolist() == rows.tolist() and table.count(where) == rows.sum()
            assert table.rows(where).tolist() == np.flatnonzero(rows).tolist()
            found, words = sorted(y[rows].tolist()), sorted(texts[rows].tolist())
            at = (len(found) - 1) // 2
            assert table.sum("y", where) == sum(found) and list(table.values_in("y", where)) == sorted(set(found))
            ends = [found[0], found[-1], found[at], words[0], words[at]] if found else [None] * 5
            asked = [table.min("y", where), table.max("y", where), table.median("y", where)]
            assert [*asked, table.min("t", where), table.median("t", where)] == ends
            assert table.quantile("y", 1, where) == ends[1] and dict(table.value_counts("t", where)) == {
                word: words.count(word) for word in words
            }


def test_constants_on_the_left():
    index = bsi.Index.from_frame({"t": np.array(["2026-01-31", "2026-02-01"], "M8[D]"), "f": [True, False]})
    assert index.count(np.datetime64("2026-02-01") <= col.t) == 1 and index.count(np.bool_(True) == col.f) == 1


def test_names_that_pandas_has():
    rng = np.random.default_rng(3)
    x, there = rng.integers(-500, 500, 777), rng.random(777) < 0.8
    columns = {"x": bsi.slices(10, offset=-500), "d": bsi.slices(10, offset=-500, kind=bsi.Decimals(1))}
    for index in (bsi.Index(columns), bsi.Parts(3, columns)):
        index.append({"x": np.ma.MaskedArray(x, ~there), "d": [Decimal(int(number)).scaleb(-1) for number in x]})
        for where, rows in ((bsi.all_rows, x >= -500), (col.x < 100, (x < 100) & there), (col.x > 500, x > 500)):
            found = x[rows & there]
            assert index.count("x", where) == index.count(col.x, where) == len(found)
            assert index.mean("x", where) == (found.mean() if len(found) else None)
            wanted = [int(found.min()), int(found.max())] if len(found) else [None, None]
            assert [index.min("x", where), index.max("x", where)] == wanted
            parts = [0, 0.05, 0.25, 0.5, 0.95, 1]
            wanted = np.quantile(found, parts, method="lower").tolist() if len(found) else [None] * 6
            assert index.quantile("x", parts, where) == wanted and index.quantile("x", 0.5, where) == wanted[3]
        assert index.mean("d") == sum(Decimal(int(number)) for number in x).scaleb(-1) / 777
        with pytest.raises(ValueError, match="from 0 to 1"):
            index.quantile("x", 1.5)


def test_quantiles_are_those_of_numpy():
    rng = np.random.default_rng(8)
    for count in (1, 2, 11, 20, 21, 101, 200):
        x = rng.integers(-500, 500, count)
        index = bsi.Index.from_frame({"x": x, "d": [Decimal(int(number)).scaleb(-1) for number in x]})
        parts = [*(place / 20 for place in range(21)), 0.29, 0.07, np.float32(0.3), np.array(0.7), Decimal("0.3")]
        floats = [float(part) for part in parts]
        assert index.quantile("x", parts[:-1]) == np.quantile(x, floats[:-1], method="lower").tolist()
        found = index.quantile("x", parts, interpolation="linear")
        assert set(map(type, found)) == {float} and np.allclose(found, np.quantile(x, floats), rtol=1e-7, atol=1e-4)
        assert np.allclose(found[:21], np.quantile(x, floats[:21]), rtol=1e-13, atol=1e-12)
        for part, value in zip(parts[:21], index.quantile("d", parts[:21], interpolation="linear")):
            place = (count - 1) * Fraction(str(part))
            low, high = (Fraction(int(np.sort(x)[min(at, count - 1)])) for at in (place // 1, place // 1 + 1))
            assert type(value) is Decimal and Fraction(value) == (low + (high - low) * (place % 1)) / 10
    assert index.quantile("x", (part for part in (0, 1))) == [x.min(), x.max()] == index.quantile("x", range(2))
    assert index.quantile("x", [], interpolation="linear") == [] and index.quantile("x", 0.5, col.x > 999) is None


def test_quantiles_between_times():
    days = [datetime.datetime(2026, 1, 1), datetime.datetime(2026, 1, 2)]
    zoned = [day.replace(tzinfo=datetime.timezone.utc) for day in days]
    fine = np.array([0, 5], "M8[ns]")
    index = bsi.Index.from_frame({"d": days, "z": zoned, "f": fine, "b": [True, False], "t": ["a", "b"]})
    assert index.quantile("d", 0.25, interpolation="linear") == datetime.datetime(2026, 1, 1, 6)
    wanted = datetime.datetime(2026, 1, 1, 12, tzinfo=datetime.timezone.utc)
    assert index.quantile("z", [0, 0.5], interpolation="linear") == [zoned[0], wanted]
    assert index.quantile("f", 0.6, interpolation="linear") == np.datetime64(3, "ns")
    for name in "bt":
        with pytest.raises(bsi.BadQuery, match=f"column '{name}': .* have none between them"):
            index.quantile(name, 0.5, interpolation="linear")


@pytest.mark.parametrize(
    "q, kind, why",
    [
        ("0.5", TypeError, "a number from 0 to 1, and not '0.5'"),
        (["0.5"], TypeError, "a number from 0 to 1"),
        (None, TypeError, "a number from 0 to 1, and not None"),
        (True, TypeError, "a number from 0 to 1"),
        (np.timedelta64(1, "s"), TypeError, "a number from 0 to 1"),
        (float("nan"), ValueError, "is from 0 to 1, and not nan"),
        (Decimal("sNaN"), ValueError, "is from 0 to 1"),
        (1.5, ValueError, "is from 0 to 1, and not 1.5"),
    ],
)
def test_quantiles_that_are_none(q, kind, why):
    with pytest.raises(kind, match=why):
        small().quantile("price", q)
    with pytest.raises(ValueError, match="interpolation is 'lower' or 'linear', and not 'higher'"):
        small().quantile("price", 0.5, interpolation="higher")


def grouped(rows, names, where, figure):
    """Returns a figure of the rows by the values of a column, or the pairs of values of two, as plain Python has it."""
    found = {}
    for row in rows:
        values = tuple(row[name] for name in names)
        if None not in values and where(row):
            found.setdefault(values[0] if len(values) == 1 else values, []).append(row)
    return {key: figure([row["n"] for row in found[key] if row["n"] is not None]) for key in sorted(found)}


FIGURES = (
    ("sum", sum),
    ("least", lambda numbers: min(numbers, default=None)),
    ("max", lambda numbers: max(numbers, default=None)),
    ("mean", lambda numbers: sum(numbers) / len(numbers) if numbers else None),
    ("median", lambda numbers: sorted(numbers)[(len(numbers) - 1) // 2] if numbers else None),
    ("count", len),
)
CHOICES = ((bsi.all_rows, lambda row: True), (col.w > 0, lambda row: row["w"] > 0))


def random_columns(seed):
    rng = np.random.default_rng(seed)
    return {
        "t": [None if word == "x" else str(word) for word in rng.choice(["a", "b", "c", "x"], 300)],
        "f": [None if number == 0 else bool(number - 1) for number in rng.integers(0, 3, 300)],
        "w": rng.choice([-5, 7, 10**9], 300).tolist(),
        "c": [Decimal(int(number)).scaleb(-1) for number in rng.integers(-3, 3, 300)],
        "d": [datetime.datetime(2026, 1, 1) + datetime.timedelta(days=int(day)) for day in rng.integers(0, 5, 300)],
        "n": [None if number > 90 else int(number) for number in rng.integers(-20, 100, 300)],
    }


@pytest.mark.parametrize("seed", range(4))
def test_groups_beside_plain_python(seed):
    data = random_columns(seed)
    rows = [dict(zip(data, row)) for row in zip(*data.values())]
    for index in (bsi.Index.from_frame(data), bsi.Index.from_frame(data, spare=2), bsi.Parts.from_frame(3, data)):
        for name in "tfwcd":
            by = index.groupby(name)
            for predicate, where in CHOICES:
                for word, figure in FIGURES:
                    assert getattr(by, word)("n", predicate) == grouped(rows, [name], where, figure), (name, word)
                counts = index.value_counts(name, predicate)
                wanted = {value: sum(row[name] == value and where(row) for row in rows) for value in counts}
                assert counts == wanted == by.count(predicate)
                assert list(counts.values()) == sorted(counts.values(), reverse=True)


@pytest.mark.parametrize("seed", range(4))
def test_groups_of_two_columns_beside_plain_python(seed):
    data = random_columns(seed)
    rows = [dict(zip(data, row)) for row in zip(*data.values())]
    for index in (bsi.Index.from_frame(data), bsi.Index.from_frame(data, spare=2), bsi.Parts.from_frame(3, data)):
        for names in (["t", "f"], ("w", "c"), ["d", "t"], [col.f, "w"], ["c", "c"]):
            by, plain = index.groupby(names), [getattr(name, "name", name) for name in names]
            for predicate, where in CHOICES:
                for word, figure in FIGURES:
                    found, wanted = getattr(by, word)("n", predicate), grouped(rows, plain, where, figure)
                    assert list(found.items()) == list(wanted.items()), (names, word)
                pairs = [tuple(row[name] for name in plain) for row in rows if where(row)]
                wanted = {pair: pairs.count(pair) for pair in sorted(pair for pair in set(pairs) if None not in pair)}
                assert list(by.count(where=predicate).items()) == list(wanted.items())


def test_groups_of_answers_that_are_no_constants():
    times = np.array(["2026-01-31T12:00:00.000000001", "2026-01-31", "2026-01-31"], "M8[ns]")
    index = bsi.Index({"t": bsi.slices(63, kind=bsi.Times("ns", datetime.timezone.utc)), "n": bsi.slices(3)})
    index._store.append([(times.view("i8"), None), (np.array([5, 2, 3]), None)])
    assert index.groupby("t").sum("n") == {times[1]: 5, times[0]: 5}
    assert index.value_counts("t", col.n > 2) == {times[1]: 1, times[0]: 1}


def test_groups_by_a_long_predicate():
    numbers = list(range(3000))
    index = bsi.Index.from_frame({"n": numbers, "t": ["a", "b", "c"] * 1000})
    odd = col.n.isin(numbers[1::2])
    wanted = {word: sum(number for number in numbers[place::3] if number % 2) for place, word in enumerate("abc")}
    assert index.groupby("t").sum("n", odd) == wanted
    assert index.value_counts("t", odd) == {"a": 500, "b": 500, "c": 500}


def test_groups_and_nulls():
    index = bsi.Index.from_frame({"n": [None, 3, None, 3, -7], "m": [1, 2, 4, None, None]})
    assert index.groupby("n").sum("m") == {-7: 0, 3: 2} and index.groupby("n").count() == {-7: 1, 3: 2}
    assert index.groupby("n").least("m") == {-7: None, 3: 2} and index.groupby("n").median("m") == {-7: None, 3: 2}
    assert index.groupby("m").count(col.n.isnull()) == {1: 1, 4: 1} and index.groupby("n").count(col.m > 9) == {}


def test_groups_that_are_many():
    index = bsi.Index.from_frame({"n": range(5000), "t": ["a", "b"] * 2500})
    with pytest.raises(bsi.BadQuery, match="column 'n' has more than 4,096 values"):
        index.groupby("n").count()
    pandas = pytest.importorskip("pandas")
    series = index.groupby(col.t).max("n").to_pandas()
    assert series.to_dict() == {"a": 4998, "b": 4999} and series.index.name == "t"
    assert isinstance(series, pandas.Series)


def test_groups_of_two_columns_and_nulls():
    index = bsi.Index.from_frame({"n": [None, 3, None, 3, -7, 3], "m": [1, 2, 4, None, None, 2], "k": [1, 2, 3, 4, 5, None]})
    pairs = index.groupby(["n", "m"])
    assert pairs.count() == {(3, 2): 2} and pairs.sum("k") == {(3, 2): 2} and pairs.least("k", col.k > 2) == {}
    assert index.groupby(["k", "n"]).count() == {(2, 3): 1, (4, 3): 1, (5, -7): 1}
    assert index.groupby(["n", "m"]).median("k", col.k.isnull()) == {(3, 2): None}


def test_groups_of_two_columns_that_are_many():
    numbers = list(range(5000))
    index = bsi.Index.from_frame({"n": [number // 50 for number in numbers], "m": [number % 50 for number in numbers]})
    with pytest.raises(bsi.BadQuery, match="columns 'n' and 'm' have more than 4,096 pairs of values in these rows"):
        index.groupby(["n", "m"]).count()
    some = index.groupby(["n", "m"]).sum("m", col.n < 81)
    assert len(some) == 4050 and list(some)[:2] == [(0, 0), (0, 1)] and some[80, 49] == 49


def test_groups_of_two_columns_by_a_long_predicate():
    numbers = list(range(3000))
    index = bsi.Index.from_frame({"n": numbers, "t": ["a", "b", "c"] * 1000, "k": [number // 1500 for number in numbers]})
    found = index.groupby(["t", "k"]).count(where=col.n.isin(numbers[1::2]))
    assert found == {(word, half): 250 for word in "abc" for half in (0, 1)}


def test_groups_of_two_columns_as_pandas_has_them():
    pandas = pytest.importorskip("pandas")
    frame = pandas.DataFrame({"t": ["a", "b", "a", "a"], "n": [2, 1, 1, 2], "m": [5, 6, 7, 8]})
    series = bsi.Index.from_frame(frame).groupby(["t", "n"]).sum("m").to_pandas()
    wanted = frame.groupby(["t", "n"])["m"].sum()
    assert list(series.items()) == list(wanted.items()) == [(("a", 1), 7), (("a", 2), 13), (("b", 1), 6)]
    assert isinstance(series.index, pandas.MultiIndex) and list(series.index.names) == ["t", "n"]


@pytest.mark.parametrize("parts", [1, 3])
def test_room_to_grow(parts):
    rng, words = np.random.default_rng(parts), [f"w{number:02}" for number in range(40)]
    frames = [{"t": rng.choice(words[k % 3 :: 3], 50).tolist(), "n": rng.integers(0, 9 << k, 50)} for k in range(4)]
    make = bsi.Index.from_frame if parts == 1 else lambda frame, **more: bsi.Parts.from_frame(parts, frame, **more)
    index = make(frames[0], spare=5)
    for frame in frames[1:]:
        index.append(frame)
    texts, numbers = sum((frame["t"] for frame in frames), []), np.concatenate([frame["n"] for frame in frames])
    assert index.sum("n") == numbers.sum() and index.count(col.n > 20) == (numbers > 20).sum()
    for text in [*words[::5], "", "w055", "zebra"]:
        for where, rows in (
            (col.t == text, [one == text for one in texts]),
            (col.t != text, [one != text for one in texts]),
            (col.t < text, [one < text for one in texts]),
            (col.t >= text, [one >= text for one in texts]),
            (col.t.isin([text, "w01"]) & (col.n > 3), [one in (text, "w01") for one in texts] & (numbers > 3)),
        ):
            assert index.mask(where).tolist() == list(rows), where
            found = sorted(one for one, is_there in zip(texts, rows) if is_there)
            ends = [found[0], found[-1], found[(len(found) - 1) // 2]] if found else [None] * 3
            assert [index.least("t", where), index.greatest("t", where), index.median("t", where)] == ends
    with pytest.raises(bsi.BadRow, match="row [0-9]+: 'x[0-9]+' is not one of its"):
        index.append({"t": [f"x{number}" for number in range(2000)], "n": [0] * 2000})
    assert len(index) == 200 and index.append({"t": ["new", None], "n": [None, 1]}) == 2
    assert index.greatest("t") == "w39" and index.least("t") == "new"


@pytest.mark.parametrize("seed", range(4))
def test_room_to_grow_of_decimals_and_times(seed):
    rng, zone = np.random.default_rng(seed), zoneinfo.ZoneInfo("Europe/Paris")
    start, count = datetime.datetime(2026, 1, 1), 30

    def frame(far):
        cents, days, seconds = (rng.integers(-far, far, count, endpoint=True).tolist() for _ in range(3))
        # (each frame has a value of the last place, and the first one its ends)
        cents[:3], days[:2], seconds[:2] = (1, -far, far), (-far, far), (-far, far)
        moments = [start + datetime.timedelta(seconds=number) for number in seconds]
        return {
            "d": [Decimal(number).scaleb(-2) for number in cents],
            "day": [start + datetime.timedelta(days=number) for number in days],
            "at": moments,
            "zone": [moment.replace(tzinfo=datetime.timezone.utc).astimezone(zone) for moment in moments],
            "f": [number / 100 for number in cents],
        }

    # (three bits more keep numbers from about eight times as far below as above)
    frames = [frame(100), *(frame(int(far)) for far in rng.integers(10, 800, 3))]
    index, parts = bsi.Index.from_frame(frames[0], spare=3), bsi.Parts.from_frame(2, frames[0], spare=3)
    for table in (index, parts):
        assert [table.append(one) for one in frames[1:]] == [count] * 3
        for name in frames[0]:
            values = [value for one in frames for value in one[name]]
            values = [Decimal(str(value)) for value in values] if name == "f" else values
            cut = values[int(rng.integers(len(values)))]
            below = sorted(value for value in values if value < cut)
            where = col[name] < cut
            assert table.count(where) == len(below) and [table.min(name), table.max(name)] == [min(values), max(values)]
            assert table.median(name, where) == (below[(len(below) - 1) // 2] if below else None)
    far = {**frames[0], "d": [Decimal(10**6)] * count, "at": [start + datetime.timedelta(days=900)] * count}
    with pytest.raises(bsi.BadRow, match="(?s)column 'd', row 0: .* is not from .*column 'at', row 0: .* is not from"):
        index.append(far)
    assert len(index) == 4 * count


def test_frames_of_an_ordered_category_follow_each_other():
    pandas = pytest.importorskip("pandas")
    dtype = pandas.CategoricalDtype(["low", "mid", "high"], ordered=True)
    frames = [pandas.DataFrame({"x": pandas.Series(words, dtype=dtype)}) for words in (["low"], ["high", None], ["mid"])]
    index = bsi.Index.from_frame(frames[0])
    assert [index.append(frame) for frame in frames[1:]] == [2, 1] and index.rows(col.x > "low").tolist() == [1, 3]
    more = pandas.DataFrame({"x": pandas.Series(["top"], dtype=pandas.CategoricalDtype([*dtype.categories, "top"], True))})
    with pytest.raises(bsi.BadRow, match="column 'x', row 0: 'top' is not one of the texts, whose order was given"):
        index.append(more)


def test_a_list_of_texts_that_is_given_is_taken_as_a_whole():
    index = bsi.Index.from_frame({"x": ["b"]}, kinds={"x": bsi.Texts(["c", "a", "b", "d"])})
    assert index.append({"x": ["d", "a", "c", "b"]}) == 4 and index.rows(col.x >= "c").tolist() == [1, 3]


def test_a_frame_that_follows_without_spare_bits():
    index = bsi.Index.from_frame({"t": ["a", "b"], "n": [1, 2]})
    with pytest.raises(bsi.BadRow, match="column 't', row 1: 'c' is not one of its 2 texts; spare= leaves room for more"):
        index.append({"t": ["a", "c"], "n": [1, 2]})


def test_an_order_by_the_dtype_of_a_category():
    pandas = pytest.importorskip("pandas")
    dtype = pandas.CategoricalDtype(["low", "mid", "high"], ordered=True)
    index = bsi.Index.from_frame({"x": ["high", "low"]}, kinds={"x": dtype})
    assert index.greatest("x") == "high" and index.count(col.x >= "mid") == 1
    assert index.append({"x": pandas.Series(["mid"], dtype=dtype)}) == 1
    for categories, why in (
        (None, "column 'x': its dtype has no categories, but needs a list of texts"),
        ([], "column 'x': its dtype has no categories"),
        ([1, 2], r"column 'x': its dtype has the categories \[1, 2\], but needs a list of texts"),
    ):
        with pytest.raises(bsi.BadSchema, match=why):
            bsi.Index.from_frame({"x": ["high"]}, kinds={"x": pandas.CategoricalDtype(categories)})


def test_a_summary():
    data = {"n": [1, 2, 4, None], "ok": [True, True, False, None], "t": ["b", "a", None, "<i>"]}
    index = bsi.Index.from_frame({**data, "day": np.array(["2026-01-31"] * 4, "M8[D]")})
    found = index.describe()
    spread = float(deviation([1, 2, 4]))
    assert found["n"] == {"count": 3, "mean": 7 / 3, "std": spread, "min": 1, "25%": 1, "50%": 2, "75%": 2, "max": 4}
    assert found["ok"]["mean"] == 2 / 3 and found["t"]["min"] == "<i>" and "mean" not in found["t"]
    lines = repr(index.describe(["n", "day"], col.n > 1)).splitlines()
    assert lines[0].split() == ["n", "day"] and lines[-1].split() == ["max", "4", "2026-01-31"] and len(lines) == 9
    assert "<td>&lt;i&gt;</td>" in found._repr_html_() and "<td>equality(3)</td>" in index._repr_html_()
    pandas = pytest.importorskip("pandas")
    assert found.to_pandas().loc["max", "n"] == 4 and isinstance(found.to_pandas(), pandas.DataFrame)
    with pytest.raises(bsi.BadQuery, match="count\\('ok'\\) counts its values, and count\\(col.ok == True\\)"):
        index.count(col.ok)
    assert index.count("ok") == 3 and index.count(where=col.n > 1) == 2 and index.count(col.n > 1, col.n < 3) == 1
    assert index.describe("day") == {"day": found["day"]} and index.describe(col.n)["n"] == found["n"]


def test_a_summary_beside_pandas():
    pandas = pytest.importorskip("pandas")
    rng = np.random.default_rng(4)
    day = pandas.Timestamp("2026-01-01") + pandas.to_timedelta(rng.integers(0, 400, 90), unit="D")
    frame = pandas.DataFrame({"n": rng.integers(-50, 50, 90), "x": rng.integers(0, 500, 90) / 4, "day": day})
    frame.loc[rng.random(90) < 0.2, "x"] = np.nan
    found = bsi.Index.from_frame(frame).describe(interpolation="linear")
    for name in frame:
        wanted = {"count": frame[name].count(), "mean": frame[name].mean()}
        wanted.update({} if name == "day" else {"std": frame[name].std()}, min=frame[name].min())
        wanted.update({f"{part}%": frame[name].quantile(part / 100) for part in (25, 50, 75)}, max=frame[name].max())
        assert list(found[name]) == list(wanted)
        for word, figure in wanted.items():
            if name == "day" and word != "count":
                # (the days of pandas may be cut to nanoseconds)
                assert abs(found[name][word] - figure) <= datetime.timedelta(microseconds=1), word
            else:
                assert float(found[name][word]) == pytest.approx(float(figure), rel=1e-12), (name, word)
    index = bsi.Index.from_frame({"t": ["b", "a"], "f": [True, False]})
    assert index.describe(interpolation="linear")["t"]["50%"] == "a"
    assert index.describe(interpolation="linear")["f"]["50%"] is False


def test_the_most_frequent():
    data = {"t": ["b", "a", None, "b"], "f": [True, None, False, False], "n": [1, 2, 3, 3]}
    index = bsi.Index.from_frame(data)
    for table in (index, bsi.Parts.from_frame(2, data), bsi.Index.from_frame(data, spare=3)):
        found = table.describe()
        assert [found["t"][word] for word in ("unique", "top", "freq")] == [2, "b", 2]
        assert [found["f"][word] for word in ("unique", "top", "freq")] == [2, False, 2]
        assert list(found["t"])[:5] == ["count", "unique", "top", "freq", "min"] and "top" not in found["n"]
        assert table.describe("t", col.n > 9)["t"]["top"] is None and table.describe("t", col.n < 3)["t"]["top"] == "a"
    words = ["count", "unique", "top", "freq", "mean", "std", "min", "25%", "50%", "75%", "max"]
    assert [line.split()[0] for line in repr(index.describe(["n", "t"])).splitlines()[1:]] == words
    many = bsi.Index.from_frame({"t": [f"w{number:04}" for number in range(5000)]}, kinds={"t": bsi.Texts})
    assert many.describe()["t"]["unique"] == 5000 and "top" not in many.describe()["t"]
    pandas = pytest.importorskip("pandas")
    frame = pandas.DataFrame({"t": data["t"], "f": pandas.Series(data["f"], dtype=object)})
    wanted, given = frame.describe(), index.describe(["t", "f"]).to_pandas()
    assert (given.loc[list(wanted.index)] == wanted).all().all() and list(index.describe().to_pandas().index) == words


def deviation(numbers):
    """Returns the standard deviation of a sample, from exact sums, to 100 digits."""
    exact, count = Context(100), len(numbers)
    variance = Fraction(count * sum(number**2 for number in numbers) - sum(numbers) ** 2, count * (count - 1))
    return exact.sqrt(exact.divide(variance.numerator, variance.denominator))


@pytest.mark.parametrize("seed", range(6))
def test_standard_deviations_beside_plain_python(seed, monkeypatch):
    rng = np.random.default_rng(seed)
    monkeypatch.setattr("bsi.taking.CHUNK", int(rng.choice([1, 2, 1 << 14])))
    rows, far = int(rng.choice([0, 1, 2, 40, 700])), 1 << int(rng.choice([3, 17, 40, 61]))
    forms = {"n": bsi.slices(63, offset=-(1 << 62)), "r": bsi.range(7, 300, 2, offset=-5), "e": bsi.equality(9, 900, 90)}
    forms["d"] = bsi.slices(40, offset=-(1 << 39), kind=bsi.Decimals(3))
    numbers = {"n": rng.integers(-far, far, rows), "r": rng.integers(-5, 4195, rows), "e": rng.integers(0, 729_000, rows)}
    numbers["d"], there = rng.integers(-(1 << 39), 1 << 39, rows), rng.random(rows) < 0.8
    data = {name: np.ma.MaskedArray(given, ~there) for name, given in numbers.items()}
    data["d"] = [Decimal(int(one)).scaleb(-3) if valid else None for one, valid in zip(numbers["d"], there)]
    for table in (bsi.Index(forms), bsi.Parts(3, forms)):
        table.append(data)
        for where, found in ((bsi.all_rows, there), (col.r < 900, there & (numbers["r"] < 900))):
            figures = table.describe(where=where)
            for name, given in numbers.items():
                wanted = deviation([int(number) for number in given[found]]) if found.sum() > 1 else None
                wanted = wanted if wanted is None else +wanted.scaleb(-3) if name == "d" else float(wanted)
                assert figures[name]["std"] == table.std(name, where) == wanted, (name, where)


def test_standard_deviations_that_are_none():
    times = np.array(["2026-01-31", "2026-02-02"], "M8[D]")
    index = bsi.Index.from_frame({"t": ["a", "b"], "d": times, "f": [True, False], "n": [7, 9]})
    assert index.std("f") == pytest.approx(0.5**0.5, rel=1e-15) and index.std("n", col.n > 7) is None
    for name, why in (("t", "texts have no standard deviation"), ("d", "times have no standard deviation")):
        with pytest.raises(bsi.BadQuery, match=f"column '{name}': {why}"):
            index.std(name)


def test_zero_is_shown_without_a_power():
    index = bsi.Index.from_frame({"x": [Decimal("0.0000001"), Decimal("0E-7")]})
    assert [line.split()[1] for line in repr(index.describe()).splitlines()[4:6]] == ["0.0000000", "0.0000000"]
    assert "<td>0.0000000</td>" in index.describe()._repr_html_()


def test_figures_without_an_end_are_shown_short():
    index = bsi.Index.from_frame({"x": [Decimal("1234567.5"), Decimal("1234567.6"), Decimal("1234567.6")]})
    shown = dict(line.split() for line in repr(index.describe()).splitlines()[1:])
    assert (shown["mean"], shown["std"], shown["max"]) == ("1234567.566667", "0.0577350", "1234567.6")


def test_no_row_was_left_out_where_none_could_be():
    with bsi.Index.from_frame({"x": [1]}) as index, bsi.Parts(2, index.forms) as parts:
        for table in (index, parts, index.share()):
            assert table.skipped == [] and table.skipped.count == 0


def test_a_float_that_an_append_can_not_keep():
    exact, rounded = bsi.Decimals(2), bsi.Decimals(2, rounded=True)
    index = bsi.Index({"x": bsi.slices(20, kind=exact), "y": bsi.slices(20, kind=rounded)})
    with pytest.raises(bsi.BadRow) as refused:
        index.append({"x": np.array([1 / 3]), "y": np.array([1 / 3])})
    hint = "a column of Decimals(2, rounded=True) rounds it"
    told = f"column 'x', row 0: 0.3333333333333333 can't be stored exactly with 2 decimal places; {hint}"
    assert str(refused.value) == told
    index = bsi.Index({"y": index.forms["y"]})
    assert index.append({"y": np.array([1 / 3])}) == 1 and index.least("y") == Decimal("0.33")


def test_a_time_zone_by_its_name(tmp_path):
    paris = zoneinfo.ZoneInfo("Europe/Paris")
    assert bsi.Times("s", "Europe/Paris") == bsi.Times("s", paris)
    assert bsi.Times("s", "UTC") == bsi.Times("s", datetime.timezone.utc)
    index = bsi.Index({"t": bsi.slices(40, kind=bsi.Times("s", "Europe/Paris"))})
    noon = datetime.datetime(2026, 1, 31, 12, tzinfo=paris)
    index.append({"t": [noon, "2026-01-31T12:30:00Z"]})
    assert index.least("t") == noon and index.least("t").tzinfo == paris and index.count(col.t > noon) == 1
    index.save(tmp_path / "zone.bsi")
    assert bsi.open(tmp_path / "zone.bsi").forms == index.forms
    for zone, why in (("Nowhere/Here", "'Nowhere/Here' is not known here"), ("../etc", "is not known here")):
        with pytest.raises(ValueError, match=why):
            bsi.Times("s", zone)
    with pytest.raises(TypeError, match="a time zone is a tzinfo or a name, as 'Europe/Paris', and not 5"):
        bsi.Times("s", 5)


def test_means_of_times():
    days = [datetime.datetime(2026, 1, 1), None, datetime.datetime(2026, 1, 2), datetime.datetime(2026, 1, 2)]
    zoned = [None if day is None else day.replace(tzinfo=datetime.timezone.utc) for day in days]
    fine = np.array([1, "NaT", 2, 2], "M8[ns]")
    index = bsi.Index.from_frame({"d": days, "z": zoned, "f": fine})
    for table in (index, bsi.Parts.from_frame(2, {"d": days, "z": zoned, "f": fine})):
        assert table.mean("d") == datetime.datetime(2026, 1, 1, 16) and table.mean("f") == np.datetime64(2, "ns")
        assert table.mean("z") == datetime.datetime(2026, 1, 1, 16, tzinfo=datetime.timezone.utc)
        assert table.mean("d", col.d > "2027-01-01") is None
        assert table.groupby("d").mean("z") == {days[0]: zoned[0], days[2]: zoned[2]}


def test_a_thousand_fields():
    index, where = small(), col.price != 10**9
    for _ in range(249):
        where = where & (col.price != 10**9)
    assert sum(3 if isinstance(term, tuple) else 1 for term in where.terms) == 999
    assert index.count(where) == 3 and index.count(~where) == 1 and len(repr(where)) > 1000
    with pytest.raises(bsi.BadQuery, match="at most 1,000 fields .* and this one 1,003"):
        where & (col.price == 1)
    deep = col.price < 5
    for _ in range(997):
        deep = ~deep
    assert index.count(deep) == 4 and repr(deep).startswith("~~~~")
    with pytest.raises(bsi.BadQuery, match="1,001"):
        ~deep


def test_unknown_columns():
    index = small()
    for ask in (
        lambda: index.count(col.cost < 5),
        lambda: index.sum("cost"),
        lambda: index.median(col.cost),
        lambda: index.mask(col.cost.isnull()),
    ):
        with pytest.raises(bsi.BadQuery, match="there is no column 'cost', only 'price', 'temp', 'day'"):
            ask()


def test_sums_past_64_bits():
    index = bsi.Index({"x": bsi.slices(63, offset=-(2**62)), "y": bsi.slices(62)})
    xs, ys = [-(2**62)] * 10 + [5], [2**62 - 1] * 11
    index.append({"x": xs, "y": ys})
    assert (index.sum("x"), index.sum("y")) == (sum(xs), sum(ys))


def test_what_it_takes_is_said_in_words():
    index = bsi.Index({"a": bsi.slices(3, kind=bsi.Decimals(7))})
    assert "from 0.0000000 to 0.0000007" in repr(index)


def test_closing():
    index = small()
    with index:
        assert index.count() == 4
    index.close()
    for call in (
        index.count,
        lambda: index.append({"price": [1], "temp": [1], "day": [1]}),
        lambda: len(index),
        lambda: index.mask(),
        index.share,
        lambda: index.schema,
    ):
        with pytest.raises(bsi.Closed):
            call()


def test_sharing():
    index = small()
    other = index.share()
    third = other.share()
    for one in (index, other, third):
        with pytest.raises(bsi.Shared):
            one.append({"price": [1], "temp": [1], "day": [1]})
    index.close()
    other.close()
    assert third.count() == 4 and third.sum("price") == 357


def test_texts_and_times_and_flags():
    index = bsi.Index.from_frame(
        {
            "who": ["b", "d", None, "b"],
            "at": np.array(["2026-01-01", "2026-01-05", "NaT", "2026-03-01"], "M8[D]"),
            "ok": [True, False, None, True],
        }
    )
    who, at = col.who, col.at
    for where, rows in (
        (who == "b", [0, 3]),
        (who != "b", [1]),
        (who < "c", [0, 3]),
        (who >= "c", [1]),
        (who == "zebra", []),
        (who != "zebra", [0, 1, 3]),
        (who <= "", []),
        (at == "2026-01-05", [1]),
        (at < "2026-01-05T00:00:01", [0, 1]),
        (at > "2026-01-04T23:59", [1, 3]),
        (at == "2026-01-05T12:00", []),
        (at <= np.datetime64("2026-01"), [0]),
        (at < np.datetime64("2026-01-01T01", "h"), [0]),
        (col.ok == True, [0, 3]),
        (col.ok == np.bool_(False), [1]),
    ):
        assert index.rows(where).tolist() == rows, where
    assert (index.least("who"), index.median("who"), index.sum("ok"), index.greatest("ok")) == ("b", "b", 2, True)
    for wrong, why in (
        (who == 5, "5 is no text"),
        (at < 5, "5 is no date or time"),
        (at < "yesterday", "no date or time"),
        (col.ok == 1, "neither True nor False"),
    ):
        with pytest.raises(bsi.BadQuery, match=why):
            index.count(wrong)
    for name in ("who", "at"):
        with pytest.raises(bsi.BadQuery, match=f"column '{name}': .* have no sum"):
            index.sum(name)
    with pytest.raises(bsi.BadRow, match="row 0: 'new' is not one of its 2 texts"):
        index.append({"who": ["new"], "at": [None], "ok": [None]})
    with pytest.raises(bsi.BadRow, match="row 1: .*2026-01-01T12:00.* is no whole number of days"):
        index.append(
            {"who": ["b", "d"], "at": np.array(["2026-01-01T00:00", "2026-01-01T12:00"], "M8[m]"), "ok": [None, None]}
        )


def test_kinds_that_are_none():
    for wrong in (
        lambda: bsi.Decimals("0.02"),
        lambda: bsi.Decimals(19),
        lambda: bsi.Decimals("x"),
        lambda: bsi.Times("h"),
        lambda: bsi.Texts(("a", "a"), ordered=True),
    ):
        with pytest.raises(ValueError):
            wrong()
    for wrong in (lambda: bsi.Decimals(1.0), lambda: bsi.Decimals(True), lambda: bsi.Decimals(100.0)):
        with pytest.raises(ValueError, match="is no number of places"):
            wrong()
    for wrong in (lambda: bsi.Texts(()), lambda: bsi.Texts((1,)), lambda: bsi.slices(20.0), lambda: bsi.range(2, "x")):
        with pytest.raises(TypeError):
            wrong()
    assert bsi.Decimals(np.int64(1)) == bsi.Decimals(1) and type(bsi.Decimals(np.int8(2)).places) is int
    assert bsi.Decimals("0.01") == bsi.Decimals(2) == bsi.Decimals(0.01) and bsi.Decimals(1) != bsi.Decimals(2)


def test_kinds_and_forms_that_are_given():
    frame = {"a": [1.5, 2.25], "b": [3, 4], "c": ["x", "y"]}
    index = bsi.Index.from_frame(
        frame, ["a", "b"], kinds={"a": bsi.Decimals("0.001")}, forms={"b": bsi.equality(5, offset=2)}
    )
    assert (
        index.columns == ["a", "b"]
        and str(index.sum("a")) == "3.750"
        and str(index.forms["b"]) == "equality(5, offset=2)"
    )
    for more, why in (
        ({"forms": {"b": bsi.slices(2)}}, "column 'b', row 1: 4 is not from 0 to 3"),
        ({"kinds": {"a": bsi.Whole()}}, "column 'a', row 0: 1.5 is no whole number"),
        ({"kinds": {"z": bsi.Whole()}}, "given for 'z'"),
        ({"columns": ["a", "z"]}, "no column 'z'"),
        ({"columns": ["a", "a"]}, "there twice"),
        ({"columns": []}, "there are no columns"),
        ({"limit": 1}, "row 1 is past the limit of 1 rows"),
    ):
        with pytest.raises(bsi.Error, match=why):
            bsi.Index.from_frame(frame, **more)


def test_progress_is_told():
    told = []
    bsi.Index.from_frame({"a": np.arange(1 << 19 | 5)}, progress=lambda done, total: told.append((done, total)))
    assert told == [(min(done << 16, 524293), 524293) for done in range(1, 10)]


def test_columns_of_many_rows_are_compared():
    rng = np.random.default_rng(11)
    low, high = rng.integers(-7, 9, 5000), rng.integers(-3, 13, 5000)
    there = rng.random(5000) < 0.9
    forms = {"low": bsi.slices(5, offset=-7), "high": bsi.slices(4, offset=-3), "digits": bsi.range(3, 7, offset=-7)}
    with bsi.Index(forms) as index:
        values = [value if is_there else None for value, is_there in zip(low.tolist(), there)]
        index.append({"low": values, "high": high, "digits": low})
        for sign, compare in model.COMPARE.items():
            for name, known in (("low", there), ("digits", True)):
                for one, other, wanted in ((name, "high", compare(low, high)), ("high", name, compare(high, low))):
                    where = col[one]._compared(sign, col[other])
                    assert (index.mask(where) == (wanted & known)).all(), where
                    assert pickle.loads(pickle.dumps(where)) == where != col[one]._compared(sign, other)
    assert repr(~(col.low < col.high)) == "~(col.low < col.high)"


def test_how_many_bytes_an_index_takes():
    index = bsi.Index({"a": bsi.slices(20), "b": bsi.range(10, 10)})
    assert index.nbytes == 0
    index.append({"a": list(range(1000)), "b": [7] * 1000})
    # (16 words a bitmap: 20 slices, nine digits and four places for each base, and the nulls of both; and a byte a row)
    assert index.nbytes == 16 * 8 * ((20 + 1) + (2 * (9 + 4) + 1)) + 1000
    with bsi.Parts(2, {"a": bsi.slices(20)}) as parts:
        parts.append({"a": list(range(128))})
        assert parts.nbytes == 2 * 8 * 21 + 128
    index.close()
    with pytest.raises(bsi.Closed):
        index.nbytes
