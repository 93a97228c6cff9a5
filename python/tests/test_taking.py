"""Values that come back: the rows that are named or found, each value as it went in, beside plain lists."""

import datetime
from decimal import Decimal
from zoneinfo import ZoneInfo

import numpy as np
import pytest

import bsi
import model
from bsi import col

PARIS = ZoneInfo("Europe/Paris")
START = datetime.datetime(2026, 1, 1)
WIDE = [-(2**40), -1, 0, 7, 2**40]


def random_data(rng, rows):
    """Returns columns of each kind as lists, with nulls."""
    days = rng.integers(-40_000, 40_000, rows)
    data = {
        "n": rng.choice(WIDE, rows).tolist() if rng.random() < 0.5 else rng.integers(-(2**50), 2**50, rows).tolist(),
        "d": [Decimal(int(number)).scaleb(-2) for number in rng.integers(-(10**6), 10**6, rows)],
        "t": rng.choice(model.WORDS, rows).tolist(),
        "f": (rng.random(rows) < 0.5).tolist(),
        "day": [START + datetime.timedelta(days=int(day)) for day in days],
        "zone": [(START + datetime.timedelta(seconds=int(day))).replace(tzinfo=PARIS) for day in days],
        "null": [None] * rows,
    }
    share = rng.choice([0.0, 0.2, 0.9])
    return {
        name: [None if is_null else value for value, is_null in zip(values, rng.random(rows) < share)]
        for name, values in data.items()
    }


def tables(rng, data):
    """Returns the same rows in one index and in several parts."""
    yield bsi.Index.from_frame(data)
    yield bsi.Index.from_frame(data, spare=2)
    rows, kinds = len(data["n"]), {name: form.kind for name, form in bsi.Index.from_frame(data).forms.items()}
    cut = int(rng.integers(0, rows + 1))
    forms = {name: form for name, form in bsi.Index.from_frame(data, kinds=kinds).forms.items()}
    parts = bsi.Parts(int(rng.integers(1, 5)), forms)
    for start, end in ((0, 0), (0, cut), (cut, rows)):
        parts.append({name: values[start:end] for name, values in data.items()})
    yield parts


def same(found, wanted):
    """Returns whether two lists have the same values of the same types, and times the same zone."""
    return [(type(one), one, getattr(one, "tzinfo", None)) for one in found] == [
        (type(one), one, getattr(one, "tzinfo", None)) for one in wanted
    ]


@pytest.mark.parametrize("most", [0, 100, 1000])
@pytest.mark.parametrize("seed", range(3))
def test_rows_that_are_taken_are_those_that_went_in(seed, most, monkeypatch):
    monkeypatch.setattr("bsi.taking.MAX_ASKED", most)
    rng = np.random.default_rng(seed)
    for rows in (0, 1, 63, 64, 300):
        data = random_data(rng, rows)
        for table in tables(rng, data):
            asked = rng.integers(0, rows, 40).tolist() if rows else []
            taken = table.take(asked)
            assert list(taken) == list(data)
            for name, values in data.items():
                assert same(taken[name], [values[row] for row in asked]), name
            assert table.take(np.arange(rows), col.d) == {"d": data["d"]}
            assert table.take(range(rows), ["t", "n"]) == {"t": data["t"], "n": data["n"]}


@pytest.mark.parametrize("most", [0, 1000])
def test_what_is_taken_is_appended(most, monkeypatch):
    monkeypatch.setattr("bsi.taking.MAX_ASKED", most)
    rng = np.random.default_rng(9)
    for _ in range(100):
        table = model.Table(rng)
        with bsi.Index(table.forms()) as index, bsi.Index(table.forms()) as other:
            index.append(table.data())
            assert index.take(range(table.rows)) == table.data()
            assert other.append(index.take(range(table.rows))) == table.rows
            where, rows = table.predicate()
            assert other.take(other.rows(where)) == index.take(np.flatnonzero(rows))


@pytest.mark.parametrize("cuts, most", [(1, 10**6), (2, 10**6), (3, 10**6), (250, 10**6), (250, 40), (250, 0)])
def test_numbers_that_are_many(cuts, most, monkeypatch):
    monkeypatch.setattr("bsi.taking.MAX_CUTS", cuts)
    monkeypatch.setattr("bsi.taking.MAX_ASKED", most)
    rng = np.random.default_rng(cuts)
    ends = np.array([-(2**63), -(2**63) + 1, -1], np.int64)
    lists = [rng.integers(0, 700, 300), np.arange(300)[::-1], ends, ends + 2**62, np.array([5, 2**62]), ends[:1]]
    for numbers in lists:
        index = bsi.Index.from_frame({"x": numbers})
        assert index.take(range(len(numbers)))["x"] == numbers.tolist()
    forms = {"x": bsi.range(7, 9, 11, offset=-400), "y": bsi.equality(30, 25)}
    index, x, y = bsi.Index(forms), rng.integers(-400, 293, 500), rng.integers(0, 750, 500)
    index.append({"x": x, "y": y})
    assert index.take(range(500)) == {"x": x.tolist(), "y": y.tolist()}


def test_few_rows_take_few_questions(monkeypatch):
    rng, asked, saved = np.random.default_rng(2), [], []
    x, few = rng.integers(0, 1 << 20, 5000), rng.choice([5, 1 << 19, (1 << 20) - 1], 5000)
    index = bsi.Index({"x": bsi.slices(20), "few": bsi.slices(20)})
    index.append({"x": x, "few": few})
    select, save = bsi.native.Handle.select, bsi.native.Handle.save
    monkeypatch.setattr("bsi.native.Handle.select", lambda *given: asked.append(given) or select(*given))
    monkeypatch.setattr("bsi.native.Handle.save", lambda *given: saved.append(given) or save(*given))
    assert index.take([7, 5], "x") == {"x": x[[7, 5]].tolist()} and len(asked) <= 21 and not saved
    assert index.take(range(5000), "few") == {"few": few.tolist()} and len(asked) <= 42 and not saved
    assert index.take(range(5000)) == {"x": x.tolist(), "few": few.tolist()} and len(saved) == 1


def test_texts_that_grow_are_taken():
    index = bsi.Index.from_frame({"t": ["b", "a"]}, spare=4)
    index.append({"t": ["zoe", None, "karl", "a"]})
    assert index.take([5, 4, 3, 2, 1, 0])["t"] == ["a", "karl", None, "zoe", "a", "b"]


@pytest.mark.parametrize(
    "rows, kind, why",
    [
        ([3], bsi.BadQuery, "there is no row 3: the rows are 0 to 2"),
        ([0, -1], bsi.BadQuery, "there is no row -1"),
        (np.array([2**64 - 1], np.uint64), bsi.BadQuery, "there is no row 18,446,744,073,709,551,615"),
        ([True, False, True], TypeError, "a list of their numbers"),
        ([1.0], TypeError, "a list of their numbers"),
        (1, TypeError, "a list of their numbers"),
        ("12", TypeError, "a list of their numbers"),
        ([[1], [1, 2]], TypeError, "a list of their numbers"),
        (col.x < 2, TypeError, r"as rows\(where\) returns them, not \(col.x < 2\)"),
    ],
)
def test_rows_that_are_none(rows, kind, why):
    index = bsi.Index.from_frame({"x": [1, 2, 3]})
    with pytest.raises(kind, match=why):
        index.take(rows)
    with pytest.raises(bsi.BadQuery, match="no column 'z'"):
        index.take([0], ["x", "z"])
    with pytest.raises(bsi.BadQuery, match="there is no row 0: the rows are none"):
        bsi.Index({"x": bsi.slices(2)}).take([0])


# ---- Frames ----


@pytest.mark.parametrize("seed", range(4))
def test_frames_come_back(seed):
    pandas = pytest.importorskip("pandas")
    rng = np.random.default_rng(seed)
    for rows in (0, 1, 200):
        data = random_data(rng, rows)
        for table in tables(rng, data):
            found = table.to_pandas(col.n >= 0, ["zone", "t", "d", "n", "f", "day", "null"])
            wanted = [row for row, number in enumerate(data["n"]) if number is not None and number >= 0]
            assert found.index.tolist() == wanted and isinstance(found, pandas.DataFrame)
            assert list(found.columns) == ["zone", "t", "d", "n", "f", "day", "null"]
            for name, values in data.items():
                given = [None if pandas.isna(one) else one for one in found[name].tolist()]
                assert given == [values[row] for row in wanted], name


def test_a_frame_goes_in_and_out():
    pandas = pytest.importorskip("pandas")
    frame = pandas.DataFrame(
        {
            "n": np.array([3, 1, 2]),
            "N": pandas.array([3, None, 2], dtype="Int64"),
            "f": [True, False, True],
            "F": pandas.array([True, None, False], dtype="boolean"),
            "t": ["b", None, "a"],
            "o": pandas.Categorical(["low", None, "high"], ["low", "mid", "high"], ordered=True),
            "day": pandas.to_datetime(["2026-01-31", None, "1700-01-01"]),
            "fine": pandas.to_datetime([1, None, -(2**62)]),
            "zone": pandas.to_datetime(["2026-01-31 12:00", None, "2026-07-31"]).tz_localize("Europe/Paris"),
            "UTC": pandas.to_datetime(["2026-01-31 12:00:00.000000001", None, "2026-07-31"]).tz_localize("UTC"),
        }
    )
    index = bsi.Index.from_frame(frame)
    pandas.testing.assert_frame_equal(index.to_pandas(), frame)
    wanted = frame[frame["n"] >= 2].astype({"N": "int64", "F": "bool"})
    pandas.testing.assert_frame_equal(index.to_pandas(col.n >= 2), wanted)
    wanted = frame.iloc[[2, 0, 2]].astype({"N": "int64", "F": "bool"})
    pandas.testing.assert_frame_equal(index.to_pandas([2, 0, 2]), wanted)
    floats = pandas.DataFrame({"x": [0.1, 2.25, np.nan], "d": [Decimal("0.10"), None, Decimal("-7.00")]})
    found = bsi.Index.from_frame(floats).to_pandas()
    pandas.testing.assert_series_equal(found["x"].astype(float), floats["x"])
    assert found["d"].tolist() == floats["d"].tolist()


def test_times_in_nanoseconds_are_as_answers_have_them():
    times = np.array([5, "NaT", -7, 5], "M8[ns]")
    index = bsi.Index.from_frame({"t": times})
    assert same(index.take([3, 1, 2])["t"], [times[3], None, times[2]])
    assert same(index.take([2])["t"], [index.least("t")])


def test_times_that_pandas_has_not():
    pytest.importorskip("pandas")
    days = [datetime.datetime(1, 1, 1), None, datetime.datetime(9999, 12, 31)]
    assert bsi.Index.from_frame({"t": days}).to_pandas()["t"].tolist() == days
    ends = np.array([-(2**63) + 1, 2**63 - 1], "M8[ns]")
    for end in ends:
        found = bsi.Index.from_frame({"t": np.array([end])}).to_pandas()["t"]
        assert found.dtype == "M8[ns]" and found.to_numpy().tolist() == np.array([end]).tolist()


# ---- The outermost rows, and ranks ----


@pytest.mark.parametrize("seed", range(4))
def test_the_outermost_rows_and_ranks_beside_plain_python(seed):
    rng = np.random.default_rng(seed)
    for rows in (0, 1, 150):
        data = random_data(rng, rows)
        for table in tables(rng, data):
            for name, values in data.items():
                where, mask = bsi.all_rows, np.ones(rows, bool)
                if rng.random() < 0.5:
                    where, mask = col.n >= 0, np.array([one is not None and one >= 0 for one in data["n"]], bool)
                there = [row for row in range(rows) if values[row] is not None and mask[row]]
                for n in (0, 1, 2, 7, rows, rows + 5):
                    wanted = sorted(there, key=values.__getitem__)[:n]
                    assert table.nsmallest(n, name, where).tolist() == wanted, (name, n)
                    wanted = sorted(there, key=values.__getitem__, reverse=True)[:n]
                    assert table.nlargest(n, name, where).tolist() == wanted, (name, n)
                found = [values[row] for row in there]
                assert table.distinct(name, where) == table.nunique(name, where) == len(set(found))
                ordered = sorted(found)
                wanted = [ordered[part * (len(found) - 1) // 4] if found else None for part in (3, 0, 4, 2)]
                assert table.quantile(name, (0.75, 0, 1, 0.5), where) == wanted
                for value in found[:5]:
                    low, high = sum(one < value for one in found) + 1, sum(one <= value for one in found)
                    assert table.rank(name, value, where) == (low + high) / 2
                    assert [table.rank(name, value, where, word) for word in ("min", "max")] == [low, high]


def test_the_outermost_rows_are_those_of_pandas():
    pandas = pytest.importorskip("pandas")
    rng = np.random.default_rng(5)
    x = rng.integers(-20, 20, 300).astype(float)
    x[rng.random(300) < 0.2] = np.nan
    frame = pandas.DataFrame({"x": x})
    index = bsi.Index.from_frame(frame)
    for n in (1, 10, 100):
        assert index.nlargest(n, "x").tolist() == frame["x"].nlargest(n).index.tolist()
        assert index.nsmallest(n, col.x).tolist() == frame["x"].nsmallest(n).index.tolist()
        found = index.to_pandas(index.nlargest(n, "x"))["x"].astype(float)
        pandas.testing.assert_series_equal(found, frame["x"].nlargest(n))
    for method in ("average", "min", "max"):
        ranks = frame["x"].rank(method=method)
        for row in index.rows(col.x.notnull())[:20].tolist():
            assert index.rank("x", x[row], method=method) == ranks[row]
    assert index.to_pandas(col.x > 15)["x"].tolist() == frame["x"][frame["x"] > 15].tolist()


@pytest.mark.parametrize("end", (3, 1_000, 2**40))
def test_the_outermost_of_many_rows(end):
    rng = np.random.default_rng(end)
    x = rng.integers(-end, end, 200_000).astype(float)
    x[rng.random(len(x)) < 0.3] = np.nan
    index = bsi.Index.from_frame({"x": x})
    there = np.flatnonzero(~np.isnan(x))
    for n in (0, 1, 10, 60, 1_000):
        assert index.nlargest(n, "x").tolist() == there[np.argsort(-x[there], kind="stable")][:n].tolist()
        assert index.nsmallest(n, "x").tolist() == there[np.argsort(x[there], kind="stable")][:n].tolist()


def test_the_outermost_rows_that_are_none():
    index = bsi.Index.from_frame({"x": [1, 2, 2], "t": ["a", "b", "b"]})
    for n in (-1, 1.5, True, "1", None):
        with pytest.raises(ValueError, match="a whole number from 0 up"):
            index.nlargest(n, "x")
    assert index.rank("x", 1.5) is None and index.rank("t", "c") is None and index.rank("x", 2) == 2.5
    assert index.rank("x", 2, col.t == "a") is None and index.rank("x", 2.0, method="min") == 2
    with pytest.raises(ValueError, match="method is 'average', 'min' or 'max', and not 'dense'"):
        index.rank("x", 2, method="dense")
    with pytest.raises(bsi.BadQuery, match="column 'x' is compared with one of whole numbers: 'a' is no number"):
        index.rank("x", "a")
    with pytest.raises(bsi.BadQuery, match="no column 'z'"):
        index.nsmallest(1, "z")
