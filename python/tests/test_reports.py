"""Parts of dates, texts by what they contain, and groups by several keys, beside plain Python."""

import datetime
import io
import itertools
from decimal import Decimal
from zoneinfo import ZoneInfo

import numpy as np
import pytest

import bsi
from bsi import col
from bsi.dateparts import PARTS

UTC, EPOCH = datetime.timezone.utc, datetime.datetime(1970, 1, 1)
# Zones whose clocks are put back: by an hour, at midnight, and by half an hour.
ZONES = ["Europe/Berlin", "America/Havana", "Australia/Lord_Howe"]
PLAIN = {
    "year": lambda moment: moment.year,
    "quarter": lambda moment: (moment.month + 2) // 3,
    "month": lambda moment: moment.month,
    "week": lambda moment: moment.isocalendar()[1],
    "day": lambda moment: moment.day,
    "weekday": lambda moment: moment.weekday(),
    "hour": lambda moment: moment.hour,
}


def moments(rng, unit, zone, rows=400):
    """Returns random moments of a year and of the days around a change of clocks, some null."""
    start = int(datetime.datetime(2024, 10, 20, tzinfo=UTC).timestamp())
    near = rng.integers(0, 20 * 86400, rows // 2)
    far = rng.integers(-200 * 86400, 200 * 86400, rows - rows // 2)
    seconds = (start + np.concatenate([near, far])) // (86400 if unit == "D" else 600) * (86400 if unit == "D" else 600)
    found = [EPOCH + datetime.timedelta(seconds=int(one)) for one in seconds]
    found = found if zone is None else [one.replace(tzinfo=UTC).astimezone(ZoneInfo(zone)) for one in found]
    return [one if rng.random() < 0.9 else None for one in found]


def table_of(rng, unit, zone):
    data = {"t": moments(rng, unit, zone)}
    rows = len(data["t"])
    data["n"] = [int(one) if rng.random() < 0.9 else None for one in rng.integers(-50, 50, rows)]
    data["w"] = [str(one) if rng.random() < 0.9 else None for one in rng.choice(["ape", "bee", "cat"], rows)]
    data["k"] = [int(one) if rng.random() < 0.9 else None for one in rng.integers(0, 3, rows)]
    return data, bsi.Index.from_frame(data, kinds={"t": bsi.Times(unit, zone)})


KINDS = [("D", None), ("s", None), ("ms", None), *(("s", zone) for zone in ZONES)]


@pytest.mark.parametrize("unit, zone", KINDS)
def test_parts_of_dates_beside_plain_python(unit, zone):
    data, index = table_of(np.random.default_rng(1), unit, zone)
    for part, plain in PLAIN.items():
        if part == "hour" and unit == "D":
            with pytest.raises(bsi.BadQuery, match="column 't': dates have no hour"):
                index.count(col.t.hour == 1)
            continue
        named, found = getattr(col.t, part), [None if one is None else plain(one) for one in data["t"]]
        for constant in sorted({one for one in found if one is not None})[:: 7 if part in ("day", "week", "hour") else 1]:
            for predicate, test in (
                (named == constant, lambda one: one == constant),
                (named != constant, lambda one: one != constant),
                (named < constant, lambda one: one < constant),
                (named >= constant, lambda one: one >= constant),
                (named.isin([constant, constant + 2]), lambda one: one in (constant, constant + 2)),
                (named.between(constant, constant + 1), lambda one: constant <= one <= constant + 1),
            ):
                wanted = [row for row, one in enumerate(found) if one is not None and test(one)]
                assert index.rows(predicate).tolist() == wanted, (part, predicate)
        assert index.count(named == 99) == 0 and index.count(~(named == 99)) == len(found)


def test_parts_before_1970_and_at_the_ends_of_years():
    days = [datetime.date(year, month, day) for year in (1969, 1900, 2000, 2020, 2021) for month, day in ((1, 1), (12, 31), (3, 1))]
    index = bsi.Index.from_frame({"d": days, "n": range(len(days))}, kinds={"d": bsi.Times("D")})
    for part in ("year", "quarter", "month", "week", "day", "weekday"):
        found = index.groupby(getattr(col.d, part)).count()
        values = [PLAIN[part](one) for one in days]
        assert found == {value: values.count(value) for value in sorted(set(values))}, part


def plain_groups(data, keys, figure, where=lambda row: True, dropna=True):
    """Returns the figure of the rows of each group, in order."""
    rows = [dict(zip(data, row)) for row in zip(*data.values())]
    groups = {}
    for row in filter(where, rows):
        group = tuple(key(row) for key in keys)
        if not dropna or None not in group:
            groups.setdefault(group, []).append(row)
    order = sorted(groups, key=lambda group: [(one is None, 0 if one is None else one) for one in group])
    return {group if len(keys) > 1 else group[0]: figure(groups[group]) for group in order}


def column(name):
    return lambda row: row[name]


def part(name):
    return lambda row: None if row["t"] is None else PLAIN[name](row["t"])


def numbers(rows):
    return sorted(row["n"] for row in rows if row["n"] is not None)


FIGURES = {
    "sum": lambda rows: sum(numbers(rows)),
    "min": lambda rows: min(numbers(rows), default=None),
    "max": lambda rows: max(numbers(rows), default=None),
    "median": lambda rows: numbers(rows)[(len(numbers(rows)) - 1) // 2] if numbers(rows) else None,
    "mean": lambda rows: sum(numbers(rows)) / len(numbers(rows)) if numbers(rows) else None,
    "count": lambda rows: len(numbers(rows)),
    "nunique": lambda rows: len(set(numbers(rows))),
}
KEYS = [
    ([col.t.month], [part("month")]),
    ([col.t.year, col.t.month, "w"], [part("year"), part("month"), column("w")]),
    (["w", col.t.weekday], [column("w"), part("weekday")]),
    (["w", "k", col.t.quarter], [column("w"), column("k"), part("quarter")]),
    (["w", "k", "w"], [column("w"), column("k"), column("w")]),
    ("k", [column("k")]),
    (["w", "k"], [column("w"), column("k")]),
]


@pytest.mark.parametrize("unit, zone", KINDS[1::2])
def test_groups_by_several_keys_beside_plain_python(unit, zone):
    data, index = table_of(np.random.default_rng(2), unit, zone)
    for table in (index, bsi.Parts.from_frame(3, data, kinds={"t": bsi.Times(unit, zone)})):
        for (keys, plain), dropna in itertools.product(KEYS, (True, False)):
            grouped = table.groupby(keys, dropna=dropna)
            for word, figure in FIGURES.items():
                wanted = plain_groups(data, plain, figure, dropna=dropna)
                assert list(getattr(grouped, word)("n").items()) == list(wanted.items()), (keys, dropna, word)
            wanted = plain_groups(data, plain, len, lambda row: row["k"] == 1, dropna)
            assert list(grouped.count(where=col.k == 1).items()) == list(wanted.items()), (keys, dropna)


def test_groups_of_texts_that_grow_in_order():
    index = bsi.Index.from_frame({"w": ["bee", None], "n": [1, 2]}, spare=2)
    index.append({"w": ["ape", "bee", None], "n": [3, 4, 5]})
    assert list(index.groupby("w", dropna=False).sum("n").items()) == [("ape", 3), ("bee", 5), (None, 7)]
    assert index.groupby(["n", "w"]).least("w") == {(1, "bee"): "bee", (3, "ape"): "ape", (4, "bee"): "bee"}


def test_figures_of_groups_as_a_table():
    text = "day,kind,price,paid\n2026-01-05,tea,2.50,true\n2026-01-09,rum,12.00,false\n2026-02-01,tea,,true\n2026-02-03,tea,3.00,\n"
    index = bsi.read_csv(io.StringIO(text))
    report = index.groupby([col.day.month, "kind"]).agg({"price": ["sum", "mean", "missing"], "day": "max", "paid": "sum"})
    assert report["price", "sum"] == {(1, "rum"): Decimal("12.00"), (1, "tea"): Decimal("2.50"), (2, "tea"): Decimal("3.00")}
    assert repr(report).splitlines() == [
        "day.month  kind  price sum  price mean  price missing     day max  paid sum",
        "1          rum       12.00       12.00              0  2026-01-09         0",
        "1          tea        2.50        2.50              0  2026-01-05         1",
        "2          tea        3.00        3.00              1  2026-02-03         1",
    ]
    assert report._repr_html_().count("<tr>") == 4 and list(report)[2] == ("price", "missing") and len(report) == 5
    for figures, why in (({"price": "mode"}, "'mode' is no figure"), ({"kind": "sum"}, "have no sum"), ({"x": "sum"}, "no column 'x'")):
        with pytest.raises(bsi.BadQuery, match=why):
            index.groupby("kind").agg(figures)
    with pytest.raises(TypeError, match="agg needs a dict"):
        index.groupby("kind").agg("sum")


def test_frames_have_proper_types():
    pandas = pytest.importorskip("pandas")
    frame = pandas.DataFrame({"t": pandas.to_datetime(["2026-01-05", "2026-01-09", "2026-02-01"]), "n": [1, 2, 5], "f": [True, False, True]})
    index = bsi.Index.from_frame(frame)
    report = index.groupby([col.t.month]).agg({"n": ["sum", "mean", "count"], "t": "max", "f": "max"}).to_pandas()
    assert [str(one) for one in report.dtypes] == ["int64", "float64", "int64", "datetime64[ns]", "bool"]
    wanted = frame.groupby(frame.t.dt.month).agg({"n": ["sum", "mean", "count"], "t": "max", "f": "max"})
    assert (report.to_numpy() == wanted.to_numpy()).all() and list(report.index) == [1, 2] and list(report.columns) == list(wanted.columns)
    least = bsi.Index.from_frame({"k": [1, 2], "n": [None, 3]}).groupby("k").min("n").to_pandas()
    assert str(least.dtype) == "Int64" and least.isna().tolist() == [True, False]
    described = index.describe(["n"]).to_pandas()
    assert str(described["n"].dtype) == "float64" and described["n"]["mean"] == frame.n.mean()


def test_texts_by_what_they_contain():
    words = ["tea", "green tea", None, "rum", "teak", "a.b"]
    for spare in (0, 2):
        index = bsi.Index.from_frame({"w": words, "n": range(6)}, spare=spare)
        for predicate, test in (
            (col.w.startswith("tea"), lambda one: one.startswith("tea")),
            (col.w.endswith("tea"), lambda one: one.endswith("tea")),
            (col.w.contains("ea"), lambda one: "ea" in one),
            (col.w.contains("."), lambda one: "." in one),
            (col.w.contains(""), lambda one: True),
            (col.w.startswith("x"), lambda one: False),
        ):
            assert index.rows(predicate).tolist() == [row for row, one in enumerate(words) if one is not None and test(one)]
        assert index.rows(~col.w.isin(["tea", "rum"]) & col.w.notnull()).tolist() == [1, 4, 5]
        with pytest.raises(bsi.BadQuery, match="contains is asked of texts"):
            index.count(col.n.contains("1"))
    with pytest.raises(TypeError, match="startswith needs a text"):
        col.w.startswith(5)


def test_parts_as_they_are_shown_and_refused():
    assert repr(col.day.month == 3) == "(col.day.month == 3)" and repr(col["a b"].week.isin([1])) == "col['a b'].week.isin([1])"
    assert repr(col.w.contains("x")) == "col.w.contains('x')" and repr(col.day.hour) == "col.day.hour"
    index = bsi.Index.from_frame({"n": [1, 2]})
    for call in (lambda: index.count(col.n.month == 1), lambda: index.groupby(col.n.month)):
        with pytest.raises(bsi.BadQuery, match="column 'n': whole numbers have no month"):
            call()
    for wrong in (2.5, "March", True, None):
        with pytest.raises(TypeError, match="is compared with a whole number"):
            col.day.month == wrong
    with pytest.raises(TypeError, match="not with a part of dates"):
        col.day == col.day.month
    with pytest.raises(TypeError, match="neither true nor false"):
        bool(col.day.month)
    with pytest.raises(bsi.BadQuery, match="a column or more"):
        index.groupby([])
    wide = bsi.Index({"t": bsi.slices(50, kind=bsi.Times("s"))})
    wide.append({"t": [datetime.datetime(2026, 1, 31)]})
    with pytest.raises(bsi.BadQuery, match="span too long"):
        wide.count(col.t.hour == 1)
    assert set(PARTS) == set(PLAIN)


@pytest.mark.parametrize("seed", range(3))
def test_predicates_of_parts_that_take_several_questions(seed):
    rng = np.random.default_rng(seed)
    data, index = table_of(rng, "s", None)
    hours, days = [part("hour"), part("weekday")], [column("w")]
    wanted = plain_groups(data, days, len, lambda row: row["t"] is not None and hours[0](row) in (3, 4, 17) and hours[1](row) < 5)
    assert index.groupby("w").count(where=col.t.hour.isin([3, 4, 17]) & (col.t.weekday < 5)) == wanted
