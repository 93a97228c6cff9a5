"""Nulls and numbers of every source come in as they are, and what can't be stored exactly is refused with its column and
row."""

import datetime
import sys
from decimal import Decimal
from fractions import Fraction

import numpy as np
import pytest
from producer import Arrow, Stream, bits, texts, views

import bsi

pandas = pytest.importorskip("pandas")
NAN, DAY = float("nan"), datetime.date(2026, 1, 31)

# Sources of the numbers 1, null, 3.
WITH_A_NULL = {
    "list": [1, None, 3],
    "list with nan": [1, NAN, 3],
    "list of floats": [1.0, NAN, 3.0],
    "list with NA": [1, pandas.NA, 3],
    "list with NaT": [1, pandas.NaT, 3],
    "list with a decimal nan": [1, Decimal("nan"), 3],
    "list of NumPy numbers": [np.int8(1), None, np.uint64(3)],
    "generator": (number for number in [1, None, 3]),
    "floats": np.array([1, np.nan, 3]),
    "half floats": np.array([1, np.nan, 3], np.float16),
    "objects": np.array([1, None, 3], object),
    "masked": np.ma.MaskedArray([1, 99, 3], [False, True, False]),
    "masked floats": np.ma.MaskedArray([1, 2.5, 3], [False, True, False]),
    "masked objects": np.ma.MaskedArray(np.array([1, "x", 3], object), [False, True, False]),
    "series of floats": pandas.Series([1, None, 3]),
    "series of Int64": pandas.Series([1, None, 3], dtype="Int64"),
    "series of UInt8": pandas.Series([1, None, 3], dtype="UInt8"),
    "series of Float64": pandas.Series([1, None, 3], dtype="Float64"),
    "series of objects": pandas.Series([1, None, 3], dtype=object),
    "series with an index of its own": pandas.Series([1, None, 3], index=[5, 5, 0]),
    "sparse series": pandas.Series(pandas.arrays.SparseArray([1, np.nan, 3])),
    "categories": pandas.Series([1, None, 3]).astype("category"),
    "extension array": pandas.array([1, None, 3], dtype="Int64"),
    "index": pandas.Index([1, np.nan, 3]),
    "arrow": Arrow("l", 3, [bits(1, 0, 1), np.array([1, 9, 3])]),
    "arrow of small numbers": Arrow("C", 3, [bits(1, 0, 1), np.array([1, 9, 3], np.uint8)]),
    "arrow of floats": Arrow("f", 3, [bits(1, 0, 1), np.array([1, 9, 3], np.float32)]),
    "arrow of floats with a nan": Arrow("g", 3, [None, np.array([1, np.nan, 3])], null_count=0),
    "arrow with an offset": Arrow("i", 3, [bits(*[0] * 9, 1, 0, 1), np.arange(-8, 4, dtype=np.int32)], offset=9),
    "arrow with a dictionary": Arrow(
        "c",
        3,
        [bits(1, 0, 1), np.array([1, 77, 0], np.int8)],
        dictionary=Arrow("l", 2, [None, np.array([3, 1])], null_count=0),
    ),
}


@pytest.mark.parametrize("name", WITH_A_NULL)
def test_nulls_of_every_source(name):
    index = bsi.Index({"x": bsi.slices(2)})
    assert index.append({"x": WITH_A_NULL[name]}) == 3
    assert index.mask(bsi.col.x.isnull()).tolist() == [False, True, False]
    assert (index.least("x"), index.greatest("x"), index.sum("x")) == (1, 3, 4)


# Sources, the kind that is chosen, and the values that come back, each but the null.
CHOSEN = {
    "int8": (np.array([-128, 127], np.int8), bsi.Whole(), [-128, 127]),
    "uint64": (np.array([0, 2**63 - 1], np.uint64), bsi.Whole(), [0, 2**63 - 1]),
    "big-endian": (np.array([1, 2], ">i4"), bsi.Whole(), [1, 2]),
    "the ends of 64 bits": ([2**63 - 1, 2**63 - 2], bsi.Whole(), [2**63 - 1, 2**63 - 2]),
    "an offset at the end of 64 bits": ([2**63 - 1, 2**63 - 6], bsi.Whole(), [2**63 - 1, 2**63 - 6]),
    "the least of 64 bits": ([-(2**63)], bsi.Whole(), [-(2**63)]),
    "numbers past 2^53": ([2**53 + 1, None], bsi.Whole(), [2**53 + 1]),
    "a long double past 2^53": ([np.longdouble(2**53) + 1], bsi.Whole(), [2**53 + 1]),
    "cents": (np.array([0.1, 0.25, 1e6]), bsi.Decimals(2), [Decimal("0.10"), Decimal("0.25"), Decimal("1000000.00")]),
    "float32 tenths": (np.array([0.1, -12.3], np.float32), bsi.Decimals(1), [Decimal("0.1"), Decimal("-12.3")]),
    "decimals": ([Decimal("1.250"), Decimal("-0.5")], bsi.Decimals(3), [Decimal("1.250"), Decimal("-0.500")]),
    "a decimal with an exponent": ([Decimal("1E+2")], bsi.Decimals(0), [Decimal(100)]),
    "mixed numbers": ([1, 2.5, Decimal("0.25")], bsi.Decimals(2), [1, Decimal("2.5"), Decimal("0.25")]),
    "booleans": ([True, None, False], bsi.Flags(), [True, False]),
    "pandas booleans": (pandas.array([True, None, False], dtype="boolean"), bsi.Flags(), [True, False]),
    "texts": (["b", "a", None, "b"], bsi.Texts(("a", "b")), ["b", "a", "b"]),
    "NumPy texts": (np.array(["b", "a"]), bsi.Texts(("a", "b")), ["b", "a"]),
    "pandas texts": (pandas.Series(["b", None, "a"], dtype="string"), bsi.Texts(("a", "b")), ["b", "a"]),
    "an order of texts": (
        pandas.Categorical(["low", "high", None], ["low", "mid", "high"], ordered=True),
        bsi.Texts(("low", "mid", "high"), ordered=True),
        ["low", "high"],
    ),
    "dates": ([DAY, None], bsi.Times("D"), [pandas.Timestamp(DAY)]),
    "a date before 1970": ([datetime.date(1900, 1, 1)], bsi.Times("D"), [pandas.Timestamp(1900, 1, 1)]),
    "a date far away": ([datetime.date(9999, 12, 31)], bsi.Times("D"), [datetime.datetime(9999, 12, 31)]),
    "datetimes": ([datetime.datetime(2026, 1, 31, 12)], bsi.Times("s"), [pandas.Timestamp(2026, 1, 31, 12)]),
    "times of pandas": (
        pandas.Series(pandas.to_datetime(["2026-01-31", None])),
        bsi.Times("D"),
        [pandas.Timestamp(DAY)],
    ),
    "milliseconds": (
        np.array(["2026-01-31T00:00:00.5"], "M8[ms]"),
        bsi.Times("ms"),
        [pandas.Timestamp("2026-01-31 00:00:00.500")],
    ),
    "nanoseconds": ([pandas.Timestamp(1)], bsi.Times("ns"), [pandas.Timestamp(1)]),
    "months": (np.array(["2026-02"], "M8[M]"), bsi.Times("D"), [pandas.Timestamp(2026, 2, 1)]),
    "arrow dates": (
        Arrow("tdD", 2, [None, np.array([0, 1], np.int32)]),
        bsi.Times("D"),
        [pandas.Timestamp(0), pandas.Timestamp(1970, 1, 2)],
    ),
    "arrow times with an offset": (
        Arrow("tsm:-05:30", 1, [None, np.array([1_000])]),
        bsi.Times("s", datetime.timezone(-datetime.timedelta(hours=5, minutes=30))),
        [pandas.Timestamp(1, unit="s", tz="UTC")],
    ),
    "arrow booleans": (Arrow("b", 3, [bits(1, 1, 0), bits(1, 0, 1)]), bsi.Flags(), [True, False]),
    "arrow texts": (texts("b", "ä", "", validity=bits(1, 1, 1)), bsi.Texts(("", "b", "ä")), ["b", "ä", ""]),
    "large arrow texts": (texts("b", "a", large=True), bsi.Texts(("a", "b")), ["b", "a"]),
    "arrow texts by a dictionary": (
        Arrow("c", 3, [bits(1, 1, 0), np.array([1, 0, 5], np.int8)], dictionary=texts("b", "a"), flags=1),
        bsi.Texts(("b", "a"), ordered=True),
        ["a", "b"],
    ),
    "arrow decimals": (
        Arrow(
            "d:10,2",
            2,
            [
                bits(1, 1),
                np.frombuffer((-125).to_bytes(16, "little", signed=True) + (7).to_bytes(16, "little"), np.uint8),
            ],
        ),
        bsi.Decimals(2),
        [Decimal("-1.25"), Decimal("0.07")],
    ),
    "arrow views of texts": (
        views("b", "ä" * 20, "b", validity=bits(1, 1, 1)),
        bsi.Texts(("b", "ä" * 20)),
        ["b", "ä" * 20, "b"],
    ),
    "arrow decimals of 64 bits": (
        Arrow("d:10,1,64", 2, [None, np.array([-125, 7])]),
        bsi.Decimals(1),
        [Decimal("-12.5"), Decimal("0.7")],
    ),
    "an arrow null array": (Arrow("n", 2, []), bsi.Whole(), []),
    "nothing": ([], bsi.Whole(), []),
    "nulls alone": ([None, NAN], bsi.Whole(), []),
}


@pytest.mark.parametrize("name", CHOSEN)
def test_values_come_back_in_their_own_type(name):
    given, kind, values = CHOSEN[name]
    index = bsi.Index.from_frame({"x": given})
    assert index.forms["x"].kind == kind
    there = index.rows(~bsi.col.x.isnull())
    assert len(there) == len(values)
    for value in values:
        assert index.count(bsi.col.x == value) == values.count(value)
    if values and not kind.names_values:
        least, greatest = index.least("x"), index.greatest("x")
        assert (least, greatest) == (min(values), max(values))
        is_time, is_fine = isinstance(kind, bsi.Times), kind == bsi.Times("ns")
        wanted = np.datetime64 if is_fine else datetime.datetime if is_time else type(min(values))
        assert type(least) is wanted
        assert str(least) == str(kind.decode(kind.number(min(values))))


def test_a_zone_is_kept():
    times = pandas.Series(pandas.to_datetime(["2026-01-31 12:00", None])).dt.tz_localize("Europe/Paris")
    index = bsi.Index.from_frame({"t": times})
    assert index.least("t") == times[0] and index.least("t").tzinfo is not None
    assert index.count(bsi.col.t <= datetime.datetime(2026, 1, 31, 11, tzinfo=datetime.timezone.utc)) == 1
    with pytest.raises(bsi.BadQuery, match="no time zone, and the column has one"):
        index.count(bsi.col.t < datetime.datetime(2026, 1, 31))
    for naive in (times.dt.tz_localize(None), [DAY], ["2026-01-31"]):
        with pytest.raises(bsi.BadRow, match="column 't', row 0: .* has no time zone"):
            index.append({"t": naive})
    with pytest.raises(bsi.BadRow, match="row 1: .* no time zone, and one before it has one"):
        bsi.Index.from_frame({"t": [times[0].to_pydatetime(), datetime.datetime(2026, 1, 1)]})


@pytest.mark.parametrize("package", ["dateutil.tz", "pytz"])
def test_zones_of_other_packages(package):
    module = pytest.importorskip(package)
    zone = module.gettz("Europe/Paris") if package == "dateutil.tz" else module.timezone("Europe/Paris")
    days = [datetime.datetime(2026, 1, 31, 12), datetime.datetime(2026, 7, 31, 12)]
    times = [day.replace(tzinfo=zone) if package == "dateutil.tz" else zone.localize(day) for day in days]
    index = bsi.Index.from_frame({"t": times})
    assert index.least("t") == times[0] and index.greatest("t").utcoffset() == datetime.timedelta(hours=2)
    assert index.append({"t": times}) == 2 and index.rows(bsi.col.t == times[1]).tolist() == [1, 3]
    assert index.take([3, 0])["t"] == times[::-1] and index.to_pandas()["t"].tolist() == times * 2
    assert "Paris" in repr(index)


# Columns of nulls alone, whose dtype says what they hold.
NULLS_ALONE = {
    "dates": (np.array(["NaT"] * 2, "M8[D]"), bsi.Times("D")),
    "times of pandas": (pandas.Series([pandas.NaT] * 2), bsi.Times("D")),
    "booleans": (pandas.array([None, None], dtype="boolean"), bsi.Flags()),
    "no booleans": (np.zeros(0, bool), bsi.Flags()),
    "arrow dates": (Arrow("tdD", 2, [bits(0, 0), np.zeros(2, np.int32)]), bsi.Times("D")),
    "categories": (pandas.Categorical([None], ["a", "b"], ordered=True), bsi.Texts(("a", "b"), ordered=True)),
    "floats": (np.array([np.nan]), bsi.Whole()),
}


@pytest.mark.parametrize("name", NULLS_ALONE)
def test_nulls_alone_have_the_kind_of_their_dtype(name):
    values, kind = NULLS_ALONE[name]
    index = bsi.Index.from_frame({"x": values})
    assert index.forms["x"].kind == kind
    constant = {bsi.Flags(): True, bsi.Times("D"): "2026-01-31", bsi.Whole(): 5}.get(kind, "a")
    assert index.count(bsi.col.x == constant) == 0 and index.least("x") is None


def test_nulls_alone_are_texts_where_they_are_wished():
    for spare, table in ((0, {"t": [None, None]}), (3, {"t": np.array([np.nan] * 2)}), (3, {"t": []})):
        index = bsi.Index.from_frame(table, kinds={"t": bsi.Texts}, spare=spare)
        assert index.count(bsi.col.t == "a") == 0 and index.count(bsi.col.t.isnull()) == len(index)
        assert index.greatest("t") is None and index.take(range(len(index)))["t"] == [None] * len(index)
        if spare:
            index.append({"t": ["b", "a", None]})
            assert index.value_counts("t") == {"b": 1, "a": 1} and index.greatest("t") == "b"


def test_an_order_that_names_a_text_twice():
    given = Arrow("c", 3, [None, np.array([0, 1, 2], np.int8)], dictionary=texts("b", "a", "b"), flags=1)
    index = bsi.Index.from_frame({"x": given})
    assert index.forms["x"].kind == bsi.Texts(("b", "a"), ordered=True) and index.count(bsi.col.x == "b") == 2


def test_texts_that_are_wished():
    index = bsi.Index.from_frame({"zip": [f"{number:05}" for number in range(3000)]}, kinds={"zip": bsi.Texts})
    assert index.count(bsi.col.zip < "00100") == 100
    with pytest.raises(bsi.BadRow, match="row 1: 5 is no text"):
        bsi.Index.from_frame({"zip": ["00501", 5]}, kinds={"zip": bsi.Texts})
    for numbers in ([None, 501, 10001], np.array([np.nan, 501]), pandas.array([None, 501], dtype="Int64")):
        with pytest.raises(bsi.BadRow, match="column 'zip', row 1: 501(.0)? is no text"):
            bsi.Index.from_frame({"zip": numbers}, kinds={"zip": bsi.Texts})


def test_floats_that_are_rounded():
    prices = np.array([1 / 3, 0.1 + 0.2, 2.675, -0.005, np.nan, 0.015, 1e6 * 1.19])
    wanted = [None if value != value else Decimal(repr(round(value, 2))) for value in prices.tolist()]
    for given in (prices, prices.tolist(), pandas.Series(prices)):
        for more in ({"round": 2}, {"round": {"x": 2}}, {"kinds": {"x": bsi.Decimals(2, rounded=True)}}):
            index = bsi.Index.from_frame({"x": given}, **more)
            for value in wanted:
                where = bsi.col.x.isnull() if value is None else bsi.col.x == value
                assert index.rows(where).tolist() == [row for row, one in enumerate(wanted) if one == value]
    assert bsi.Index.from_frame({"x": [1.5, 2.0]}, round=2).forms["x"].kind == bsi.Decimals(1)
    assert index.append({"x": [1 / 7]}) == 1 and index.count(bsi.col.x == Decimal("0.14")) == 1
    with pytest.raises(bsi.BadRow, match="past 63 bits"):
        bsi.Index.from_frame({"x": np.array([1e300, 0.5])}, round=2)


def test_times_at_the_end_of_the_calendar():
    ahead, behind = (datetime.timezone(datetime.timedelta(hours=hours)) for hours in (2, -2))
    last = datetime.datetime(9999, 12, 31, 23, 59, 59)
    index = bsi.Index.from_frame({"t": [last.replace(tzinfo=behind), datetime.datetime.min.replace(tzinfo=ahead)]})
    assert index.rows(bsi.col.t == last.replace(tzinfo=behind)).tolist() == [0] and index.least("t") is not None
    assert bsi.Times("s", ahead).decode(253402300799) == last.replace(tzinfo=datetime.timezone.utc)


def test_answers_are_of_one_type_whatever_is_installed(monkeypatch):
    for _ in range(2):
        assert repr(bsi.Times("ns").decode(2_000)) == repr(np.datetime64(2_000, "ns"))
        assert repr(bsi.Times("us").decode(2)) == repr(datetime.datetime(1970, 1, 1, 0, 0, 0, 2))
        assert repr(bsi.Times("D").decode(20_000)) == repr(datetime.datetime(2024, 10, 4))
        monkeypatch.setitem(sys.modules, "pandas", None)


def test_a_record_batch_is_a_frame():
    batch = Arrow("+s", 2, [None], children={"a": Arrow("l", 2, [None, np.array([5, 6])]), "b": texts("x", "y")})
    index = bsi.Index.from_frame(batch)
    assert (index.sum("a"), index.least("b"), index.append(batch), len(index)) == (11, "x", 2, 4)
    lists = {"a": Arrow("l", 2, [None, np.array([5, 6])]), "c": Arrow("+l", 2, [None, np.zeros(3, np.int32)])}
    batch = Arrow("+s", 2, [None], children=lists)
    assert bsi.Index.from_frame(batch, ["a"]).sum("a") == 11
    with pytest.raises(bsi.BadColumns, match="column 'c': an Arrow array of format '\\+l'"):
        bsi.Index.from_frame(batch)


def batch(numbers, *words):
    columns = {"a": Arrow("l", len(numbers), [None, np.array(numbers, "i8")]), "b": views(*words)}
    return Arrow("+s", len(numbers), [None], children=columns)


def test_a_stream_of_record_batches_is_a_frame():
    long = "a text of more than twelve bytes"
    given = [batch([5, 6], "x", long), batch([7], long + "!"), batch([])]
    stream = Stream(batch([]), *given)
    index = bsi.Index.from_frame(stream)
    assert (index.sum("a"), len(index), stream.released) == (18, 3, 3)
    assert index.rows(bsi.col.b == long).tolist() == [1] and index.greatest("b") == "x"
    assert index.append(Stream(batch([]), batch([5], "x"))) == 1 and len(index) == 4
    assert len(bsi.Index.from_frame(Stream(batch([])))) == 0
    with pytest.raises(bsi.BadColumns, match="the Arrow stream broke off: no more rows"):
        bsi.Index.from_frame(Stream(batch([]), batch([5], "x"), breaks=True))
    with pytest.raises(bsi.BadColumns, match="an Arrow record batch, not as one array"):
        bsi.Index.from_frame(Stream(texts("a")))


def test_a_column_in_chunks():
    def times(*numbers):
        return Arrow("tsm:UTC", len(numbers), [None, np.array(numbers, "i8")])

    def named(*words):
        return Arrow("c", 2, [None, np.array([1, 0], np.int8)], dictionary=texts(*words), flags=1)

    numbers = [Arrow("i", 2, [None, np.array([place] * 2, np.int32)]) for place in (1, 2)]
    index = bsi.Index.from_frame(
        {
            "n": Stream(Arrow("i", 0, []), *numbers),
            "t": Stream(times(), times(1000, 2000), times(3000, 4000)),
            "o": Stream(named("b", "a"), named("b", "a"), named("b", "a")),
            "x": Stream(named("b", "a"), named("b", "a"), named("c", "b")),
        }
    )
    assert (index.sum("n"), index.forms["t"].kind) == (6, bsi.Times("s", datetime.timezone.utc))
    assert index.forms["o"].kind == bsi.Texts(("b", "a"), ordered=True)
    assert index.forms["x"].kind == bsi.Texts(("a", "b", "c")) and index.rows(bsi.col.x == "b").tolist() == [1, 2]


# Values of which none is there, and the kind that their dtype tells.
NOTHING = {
    "a series of texts": (pandas.Series([None, None], dtype="string"), bsi.Texts([""])),
    "an empty series of texts": (pandas.Series([], dtype="string"), bsi.Texts([""])),
    "an empty array of texts": (np.array([], "U3"), bsi.Texts([""])),
    "a category of texts": (pandas.Categorical([None], ["a", "b"]), bsi.Texts([""])),
    "an ordered category": (pandas.Categorical([None], ["b", "a"], ordered=True), bsi.Texts(["b", "a"], ordered=True)),
    "a category of days": (pandas.Categorical([None], pandas.to_datetime(["2026-01-31"])), bsi.Times("D")),
    "a category of dates": (pandas.Categorical([None], [DAY]), bsi.Times("D")),
    "a category in a zone": (
        pandas.Categorical([None], pandas.to_datetime(["2026-01-31"]).tz_localize("Europe/Paris")),
        bsi.Times("D", "Europe/Paris"),
    ),
    "a category of booleans": (pandas.Categorical([None], [True, False]), bsi.Flags()),
    "a category of numbers": (pandas.Categorical([None], [1, 2]), bsi.Whole()),
    "a category of nothing": (pandas.Categorical([None]), bsi.Whole()),
    "arrow texts": (texts("", "", validity=bits(0, 0)), bsi.Texts([""])),
    "no arrow texts": (texts(), bsi.Texts([""])),
    "arrow views": (views("", validity=bits(0)), bsi.Texts([""])),
    "an arrow stream of texts": (Stream(texts()), bsi.Texts([""])),
    "an arrow dictionary": (Arrow("c", 0, [None, np.zeros(1, np.int8)], dictionary=texts()), bsi.Texts([""])),
    "arrow decimals": (Arrow("d:10,2", 1, [bits(0), np.zeros(2, "i8")]), bsi.Decimals(2)),
    "no arrow decimals": (Arrow("d:38,30", 0, [None, None]), bsi.Decimals(18)),
    "arrow hundreds": (Arrow("d:5,-2,64", 0, [None, None]), bsi.Decimals(0)),
    "objects": (np.array([None], object), bsi.Whole()),
}


@pytest.mark.parametrize("name", NOTHING)
def test_nothing_has_the_kind_of_its_dtype(name):
    given, kind = NOTHING[name]
    index = bsi.Index.from_frame({"x": given})
    found = index.forms["x"].kind
    # (pandas 1 has zones of pytz)
    found = bsi.Times(found.unit, str(found.zone)) if getattr(found, "zone", None) else found
    assert found == kind and index.count("x") == 0 and index.least("x") is None
    if isinstance(kind, bsi.Texts):
        assert index.count(bsi.col.x == kind.values[0]) == 0


def test_texts_of_a_frame_follow_one_without():
    none, some = pandas.DataFrame({"x": pandas.Series([None], dtype="string")}), pandas.DataFrame({"x": ["b", "a"]})
    for frames in ([none, some], [some, none], [none, some, none, none]):
        found = bsi.choosing.chosen_of(frames)
        index = bsi.Index(found.forms)._filled(found, None)
        assert index.forms["x"].kind == bsi.Texts(("a", "b")) and index.count("x") == 2
    found = bsi.choosing.chosen_of([none, none])
    assert found.forms["x"].kind == bsi.Texts([""]) and bsi.choosing.chosen_of([none, {"x": [1]}]).rows() == 2


@pytest.mark.parametrize("name", ["pyarrow", "polars"])
def test_tables_of_pyarrow_and_polars(name):
    module = pytest.importorskip(name)
    given = {"n": [1, None, 3], "t": ["a", "a text of many bytes", None], "d": [DAY, None, DAY]}
    index = bsi.Index.from_frame((module.table if name == "pyarrow" else module.DataFrame)(given))
    assert (index.sum("n"), index.count(bsi.col.t == "a"), index.count(bsi.col.d == DAY)) == (4, 1, 2)


# Values that can't be kept, the row that is named, and why.
REFUSED = {
    "2^63": ([1, 2**63], 1, "past 63 bits|past 64 bits"),
    "a large uint64": (np.array([1, 2**63], np.uint64), 1, "past 63 bits"),
    "a third": (np.array([0.5, 1 / 3, 0.1]), 1, "exactly with 6 decimal places; round= rounds it"),
    "a third as a decimal": (np.array([1 / 3], np.float64), 0, "0.3333333333333333 can't be stored exactly"),
    "a third in a list": ([1, 1 / 3], 1, "0.3333333333333333 can't be stored exactly with 6 decimal places"),
    "a third of few digits": (np.array([1, 1 / 3], np.float32), 1, "0.33333334 can't be stored exactly"),
    "a long double of 17 digits": (np.array([1, 1234567890123456.5], np.longdouble), 1, "exactly with"),
    "numbers far apart": ([None, -1, 5, 2**63 - 1], 3, "more than the 2\\^63 values"),
    "a large float": (np.array([0.5, 1e300]), 1, "exactly with"),
    "infinity": (np.array([1.0, np.inf]), 1, "inf is no finite number"),
    "a number of very many digits": ([1, 10**5000], 1, "what is of type int and too long to show is past 64 bits"),
    "a fraction of many digits": ([1, Fraction(10**5000, 3)], 1, "type Fraction and too long to show is no number"),
    "a fraction": ([Decimal("0.5"), Fraction(1, 3)], 1, "no number, or no decimal"),
    "infinite decimal": ([Decimal("inf")], 0, "no finite number"),
    "many places": ([Decimal("1e-30")], 0, "more than 18"),
    "text among numbers": ([1, "2"], 1, "no number"),
    "number among texts": (["a", None, 2], 2, "no text"),
    "a boolean among texts": (["a", True], 1, "no text"),
    "a boolean among numbers": ([2, True], 1, "no number"),
    "a number among booleans": ([True, 1], 1, "neither True nor False"),
    "a date among numbers": ([1, DAY], 1, "no number"),
    "a number among dates": ([DAY, 1], 1, "no date or time"),
    "bytes": ([b"a"], 0, "not one of numbers"),
    "a list in a list": ([[1, 2], [3, 4]], 0, "not one of numbers"),
    "an array in a list": ([1, np.array([1, 2])], 1, "no number"),
    "a complex number": ([1, 2j], 1, "no number"),
    "a duration": ([datetime.timedelta(1)], 0, "not one of numbers"),
    "texts of many values": ([f"text {number}" for number in range(1030)], 1024, "one text more than the 1,024"),
}


@pytest.mark.parametrize("name", REFUSED)
def test_what_cannot_be_kept_names_its_column_and_row(name):
    given, row, why = REFUSED[name]
    with pytest.raises(bsi.BadRow, match=why) as refused:
        bsi.Index.from_frame({"fine": list(range(len(given))), "the x": given})
    assert (refused.value.column, refused.value.row, refused.value.status) == ("the x", row, 8)
    assert str(refused.value).startswith(f"column 'the x', row {row}: ")


# What is no column at all.
NO_COLUMNS = {
    "two dimensions": np.zeros((2, 2)),
    "no dimension": np.array(5),
    "bytes": np.array([b"a"]),
    "complex numbers": np.array([1j]),
    "durations": np.array([1], "m8[s]"),
    "records": np.zeros(2, [("a", int)]),
    "a text": "123",
    "a number": 5,
    "a dict": {1: 2},
    "periods": pandas.Series(pandas.period_range("2026-01", periods=2, freq="M")),
    "intervals": pandas.Series(pandas.interval_range(0, 2)),
    "an arrow list": Arrow("+l", 1, [None, np.zeros(2, np.int32)]),
    "a released arrow array": Arrow("l", 1, [None, np.zeros(1)], released=True),
    "an arrow array without values": Arrow("l", 1, [None, None]),
    "an arrow array of few buffers": Arrow("l", 1, [None]),
    "an arrow array of negative length": Arrow("l", -1, [None, np.zeros(1)]),
    "a place past an arrow dictionary": Arrow("l", 1, [None, np.array([2])], dictionary=texts("a")),
    "arrow texts that are no UTF-8": Arrow("u", 1, [None, np.array([0, 1], np.int32), np.array([255], np.uint8)]),
    "an arrow time zone that is none": Arrow("tss:Nowhere/Here", 1, [None, np.array([0])]),
    "an arrow view past its buffers": Arrow("vu", 1, [None, np.array([40, 0, 3, 0], np.int32), np.array([0], "i8")]),
    "arrow texts that go back": Arrow("u", 2, [None, np.array([0, 5, 2], np.int32), np.zeros(9, np.uint8)]),
}


@pytest.mark.parametrize("name", NO_COLUMNS)
def test_what_is_no_column_is_refused(name):
    index = bsi.Index({"x": bsi.slices(8)})
    with pytest.raises(bsi.BadColumns, match="column 'x': "):
        index.append({"x": NO_COLUMNS[name]})
    assert len(index) == 0


def test_frames_that_are_none():
    for data in ([1, 2], "text", None, Arrow("l", 1, [None, np.zeros(1)])):
        with pytest.raises(bsi.BadColumns):
            bsi.Index.from_frame(data)
    for columns in ([1, 2], ["a", "a"], [("a", "b"), ("a", "c")]):
        with pytest.raises(bsi.BadColumns):
            bsi.Index.from_frame(pandas.DataFrame([[1, 2]], columns=columns))
