"""CSV files as they are: what is chosen for their columns, what comes back, and which field is refused."""

import bz2
import datetime
import gzip
import io
import lzma
import os
import pickle
import re
import zipfile
from decimal import Decimal

import numpy as np
import pytest

import bsi
from bsi import col
from bsi.digits import moments_of
from bsi.distinct import Distinct
from bsi.fields import fields_of

EXAMPLES = os.path.join(os.path.dirname(os.path.abspath(__file__)), "..", "..", "examples")


@pytest.fixture
def write(tmp_path):
    """Returns a function that writes a text, or bytes, as a file."""

    def written(text, name="rows.csv"):
        path = tmp_path / name
        path.write_bytes(text if isinstance(text, bytes) else text.encode())
        return path

    return written


def in_runs_of(monkeypatch, size):
    """Lets files be read by so many bytes at once."""
    for name in ("FIRST", "RUN"):
        monkeypatch.setattr(f"bsi.reading.{name}", size)


def test_an_export():
    path = os.path.join(EXAMPLES, "own", "export.csv")
    with pytest.raises(bsi.BadRow) as refused:
        bsi.read_csv(path)
    reason = "'n/a' is no number; nulls=['', 'n/a'] makes it a null"
    assert str(refused.value) == f"column 'Amount (EUR)', row 3 (line 5 of {path}): {reason}"
    index = bsi.read_csv(path, ["Ordered", "Amount (EUR)", "Customer"], nulls=["", "n/a"])
    assert index.columns == ["Ordered", "Amount (EUR)", "Customer"] and len(index) == 6
    assert index.median("Amount (EUR)", col.Ordered < "2026-02-01") == Decimal("12.50")
    assert (
        index.greatest("Ordered") == datetime.datetime(2026, 3, 1) and index.count(col.Customer == "Okafor, Ada") >= 1
    )


def test_kinds_are_chosen(write):
    text = (
        "n,d,day,at,ok,t,z,nothing\n"
        "-5,1.5,2026-01-31,2026-01-31T12:00:30,True,x,2026-01-31T12:00Z,\n"
        ",,,,,,,\n"
        '7,.25,1999-12-31,2026-02-01 00:00,false,"y, z",2026-01-31T12:00+01:00,\n'
    )
    index = bsi.read_csv(write(text))
    kinds = {name: form.kind for name, form in index.forms.items()}
    assert kinds == {
        "n": bsi.Whole(),
        "d": bsi.Decimals(2),
        "day": bsi.Times("D"),
        "at": bsi.Times("s"),
        "ok": bsi.Flags(),
        "t": bsi.Texts(("x", "y, z")),
        "z": bsi.Times("s", datetime.timezone.utc),
        "nothing": bsi.Whole(),
    }
    assert index.rows(col.n.isnull()).tolist() == [1] and index.count(col.nothing.isnull()) == 3
    assert (index.sum("n"), index.sum("d"), index.least("day"), index.greatest("t")) == (
        2,
        Decimal("1.75"),
        datetime.datetime(1999, 12, 31),
        "y, z",
    )
    assert index.least("z") == datetime.datetime(2026, 1, 31, 11, tzinfo=datetime.timezone.utc)


@pytest.mark.parametrize(
    "fields, kind, total",
    [
        (["1", "2.5", "-0.125"], bsi.Decimals(3), Decimal("3.375")),
        (["1e3", "2.5E-2"], bsi.Decimals(3), Decimal("1000.025")),
        (["5.", "0"], bsi.Decimals(0), Decimal("5")),
        (["-0", "12345678901234567"], bsi.Whole(), 12345678901234567),
        (["-9223372036854775808", "-9223372036854775807"], bsi.Whole(), -(2**64) + 1),
        (["1234567890123456789", "-1234567890123456788", "7"], bsi.Whole(), 8),
        (["9223372036854775807", "9223372036854775806"], bsi.Whole(), 2**64 - 3),
        (["true", "TRUE", "False"], bsi.Flags(), 2),
    ],
)
def test_numbers_are_read_exactly(write, fields, kind, total):
    index = bsi.read_csv(write("x\n" + "\n".join(fields)))
    assert (index.forms["x"].kind, index.sum("x")) == (kind, total)


@pytest.mark.parametrize(
    "fields, row, why",
    [
        (["1", "x"], 1, r"\(line 3 of .*rows.csv\): 'x' is no number"),
        (["1", "1_000"], 1, "is no number"),
        (["1", "2 3"], 1, "is no number"),
        (["1", "٣"], 1, "is no number"),
        (["1", "nan"], 1, "is no number"),
        (["1", "0x10"], 1, "is no number"),
        (["1.5", "."], 1, "is no number"),
        (["1.5", "1.2.3"], 1, "is no number"),
        (["1", "9223372036854775808"], 1, "past 63 bits"),
        (["1", "9" * 5000], 1, "past 63 bits"),
        (["1", "1e300"], 1, "64 bits|63 bits"),
        (["1", "0." + "1" * 19], 1, "more than 18"),
        (["10001", "00501"], 1, "without the 0 before it"),
        (["2026-01-31", "2026-02-30"], 1, "is no date or time"),
        (["2026-01-31", "2026-31-1"], 1, "is no date or time"),
        (["2026-01-31T10:00", "2026-01-31T25:00"], 1, "is no date or time"),
        (["2026-01-31T10:00Z", "2026-01-31T10:00"], 1, "has no time zone"),
        (["2026-01-31", "9999-12-31T00:00:00.000000001"], 1, "past 63 bits of nanoseconds"),
        (["true", "yes"], 1, "no true or false"),
        ([f"text{number}" for number in range(1025)], 1024, "one text more than the 1,024"),
        (["1", '"2\n3"'], 1, r"\(line 3 of .*rows.csv\): '2\\n3' is no number"),
        (['"1"', '"\n4"', "5"], 1, r"\(line 3 of .*rows.csv\): '\\n4' is no number"),
    ],
)
def test_what_cannot_be_kept_is_named(write, fields, row, why):
    with pytest.raises(bsi.BadRow, match=why) as refused:
        bsi.read_csv(write("fine,x\n" + "\n".join(f"1,{field}" for field in fields)))
    assert (refused.value.column, refused.value.row) == ("x", row)


@pytest.mark.parametrize(
    "text, why",
    [
        (b"", "there is no header"),
        (b"a,b\n1\n", r"row 0 \(line 2 of .*\) has 1 fields, and the header 2"),
        (b"a,b\n1,2\n1,2,3\n", r"row 1 \(line 3 of .*\) has 3 fields"),
        (b"a,a,a_2\n1,2,3\n", "'a_2' is there twice"),
        (b"a\n\xff\n", "no UTF-8 text .*; name its encoding"),
        (b'a\n"1\n', "unexpected end of data"),
        (b'a\n"1"2\n', "expected after"),
        (b"a\n" + b"x" * 200_000, "field larger than field limit"),
    ],
)
def test_files_that_are_none(write, text, why):
    with pytest.raises(bsi.BadColumns, match=why):
        bsi.read_csv(write(text))


def test_files_that_are_unusual(write):
    assert bsi.read_csv(write(b"\xef\xbb\xbfa;b\r\n1;2\r\n\r\n3;4"), delimiter=";").sum("a") == 4
    assert len(bsi.read_csv(write("a,b\n"))) == 0
    assert bsi.read_csv(write("a\n\n\n1\n\n2\n")).rows(col.a == 2).tolist() == [1]
    assert bsi.read_csv(write('a\n""\n5\n')).count(col.a.isnull()) == 1
    assert bsi.read_csv(write("a\ngr\xfcn\n".encode("latin-1")), encoding="latin-1").least("a") == "grün"
    with pytest.raises(OSError):
        bsi.read_csv("/nonexistent.csv")
    with pytest.raises(bsi.BadColumns, match="there is no file"):
        bsi.read_csv([])


def test_kinds_that_are_given(write):
    path = write("zip,cents\n00501,007\n10001,2\n,\n")
    index = bsi.read_csv(path, kinds={"zip": bsi.Texts, "cents": bsi.Decimals("0.01")})
    assert index.count(col.zip == "00501") == 1 and index.sum("cents") == Decimal("9.00")
    assert bsi.read_csv(path, kinds={"zip": bsi.Whole(), "cents": bsi.Whole()}).sum("zip") == 10502
    for more, why in (
        ({"kinds": {"zap": bsi.Texts}}, "given for 'zap'"),
        ({"kinds": {"zip": bsi.Whole}}, "the kind of column 'zip' is one"),
        ({"kinds": {"zip": str}}, "the kind of column 'zip' is one"),
        ({"kinds": {"zip": bsi.Texts, "cents": bsi.Times("D")}}, "column 'cents', row 0 .* no date or time"),
        (
            {"columns": ["zip"], "kinds": {"zip": bsi.Texts(("10001",))}},
            "column 'zip', row 0 .* is not one of its 1 texts",
        ),
        ({"columns": ["zip", "none"]}, "there is no column 'none'"),
        (
            {"kinds": {"zip": bsi.Texts, "cents": bsi.Whole()}, "forms": {"cents": bsi.slices(2)}},
            r"column 'cents', row 0 \(line 2 of .*\): 7 is not from 0 to 3",
        ),
        ({"kinds": {"zip": bsi.Texts, "cents": bsi.Whole()}, "limit": 2}, "row 2 is past the limit"),
    ):
        with pytest.raises(bsi.Error, match=why):
            bsi.read_csv(path, **more)


def test_several_files_of_many_blocks(write, monkeypatch):
    in_runs_of(monkeypatch, 40)
    first = write("n,t\n" + "".join(f"{number},w{number % 9}\n" for number in range(50)), "one.csv")
    second = write("n,t\n" + "".join(f"{number}.5,v{number % 3}\n" for number in range(30)), "two.csv")
    for parts in (1, 3):
        told = []
        index = bsi.read_csv([first, second], parts=parts, progress=lambda done, total: told.append((done, total)))
        assert len(index) == 80 and index.sum("n") == Decimal(sum(range(50)) + sum(range(30)) + 15)
        assert index.rows(col.t == "w8").tolist() == list(range(8, 50, 9)) and index.count(col.t == "v1") == 10
        assert told[-1][0] == told[-1][1] == os.path.getsize(first) + os.path.getsize(second)
    with pytest.raises(bsi.BadRow, match=r"column 'n', row 57 \(line 9 of .*three.csv\): 'x' is no number"):
        bsi.read_csv([first, write("n,t\n" + "1,1\n" * 7 + "x,1\n", "three.csv")])
    with pytest.raises(bsi.BadColumns, match="its header is"):
        bsi.read_csv([first, write("t,n\n1,1\n", "four.csv")])
    with pytest.raises(bsi.BadRow, match="column 't', row 50 .*"):
        bsi.read_csv([write("n,t\n" + "1,5\n" * 50, "five.csv"), write("n,t\n1,x\n", "six.csv")])
    with pytest.raises(bsi.BadRow, match="column 't', row 1025 .*: 'v1' is one text more than the 1,024"):
        bsi.read_csv(write("t\nv0\n" + "".join(f"w{number}\n" for number in range(1023)) + "v0\nv1\nv2\n", "seven.csv"))


def test_units_of_several_blocks(write, monkeypatch):
    in_runs_of(monkeypatch, 25)
    fields = ["2026-01-31", "", "2026-01-31T00:00:01", "1969-12-31T23:59:59.5", "", "", "1900-01-01"]
    index = bsi.read_csv(write("t,n\n" + "".join(f"{field},1\n" for field in fields)))
    assert index.forms["t"].kind == bsi.Times("ms") and index.count(col.t.isnull()) == 3
    assert [index.rows(col.t == field).tolist() for field in fields if field] == [[0], [2], [3], [6]]


def test_times_are_read_exactly(write):
    fields = ["2026-01-31T12:00:00.123456789", "2026-01-31 12:00", "2026-01-31T12:00:00.5"]
    index = bsi.read_csv(write("t\n" + "\n".join(fields)))
    assert index.forms["t"].kind == bsi.Times("ns") and str(index.greatest("t")) == "2026-01-31T12:00:00.500000000"
    assert [index.rows(col.t == field).tolist() for field in fields] == [[0], [1], [2]]
    index = bsi.read_csv(write("t\n1600-01-01T00:00:00.5+0130\n9999-12-31T23:59:59Z\n"))
    assert index.least("t") == datetime.datetime(1599, 12, 31, 22, 30, 0, 500_000, datetime.timezone.utc)
    assert index.count(col.t > "9999-12-31T23:59:58.999999999Z") == 1


def read(write, text, **more):
    return bsi.read_csv(write(text), **more)


@pytest.mark.parametrize(
    "fields, row, why",
    [
        (["NA", "9", "10", "100"], 0, r"'NA' is no number; nulls=\['', 'NA'\] makes it a null"),
        (["NA", "NA", "7"], 0, "'NA' is no number"),
        (["null", "2026-01-31"], 0, r"'null' is no date or time.*nulls=\['', 'null'\]"),
        (["-", "true", "false"], 0, "'-' is no true or false; nulls="),
        (["NaN", "NaN"], 0, "'NaN' represents no text; nulls="),
        (["9,50", "10,25"], 0, "'9,50' is no number; decimal=',' reads it as one"),
        (["1,234", "2,000"], 0, "'1,234' is no number; thousands=',' reads it as 1234"),
        (["1,234,567.5", "9.5"], 0, "'1,234,567.5' is no number; thousands=',' reads it as 1234567.5"),
        (["1.234,50", "9,50"], 0, "'1.234,50' is no number; decimal=',', thousands='.' read it as 1234.50"),
        (["1.234.567", "890"], 0, "'1.234.567' is no number; decimal=',', thousands='.' read it as 1234567"),
        (["1 234", "2 000"], 0, "'1 234' is no number; thousands=' ' reads it as 1234"),
        (["1\u202f234,5", "7"], 0, r"is no number; decimal=',', thousands=' ' read it as 1234.5"),
        (["1'234.50", "9.50"], 0, r"is no number; thousands=\"'\" reads it as 1234.50"),
        (["+5", "+10"], 0, r"'\+5' is no number without the \+ before it, which a code may need; give"),
        (["5%", "10%"], 0, "'5%' is no number; take the '%' out, or kinds= with Texts stores it"),
        (["5 %", "10 %"], 0, "take the '%' out"),
        (["$5", "-$1,000.50"], 0, r"'\$5' is no number; take the '\$' out"),
        (["€5", "€-7,25"], 0, "take the '€' out"),
        (["12 €", "3"], 0, "take the '€' out"),
        (["1", "2", "three"], 2, "'three' is no number"),
        (["2012/01/01", "2012/01/02", "soon"], 2, "'soon' is no date or time"),
        (["01/02/2026", "03/04/2026"], 0, "day and month of '01/02/2026' could be exchanged: give dates="),
        (["Jan 2026", "Feb 2026"], 0, "'Jan 2026' has no day: give dates="),
        (["11/2026", "12/2026"], 0, "'11/2026' has no day: give dates="),
        (["1/2/26", "1/3/26"], 0, "has a year of two digits: give dates="),
        (["31-Jan-04", "1-Feb-04"], 0, "'31-Jan-04' has a year of two digits: give dates=, as '%d-%b-%y'"),
        (["31 Jan 04", "1 Feb 04"], 0, "has a year of two digits: give dates="),
        (["Jan 31, '04", "Feb 1, '04"], 0, "has a year of two digits: give dates="),
        (["2004-01", "2004-02"], 0, "'2004-01' has no day: give dates=, as '%Y-%m'"),
        (["2026-01-31T12:00:00.1234567891", "2026-01-31T12:00:00.5"], 0, "is finer than nanoseconds"),
        (["2026-01-31 12:00 EST", "2026-01-31 12:00 PST"], 0, "has the zone 'EST', which is unknown"),
        (["Sat, 31 Jan 2026", "Mon, 1 Feb 2026"], 1, "is no date or time: that day is a Sunday"),
        (["1/31/2026 12:00", "1/31/2026 12:00 UTC"], 1, "has a time zone, like those before it"),
        (["2026/02/30", "2026/02/01"], 0, "is no date or time: the calendar"),
        (["31.01.2026", "05.13.2026", "30.01.2026"], 1, "the calendar or the clock has no such"),
        (["a", "b", "c", *["1"] * 30], 0, "'a' is no number"),
        ([*"abcdefgh"] * 4000 + ["1"] * 40_000, 0, r"line 2 of .*: 'a' is no number; kinds= says"),
        (["1"] * 40_000 + ["x"], 40_000, r"\(line 40002 of .*\): 'x' is no number"),
        (["2026-01-31"] * 10_000 + ["31.1.2026"], 10_000, "is no date or time"),
    ],
)
def test_a_column_is_chosen_by_many_of_its_fields(write, fields, row, why):
    with pytest.raises(bsi.BadRow, match=why) as refused:
        read(write, "fine;x\n" + "".join(f"1;{field}\n" for field in fields), delimiter=";")
    assert (refused.value.column, refused.value.row) == ("x", row)


@pytest.mark.parametrize(
    "fields, more, least, greatest",
    [
        (["NA", "9", "10", "100"], {"nulls": ["", "NA"]}, 9, 100),
        (["9,50", "-,25", "1"], {"decimal": ","}, Decimal("-0.25"), Decimal("9.50")),
        ([" 216.9", "7 ", "\t8"], {}, Decimal("7.0"), Decimal("216.9")),
        (["31.01.2026", "05.02.2026"], {}, datetime.datetime(2026, 1, 31), datetime.datetime(2026, 2, 5)),
        (["01/31/2026", "02/05/2026"], {}, datetime.datetime(2026, 1, 31), datetime.datetime(2026, 2, 5)),
        (
            ["1/2/2026", "3/4/2026"],
            {"dates": "%m/%d/%Y"},
            datetime.datetime(2026, 1, 2),
            datetime.datetime(2026, 3, 4),
        ),
        (
            ["1/2/2026", "3/4/2026"],
            {"dates": {"x": "%d/%m/%Y"}},
            datetime.datetime(2026, 2, 1),
            datetime.datetime(2026, 4, 3),
        ),
        (["Mar 2026", "Jan 2027"], {"dates": "%b %Y"}, datetime.datetime(2026, 3, 1), datetime.datetime(2027, 1, 1)),
        (["2012-1-2", "2012-01-01"], {}, datetime.datetime(2012, 1, 1), datetime.datetime(2012, 1, 2)),
        (
            ["2026-01-31 12:00:00+00", "2026-01-31 12:00 UTC", "2026-01-31 12:00:00 -0130"],
            {},
            datetime.datetime(2026, 1, 31, 12, tzinfo=datetime.timezone.utc),
            datetime.datetime(2026, 1, 31, 13, 30, tzinfo=datetime.timezone.utc),
        ),
        (["2012/01/01", "2012/1/2"], {}, datetime.datetime(2012, 1, 1), datetime.datetime(2012, 1, 2)),
        (["Jan 1 2000", "Dec 31 1999"], {}, datetime.datetime(1999, 12, 31), datetime.datetime(2000, 1, 1)),
        (
            ["31 January 2026", "1-Feb-2026", "2026-Mar-1"],
            {},
            datetime.datetime(2026, 1, 31),
            datetime.datetime(2026, 3, 1),
        ),
        (
            ["1/31/2026 3:45 PM", "1/31/2026 12:05 am"],
            {},
            datetime.datetime(2026, 1, 31, 0, 5),
            datetime.datetime(2026, 1, 31, 15, 45),
        ),
        (
            ["2026-01-31 3:45 PM", "2026/01/31 12:05 am", "2026-01-31T9:05"],
            {},
            datetime.datetime(2026, 1, 31, 0, 5),
            datetime.datetime(2026, 1, 31, 15, 45),
        ),
        (
            ["1/31/2026 15:45:10.5", "1/31/2026 15:45:10"],
            {},
            datetime.datetime(2026, 1, 31, 15, 45, 10),
            datetime.datetime(2026, 1, 31, 15, 45, 10, 500_000),
        ),
        (
            ["Jan  1 2000 12:00AM", "Jan 31 2000  1:30PM"],
            {},
            datetime.datetime(2000, 1, 1),
            datetime.datetime(2000, 1, 31, 13, 30),
        ),
        (
            ["20000101T120000", "20000101T1159", "20000101T120000.25"],
            {},
            datetime.datetime(2000, 1, 1, 11, 59),
            datetime.datetime(2000, 1, 1, 12, 0, 0, 250_000),
        ),
        (
            ["Sat, 31 Jan 2026 12:00:00 GMT", "Sun, 01 Feb 2026 12:00:00 +0100"],
            {},
            datetime.datetime(2026, 1, 31, 12, tzinfo=datetime.timezone.utc),
            datetime.datetime(2026, 2, 1, 11, tzinfo=datetime.timezone.utc),
        ),
        (
            ["Monday, January 31, 2000", "Tue Feb  1 09:00:00 2000"],
            {},
            datetime.datetime(2000, 1, 31),
            datetime.datetime(2000, 2, 1, 9),
        ),
        (
            ["31.01.2026 12:00Z", "01.02.2026 12:00 +01:00"],
            {},
            datetime.datetime(2026, 1, 31, 12, tzinfo=datetime.timezone.utc),
            datetime.datetime(2026, 2, 1, 11, tzinfo=datetime.timezone.utc),
        ),
        (
            ["2026-01-31T12:00:00.1234560000", "2026-01-31 12:00:00,000"],
            {},
            datetime.datetime(2026, 1, 31, 12),
            datetime.datetime(2026, 1, 31, 12, 0, 0, 123_456),
        ),
        (
            ["2004-01", "2004-12"],
            {"dates": "%Y-%m"},
            datetime.datetime(2004, 1, 1),
            datetime.datetime(2004, 12, 1),
        ),
        (["1.234,50", "2.000,00", "9,50"], {"decimal": ",", "thousands": "."}, Decimal("9.50"), Decimal(2000)),
        (["1,234", "-2,000,000", "7"], {"thousands": ","}, -2_000_000, 1234),
        (["1,234.5", "-2,000.25"], {"thousands": ",", "parts": 2}, Decimal("-2000.25"), Decimal("1234.50")),
        (
            ["1 234,5", "1\u00a0234,75", "2\u2009000"],
            {"decimal": ",", "thousands": " "},
            Decimal("1234.5"),
            Decimal(2000),
        ),
        (["1'234", "999"], {"thousands": "'"}, 999, 1234),
        (["1,234", "0.125"], {"thousands": ",", "round": 1}, Decimal("0.1"), Decimal("1234.0")),
        (["+5", "-3"], {"kinds": {"x": bsi.Whole()}}, -3, 5),
        (["+5.5", "+1,000"], {"kinds": {"x": bsi.Decimals(1)}, "thousands": ","}, Decimal("5.5"), Decimal(1000)),
        (["$5", "$10"], {"kinds": {"x": bsi.Texts}}, "$10", "$5"),
        (["192.168.100.101", "192.168.100.200"], {}, "192.168.100.101", "192.168.100.200"),
        (["1.2.3", "1.10.0"], {}, "1.10.0", "1.2.3"),
        (["+49 170 1234567", "555 1234"], {}, "+49 170 1234567", "555 1234"),
        (["true", "false", "unknown", "yes", "no"], {}, "false", "yes"),
        (["A", "B", "7"], {}, "7", "B"),
        (["NA", "Meyer"], {}, "Meyer", "NA"),
        (["1,5", "x"], {"kinds": {"x": bsi.Texts}}, "1,5", "x"),
        ([f"t{number}" for number in range(3000)], {"kinds": {"x": bsi.Texts}}, "t0", "t999"),
        (["0.3333333333333333333333", "0.125", "1e-30"], {"round": 2}, Decimal("0.00"), Decimal("0.33")),
        (["0.5", "0.005", "0.015", "-0.025"], {"round": {"x": 2}}, Decimal("-0.02"), Decimal("0.50")),
        (["1", "2.675"], {"kinds": {"x": bsi.Decimals(2, rounded=True)}}, Decimal("1.00"), Decimal("2.68")),
    ],
)
def test_what_files_write(write, fields, more, least, greatest):
    index = read(write, "x|n\n" + "".join(f"{field}|1\n" for field in fields), delimiter="|", **more)
    assert (index.least("x"), index.greatest("x"), len(index)) == (least, greatest, len(fields))


def test_groups_of_three_digits(write):
    """A number that is written with groups is not taken for another one, and a text of other groups is no number."""
    for fields, more in (
        (["1,23"], {"thousands": ","}),
        (["7", "12,345,67"], {"thousands": ","}),
        (["0,123"], {"thousands": ","}),
        (["1,234.5"], {"decimal": ",", "thousands": "."}),
        (["1.234,5", "1.2345,5"], {"decimal": ",", "thousands": "."}),
        (["1 234", "1  234"], {"thousands": " "}),
    ):
        with pytest.raises(bsi.BadRow, match=rf"row {len(fields) - 1} .*{fields[-1]}.* is no number"):
            read(write, "x|n\n" + "".join(f"{field}|1\n" for field in fields), delimiter="|", **more)
    for field, number in (("1.234", "1234"), ("1.234,50", "1234.50"), ("-2.000.000", "-2000000")):
        with pytest.raises(bsi.BadRow, match=f"'{field}' is no number; thousands='.' reads it as {number}$"):
            read(write, f"x;n\n{field};1\n9,50;2\n", delimiter=";", decimal=",")
    for more in ({"thousands": "."}, {"thousands": ",", "decimal": ","}, {"thousands": ""}, {"thousands": 5}):
        with pytest.raises(ValueError, match="thousands is one of .* and not"):
            read(write, "x\n1\n", **more)


@pytest.mark.parametrize("sign, decimal", [(",", "."), (".", ","), (" ", ","), ("'", ".")])
def test_random_groups_of_digits_beside_a_pattern(write, monkeypatch, sign, decimal):
    rng, at = np.random.default_rng(3), re.escape(sign)
    point, grouped = re.escape(decimal), rf"[1-9]\d{{0,2}}(?:{at}\d{{3}})+"
    number = re.compile(rf"-?(?:(?:\d+|{grouped})(?:{point}\d*)?|{point}\d+)", re.ASCII)
    for _ in range(30):
        in_runs_of(monkeypatch, int(rng.choice([30, 1 << 16])))
        whole = [f"{number:,}".replace(",", sign) for number in rng.integers(-(10**9), 10**9, 20).tolist()]
        odd = ["".join(rng.choice([*"0123455", sign, sign, decimal, "-"], rng.integers(1, 12))) for _ in range(20)]
        fields = [str(field) + (f"{decimal}25" if rng.random() < 0.3 else "") for field in rng.permutation(whole + odd)]
        fields = [field for field in fields if field.strip() == field]
        wanted = [number.fullmatch(field) is not None for field in fields]
        text = "x|n\n" + "".join(f"{field}|{row}\n" for row, field in enumerate(fields))
        how = {"kinds": {"x": bsi.Decimals(2, rounded=True)}, "thousands": sign, "decimal": decimal, "bad": "skip"}
        index = read(write, text, delimiter="|", **how)
        kept = [(row, field) for row, (field, is_number) in enumerate(zip(fields, wanted)) if is_number]
        plain = [Decimal(field.replace(sign, "").replace(decimal, ".")) for _, field in kept]
        found = index.take(range(len(index)))
        assert found["n"] == [row for row, _ in kept] and found["x"] == [round(value, 2) for value in plain]


def test_all_columns_that_do_not_fit_are_told(write):
    with pytest.raises(bsi.BadRow) as refused:
        read(write, "a,b,c,d\n1,1,x,5\n2,x,y,5\n3,1,z,x\n4,2,,6\n")
    told = str(refused.value).splitlines()
    assert [line.split(" (line")[0] for line in told] == ["column 'b', row 1", "column 'd', row 2"]
    assert [type(other) for other in refused.value.others] == [bsi.BadRow] and refused.value.column == "b"
    assert str(pickle.loads(pickle.dumps(refused.value))) == str(refused.value)
    with pytest.raises(bsi.BadRow, match="column 'b', row 0.*\ncolumn 'c', row 1"):
        bsi.Index.from_frame({"a": [1, 2], "b": [2j, 1], "c": [1, "x"]})
    index = bsi.Index({"b": bsi.slices(3), "c": bsi.slices(3)})
    with pytest.raises(bsi.BadRow, match="column 'b', row 1.*\ncolumn 'c', row 0"):
        index.append({"b": [1, "x"], "c": [0.5, 1]})
    for table in (index, bsi.Parts(2, index.forms)):
        with pytest.raises(bsi.BadRow, match="column 'b', row 1: 8 is not from 0 to 7\ncolumn 'c', row 0: 9 is not"):
            table.append({"b": [1, 8, 9], "c": [9, 10, 1]})
        assert len(table) == 0


def test_rows_that_are_left_out(write, monkeypatch):
    text = 'n,t,d\n1,a,2026-01-31\nx,b,2026-02-30\n3,c\n4,d,2026-02-01\n5,"e\nf",soon\n6,g,2026-03-01\n'
    index = read(write, text, bad="skip", forms={"n": bsi.slices(2, offset=1)})
    assert len(index) == 2 and index.rows(col.n >= 1).tolist() == [0, 1] and index.sum("n") == 5
    assert index.skipped.count == len(index.skipped) == 4
    lines = [str(why).partition("line ")[2].partition(" of")[0] for why in index.skipped]
    assert sorted(lines) == ["3", "4", "6", "8"] and "4 rows were left out" in repr(index.skipped)
    many = "t,n\n" + "".join(f"x{number},{number}\n" for number in range(2000)) + "y,z\n"
    in_runs_of(monkeypatch, 500)
    with pytest.raises(bsi.BadRow, match="column 't', row 1024 .* is one text more than the 1,024"):
        read(write, many, bad="skip")
    with pytest.raises(ValueError, match="bad is"):
        read(write, text, bad="warn")


@pytest.mark.parametrize("ending", ["gz", "bz2", "xz", "zip"])
def test_files_that_are_packed(write, tmp_path, ending):
    path = tmp_path / f"rows.csv.{ending}"
    text = b"n,t\n" + b"1,x\n2,y\n" * 1000
    if ending == "zip":
        with zipfile.ZipFile(path, "w") as packed:
            packed.writestr("rows.csv", text)
    else:
        path.write_bytes({"gz": gzip, "bz2": bz2, "xz": lzma}[ending].compress(text))
    assert bsi.read_csv(path).sum("n") == 3000
    path.write_bytes(path.read_bytes()[:40] if ending != "zip" else b"PK nothing")
    with pytest.raises(bsi.BadColumns, match="it can't be unpacked"):
        bsi.read_csv(path)
    with pytest.raises(bsi.BadColumns, match="not unpacked here"):
        bsi.read_csv(write("x", "rows.csv.zst"))


def test_files_of_any_encoding(write):
    text = "größe,n\nübel,1\nA,2\n"
    for encoding, given in (("utf-16", None), ("utf-8-sig", None), ("cp1252", "cp1252"), ("utf-16-le", "utf-16-le")):
        index = bsi.read_csv(write(text.encode(encoding)), encoding=given)
        assert index.columns == ["größe", "n"] and index.rows(col["größe"] == "übel").tolist() == [0]
    assert bsi.read_csv(io.StringIO(text)).sum("n") == bsi.read_csv(io.BytesIO(text.encode())).sum("n") == 3
    for encoding in ("utf-99", 5, "a\0b"):
        with pytest.raises(bsi.BadColumns, match="there is no encoding"):
            bsi.read_csv(write(text), encoding=encoding)
    for encoding in ("rot13", "base64", "zlib", "hex", "bz2", "quopri", "uu"):
        with pytest.raises(bsi.BadColumns, match=f"'{encoding}' encodes no text"):
            bsi.read_csv(write(text), encoding=encoding)


def test_files_of_other_layouts(write):
    assert read(write, "n;t\n1;'x;y'\n2;z\n", delimiter=";", quotechar="'").count(col.t == "x;y") == 1
    assert read(write, 'n,t\n1,5" pipe\n2,"z"\n').rows(col.t == '5" pipe').tolist() == [0]
    assert read(write, 'n,t\n1,"a ""b"", c"\n2,""""\n3,""\n').rows(col.t == 'a "b", c').tolist() == [0]
    assert read(write, 'n,t\n1,"a\n2,b"\n3,c\n', quotechar=None).count(col.t == '"a') == 1
    assert read(write, "made by\na tool\nn\n1\n2\n", skiprows=2).sum("n") == 3
    assert read(write, b"n,t\r1,x\r2,y\r").sum("n") == 3 and read(write, b"n,t\r\n1,x\r\n2,y").count(col.t == "y") == 1
    assert read(write, "n\ttext\n1\tx\n", delimiter="\t").columns == ["n", "text"]
    assert read(write, "n§t\n1§x\n", delimiter="§").columns == ["n", "t"]
    for sign in (";", "\t", "|"):
        with pytest.raises(bsi.BadColumns, match="delimiter=.* splits it"):
            read(write, f"n{sign}t\n1{sign}x\n")
    with pytest.raises(bsi.BadRow, match=r"\(line 5 of"):
        read(write, "made by\nn\n1\n2\nx\n", skiprows=1)
    for more in ({"delimiter": "\n"}, {"quotechar": "ab"}, {"decimal": "x"}):
        with pytest.raises(ValueError, match="one character|decimal is"):
            read(write, "a\n1\n", **more)
    assert read(write, "a,b,c\n1,x,y\n", drop=["b", "c"]).columns == ["a"]
    with pytest.raises(bsi.BadColumns, match="no column 'z'"):
        read(write, "a,b\n1,2\n", drop=["z"])


def test_a_column_of_nulls_keeps_the_kind_that_is_given(write):
    index = read(write, "t,n\n,1\n,2\n", kinds={"t": bsi.Times("D")})
    assert index.count(col.t < "2026-01-31") == 0 and index.count(col.t.isnull()) == 2
    assert read(write, "t,n\n,1\n,2\n", kinds={"t": bsi.Texts}).count(col.t == "a") == 0


def random_field(rng, style):
    """Returns a field as a file may have it, and what csv and Python make of it."""
    text = {
        "number": lambda: str(rng.choice([0, 7, -5, 10**6, 123456789012345678, -(2**40)])),
        "decimal": lambda: str(rng.choice(["1.5", "-.25", "7", "1e3", "12345678.125", "0.000001", "5."])),
        "text": lambda: str(rng.choice(["a", "b c", "d,e", 'f"g', "h\ni", "größe", "x" * 70, "x" * 69 + "y", ""])),
        "date": lambda: str(rng.choice(["2026-01-31", "1600-02-29", "9999-12-31", "0001-01-01"])),
        "time": lambda: str(rng.choice(["2026-01-31T12:30", "2026-01-31 12:30:45.5", "2026-01-31"])),
    }[style]()
    is_quoted = style == "text" and (any(sign in text for sign in ',"\n') or rng.random() < 0.3)
    return text, '"' + text.replace('"', '""') + '"' if is_quoted else text


@pytest.mark.parametrize("seed", range(8))
def test_random_files_beside_the_module_csv(write, monkeypatch, seed):
    rng = np.random.default_rng(seed)
    for _ in range(12):
        in_runs_of(monkeypatch, int(rng.choice([10, 50, 300, 1 << 16])))
        styles = [str(style) for style in rng.choice(["number", "decimal", "text", "date", "time"], rng.integers(2, 6))]
        rows = [[random_field(rng, style) for style in styles] for _ in range(int(rng.choice([1, 2, 7, 200])))]
        end, header = str(rng.choice(["\n", "\r\n"])), ",".join(f"c{place}" for place in range(len(styles)))
        text = "".join(",".join(field for _, field in row) + end for row in rows)
        index = bsi.read_csv(
            write(header + end + text), parts=int(rng.choice([1, 3])), kinds=dict.fromkeys(texts_of(styles), bsi.Texts)
        )
        assert len(index) == len(rows)
        for place, style in enumerate(styles):
            kind, column = index.forms[f"c{place}"].kind, col[f"c{place}"]
            for value in {row[place][0] for row in rows}:
                wanted = [at for at, row in enumerate(rows) if same(style, row[place][0], value)]
                where = column.isnull() if value == "" else column == kind.parse(value)
                assert index.rows(where).tolist() == wanted, (style, value)


def texts_of(styles):
    return [f"c{place}" for place, style in enumerate(styles) if style == "text"]


def same(style, one, other):
    if style in ("number", "decimal"):
        return Decimal(one) == Decimal(other)
    return one == other if style in ("text", "date") else np.datetime64(one) == np.datetime64(other)


def test_numbers_that_wait_are_those_that_came():
    rng, room = np.random.default_rng(2), bsi.packing.Room()
    for width in range(65):
        for rows in (0, 1, 7, 8, 100):
            least = -(1 << max(width - 1, 0)) if width > 62 else int(rng.integers(-(2**62), 2**62 - 1))
            numbers = [least + int.from_bytes(rng.bytes(9), "little") % (1 << width) for _ in range(rows)]
            given, valid = np.array(numbers, np.int64), rng.random(rows) < rng.choice([0.0, 0.7, 1.0])
            found = room.moved(bsi.packing.packed(given, valid))
            assert (found.valid == valid).all() and (found.numbers[valid] == given[valid]).all(), (width, rows)
            assert found.places.nbytes <= width * -(-rows // 8)


def test_dates_of_several_centuries_and_days_that_no_calendar_has():
    days = np.arange("0000-01-01", "9999-12-31", 97, dtype="M8[D]")
    moments = moments_of(fields_of(np.datetime_as_string(days).tolist()), "2026-01-31")
    assert moments.read.all() and (moments.days == days.astype(np.int64)).all()
    wrong = ["1900-02-29", "2100-02-29", "2026-04-31", "2026-13-01", "2026-00-10", "2026-01-00", "2026-01-40", "x026-01-01"]
    assert not moments_of(fields_of(wrong), "2026-01-31").read.any()
    assert moments_of(fields_of(["2000-02-29", "1999-12-31"]), "2026-01-31").read.all()


def test_texts_that_share_a_place_of_the_table():
    texts = [f"t{number}" for number in range(3000)]
    distinct = Distinct()
    assert distinct.codes(fields_of(texts)).tolist() == list(range(3000))
    assert distinct.codes(fields_of(texts[::-1] + ["new"])).tolist() == list(range(3000))[::-1] + [3000]
