"""Questions as texts, and the command that answers them."""

import os
import subprocess
import sys
from datetime import timedelta, timezone

import pytest

import bsi
from bsi import col
from bsi.__main__ import main
from bsi.questions import predicate


@pytest.fixture(scope="module")
def index():
    return bsi.Index.from_frame(
        {
            "price": [100, 250, None, 7],
            "Amount (EUR)": [1.5, 2.25, 0.5, None],
            "where": ["a b", "O'Hara", "null", None],
            "ok": [True, False, None, True],
            "day": ["2026-01-31", "2026-02-01", None, "2026-02-28"],
            "and": [1, 2, 3, 4],
        },
        kinds={"day": bsi.Times("D")},
    )


@pytest.mark.parametrize(
    "text, answer",
    [
        ("count", 4),
        ("count all", 4),
        ('count price < 100 and "Amount (EUR)" null', 1),
        ("rows price >= 100", [0, 1]),
        ("sum price", 357),
        ("median price where not price = 7", 100),
        ("least 'Amount (EUR)' price!=100", bsi.Decimals(2).decode(225)),
        ("count price<2.5", 0),
        ('rows "and" < price', [0, 1, 3]),
        ('count "and" >= price or price == price', 3),
        ("count not price null and not (price = 7 or price = 100)", 1),
        ("count price null or price not null", 4),
        ("greatest price price > 1000", None),
        ("count 'where' = 'O''Hara'", 1),
        ('count where "where" = "a b"', 1),
        ("count 'where' = 'null'", 1),
        ("count 'where' null", 1),
        ("count ok = TRUE", 2),
        ("greatest price day >= 2026-02-01", 250),
        ("count 'and' > 1 and 'and' < 4", 2),
        ("count price = -5", 0),
        ("count not not price == 7", 1),
        ("count (((price = 7)))", 1),
        ("count price = 7 or price = 100 and ok = false", 1),
        ("count (price = 7 or price = 100) and ok = false", 0),
        ("list price >= 100", [0, 1]),
        ("distinct price price > 7", 2),
        ("rank price 1", 100),
        ("rank price 3 where price < 999", None),
        ("quantile price 1 2", 100),
        ("top price 2", {1: 250, 0: 100}),
        ("bottom price 9 price < 200", {3: 7, 0: 100}),
        ("by ok count", {False: 1, True: 2, None: 1}),
        ("by day.month ok sum price price > 5", {(1, True): 100, (2, False): 250, (2, True): 7}),
        ("by day.weekday distinct price where price not null", {5: 2, 6: 1}),
        ("count day.month = 2 and day.year >= 2026", 2),
        ("rows not day.day != 28 and day.day not null", [3]),
        ("count 'where' startswith a or 'where' contains \"'H\"", 2),
    ],
)
def test_answers(index, text, answer):
    found = bsi.ask(index, text)
    assert (found.tolist() if isinstance(answer, list) else found) == answer
    assert not isinstance(answer, dict) or list(found) == list(answer)


@pytest.mark.parametrize(
    "text, why",
    [
        ("", "a question begins with"),
        ("drop price", "a question begins with"),
        ("sum", "asked of a column"),
        ("sum cost", "no column 'cost'"),
        ("count cost = 5", "no column 'cost'"),
        ("count price", "a sign and a constant"),
        ("count price <", "a sign and a constant"),
        ("count price 5", "a sign and a constant"),
        ("count price < cheap", "'cheap' is no number"),
        ("count day < 5", "no date or time"),
        ("count price < 5 and", "ends before a column"),
        ("count (price < 5", "opened and not closed"),
        ("count price < 5)", "closed that was not opened"),
        ("count price < 5 price < 6", "'and', 'or' or the end"),
        ("count and", "a sign and a constant"),
        ("count price < 'x", "no word of a question"),
        ("count not", "ends before a column"),
        ("count price ! 5", "no word of a question"),
        ("count ()", "no column"),
        ("sum 'where'", "have no sum"),
        ("sum where", "have no sum"),
        ("count 'and' > 5 < 6", "'and', 'or' or the end"),
        ("count where > 5", "no column '>'"),
        ("count " + " and ".join(["price = 1"] * 300), "at most 1,000 fields"),
        ("count __import__('os')", "no column"),
        ("rank price", "asked of a column and a whole number"),
        ("quantile price 1", "asked of a column and two whole numbers"),
        ("quantile price 3 2", "a share is a part of a whole"),
        ("top price many", "asked of a column and a whole number"),
        ("by count", "'by' is asked of columns"),
        ("by price", "'by' is asked of columns"),
        ("by price sum", "'sum' is asked of a column"),
        ("by price.month count", "whole numbers have no month"),
        ("count day.month = May", "is compared with a whole number"),
        ("count day.minute = 5", "no column 'day.minute'"),
        ("count price contains 5", "contains is asked of texts"),
    ],
)
def test_questions_that_are_none(index, text, why):
    with pytest.raises(bsi.BadQuery, match=why):
        bsi.ask(index, text)


def test_columns_of_other_kinds_are_refused(index):
    for where, why in (
        (col.price < col.day, "columns 'price' and 'day' can't be compared: they hold whole numbers and "),
        (col.price == col["Amount (EUR)"], "columns 'price' and 'Amount (EUR)' can't be compared: "),
        (col.price == col.nothing, "there is no column 'nothing'"),
    ):
        with pytest.raises(bsi.BadQuery) as told:
            index.count(where)
        assert str(told.value).startswith(why)
    two, grows = bsi.Texts(["x", "y"]), bsi.Texts(["x", "y"], grows=True)
    with bsi.Index({"a": bsi.slices(1).of(two), "b": bsi.slices(2).of(grows)}) as texts:
        texts.append({"a": ["x", "y", None], "b": ["y", "y", "y"]})
        assert texts.rows(col.a == col.b).tolist() == [1]
        with pytest.raises(bsi.BadQuery, match="texts that grow"):
            texts.count(col.a < col.b)
    with pytest.raises(TypeError, match="rank needs a value"):
        index.rank("price", col["and"])


def test_constants_come_before_columns():
    data = {"a": [1, 2, 2024], "2024": [1, 5, 6], "Amount (EUR)": [2, 2, 2]}
    data.update(city=["Ulm", "b", "Ulm"], b=["Ulm", "Ulm", "b"])
    with bsi.Index.from_frame(data) as index:
        for text, rows in (
            ("rows a = 2024", [2]),
            ('rows a < "Amount (EUR)"', [0]),
            ("rows city = b", [1]),
            ("rows city = 'b' or b = city", [0, 1]),
        ):
            assert bsi.ask(index, text).tolist() == rows, text


def test_times_are_compared_where_unit_and_zone_agree():
    kinds = {"day": bsi.Times("D"), "other": bsi.Times("D"), "second": bsi.Times("s"), "utc": bsi.Times("s", timezone.utc)}
    kinds["east"] = bsi.Times("s", timezone(timedelta(hours=2)))
    with bsi.Index({name: bsi.slices(40).of(kind) for name, kind in kinds.items()}) as times:
        assert times.count((col.day <= col.other) | (col.utc > col.east)) == 0
        for where in (col.day < col.second, col.second == col.utc):
            with pytest.raises(bsi.BadQuery, match="can't be compared"):
                times.count(where)


def test_deep_questions(index):
    assert bsi.ask(index, "count " + "(" * 50_000 + "price = 7" + ")" * 50_000) == 1
    assert bsi.ask(index, "count " + "not " * 996 + "price = 7") == 1
    with pytest.raises(bsi.BadQuery):
        bsi.ask(index, "count " + "(" * 50_000)
    assert predicate(index, "price < 5 or not day null") == (col.price < bsi.Whole().parse("5")) | ~col.day.isnull()


def run(*words, given=""):
    return subprocess.run(
        [sys.executable, "-m", "bsi", *words], input=given, capture_output=True, text=True, check=False
    )


def test_the_command(tmp_path, capsys):
    path, other = tmp_path / "rows.csv", tmp_path / "more.csv"
    path.write_text("n,Day\n1,2026-01-31\n2,2026-02-01\nn/a,\n")
    other.write_text("n,Day\n5,2026-02-03\n")
    ran = run(str(path), str(other), "--null", "n/a", "sum n", "greatest Day n < 5", "rows n null", "count n = x")
    assert ran.stdout.splitlines()[1:] == [
        "  n    slices(3)                whole numbers, from 0 to 7",
        "  Day  slices(2, offset=20484)  dates, from 2026-01-31 to 2026-02-03",
        "8",
        "2026-02-01",
        "2",
    ]
    assert ran.stdout.startswith("Index of 4 rows, about ") and ran.returncode == 1
    assert ran.stderr == "bsi: column 'n' is compared with one of whole numbers: 'x' is no number\n"
    ran = run(str(path), "--null=n/a", "--columns", "n", "--parts", "2", given="count\n\nmedian n\n")
    assert (
        ran.stdout.splitlines()[0].startswith("Parts of 3 rows")
        and ran.stdout.splitlines()[2:] == ["3", "1"]
        and ran.returncode == 0
    )
    ran = run(str(path), "--text", "n", "least n n > 1")
    assert ran.stdout.splitlines()[-1] == "2" and ran.returncode == 0
    ran = run(str(path))
    assert (
        ran.returncode == 1
        and ran.stderr.startswith(f"bsi: column 'n', row 2 (line 4 of {path}): 'n/a' is no number; nulls=")
        and ran.stdout == ""
    )
    ran = run("/dev/stdin", "sum n", given="n\n5\n6\n")
    assert ran.stdout.splitlines()[-1] == "11" and ran.returncode == 0
    assert "No such file" in run("none.csv").stderr and run().returncode == 2
    assert main([str(path), "--null", "n/a", "count"]) == 0 and capsys.readouterr().out.endswith("3\n")


def test_the_command_takes_what_read_csv_takes(tmp_path):
    path = tmp_path / "rows.csv"
    path.write_text("made by a tool\nn;Day;zip;x\n1,5;31.01.2026;00501;1\nNA;01.02.2026;10001;y\n2,255;-;0;2\n")
    words = ["--delimiter", ";", "--decimal", ",", "--nulls", "NA,-", "--skiprows", "1", "--skip-bad", "--drop", "zip"]
    ran = run(str(path), *words, "--dates", "%d.%m.%Y", "--round", "2", "sum n", "count", "least", "Day")
    assert ran.stdout.splitlines()[-3:] == ["3.76", "2", "2026-01-31"] and ran.returncode == 0
    assert ran.stderr.startswith("bsi: 1 row was left out\ncolumn 'x', row 1 (line 4 of")
    words[-1], kinds = "x", "zip=text,n=decimals:3,Day=dates"
    ran = run(str(path), *words, "--kinds", kinds, "sum n", "least zip")
    assert ran.stdout.splitlines()[-2:] == ["3.755", "0"] and ran.returncode == 0
    for kinds, why in (
        ("zip=code", "--kinds has NAME=KIND"),
        ("zip=whole:3", "and not 'zip=whole:3'"),
        ("n=decimals:x", "--kinds n=decimals:x: 'x' is no number of places"),
        ("Day=times:h", "--kinds Day=times:h: 'h' is no unit of time"),
    ):
        assert why in run(str(path), "--kinds", kinds, "count").stderr
    path.write_text("n;x\n1.234,50;0,0000000\n2.000;0,0000001\n")
    words = ["--delimiter", ";", "--decimal", ",", "--thousands", "."]
    assert run(str(path), *words, "sum n", "least x").stdout.splitlines()[-2:] == ["3234.50", "0.0000000"]
    path.write_text("5  1\n 6 2\n")
    words = ["--delimiter", " ", "--header", "none"]
    assert run(str(path), *words, "sum column_1").stdout.splitlines()[-1] == "11"
    assert run(str(path), *words, "--names", "a,b", "sum b").stdout.splitlines()[-1] == "3"
    assert run(str(path), *words[:2], "--header", "0", "--names", "a,b", "sum b").stdout.splitlines()[-1] == "2"
    assert run("--version").stdout == f"bsi {bsi.__version__}\n" and bsi.__version__[0].isdigit()


def test_the_command_answers_groups_and_rows(tmp_path):
    path = tmp_path / "rows.csv"
    path.write_text("n,day,who\n1,2026-01-31,Ada\n12,2026-02-01,\n,2026-02-03,Bo\n4,,Ada\n")
    ran = run(str(path), "by", "day.month", "who", "sum", "n", "n<5", "by who count", "top n 2", "by who count n > 99")
    assert ran.stdout.splitlines()[4:] == ["1     Ada  1", "null  Ada  4", "Ada   2", "Bo    1", "null  1", "1  12", "3   4", "none"]
    assert ran.returncode == 0 and ran.stderr == ""


def test_a_shell_that_takes_a_sign_is_told(tmp_path):
    path, out = tmp_path / "rows.csv", tmp_path / "100"
    path.write_text("n\n5\n600\n")
    line = f"{sys.executable} -m bsi {path} count n > {out}"
    ran = subprocess.run(["sh", "-c", line], capture_output=True, text=True, check=False)
    assert ran.returncode == 1 and "the answers go to the file '100'; if > was meant as a sign: " in ran.stderr
    line = f"{sys.executable} -m bsi {path} 'sum m' > {out}"
    assert "a sign" not in subprocess.run(["sh", "-c", line], capture_output=True, text=True, check=False).stderr
    assert run(str(path), "count", "n", "=", "5").stdout.splitlines()[-1] == "1"


def test_the_command_without_an_input(tmp_path):
    path = tmp_path / "rows.csv"
    path.write_text("n\n5\n6\n")
    for words, out in ((f"{path} 'sum n'", "11\n"), (f"{path}", "")):
        line = f"{sys.executable} -m bsi {words} <&-"
        ran = subprocess.run(["sh", "-c", line], capture_output=True, text=True, check=False)
        assert (ran.returncode, ran.stderr, ran.stdout.partition("6\n")[2]) == (0, "", out)


@pytest.mark.parametrize("variables, words, wanted", [
    ({}, ["-OO", "-c", "import bsi; i = bsi.Index({'a': bsi.slices(3)}); i.close(); i.count()"], "the index is closed"),
    ({}, ["-OO", "-c", "import bsi; bsi.Index({})"], "an index needs a column"),
    ({"BSI_LIBRARY": "/nowhere/libbsi.so"}, ["-c", "import bsi"], "there is no /nowhere/libbsi.so, which the variable"),
])
def test_python_of_other_settings(variables, words, wanted):
    environment = {**os.environ, **variables}
    ran = subprocess.run([sys.executable, *words], env=environment, capture_output=True, text=True, check=False)
    assert ran.returncode == 1 and wanted in ran.stderr


def test_the_command_waits_at_a_terminal(tmp_path):
    path = tmp_path / "rows.csv"
    path.write_text("n\n5\n6\n")
    terminal, end = os.openpty()
    command = [sys.executable, "-m", "bsi", str(path), "count"]
    with subprocess.Popen(command, stdin=end, stdout=subprocess.PIPE, stderr=subprocess.STDOUT) as started:
        os.write(terminal, b"sum n\n\nsum x\ngreatest n n < 6\nhelp\nquit\ncount\n")
        out = started.communicate(timeout=60)[0].decode().replace("? ", "").splitlines()
    os.close(terminal)
    os.close(end)
    said = [line for line in out[2:] if line]
    assert said[:4] == ["2", "11", "bsi: there is no column 'x', only 'n'", "5"]
    assert said[4].startswith("    count [P]    rows [P]") and said[-1] != "2"
    assert started.returncode == 0


def test_the_command_reads_parquet_where_pandas_can(monkeypatch, capsys):
    pandas = pytest.importorskip("pandas")
    files = {"x.parquet": {"n": [1, 2], "t": ["a", "b"]}, "y.parquet": {"n": [1, 2], "t": ["a", "b"]}}
    files["z.parquet"] = {"n": [2**53 + 1], "t": ["c"]}
    files["half.parquet"] = {"n": [0.5], "t": [None]}
    monkeypatch.setattr(
        pandas,
        "read_parquet",
        lambda file, columns, use_nullable_dtypes: pandas.DataFrame(files[file])[columns or ["n", "t"]],
    )
    assert main(["x.parquet", "y.parquet", "sum n", "rows t = b"]) == 0
    assert capsys.readouterr().out.splitlines()[3:] == ["6", "1 3"]
    assert main(["x.parquet", "--columns", "t", "--parts", "2", "greatest t"]) == 0
    assert capsys.readouterr().out.splitlines()[2:] == ["b"]
    assert main(["z.parquet", "half.parquet", "sum n"]) == 0
    assert capsys.readouterr().out.splitlines()[3:] == ["9007199254740993.5"]
    assert main(["x.parquet", "--null", "n/a", "count"]) == 1
    assert capsys.readouterr().err == "bsi: --null is for CSV files alone\n"
    assert main(["x.parquet", "--skip-bad", "count"]) == 1 and "--skip-bad is for" in capsys.readouterr().err
    assert main(["x.parquet", "--thousands", ".", "count"]) == 1 and "--thousands is for" in capsys.readouterr().err
    assert main(["x.parquet", "--drop", "n", "--kinds", "t=text", "greatest t"]) == 0
    assert capsys.readouterr().out.splitlines()[2:] == ["b"]
