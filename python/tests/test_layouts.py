"""How CSV files are laid out: with and without a header, with titles that stand twice, and with blanks between fields."""

import io
import re
from decimal import Decimal

import numpy as np
import pytest

import bsi
from bsi.blanks import TabbedLines, tabbed
from bsi.files import Run, places_of

SMALL = [9, 30, 1 << 16]


def read(text, **more):
    return bsi.read_csv(io.BytesIO(text) if isinstance(text, bytes) else io.StringIO(text), **more)


def rows_of(index):
    """Returns the titles and the rows of an index."""
    columns = index.take(range(len(index)))
    return index.columns, [list(row) for row in zip(*columns.values())]


def in_runs_of(monkeypatch, size):
    for name in ("FIRST", "RUN"):
        monkeypatch.setattr(f"bsi.reading.{name}", size)


# ---- Headers ----


@pytest.mark.parametrize(
    "text, more, titles, rows",
    [
        ("1,a\n2,b\n", {"header": None}, ["column_1", "column_2"], [[1, "a"], [2, "b"]]),
        ("1,a\n2,b\n", {"header": None, "names": ["n", "t"]}, ["n", "t"], [[1, "a"], [2, "b"]]),
        ("1,a\n2,b\n", {"names": ("n", "t")}, ["n", "t"], [[1, "a"], [2, "b"]]),
        ("x,y\n1,a\n2,b\n", {"header": 0, "names": ["n", "t"]}, ["n", "t"], [[1, "a"], [2, "b"]]),
        ("x,y\n1,a\n", {"header": 0}, ["x", "y"], [[1, "a"]]),
        ("1,2\n3,4\n", {"header": 0}, ["1", "2"], [[3, 4]]),
        ("\n\n1,a\n\n2,b\n", {"header": None}, ["column_1", "column_2"], [[1, "a"], [2, "b"]]),
        ('"1","a\nb"\n2,c', {"header": None}, ["column_1", "column_2"], [[1, "a\nb"], [2, "c"]]),
        ("made\n1;a\n", {"header": None, "skiprows": 1, "delimiter": ";"}, ["column_1", "column_2"], [[1, "a"]]),
        ("\ufeff1,a\n", {"header": None, "columns": ["column_2"]}, ["column_2"], [["a"]]),
        ("1\r2\r", {"header": None}, ["column_1"], [[1], [2]]),
        ("7", {"header": None}, ["column_1"], [[7]]),
        ("", {"names": ["n"]}, ["n"], []),
        # (as R writes rows: each begins with a name, which the header does not have)
        ("x,y\na,1,2\nb,3,4\n", {"header": 0, "names": ["row", "x", "y"]}, ["row", "x", "y"], [["a", 1, 2], ["b", 3, 4]]),
    ],
)
def test_files_with_and_without_a_header(monkeypatch, text, more, titles, rows):
    for size in SMALL:
        in_runs_of(monkeypatch, size)
        assert rows_of(read(text.encode(), **more)) == (titles, rows)


def test_names_are_those_of_pandas():
    pandas = pytest.importorskip("pandas")
    for text in ("1,2,x\n3,4,y\n", "a,b,c\n3,4,y\n", "a,b,c\nd,e,f\n"):
        for more in ({}, {"header": None}, {"header": 0}, {"names": list("uvw")}, {"names": list("uvw"), "header": 0}):
            wanted = pandas.read_csv(io.StringIO(text), dtype=str, **more)
            try:
                index = read(text, kinds=dict.fromkeys(map(str, wanted.columns), bsi.Texts), **more)
            except bsi.BadColumns:
                assert "names" not in more and more.get("header", 0) is None  # (its titles are 0, 1, ..)
                index = read(text, kinds={f"column_{at}": bsi.Texts for at in (1, 2, 3)}, **more)
            assert rows_of(index)[1] == wanted.to_numpy().tolist()


def test_several_files_without_a_header(tmp_path):
    for name, text in (("one", "1,a\n"), ("two", ""), ("three", "\n2,b\n"), ("four", "3\n"), ("five", "x,y\n4,d\n")):
        (tmp_path / name).write_text(text)
    files = [tmp_path / name for name in ("one", "two", "three")]
    assert rows_of(bsi.read_csv(files, header=None, parts=2)) == (["column_1", "column_2"], [[1, "a"], [2, "b"]])
    with pytest.raises(bsi.BadColumns, match=r"row 1 \(line 1 of .*four\) has 1 fields, and the first row 2$"):
        bsi.read_csv([tmp_path / "one", tmp_path / "four"], header=None)
    with pytest.raises(bsi.BadRow, match=r"column 'n', row 1 \(line 1 of .*five\): 'x' is no number$"):
        bsi.read_csv([tmp_path / "one", tmp_path / "five"], names=["n", "t"])
    with pytest.raises(bsi.BadColumns, match="its header is .*, and that of the first file"):
        bsi.read_csv([tmp_path / "one", tmp_path / "five"], header=0, names=["n", "t"])


@pytest.mark.parametrize(
    "text, more, why",
    [
        ("1,2\n3,4\n", {}, "its first line has numbers alone, as '1'; header=None reads it as a row, and header=0 as titles"),
        ("-.5\n2\n", {}, "its first line has numbers alone, as '-.5'"),
        ("1;2\n3;4\n", {}, "delimiter=';' splits it, and header=None reads the first as a row$"),
        ("a,b\n1,x\n", {"names": ["n", "t"]}, "column 'n', row 0 .*: 'a' is no number; header=0 if that line is the header$"),
        ("a,b\n1,x\n", {"names": ["a", "b"]}, "its first line has the titles of names; header=0 reads it as a header"),
        ("506,,\na,b,c\n1,2,3\n", {}, "column '506', row 0 .*: 'a' is no number; skiprows=1 if that line is the header\n"),
        ("# made\na,b\n1,2\n", {}, "has 2 fields, and the header 1; skiprows=1 begins there, with header=None if that is a row"),
        ("a,b\n1,2\n3\n", {}, "has 1 fields, and the header 2$"),
        ("1,2,3\n", {"names": ["n", "t"]}, "has 3 fields, and names 2$"),
        ("1,2\n3\n", {"header": None}, "has 1 fields, and the first row 2$"),
        ("", {"header": None}, "there is no row"),
        ("", {}, "there is no header"),
    ],
)
def test_first_lines_that_are_not_as_was_said(text, more, why):
    with pytest.raises(bsi.Error, match=why):
        read(text, **more)


def test_first_lines_that_may_be_titles():
    assert read(",0,1\nx,2,3\n").columns == ["", "0", "1"] and read("place,1960,1961\nx,2,3\n").columns[1] == "1960"
    for more in ({"columns": "2"}, {"columns": ["2"]}, {"drop": ("1",)}, {"kinds": {"2": bsi.Whole()}, "drop": ["1"]}):
        assert rows_of(read("1,2\n3,4\n", **more)) == (["2"], [[4]])
    assert read("x;y\nz\n", names=["t"]).least("t") == "x;y" and read("x;y\n1\n", delimiter=",").columns == ["x;y"]


@pytest.mark.parametrize(
    "header, titles",
    [
        ("x,x,x", ["x", "x_2", "x_3"]),
        (",,x", ["", "_2", "x"]),
        ("x, x,X", ["x", " x", "X"]),
        ("x_2,x,y", ["x_2", "x", "y"]),
    ],
)
def test_titles_that_stand_twice(header, titles):
    assert rows_of(read(f"{header}\n1,2,3\n4,5,6\n")) == (titles, [[1, 2, 3], [4, 5, 6]])
    index = read(f"{header}\n1,2,3\n4,5,6\n", columns=titles[1], parts=2)
    assert index.sum(titles[1]) == 7 and read(f"{header}\n1,2,3\n", drop=titles[:2]).columns == titles[2:]


def test_titles_that_stay_the_same():
    with pytest.raises(bsi.BadColumns, match="'x_2' is there twice"):
        read("x,x,x_2\n1,2,3\n")
    assert read("x,x,x_2\n1,2,3\n", columns=["x"]).sum("x") == 1
    assert read("x,x,x_2\n1,2,3\n", header=0, names=["a", "b", "c"]).sum("c") == 3


# ---- Blanks ----


@pytest.mark.parametrize(
    "text, more, titles, rows",
    [
        ("a b\n1 2\n3 4\n", {}, ["a", "b"], [[1, 2], [3, 4]]),
        ("  a\t b \n\t1   2.5\n 3 4 \t\n\n   \n5 6", {}, ["a", "b"], [[1, Decimal("2.5")], [3, 4], [5, 6]]),
        ("a b\r\n1  x \r\n 2 y\r\n", {}, ["a", "b"], [[1, "x"], [2, "y"]]),
        ("a b\r1  x \r 2 y\r", {}, ["a", "b"], [[1, "x"], [2, "y"]]),
        (' 1  "New York"\n 2 "a ""b""  c\td"\n 3 ""\n', {"header": None}, None, [[1, "New York"], [2, 'a "b"  c\td'], [3, None]]),
        ('1 "two\n  lines "  \n2 x\n', {"header": None}, None, [[1, "two\n  lines "], [2, "x"]]),
        ('1 5"   \n 2   a"b\n', {"header": None}, None, [[1, '5"'], [2, 'a"b']]),
        ('1 5"  \n2 "x  y\n z" \n', {"header": None}, None, [[1, '5"'], [2, "x  y\n z"]]),
        ("1  'a  b'\n2 c\n", {"header": None, "quotechar": "'"}, None, [[1, "a  b"], [2, "c"]]),
        ('1 "a\n2 b"\n', {"header": None, "quotechar": None}, None, [[1, '"a'], [2, 'b"']]),
        ("made by  a tool\na  b\n1 2\n", {"skiprows": 1}, ["a", "b"], [[1, 2]]),
        ("x\n 5 \n\t6\n", {}, ["x"], [[5], [6]]),
        ("größe  n\n ä  1\n", {}, ["größe", "n"], [["ä", 1]]),
    ],
)
def test_fields_between_blanks(monkeypatch, text, more, titles, rows):
    for size in SMALL:
        in_runs_of(monkeypatch, size)
        found = rows_of(read(text.encode(), delimiter=" ", **more))
        assert found == (titles or ["column_1", "column_2"], rows), size


def random_line(rng, fields):
    """Returns fields between blanks, of which some are quoted."""
    blank = lambda least: "".join(rng.choice([" ", "\t"], rng.integers(least, 4)))  # noqa: E731
    spelt = ['"' + field.replace('"', '""') + '"' if re.search(r"[\s\"]", field) else field for field in fields]
    return blank(0) + "".join(field + blank(1) for field in spelt).rstrip(" \t" if rng.random() < 0.5 else "")


@pytest.mark.parametrize("seed", range(6))
def test_random_fields_between_blanks(monkeypatch, tmp_path, seed):
    rng, path = np.random.default_rng(seed), tmp_path / "rows.csv"
    words = ["a", "b c", "d\te", 'f"g', "h\n i ", "größe", "x" * 70, "5"] if seed % 2 else ["a", "bc", "größe", "-5", "x" * 70]
    for turn in range(15):
        in_runs_of(monkeypatch, int(rng.choice([10, 50, 300, 1 << 16])))
        monkeypatch.setattr("bsi.processes.LARGE", 0 if turn == 0 else 1 << 25)
        rows = [[str(rng.integers(-99, 99)), *map(str, rng.choice(words, 2))] for _ in range(int(rng.choice([1, 2, 7, 200])))]
        end = str(rng.choice(["\n", "\r\n"]))
        lines = [random_line(rng, row) + end + (end if rng.random() < 0.1 else "") for row in rows]
        path.write_bytes("".join(lines).encode())
        kinds = {"t": bsi.Texts, "u": bsi.Texts}
        index = bsi.read_csv(path, names=["n", "t", "u"], delimiter=" ", kinds=kinds, parts=int(rng.choice([1, 2])))
        assert rows_of(index)[1] == [[int(number), *texts] for number, *texts in rows]


def test_fields_between_blanks_are_those_of_pandas():
    pandas = pytest.importorskip("pandas")
    rng = np.random.default_rng(5)
    rows = [[str(rng.integers(1000)), f"{rng.random():.3f}", str(rng.choice(["x", "y"]))] for _ in range(300)]
    text = "n d t\n" + "".join(random_line(rng, row) + "\n" for row in rows)
    wanted = pandas.read_csv(io.StringIO(text), sep=r"\s+", dtype={"d": str})
    found = read(text, delimiter=" ").take(range(300))
    assert found["n"] == wanted["n"].tolist() and found["t"] == wanted["t"].tolist()
    assert list(map(str, found["d"])) == wanted["d"].tolist()


def test_lines_and_runs_have_the_same_tabs():
    rng = np.random.default_rng(8)
    for _ in range(2000):
        text = "".join(rng.choice(["a", "b", " ", "\t", "\n", "\r\n", '"x y"', '"', '""'], rng.integers(0, 12)))
        run, lines = Run(text.encode(), places_of(text.encode(), b'"'), True), TabbedLines('"')
        tabs = "".join(map(lines.of, io.StringIO(text, newline="")))
        again = "".join(map(TabbedLines('"').of, io.StringIO(tabs, newline="")))
        assert again == tabs and re.sub(r"\s+", "", tabs) == re.sub(r"\s+", "", text)
        # (each quote opens a field, closes one, or is one of two)
        if re.fullmatch(r'(?:"(?:[^"]|"")*"(?=\s|$)|[^\s"]+(?!")|\s)*', text):
            assert tabbed(run, b'"').text.decode() == tabs, text


SPLITS = "delimiter=' ' splits them"


@pytest.mark.parametrize(
    "text, why",
    [
        ("a b\n1 2\n3 4\n", f"its lines have 2 fields between blanks, and most are numbers; {SPLITS}; delimiter=',' leaves"),
        ("  a   b c\n 1 2  x\n 3  4 y\n", f"3 fields .*{SPLITS}; "),
        ("1 2\n3 4\n", f"{SPLITS}, and header=None reads the first as a row; "),
        ("'a' 'b'\n1 2\n", SPLITS),
        ('"a" "b"\n1,5 2,5\n', SPLITS),
        ("n t\n1 \"x y\"\n2 z\n", None),
        ("a b\n1 NA\n2 NA\n", SPLITS),
        ("a b\n", None),
        ("name\n1 2\n3 4\n", None),
        ("full name\nAda Lovelace\nAlan Turing\n", None),
        ("full name\nAda 1\nAlan 2\n", None),
        ("full name\n1 2\n3 4 5\n", None),
        ("full name\n1 2\nx\n", None),
        ("date time\n2026-01-31 12:00\n2026-02-01 12:00\n", None),
    ],
)
def test_first_lines_that_blanks_split(text, why):
    title = text.splitlines()[0]
    if why is None:
        assert read(text).columns == [title]
    else:
        with pytest.raises(bsi.BadColumns, match=why):
            read(text)
        assert len(read(text, delimiter=" ", nulls=["NA"], decimal="," if "," in text else ".", header=0).columns) >= 2


def test_lines_with_blanks_stay_whole_where_that_is_said():
    text = "call us\n555 1234\n555 5678\n"
    assert read(text, delimiter=",").least("call us") == read(text, columns=["call us"]).least("call us") == "555 1234"
    assert read(text, kinds={"call us": bsi.Texts}).columns == ["call us"]
    assert read("1 234\n5 678\n", header=0, thousands=" ").sum("1 234") == 5678
    assert read("1 2\n3 4\n", names=["pair"]).greatest("pair") == "3 4"
    with pytest.raises(ValueError, match="and not '.*'; ' ' is any run of blanks"):
        read(text, delimiter=r"\s+")
