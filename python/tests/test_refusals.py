"""What is given by mistake: each is refused by an error of the package, a TypeError or a ValueError that says what is
wrong, and never taken without a word."""

import io

import numpy as np
import pytest

import bsi
from bsi import col

DATA = {"x": [5, None, 3], "t": ["a", None, "b"], "f": [True, None, False]}


def index():
    return bsi.Index.from_frame(DATA)


def frame(**more):
    return bsi.Index.from_frame({"a": [5.125], "b": [1]}, **more)


def read(**more):
    return bsi.read_csv(io.StringIO("a,b\n5.125,2026-01-31\n"), **more)


# The call, the kind of error, and what it says.
REFUSED = [
    (lambda: index().sum(["x"]), bsi.BadQuery, r"there is no column \['x'\], only 'x', 't', 'f'"),
    (lambda: index().groupby([["x"]]), bsi.BadQuery, r"there is no column \['x'\]"),
    (lambda: index().groupby(["t", "z"]), bsi.BadQuery, "there is no column 'z'"),
    (lambda: index().groupby(["t", 5, "t"]), bsi.BadQuery, "there is no column 5"),
    (lambda: index().median(None), bsi.BadQuery, "there is no column None"),
    (lambda: index().describe([5]), bsi.BadQuery, "there is no column 5"),
    (lambda: index().take([0], 5), TypeError, "columns is a list of names, and not 5"),
    (lambda: index().to_pandas(columns=[["x"]]), bsi.BadQuery, r"there is no column \['x'\]"),
    (lambda: index().to_pandas("x < 5"), TypeError, r"rows are a list of their numbers, as rows\(where\)"),
    (lambda: index().to_pandas([3]), bsi.BadQuery, "there is no row 3"),
    (lambda: index().rows("x < 5"), TypeError, "a predicate is made of bsi.col"),
    (lambda: index().sum("x", np.array([True])), TypeError, "a predicate is made of bsi.col"),
    (lambda: index().sum("f", col.x), bsi.BadQuery, "column 'x' holds whole numbers: only one of booleans"),
    (lambda: index().rank("x", None), bsi.BadQuery, "column 'x' is compared with one of whole numbers: None"),
    (lambda: index().rank("x", 5, "x < 5"), TypeError, "a predicate is needed on each side of 'and', not str"),
    (lambda: index().nlargest(1, "x", "x < 5"), TypeError, "a predicate is needed on each side of 'and', not str"),
    (lambda: index().count(col.t == None), bsi.BadQuery, "None is no text; isnull"),  # noqa: E711
    (lambda: index().count(col.x.isin([3, None])), bsi.BadQuery, r"None is no number; isnull\(\) finds the nulls"),
    (lambda: index().count(col.f == float("nan")), bsi.BadQuery, "nan is neither True nor False; isnull"),
    (lambda: index().count(col.t == 10**5000), bsi.BadQuery, "type int and too long to show is no text"),
    (lambda: index().quantile("x", 10**5000), ValueError, "a quantile is from 0 to 1, and not what is of type int"),
    (lambda: bsi.Index({"x": bsi.slices(2)}, limit=10**5000), bsi.BadSchema, "the limit is 1 to .* type int"),
    (lambda: col.x.isin(5), TypeError, "a list of constants, not 5"),
    (lambda: bsi.ask(index(), None), TypeError, "a question that is a text, not Index and NoneType"),
    (lambda: bsi.ask("count", index()), TypeError, "needs an index and a question"),
    (lambda: bsi.Index(["a"]), bsi.BadSchema, r"columns by name, as .*, and not \['a'\]"),
    (lambda: bsi.Index(None), bsi.BadSchema, "columns by name"),
    (lambda: bsi.Index({"a": bsi.slices(3, kind=bsi.Texts)}), bsi.BadSchema, "the kind of column 'a' is one"),
    (lambda: bsi.Parts(2, {"a": bsi.slices(3, kind=5)}), bsi.BadSchema, "the kind of column 'a' is one"),
    (lambda: bsi.Parts(True, {"a": bsi.slices(3)}), ValueError, "1 to 256 parts, and not True"),
    (lambda: bsi.Texts(None), TypeError, "a column of texts needs the list of them"),
    (lambda: bsi.Texts(5), TypeError, "a column of texts needs the list of them"),
    (lambda: frame(kinds=["a"]), TypeError, r"kinds is a dict by column, and not \['a'\]"),
    (lambda: frame(forms=bsi.slices(3)), TypeError, "forms is a dict by column"),
    (lambda: frame(columns=5), TypeError, "columns is a list of names, and not 5"),
    (lambda: frame(drop=5), TypeError, "drop is a list of names, and not 5"),
    (lambda: frame(round="2"), TypeError, "round is a number of places, or a dict of such by column, and not '2'"),
    (lambda: frame(round=2.0), TypeError, "round is a number of places"),
    (lambda: frame(round={"a": "2"}), TypeError, "round is a number of places"),
    (lambda: frame(round={"z": 2}), bsi.BadColumns, "round is given for 'z', and the columns are 'a', 'b'"),
    (lambda: frame(round=19), ValueError, "round is 0 to 18 places, and not 19"),
    (lambda: frame(round=-1), ValueError, "round is 0 to 18 places, and not -1"),
    (lambda: read(round=99), ValueError, "round is 0 to 18 places, and not 99"),
    (lambda: read(round={"z": 2}), bsi.BadColumns, "round is given for 'z'"),
    (lambda: read(dates={"z": "%d"}), bsi.BadColumns, "dates is given for 'z', and the columns are 'a', 'b'"),
    (lambda: read(dates=5), TypeError, "dates is a form of strptime, as '%d.%m.%Y', or a dict"),
    (lambda: read(kinds=["a"]), TypeError, "kinds is a dict by column"),
    (lambda: read(nulls=5), TypeError, "nulls is a list of texts, and not 5"),
    (lambda: read(nulls=[5]), TypeError, r"nulls is a list of texts, and not \[5\]"),
    (lambda: read(nulls="NA"), TypeError, "nulls is a list of texts, and not 'NA'"),
    (lambda: read(columns=5), TypeError, "columns is a list of names"),
    (lambda: read(skiprows=-1), ValueError, "skiprows is a number of lines, and not -1"),
    (lambda: read(skiprows="1"), ValueError, "skiprows is a number of lines, and not '1'"),
    (lambda: read(header=1), ValueError, "header is 0, or None if files have none, and not 1; skiprows= leaves out lines"),
    (lambda: read(header=False), ValueError, "header is 0, or None if files have none, and not False"),
    (lambda: read(header="a"), ValueError, "header is 0, or None if files have none, and not 'a'"),
    (lambda: read(header=[0]), ValueError, r"header is 0, or None if files have none, and not \[0\]"),
    (lambda: read(names="ab"), TypeError, "names is a list of titles, and not 'ab'"),
    (lambda: read(names=5), TypeError, "names is a list of titles, and not 5"),
    (lambda: read(names={"a": 1}), TypeError, "names is a list of titles, and not {'a': 1}"),
    (lambda: read(names={"a"}), TypeError, "names is a list of titles, and not {'a'}"),
    (lambda: read(names=["a", 5]), TypeError, r"names is a list of titles, and not \['a', 5\]"),
    (lambda: read(names=["a", "b", "a"]), ValueError, "names has the title 'a' 2 times"),
    (lambda: read(names=["", ""]), ValueError, "names has the title '' 2 times"),
    (lambda: read(names=[]), ValueError, "names has no title"),
    (lambda: read(delimiter=" ", quotechar=" "), ValueError, "quotechar is no blank where these stand between fields"),
    (lambda: read(parts="2"), ValueError, "1 to 256 parts, and not '2'"),
    (lambda: bsi.read_csv("no file is opened", parts=1000), ValueError, "1 to 256 parts, and not 1000"),
    (lambda: bsi.read_csv(5), TypeError, "a file is a path or an open file, and not 5"),
    (lambda: bsi.read_csv(None), TypeError, "a file is a path or an open file, and not None"),
    (lambda: bsi.read_csv([io.StringIO("a\n1\n"), 0]), TypeError, "a file is a path or an open file, and not 0"),
    (lambda: bsi.read_csv([]), bsi.BadColumns, "there is no file"),
]


@pytest.mark.parametrize("place", range(len(REFUSED)))
def test_what_is_given_by_mistake(place):
    call, kind, why = REFUSED[place]
    with pytest.raises(kind, match=why):
        call()


def test_what_is_given_right():
    assert frame(round=np.int64(1)).least("a") == read(round={"a": 1}).least("a") == bsi.Decimals(1).decode(51)
    assert read(dates={"b": "%Y-%m-%d"}, skiprows=0, nulls={"-"}).forms["b"].kind == bsi.Times("D")
    assert index().sum("x", col.f) == 5 and index().count(where=col.f) == 1 and index().rows(col.f).tolist() == [0]
    assert index().groupby("t").count(where=col.f) == {"a": 1}
    assert read(nulls=(text for text in ("", "5.125"))).count("a") == 0 and len(read(dates={"b": None}, round=None)) == 1


def test_a_text_too_many_that_looks_like_a_date(tmp_path):
    texts = [str(day).replace("-", "/") for day in np.arange("2000-01-01", "2004-01-01", dtype="M8[D]")]
    with pytest.raises(bsi.BadRow, match="it looks like a date, and pandas.to_datetime makes dates of texts"):
        bsi.Index.from_frame({"d": texts})
    words = "".join(f"{text}x\n" for text in texts[:1023])
    (tmp_path / "rows.csv").write_text("d\na\n" + words + "2026-01-31\n")
    with pytest.raises(bsi.BadRow, match="row 1024 .*it looks like a date, and dates= says how to read it"):
        bsi.read_csv(tmp_path / "rows.csv")
