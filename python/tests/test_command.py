"""Files between the package and the command `bsi`: each opens what the other saved, and answers as it does.

The variable BSI_PROGRAM names the command where it is not built in the repository."""

import os
import subprocess
import sys
from decimal import Decimal

import numpy as np
import pytest

import bsi
import kept_format

TOP = os.path.join(os.path.dirname(os.path.abspath(__file__)), "..", "..")
PROGRAM = os.environ.get("BSI_PROGRAM") or os.path.join(TOP, "crates", "bsi", "out", "bsi")
PACKAGE = os.path.abspath(os.path.join(TOP, "python"))
WEATHER = os.path.join(TOP, "examples", "weather")
STATIONS = ["airport.csv", "harbour.csv", "hill.csv", "valley.csv"]
FORMS = {
    "day": bsi.range(11, 10, 10),
    "temp": bsi.range(10, 10, 10, offset=-400),
    "rain": bsi.slices(11),
    "wind": bsi.equality(12, 12),
}
# Questions as the command reads them, and as the package asks them.
c = bsi.col
QUESTIONS = {
    "count,temp,<,0,rain,>,0,and": lambda index: index.count((c.temp < 0) & (c.rain > 0)),
    "sum,temp,all": lambda index: index.sum("temp"),
    "sum,rain,day,<,366,not": lambda index: index.sum("rain", ~(c.day < 366)),
    "least,temp,wind,null,not": lambda index: index.least("temp", c.wind.notnull()),
    "greatest,wind,rain,=,0": lambda index: index.greatest("wind", c.rain == 0),
    "greatest,wind,day,>,5000": lambda index: index.greatest("wind", c.day > 5000),
    "median,temp,day,>=,731": lambda index: index.median("temp", c.day >= 731),
    "list,temp,>,250,rain,null,or": lambda index: index.rows((c.temp > 250) | c.rain.isnull()),
    "list,all,not": lambda index: index.rows(~(c.day.isnull() | c.day.notnull())),
}

pytestmark = pytest.mark.skipif(not os.path.isfile(PROGRAM), reason=f"there is no {PROGRAM}; make build")


def command(*words, asks=None):
    """Returns the lines that the command writes, but those of its row files."""
    line = [PROGRAM, *map(str, words)]
    ran = subprocess.run(line, input=asks, capture_output=True, text=True, cwd=WEATHER, check=True)
    return [line for line in ran.stdout.splitlines() if not line.startswith("fed ")]


def check_format(path, fed):
    """Checks that the reader made from the page of the format finds the rows in a file, so many of each feeder."""
    _limit, feeders, columns, _notes = kept_format.read(path.read_bytes())
    with bsi.open(path) as index:
        found = {name: entries for (name, *_), entries in columns.items()}
        assert found == index.take(range(len(index)))
    assert [feeders.count(feeder) for feeder in range(len(fed))] == fed and len(feeders) == sum(fed)


def text_of(questions):
    return "".join(f"{question}\n" for question in questions)


def line_of(question, found):
    """Returns the line by which the command says what the package found."""
    word = question.partition(",")[0]
    if word in ("count", "sum"):
        return f"{word} {found}"
    if word == "list":
        return " ".join(["rows", *(f"0:{row}" for row in found)])
    return "none" if found is None else f"value {found}"


def check_answers(path, questions):
    """Checks that the command and the package answer questions of a file alike, and returns the lines."""
    lines = command("ask", path, asks=text_of(questions))
    with bsi.open(path) as index:
        assert lines == [line_of(question, QUESTIONS[question](index)) for question in questions]
    return lines


@pytest.mark.parametrize("files", [STATIONS, ["hill.csv"]], ids=len)
def test_what_the_command_saves_is_opened(tmp_path, files):
    # (the package numbers rows as they were appended, and the command those of each file)
    questions = [question for question in QUESTIONS if len(files) == 1 or not question.startswith("list")]
    path, asks = tmp_path / "weather.bsi", tmp_path / "asks"
    asks.write_text(text_of(questions))
    of_rows = command("files", "--schema", "schema", "--asks", asks, *files)
    saved = command("save", "--schema", "schema", "--to", path, *files)
    with bsi.open(path) as index:
        assert saved == [f"saved {len(index)}"] and index.forms == FORMS
    fed = {1: [1094], 4: [1095, 1096, 1094, 1096]}[len(files)]
    check_format(path, fed)
    assert check_answers(path, questions) == of_rows
    command("add", path, "hill.csv")
    check_format(path, [fed[0] + 1094, *fed[1:]])


def some_rows(rng, rows):
    """Returns random values of each column, of which some are null."""
    data = {name: rng.integers(form.offset, form.most + 1, rows) for name, form in FORMS.items()}
    return {name: [int(one) if rng.random() < 0.9 else None for one in numbers] for name, numbers in data.items()}


def test_what_the_package_saves_is_asked(tmp_path):
    rng, path = np.random.default_rng(11), tmp_path / "some.bsi"
    for rows in (0, 1, 64, 1000):
        with bsi.Index(FORMS) as index:
            index.append(some_rows(rng, rows))
            index.save(path)
            wanted = [line_of(question, ask(index)) for question, ask in QUESTIONS.items()]
            assert check_answers(path, QUESTIONS) == wanted


def test_the_command_adds_to_a_file_of_the_package(tmp_path):
    path, tenths = tmp_path / "some.bsi", {**FORMS, "temp": FORMS["temp"].of(bsi.Decimals(1))}
    with bsi.Index(tenths) as index:
        index.append({"day": [1], "temp": [Decimal("-1.5")], "rain": [3], "wind": [None]})
        index.save(path)
    rows = tmp_path / "rows.csv"
    rows.write_text("wind,day,temp,rain\n7,2,12.4,\n,3,0.55,1\n,4,-40.0,2\n")
    # (the second record has too many places)
    assert command("add", path, rows) == ["added 2"]
    with bsi.open(path) as index:
        assert index.forms == tenths and len(index) == 3 and index.sum("temp") == Decimal("-29.1")
        assert command("ask", path, asks="sum,temp,all\n") == ["sum -29.1"]


RECORDS = (
    "by,Customer,sum,Amount (EUR),all",
    'count,Customer,=,"Okafor, Ada"',
    "greatest,Ordered,Amount (EUR),>,100",
    "median,Amount (EUR),Shipped,null,not",
    "top,Amount (EUR),2,Ordered,<,2026-02-28",
    "quantile,Ordered,1,2,all",
    "distinct,Customer,all",
    "list,Amount (EUR),>,100",
    "by,Ordered,by,Customer,count,all",
)


def test_records_are_answered_by_the_lines_of_the_command(tmp_path):
    export, saved = os.path.join(TOP, "examples", "own", "export.csv"), tmp_path / "own.bsi"
    command("save", "--to", saved, export)
    lines = command("ask", saved, asks=text_of(RECORDS))
    with bsi.open(saved) as index, bsi.read_csv(export, nulls=["", "n/a"]) as read:
        assert [bsi.ask(index, record) for record in RECORDS] == lines
        assert [bsi.ask(read, record) for record in RECORDS] == lines
    ran = subprocess.run(
        [sys.executable, "-m", "bsi", str(saved), *RECORDS[:2], "count Customer = Meyer"], capture_output=True, text=True
    )
    assert ran.returncode == 0 and ran.stdout.splitlines()[-3:] == [*lines[:2], "2"]
    # (a file's name may begin as a record does)
    (tmp_path / "list,1.csv").write_text("n\n5\n")
    words = [sys.executable, "-m", "bsi", "list,1.csv", "sum,n,all"]
    ran = subprocess.run(words, cwd=tmp_path, capture_output=True, text=True, env={**os.environ, "PYTHONPATH": PACKAGE})
    assert ran.returncode == 0 and ran.stdout.splitlines()[-1] == "sum 5"


NOTHING = ("count,Nobody,=,1", "sum,Customer,all", "by,count,all", 'count,"Customer,=,Sato', "list,")


@pytest.mark.parametrize("record", NOTHING)
def test_records_that_ask_nothing(record):
    export = os.path.join(TOP, "examples", "own", "export.csv")
    with bsi.read_csv(export, nulls=["", "n/a"]) as index:
        with pytest.raises(bsi.BadQuery, match="asks nothing|is no record"):
            bsi.ask(index, record)


def test_records_are_asked_of_one_index_in_kinds_of_files():
    with bsi.Parts.from_frame(2, {"n": [1, 2, 3]}) as parts:
        with pytest.raises(bsi.BadQuery, match="several"):
            bsi.ask(parts, "count,all")
    with bsi.Index.from_frame({"t": ["a", "b"]}, spare=10) as index:
        with pytest.raises(bsi.BadQuery, match="kinds"):
            bsi.ask(index, "count,all")
        assert bsi.ask(index, "count") == 2
