"""Files of kinds between the package and the command `bsi`: what one saved the other opens, in the same values, beside exact answers.

The variable BSI_PROGRAM names the command where it is not built in the repository."""

import csv
import datetime
import io
import operator
import os
import subprocess
from decimal import Decimal

import numpy as np
import pytest

import bsi
import kept_format

TOP = os.path.join(os.path.dirname(os.path.abspath(__file__)), "..", "..")
PROGRAM = os.environ.get("BSI_PROGRAM") or os.path.join(TOP, "crates", "bsi", "out", "bsi")
EPOCH = datetime.datetime(1970, 1, 1)
UTC = datetime.timezone.utc
SIGNS = {"<": operator.lt, "<=": operator.le, ">": operator.gt, ">=": operator.ge, "=": operator.eq, "!=": operator.ne}
TEXTS = ["Harbour", "Hill", "Upper Town", "a,b", 'the "old" mill', "x=1:2", "Öst", "東"]

is_built = pytest.mark.skipif(not os.path.isfile(PROGRAM), reason=f"there is no {PROGRAM}; make build")


def moment(seconds, zone=None):
    return EPOCH.replace(tzinfo=zone) + datetime.timedelta(seconds=seconds)


# Of each column its kind, a function from a random whole number to a value, and the greatest such number.
COLUMNS = {
    "Amount (EUR)": (bsi.Decimals(2), lambda number: Decimal(number - 5000).scaleb(-2), 200_000),
    "share": (bsi.Decimals(6), lambda number: Decimal(number).scaleb(-6), 10**6),
    "n": (bsi.Whole(), lambda number: number - 40, 1000),
    "No.": (bsi.Whole(), int, 3),
    "Day": (bsi.Times("D"), lambda number: EPOCH + datetime.timedelta(days=20_000 + number), 400),
    "at": (bsi.Times("s"), lambda number: moment(1_750_000_000 + number), 10**6),
    "at, in UTC": (bsi.Times("ms", UTC), lambda number: moment(1_750_000_000 + number / 1000, UTC), 10**9),
    "paid?": (bsi.Flags(), bool, 2),
    "c0": (bsi.Texts(TEXTS), lambda number: sorted(TEXTS)[number], len(TEXTS)),
}


def random_table(rng, rows):
    """Returns the values of some of the columns, with None for a null."""
    names = [name for name in COLUMNS if rng.random() < 0.7] or ["n"]
    return {
        name: [value(int(rng.integers(most))) if rng.random() < 0.9 else None for _ in range(rows)]
        for name, (_, value, most) in COLUMNS.items()
        if name in names
    }


def field_of(value):
    """Returns a value as a row file has it."""
    if value is None:
        return ""
    if isinstance(value, bool):
        return str(value).lower()
    if isinstance(value, datetime.datetime):
        return value.isoformat(timespec="milliseconds" if value.tzinfo else "seconds").replace("+00:00", "Z")
    return f"{value:f}" if isinstance(value, Decimal) else str(value)


def constant_of(name, value):
    """Returns a value as a question has it."""
    return field_of(value)[:10] if name == "Day" else field_of(value)


def answer_of(name, value):
    """Returns a value as an answer has it."""
    text = constant_of(name, value)
    if isinstance(value, str) and (not text or any(sign in text for sign in ' ",:=')):
        return '"' + text.replace('"', '""') + '"'
    return text


def random_condition(rng, data):
    """Returns a random comparison: its fields, a predicate, and whether it holds of each row."""
    name = str(rng.choice(list(data)))
    sign = str(rng.choice(list(SIGNS)))
    value = COLUMNS[name][1](int(rng.integers(COLUMNS[name][2])))
    if isinstance(value, Decimal) and rng.random() < 0.3:
        value += Decimal("0.0000001")
    if isinstance(value, str) and rng.random() < 0.3:
        value += "!"
    column = bsi.col[name]
    where = SIGNS[sign](column, value)
    return [name, sign, constant_of(name, value)], where, [one is not None and SIGNS[sign](one, value) for one in data[name]]


def line_of(fields):
    out = io.StringIO()
    csv.writer(out, lineterminator="\n").writerow(fields)
    return out.getvalue()


def questions_over(rng, data):
    """Yields questions, each with how the package asks it, the value that answers it, and the line."""
    condition, where, holds = random_condition(rng, data)
    yield ["count", *condition], lambda index: index.count(where), sum(holds), f"count {sum(holds)}"
    for name, values in data.items():
        found = sorted(one for one, is_held in zip(values, holds) if is_held and one is not None)
        kind = COLUMNS[name][0]
        if isinstance(kind, (bsi.Whole, bsi.Decimals)):
            total = sum(found, Decimal(0).scaleb(-kind.places) if isinstance(kind, bsi.Decimals) else 0)
            yield ["sum", name, *condition], lambda index, name=name: index.sum(name, where), total, f"sum {answer_of(name, total)}"
        for word, place in (("least", 0), ("greatest", -1), ("median", (len(found) - 1) // 2)):
            value = found[place] if found else None
            line = f"value {answer_of(name, value)}" if found else "none"
            yield [word, name, *condition], lambda index, word=word, name=name: getattr(index, word)(name, where), value, line


def command(*words, asks=None):
    ran = subprocess.run([PROGRAM, *map(str, words)], input=asks, capture_output=True, text=True, check=True)
    return ran.stdout


def kinds_in(path):
    (segment,) = kept_format.segments(path.read_bytes())
    return segment.kinds


def check(path, rng, data, is_asked):
    """Checks the answers of a file by the package and, if it is asked, by the command."""
    questions = [one for _ in range(4) for one in questions_over(rng, data)]
    with bsi.open(path) as index:
        assert index.columns == list(data)
        assert [index.forms[name].kind for name in data if name != "c0"] == [COLUMNS[name][0] for name in data if name != "c0"]
        assert index.take(range(len(index))) == data
        for fields, ask, value, _ in questions:
            found = ask(index)
            assert found == value and type(found) is type(value), fields
    if is_asked:
        found = command("ask", path, asks="".join(line_of(fields) for fields, _, _, _ in questions))
        assert found == "".join(f"{line}\n" for *_, line in questions)


def test_what_the_package_saves_has_its_kinds(tmp_path):
    rng, path = np.random.default_rng(7), tmp_path / "own.bsi"
    for _ in range(30):
        data = random_table(rng, int(rng.integers(1, 200)))
        kinds = {name: COLUMNS[name][0] for name in data}
        with bsi.Index.from_frame(data, kinds=kinds) as index:
            index.save(path)
        check(path, rng, data, os.path.isfile(PROGRAM))
        assert bool(kinds_in(path)) == any(name != "n" for name in data)
        if kinds_in(path):
            assert kept_format.read(path.read_bytes())[3] == b""


@is_built
def test_what_the_command_saves_is_opened_in_its_kinds(tmp_path):
    rng, path, rows = np.random.default_rng(8), tmp_path / "theirs.bsi", tmp_path / "rows.csv"
    for _ in range(12):
        # (so many rows that each field tells the kind of its column)
        data = random_table(rng, 300)
        with open(rows, "w", encoding="utf-8", newline="") as file:
            writer = csv.writer(file, lineterminator="\n")
            writer.writerow(data)
            writer.writerows([[constant_of(name, one) for name, one in zip(data, row)] for row in zip(*data.values())])
        assert command("save", "--force", "--to", path, rows) == "fed 0 300 0\nsaved 300\n"
        check(path, rng, data, True)
        theirs = kinds_in(path)
        with bsi.open(path) as index:
            (tmp_path / "again.bsi").write_bytes(b"")
            index.save(tmp_path / "again.bsi")
        assert kinds_in(tmp_path / "again.bsi") == theirs
        check(tmp_path / "again.bsi", rng, data, True)


def test_rows_are_appended_in_kinds(tmp_path):
    path, data = tmp_path / "own.bsi", {"Amount (EUR)": [Decimal("1.50")], "c0": ["Hill"], "Day": [EPOCH]}
    sizes = {"Amount (EUR)": bsi.slices(10, offset=-500), "c0": bsi.slices(3), "Day": bsi.slices(20)}
    with bsi.Index({name: form.of(COLUMNS[name][0]) for name, form in sizes.items()}) as index:
        index.append(data)
        index.save(path)
    with bsi.open(path) as index:
        assert index.append({"Amount (EUR)": [Decimal("-2.25")], "c0": ["Öst"], "Day": [None]}) == 1
        with pytest.raises(bsi.BadRow, match="none of|not one of"):
            index.append({"Amount (EUR)": [None], "c0": ["Rome"], "Day": [None]})
        index.share().save(path)
    with bsi.open(path) as index:
        assert list(index.values_in("c0")) == ["Hill", "Öst"] and index.sum("Amount (EUR)") == Decimal("-0.75")


UNSAID = {
    "no places": bsi.Decimals(0),
    "nanoseconds": bsi.Times("ns"),
    "days with a zone": bsi.Times("D", UTC),
    "a zone": bsi.Times("s", "Europe/Berlin"),
    "an order": bsi.Texts(["b", "a"], ordered=True),
    "texts that grow": bsi.Texts(["a", "b"], grows=True),
    "an empty text": bsi.Texts(["", "a"]),
    "no UTF-8": bsi.Texts(["\udcff", "a"]),
    "many texts": bsi.Texts([str(number) for number in range((1 << 16) + 1)]),
}


@pytest.mark.parametrize("kind", UNSAID.values(), ids=UNSAID)
def test_kinds_that_no_text_says_are_notes(tmp_path, kind):
    path = tmp_path / "own.bsi"
    with bsi.Index({"x y": bsi.slices(20, kind=kind), "price": bsi.slices(9, kind=bsi.Decimals(2))}) as index:
        index.save(path)
    assert kinds_in(path) == b""
    with bsi.open(path) as opened:
        assert [form.kind for form in opened.forms.values()] == [kind, bsi.Decimals(2)]


def test_rounding_is_kept(tmp_path):
    path = tmp_path / "own.bsi"
    with bsi.Index({"x y": bsi.slices(20, kind=bsi.Decimals(2, rounded=True))}) as index:
        index.append({"x y": [1.239]})
        index.save(path)
    with bsi.open(path) as opened:
        assert opened.append({"x y": [2.499]}) == 1 and opened.sum("x y") == Decimal("3.74")


def test_parts_of_files_of_kinds(tmp_path):
    paths = [tmp_path / f"{place}.bsi" for place in range(3)]
    for place, path in enumerate(paths):
        data = {"Amount (EUR)": [Decimal(place), Decimal("0.25")], "c0": ["Hill", "Öst"]}
        forms = {"Amount (EUR)": bsi.slices(9, kind=bsi.Decimals(2)), "c0": bsi.slices(3, kind=bsi.Texts(TEXTS))}
        with bsi.Index(forms) as index:
            index.append(data)
            index.save(path)
    with bsi.open_parts(paths) as parts:
        assert parts.sum("Amount (EUR)") == Decimal("3.75") and parts.count(bsi.col.c0 == "Hill") == 3
        kept = parts.save(tmp_path / "parts")
    with bsi.open_parts(kept) as parts:
        assert parts.rows(bsi.col.c0 == "Öst").tolist() == [1, 3, 5] and parts.median("Amount (EUR)") == Decimal("0.25")
