"""Decimals of a file with more digits than 63 bits hold: the field is named, and how many places do."""

import io
import re
from decimal import Decimal

import numpy as np
import pytest

import bsi
from bsi.choosing import chosen_of


def read(text, **more):
    return bsi.read_csv(io.BytesIO(text) if isinstance(text, bytes) else io.StringIO(text), **more)


def in_runs_of(monkeypatch, size):
    for name in ("FIRST", "RUN"):
        monkeypatch.setattr(f"bsi.reading.{name}", size)


def advised(why):
    """Returns the places that a refusal names."""
    return int(re.search(r"; round=(\d+) rounds its column$", str(why.value).splitlines()[0])[1])


@pytest.mark.parametrize(
    "fields, row, text, places",
    [
        (["1", "0." + "1" * 19], 1, "0." + "1" * 19, 18),
        (["404", "0.123456789012345678"], 0, "404", 16),
        (["-3.234632000000000063e-01", "5"], 0, "-3.234632000000000063e-01", 18),
        (["1.510000000000000000e+02", "9.700000000000000000e+01"], 0, "1.510000000000000000e+02", 16),
        (["108382.3529", "0.12345678901234"], 0, "108382.3529", 13),
        (["1e18", "0.5"], 0, "1e18", 0),
        (["9.1", "-9.1", "0.000000000000000001"], 2, "0.000000000000000001", 17),
        (["12.50", "999999999999998592", "0.12345678901234"], 1, "999999999999998592", 0),
    ],
)
def test_decimals_of_too_many_digits(monkeypatch, fields, row, text, places):
    for size in (12, 1 << 16):
        in_runs_of(monkeypatch, size)
        with pytest.raises(bsi.BadRow, match=rf"column 'x', row \d+ \(line \d+ of the StringIO\): ") as why:
            read("x,n\n" + "".join(f"{field},1\n" for field in fields))
        at = why.value.row
        assert why.value.value == fields[at] and f"(line {at + 2} of" in str(why.value) and f": {fields[at]!r} " in str(why.value)
        assert size == 12 or (at, why.value.value) == (row, text)
        assert advised(why) == places or size == 12 and advised(why) == places - 1
        index = read("x,n\n" + "".join(f"{field},1\n" for field in fields), round=advised(why))
        assert index.take([0], "x")["x"][0] == round(Decimal(fields[0]), advised(why))


def random_decimal(rng):
    digits = "".join(map(str, rng.integers(0, 10, rng.integers(1, 21))))
    point = int(rng.integers(0, len(digits) + 1))
    number = f"{digits[:point].lstrip('0') or '0'}.{digits[point:]}"
    return ("-" if rng.random() < 0.3 else "") + (number if rng.random() < 0.8 else f"{number}e-{rng.integers(1, 4)}")


@pytest.mark.parametrize("parts", [1, 2])
def test_the_places_that_a_refusal_names_do(monkeypatch, tmp_path, parts):
    rng, path, refused = np.random.default_rng(9), tmp_path / "rows.csv", 0
    for turn in range(150):
        in_runs_of(monkeypatch, int(rng.choice([20, 100, 1 << 16])))
        monkeypatch.setattr("bsi.processes.LARGE", 0 if turn < 2 else 1 << 25)
        fields = [random_decimal(rng) for _ in range(int(rng.integers(1, 30)))]
        path.write_text("x,n\n" + "".join(f"{field},1\n" for field in fields))
        try:
            index = bsi.read_csv(path, parts=parts)
        except bsi.BadRow as why:
            if "round=" not in str(why):
                assert any(abs(Decimal(field)) > 1 << 62 for field in fields)
                continue
            row, places = why.row, int(re.search(r"round=(\d+) ", str(why))[1])
            assert f"column 'x', row {row} (line {row + 2} of {path}): {fields[row]!r} " in str(why)
            index, refused = bsi.read_csv(path, round=places, parts=parts), refused + 1
            fields = [round(Decimal(field), places) for field in fields]
        assert index.take(range(len(fields)), "x")["x"] == list(map(Decimal, fields))
    assert refused > 50


def test_round_adds_no_places(monkeypatch):
    for size in (8, 1 << 16):
        in_runs_of(monkeypatch, size)
        index = read("x,n\n404.5,1\n5e-3,1\n1e2,1\n", round=18)
        assert index.forms["x"].kind == bsi.Decimals(3) and index.sum("x") == Decimal("504.505")


def test_digits_where_nothing_can_be_rounded(monkeypatch):
    with pytest.raises(bsi.BadRow, match="'1e19' is past 63 bits$"):
        read("x\n0.5\n1e19\n")
    in_runs_of(monkeypatch, 8)
    with pytest.raises(bsi.BadRow, match="has more than 18 decimal places; kinds= with Texts stores it$"):
        read("x\n0.1234567890123456789\n99999999999999999999\n")
    for kind, why in ((bsi.Decimals(18), "'12' is past 63 bits at 18 decimal places$"), (bsi.Decimals(1), "'1.25e0' has more than 1")):
        with pytest.raises(bsi.BadRow, match=why):
            read("x\n1.0\n12\n1.25e0\n", kinds={"x": kind})


def test_digits_where_rows_are_left_out(monkeypatch):
    in_runs_of(monkeypatch, 8)
    text = "x\n404.5\n0.1234567890123456789\n0.12345\nx\n"
    index = read(text, bad="skip")
    assert len(index) == 2 and "'0.1234567890123456789' has more than 18 decimal places; round= rounds" in repr(index.skipped)
    with pytest.raises(bsi.BadRow, match=r"row 0 \(line 2 of .*\): 404.5 leaves 63 bits .*; round=16 rounds its column"):
        read(text.replace("9\n", "\n"), bad="skip")


def test_digits_of_several_frames():
    frames = [{"x": [Decimal("404.5")]}, {"x": [Decimal("0.123456789012345678")]}]
    with pytest.raises(bsi.BadRow, match="404.5 leaves 63 bits as one of decimals of 18 places; round= rounds its column"):
        chosen_of(frames)
    assert len(chosen_of(frames, round=16).columns) == 1
