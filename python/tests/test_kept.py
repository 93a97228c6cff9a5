"""An index that is saved to a file and opened again: the same answers, and none from a file that is cut or damaged."""

import copy
import datetime
import fcntl
import json
import os
import pathlib
import pickle

import subprocess
import sys
import threading
import zlib
from decimal import Decimal
from zoneinfo import ZoneInfo

import numpy as np
import pytest

import bsi
import kept_format
import model
from bsi import kept, kinds_text

KEPT = os.path.join(os.path.dirname(os.path.abspath(__file__)), "..", "..", "tests", "kept")

EPOCH = datetime.datetime(2026, 1, 1)


def small():
    """Returns an index with a column of each kind, and a null in each."""
    data = {
        "price": [Decimal("1.50"), None, Decimal("20.00"), Decimal("-3.25")],
        "Who?": ["Meyer", "Sato", None, "Meyer"],
        "at": [EPOCH, EPOCH + datetime.timedelta(days=3), None, EPOCH],
        "paid": [True, None, False, True],
        "count": [5, 1 << 40, None, -7],
    }
    return bsi.Index.from_frame(data)


def answers(table):
    """Returns many answers of a table."""
    c = bsi.col
    return [
        len(table),
        table.columns,
        table.sum("price"),
        table.median("Who?"),
        table.greatest("at", c.paid == True),  # noqa: E712
        table.least("count", ~c["Who?"].isnull()),
        table.rows(c.price > 0.5).tolist(),
        table.mask(c["Who?"] == "Meyer").tolist(),
        list(table.values_in("at")),
        repr(table.forms),
    ]


@pytest.fixture
def path(tmp_path):
    return str(tmp_path / "small.bsi")


# ---- The same again ----


def test_what_is_saved_is_opened(path):
    with small() as index:
        index.save(path)
        with bsi.open(path) as opened:
            assert answers(opened) == answers(index)
            assert opened.limit == index.limit
            row = {"price": [Decimal("9.75")], "Who?": ["Sato"], "at": [EPOCH], "paid": [True], "count": [3]}
            assert opened.append(row) == 1 and len(opened) == 5 and len(index) == 4
            opened.save(path)
        assert len(bsi.open(path)) == 5
    assert os.listdir(os.path.dirname(path)) == ["small.bsi"]


def test_random_tables_are_saved_cut_and_opened(path):
    rng = np.random.default_rng(58)
    for _ in range(300):
        table = model.Table(rng)
        with bsi.Index(table.forms()) as index:
            index.append(table.data())
            index.save(path)
        with bsi.open(path) as opened:
            check(opened, table, rng)
        data = pathlib.Path(path).read_bytes()
        end = int(rng.integers(0, len(data)))
        with open(path, "wb") as file:
            file.write(data[:end])
        with pytest.raises(bsi.CutShort if end else bsi.NotKept):
            bsi.open(path)
        with open(path, "wb") as file:
            file.write(data + data[:end])
        if end:
            with pytest.raises(bsi.CutShort) as refused:
                bsi.open(path)
            assert refused.value.rows == table.rows and refused.value.whole == len(data)
        with bsi.open(path, so_far=True) as opened:
            check(opened, table, rng)


def check(opened, table, rng):
    """Asks a table that was opened the same as NumPy."""
    assert len(opened) == table.rows and opened.forms == table.forms()
    where, rows = table.predicate()
    name = str(rng.choice(list(table.columns)))
    assert opened.count(where) == rows.sum() and (opened.mask(where) == rows).all()
    total, *ends = table.answers(name, rows)
    assert total is None or opened.sum(name, where) == total
    assert [getattr(opened, word)(name, where) for word in ("least", "greatest", "median")] == ends


def test_kinds_are_kept(path):
    zones = [ZoneInfo("Europe/Berlin"), datetime.timezone.utc, datetime.timezone(datetime.timedelta(hours=-3)), None]
    kinds = [*(bsi.Times("ms", zone) for zone in zones), bsi.Decimals(3, rounded=True), bsi.Flags(), bsi.Whole()]
    kinds += [bsi.Texts(["b", "a"], ordered=True), bsi.Texts(["\ud800", "ü", ""], grows=True)]
    forms = {f"column {place}": bsi.slices(40).of(kind) for place, kind in enumerate(kinds)}
    with bsi.Index(forms, limit=77) as index:
        index.save(path)
    with bsi.open(path) as opened:
        found = [form.kind for form in opened.forms.values()]
        assert found == kinds and opened.limit == 77
        assert found[4].rounded and found[-1].grows  # (which do not count when kinds are compared)


def test_growing_texts_grow_on(path):
    pandas = pytest.importorskip("pandas")
    with bsi.Index.from_frame(pandas.DataFrame({"who": ["b", "a"]}), spare=4) as index:
        index.append({"who": ["zoe"]})
        index.save(path)
    with bsi.open(path) as opened:
        assert opened.append({"who": ["karl"]}) == 1
        assert opened.value_counts("who") == {"a": 1, "b": 1, "karl": 1, "zoe": 1}


def test_pickle_and_copy():
    index = small()
    for copied in (lambda one: pickle.loads(pickle.dumps(one)), copy.copy, copy.deepcopy):
        with copied(index) as other:
            assert answers(other) == answers(index)
            other.append({"price": [None], "Who?": [None], "at": [None], "paid": [None], "count": [None]})
            assert len(other) == 5 and len(index) == 4
    parts = bsi.Parts(3, {"x": bsi.slices(8)}, limit=100)
    parts.append({"x": list(range(50))})
    parts.append({"x": list(range(20))})
    with copy.deepcopy(parts) as other:
        assert other.rows(bsi.col.x == 7).tolist() == [7, 57] == parts.rows(bsi.col.x == 7).tolist()
        assert other.limit == 100


def test_the_library_and_the_command_have_the_same_file(path):
    index = bsi.Index({"a": bsi.slices(8), "b": bsi.range(10, 10, offset=-50)}, limit=1000)
    index.append({"a": [1, 2, 255], "b": [-50, None, 49]})
    with open(path, "wb") as file:
        file.write(index._store.save(b"", 0))  # (as the command writes it: without notes)
    with bsi.open(path) as opened:
        assert opened.columns == ["a", "b"] and opened.forms == index.forms and opened.limit == 1000
        assert opened.sum("b") == -1 and opened.greatest("a") == 255


def test_a_file_is_as_its_page_says():
    rng = np.random.default_rng(5)
    for _ in range(60):
        table = model.Table(rng)
        with bsi.Index(table.forms(), limit=1000) as index:
            index.append(table.data())
            data = index._kept().tobytes()
            limit, feeders, columns, notes = kept_format.read(data)
            assert (limit, feeders, titles_in(data, notes)) == (1000, [0] * table.rows, index.columns)
        for ((_, word, sizes, offset), entries), (form, numbers, there, _) in zip(columns.items(), table.columns.values()):
            sizes = (len(sizes),) if word == "slices" else sizes[::-1]
            assert (word, sizes, offset) == (form.word, form.sizes, form.offset)
            assert entries == [int(one) if is_there else None for one, is_there in zip(numbers, there)]


def titles_in(data, notes):
    """Returns the titles of the columns, as the text of kinds or the notes say them."""
    (segment,) = kept_format.segments(data)
    if notes:
        return list(kept.meaning_of(notes).kinds)
    return [one.title for one in kinds_text.read(segment.kinds).values()] or [column.name for column in segment.columns]


@pytest.mark.parametrize("version", [1, 2])
def test_a_file_of_each_version_is_opened_for_good(version):
    ours = os.path.join(KEPT, f"weather-{version}.bsi")
    with open(ours, "rb") as file:
        limit, feeders, columns, _ = kept_format.read(file.read())
    with bsi.open(ours) as index:
        assert (index.limit, len(index)) == (limit, len(feeders)) == (1000, 5)
        assert index.columns == ["day", "Station", "°C", "rain", "frost"]
        assert [index.least(name) for name in index.columns] == [
            datetime.datetime(2026, 1, 1), "Aachen", Decimal("-12.5"), 0, False,
        ]  # fmt: skip
        assert index.sum("°C") == Decimal("-2.3") and index.sum("rain") == 19 and index.sum("frost") == 2
        assert index.rows(bsi.col.Station == "Zürich").tolist() == [1, 4]
        assert index.rows(bsi.col.rain.isnull()).tolist() == [3]
    assert [entries for (name, *_), entries in columns.items() if name == "rain"] == [[3, 0, 12, None, 4]]


# ---- What is no kept index ----


def test_each_byte_cut_and_turned(path):
    index = bsi.Index({"Who": bsi.equality(3, kind=bsi.Texts(["a", "b", "c"])), "n": bsi.slices(3)})
    index.append({"Who": ["a", None, "c"], "n": [1, 2, None]})
    check_each_byte(index._kept().tobytes())
    check_each_byte(kept_format.in_version_1(index._kept().tobytes()))


def check_each_byte(data):
    assert len(kept.opened_bytes(data).forms) == 2
    for end in range(len(data)):
        with pytest.raises(bsi.KeptError):
            kept.opened_bytes(data[:end])
    for place in range(len(data)):
        for turned in (1, 16, 128, 255):
            bad = bytearray(data)
            bad[place] ^= turned
            with pytest.raises((bsi.Damaged, bsi.CutShort, bsi.NotKept, bsi.OtherVersion)):
                kept.opened_bytes(bad)


def test_what_is_no_file_of_ours(tmp_path, path):
    with pytest.raises(FileNotFoundError):
        bsi.open(path)
    with pytest.raises(IsADirectoryError):
        bsi.open(tmp_path)
    with pytest.raises(IsADirectoryError):
        small().save(tmp_path)
    with open(path, "wb"):
        pass
    with pytest.raises(bsi.NotKept, match="small.bsi: it contains no index"):
        bsi.open(path)
    with open(path, "wb") as file:
        file.write(b"price,day\n1,2\n")
    with pytest.raises(bsi.NotKept) as refused:
        bsi.open(path)
    assert refused.value.path == path and refused.value.rows == 0 and refused.value.status == 15
    assert str(pickle.loads(pickle.dumps(refused.value))) == str(refused.value)
    os.unlink(path)
    os.mkfifo(path)
    with pytest.raises(bsi.NotKept, match="no regular file"):
        bsi.open(path)
    with pytest.raises(FileNotFoundError):
        small().save(tmp_path / "nowhere" / "small.bsi")


@pytest.mark.skipif(os.geteuid() == 0, reason="root may read each file")
def test_a_file_that_may_not_be_read(path):
    small().save(path)
    os.chmod(path, 0)
    with pytest.raises(PermissionError):
        bsi.open(path)


def test_another_version(path):
    data = bytearray(small()._kept().tobytes())
    data[7] = 3
    with open(path, "wb") as file:
        file.write(data)
    with pytest.raises(bsi.OtherVersion, match="another version"):
        bsi.open(path)


def test_a_bad_text_of_kinds(path):
    (segment,) = kept_format.segments(small()._kept().tobytes())
    data = kept_format.encode(segment._replace(kinds=segment.kinds.replace(b"decimal,2", b"decimal,19")))
    for end in (len(data), len(data) + 8):
        with open(path, "wb") as file:
            file.write((data + data)[:end])
        for so_far in (False, True):
            with pytest.raises(bsi.BadKinds, match="small.bsi: .* text of kinds") as refused:
                bsi.open(path, so_far=so_far)
            assert refused.value.status == 19 and refused.value.rows == 0


def packed(column=None, **more):
    """Returns notes of one column."""
    return zlib.compress(json.dumps({"bsi": 1, "columns": [{"name": "x", **(column or {})}], **more}).encode())


NOTES = {
    "no zlib": b"the user's own",
    "no object": zlib.compress(b"[]"),
    "another program's": zlib.compress(b"{}"),
    "no JSON": zlib.compress(b"["),
    "another version": packed({"kind": "whole"}, bsi=2),
    "no columns": zlib.compress(b'{"bsi": 1}'),
    "columns that are none": zlib.compress(b'{"bsi": 1, "columns": 7}'),
    "other columns": zlib.compress(b'{"bsi": 1, "columns": []}'),
    "no kind": packed(),
    "an unknown kind": packed({"kind": "colours"}),
    "no zone": packed({"kind": "times", "unit": "s"}),
    "an unknown zone": packed({"kind": "times", "unit": "s", "zone": "No/Where"}),
    "bad places": packed({"kind": "decimals", "places": "x", "rounded": False}),
    "too few texts": packed({"kind": "texts", "values": ["a"], "ordered": False, "grows": False}),
    "more than two flags": packed({"kind": "flags"}),
    "32 MiB of blanks": zlib.compress(b" " * (1 << 25)),
    "cut": packed({"kind": "whole"})[:-3],
}


@pytest.mark.parametrize("notes", NOTES.values(), ids=NOTES)
def test_notes_that_are_none_of_ours(notes):
    index = bsi.Index({"x": bsi.slices(8)})
    index.append({"x": [200]})
    with pytest.raises(bsi.BadNotes, match="notes") as refused:
        kept.opened_bytes(index._store.save(notes, 0), "a.bsi")
    assert isinstance(refused.value, bsi.Error) and refused.value.path == "a.bsi"


def test_notes_that_take_too_much_are_not_unpacked(monkeypatch):
    index = bsi.Index({"x": bsi.slices(8)})
    data = index._store.save(packed({"kind": "whole"}, more="much" * 100), 0)
    assert kept.opened_bytes(data).more == {"more": "much" * 100}
    monkeypatch.setattr(kept, "MAX_UNPACKED", 400)
    with pytest.raises(bsi.BadNotes, match="not packed as a whole"):
        kept.opened_bytes(data)


def long_texts():
    """Returns an index whose texts take 240,000 bytes, and half as many when packed."""
    rng = np.random.default_rng(3)
    return bsi.Index({"x": bsi.slices(12, kind=bsi.Texts([rng.bytes(40).hex() for _ in range(3000)], ordered=True))})


def test_long_texts_are_kept(path):
    index = long_texts()
    index.save(path)
    with bsi.open(path) as opened:
        assert opened.forms == index.forms


@pytest.mark.parametrize("name, most, when", [("MAX_NOTES", 1 << 16, "bytes when packed"), ("MAX_UNPACKED", 1 << 17, "bytes, and")])
def test_texts_that_are_too_long(path, monkeypatch, name, most, when):
    index = long_texts()
    monkeypatch.setattr(kept, name, most)
    with pytest.raises(bsi.LongNotes, match=f"3,000 texts of the columns take [0-9,]* {when}"):
        index.save(path)
    assert not os.path.exists(path)


# ---- How a file is replaced ----


def test_no_other_file_is_touched(tmp_path, path):
    other = tmp_path / "other"
    other.write_bytes(b"others")
    pathlib.Path(f"{path}.new1").write_bytes(b"x")
    os.symlink(other, f"{path}.new2")
    os.mkfifo(f"{path}.new3")
    before = sorted(os.listdir(tmp_path))
    small().save(path)
    assert len(bsi.open(path)) == 4 and sorted({*before, os.path.basename(path)}) == sorted(os.listdir(tmp_path))
    assert pathlib.Path(f"{path}.new1").read_bytes() == b"x" and other.read_bytes() == b"others"


def test_a_link_stays_a_link(tmp_path, path):
    small().save(path)
    os.chmod(path, 0o640)
    link = tmp_path / "link.bsi"
    os.symlink(path, link)
    small().save(link)
    assert link.is_symlink() and len(bsi.open(path)) == 4 and os.stat(path).st_mode & 0o777 == 0o640
    os.unlink(path)
    with pytest.raises(FileNotFoundError):
        small().save(link)
    assert link.is_symlink() and not os.path.exists(path)


def test_two_writers_at_once(path):
    index = small()
    threads = [threading.Thread(target=lambda: _try(index.share(), path)) for _ in range(8)]
    for thread in threads:
        thread.start()
    for thread in threads:
        thread.join()
    index.save(path)
    assert len(bsi.open(path)) == 4


def test_a_file_that_a_command_adds_to_is_not_replaced(path):
    index = small()
    index.save(path)
    with open(path, "rb") as file:
        fcntl.flock(file, fcntl.LOCK_EX)
        with pytest.raises(bsi.Error, match="another program is writing"):
            index.save(path)
    index.save(path)
    assert len(bsi.open(path)) == 4


def _try(index, path):
    for _ in range(5):
        try:
            index.save(path)
        except bsi.Error as why:
            assert "another program" in str(why)


def test_a_full_disk(path):
    index = small()
    index.save(path)
    before = pathlib.Path(path).read_bytes()
    code = f"""
import resource, signal, sys, bsi
signal.signal(signal.SIGXFSZ, signal.SIG_IGN)
index = bsi.open({path!r})
resource.setrlimit(resource.RLIMIT_FSIZE, (100, 100))
try:
    index.save({path!r})
except OSError as why:
    sys.exit(7)
"""
    assert subprocess.run([sys.executable, "-c", code], check=False).returncode == 7
    assert pathlib.Path(path).read_bytes() == before and os.listdir(os.path.dirname(path)) == ["small.bsi"]


def test_a_writer_that_is_killed(path):
    small().save(path)
    code = f"import bsi\nindex = bsi.open({path!r})\nprint(flush=True)\nwhile True: index.save({path!r})"
    for _ in range(10):
        with subprocess.Popen([sys.executable, "-c", code], stdout=subprocess.PIPE) as writer:
            writer.stdout.readline()
            threading.Event().wait(0.01)
            writer.kill()
        assert len(bsi.open(path)) == 4
    small().save(path)


# ---- Parts, and the command ----


def test_parts_keep_the_order_of_rows(tmp_path):
    rng = np.random.default_rng(9)
    for n in (1, 2, 5):
        with bsi.Parts(n, {"x": bsi.slices(10), "y": bsi.slices(4)}, limit=5000) as parts:
            for rows in (0, 1, 7, 64, 1000, 3):
                parts.append({"x": rng.integers(0, 1024, rows), "y": rng.integers(0, 16, rows)})
            paths = parts.save(tmp_path / str(n))
            assert len(paths) == n
            with bsi.open_parts(paths) as opened:
                for where in (bsi.col.x < 300, bsi.col.y == 3):
                    assert opened.rows(where).tolist() == parts.rows(where).tolist()
                    assert opened.median("x", where) == parts.median("x", where)
                assert opened.limit == 5000 and opened.append({"x": [5], "y": [5]}) == 1
            if n > 1:
                for wrong in (paths[::-1], paths[:-1], [*paths, paths[0]]):
                    with pytest.raises(bsi.BadNotes, match="saved together"):
                        bsi.open_parts(wrong)


def test_files_of_the_same_columns_are_parts(tmp_path):
    paths = []
    for place in range(3):
        with bsi.Index({"x": bsi.slices(8)}) as index:
            index.append({"x": [place, 10 + place]})
            paths.append(tmp_path / f"{place}.bsi")
            index.save(paths[-1])
    with bsi.open_parts(paths) as parts:
        assert parts.rows(bsi.col.x >= 10).tolist() == [1, 3, 5] and parts.sum("x") == 36
    with bsi.Index({"y": bsi.slices(8)}) as index:
        index.save(paths[1])
    with pytest.raises(bsi.BadSchema, match="1.bsi has other columns"):
        bsi.open_parts(paths)


def test_the_command_opens_a_file(path):
    with small() as index:
        index.save(path)
    line = [sys.executable, "-m", "bsi", path, "sum price", "median Who?"]
    ran = subprocess.run(line, capture_output=True, text=True, check=False, stdin=subprocess.DEVNULL)
    assert ran.stderr == "" and ran.stdout.splitlines()[-2:] == ["18.25", "Meyer"]
    ran = subprocess.run([*line, "--parts", "2"], capture_output=True, text=True, check=False)
    assert ran.returncode == 1 and "--parts is for files that are read" in ran.stderr


def test_opening_makes_no_copy(path):
    rng, rows = np.random.default_rng(1), 2_000_000
    with bsi.Index({"x": bsi.slices(63)}) as index:
        index.append({"x": rng.integers(0, 1 << 62, rows)})
        index.save(path)
    size = os.path.getsize(path)
    assert size <= 1.02 * 64 * rows / 8
    code = f"""
import resource, bsi
before = resource.getrusage(resource.RUSAGE_SELF).ru_maxrss
index = bsi.open({path!r})
print(resource.getrusage(resource.RUSAGE_SELF).ru_maxrss - before)
"""
    ran = subprocess.run([sys.executable, "-c", code], capture_output=True, text=True, check=True)
    # (the pages of the map, the words of the segment and the index)
    assert int(ran.stdout) * 1024 < 3.6 * size
