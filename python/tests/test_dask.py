"""Four workers of Dask, each with the index of its partitions, and one of them ended in the middle."""

import os
import signal
from decimal import Decimal

import numpy as np
import pytest

distributed = pytest.importorskip("distributed")
pandas = pytest.importorskip("pandas")
frames = pytest.importorskip("dask.dataframe")

import bsi  # noqa: E402
import bsi.dask  # noqa: E402
from bsi import col  # noqa: E402


def table(rows=40_000):
    rng = np.random.default_rng(1)
    frame = pandas.DataFrame(
        {
            "a": rng.integers(0, 1 << 20, rows),
            "b": np.where(rng.random(rows) < 0.1, np.nan, rng.integers(-400, 600, rows)),
            "day": pandas.Timestamp("2026-01-01") + pandas.to_timedelta(rng.integers(0, 100, rows), unit="D"),
            "price": np.round(rng.random(rows) * 100, 2),
            "who": rng.choice(["ape", "bee", "cat"], rows),
        }
    )
    # One partition has whole prices alone and another text.
    frame.loc[:4_000, "price"], frame.loc[:4_000, "who"] = 5.0, "dog"
    return frame


@pytest.fixture(scope="module")
def client():
    how = {"n_workers": 4, "threads_per_worker": 1, "processes": True, "dashboard_address": None, "silence_logs": 60}
    with distributed.LocalCluster(**how) as cluster, distributed.Client(cluster) as client:
        yield client


def test_workers_are_spawned(client):
    import dask

    with dask.config.set({"distributed.worker.multiprocessing-method": "fork"}), pytest.raises(
        ValueError, match="spawned and not forked"
    ):
        bsi.dask.from_frame(frames.from_pandas(table(10), npartitions=1))


def test_a_refusal_names_the_row_of_all(client):
    frame = table(1_000)
    frame.loc[777, "price"] = 1 / 3
    frame.loc[900, "price"] = 2 / 3
    with pytest.raises(bsi.BadRow, match=r"column 'price', row 777 \(partition 7\)"):
        bsi.dask.from_frame(frames.from_pandas(frame, npartitions=10))
    with pytest.raises(bsi.IndexFull, match="row 999 is past the limit"):
        bsi.dask.from_frame(frames.from_pandas(table(1_000), npartitions=10), limit=999)
    with pytest.raises(bsi.BadRow, match=r"column 'a', row 0 \(partition 0\): .* is not from 0 to 3"):
        bsi.dask.from_frame(frames.from_pandas(table(1_000), npartitions=10), forms={"a": bsi.slices(2)})
    frame.loc[555, "who"], frame.loc[333, "a"] = 5, -1
    forms = {"a": bsi.slices(20)}
    with pytest.raises(bsi.BadRow) as refused:
        bsi.dask.from_frame(frames.from_pandas(frame, npartitions=10, sort=False), forms=forms)
    told = [line.partition(":")[0] for line in str(refused.value).splitlines()]
    assert told == ["column 'who', row 555 (partition 5)", "column 'price', row 777 (partition 7)"]
    forms["b"] = bsi.slices(1)
    with pytest.raises(bsi.BadRow) as refused:
        bsi.dask.from_frame(frames.from_pandas(frame[["a", "b"]].fillna(7), npartitions=10, sort=False), forms=forms)
    told = [line.partition(":")[0] for line in str(refused.value).splitlines()]
    assert told == ["column 'b', row 0 (partition 0)", "column 'a', row 333 (partition 3)"]
    # Two partitions have what another one's kind leaves no room for.
    frame = pandas.DataFrame({"x": list(range(100))}, dtype=object)
    frame.loc[37, "x"], frame.loc[38, "x"], frame.loc[95, "x"] = 2**61, 2**62, Decimal("0.25")
    for kinds in (None, {"x": bsi.Decimals(2)}):
        with pytest.raises(bsi.BadRow, match=r"column 'x', row 37 \(partition 3\): .*63 bits") as refused:
            bsi.dask.from_frame(frames.from_pandas(frame, npartitions=10, sort=False), kinds=kinds)
        assert refused.value.value == 2**61
    frame.loc[37:39, "x"], frame.loc[90:, "x"] = 5, "text"
    with pytest.raises(bsi.BadRow, match=r"column 'x', row 90: texts stand below whole numbers"):
        bsi.dask.from_frame(frames.from_pandas(frame, npartitions=10, sort=False))
    with pytest.raises(bsi.BadColumns, match="no column 'z'"):
        bsi.dask.from_frame(frames.from_pandas(table(10), npartitions=1), ["z"])


def test_files_are_opened_on_workers(client, tmp_path):
    frame, paths = table(3_000), []
    forms = bsi.Index.from_frame(frame).forms
    for place in range(6):
        paths.append(str(tmp_path / f"{place}.bsi"))
        with bsi.Index(forms) as index:
            index.append(frame[place * 500 : place * 500 + 500])
            index.save(paths[-1])
    rows, one = bsi.dask.open_parts(paths, client), bsi.Index.from_frame(frame)
    assert rows.forms == one.forms and len(rows) == 3_000
    for where in (bsi.all_rows, col.a < 345_678, (col.who == "dog") & col.b.isnull()):
        assert (rows.mask(where) == one.mask(where)).all() and rows.sum("price", where) == one.sum("price", where)
        assert [rows.median(name, where) for name in forms] == [one.median(name, where) for name in forms]
    with pytest.raises(FileNotFoundError):
        bsi.dask.open_parts([paths[0], str(tmp_path / "none.bsi")], client)
    with bsi.Index({"a": bsi.slices(4)}) as index:
        index.save(paths[3])
    with pytest.raises(bsi.BadSchema, match="3.bsi has other columns"):
        bsi.dask.open_parts(paths, client)


def test_answers_are_exact_and_a_lost_worker_is_told(client, monkeypatch):
    frame = table()
    rows, one = bsi.dask.from_frame(frames.from_pandas(frame, npartitions=10, sort=False)), bsi.Index.from_frame(frame)
    assert rows.forms == one.forms and len(rows) == 40_000 and repr(rows).startswith("Workers of 40,000 rows")
    assert len(client.run(os.getpid)) == len({actor.address for actor in rows._store._actors}) == 4
    for where in (
        bsi.all_rows,
        (col.a < 345_678) & col.b.notnull() | (col.who == "dog"),
        col.day < "2026-01-05",
        col.a < 0,
    ):
        assert rows.count(where) == one.count(where) and (rows.mask(where) == one.mask(where)).all()
        assert rows.sum("price", where) == one.sum("price", where)
        for name in one.columns:
            for end in ("least", "greatest", "median"):
                assert getattr(rows, end)(name, where) == getattr(one, end)(name, where), (end, name, where)
    some = one.rows((col.b == 7) & (col.a < 200_000))
    assert len(some) and rows.take(some) == one.take(some) and rows.rank("who", "bee") == one.rank("who", "bee")
    assert rows.nlargest(5, "price").tolist() == one.nlargest(5, "price").tolist()
    pandas.testing.assert_frame_equal(rows.to_pandas(col.a < 9_999), one.to_pandas(col.a < 9_999))
    monkeypatch.setattr("bsi.dask.SECONDS", 0.0001)
    assert rows.count() == 40_000 and rows.median("a") == one.median("a")
    with pytest.raises(TypeError, match="accepts no further rows"):
        rows.append(frame)
    gone, pid = sorted(client.run(os.getpid).items())[1]
    os.kill(pid, signal.SIGKILL)
    for _ in range(2):
        with pytest.raises(bsi.LostWorker, match=f"the worker {gone} is gone, and its rows with it"):
            rows.count()
