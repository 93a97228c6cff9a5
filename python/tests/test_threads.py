"""Threads that ask one index, and parts that each have a thread of their own."""

import pickle
import subprocess
import sys
import threading

import numpy as np
import pytest

import bsi
from bsi import col


def table(rows, seed=3):
    rng = np.random.default_rng(seed)
    return {
        "a": rng.integers(0, 1 << 20, rows),
        "b": np.ma.MaskedArray(rng.integers(-400, 600, rows), rng.random(rows) < 0.1),
    }


FORMS = {"a": bsi.slices(20), "b": bsi.range(10, 10, 10, offset=-400)}
LIMITS = range(0, 1 << 20, 1 << 16)


def in_threads(asks):
    """Runs each on a thread of its own, all at once, and returns what they raised."""
    raised, start = [], threading.Barrier(len(asks))

    def run(ask):
        try:
            start.wait()
            ask()
        except BaseException as why:  # noqa: BLE001
            raised.append(why)

    threads = [threading.Thread(target=run, args=(ask,)) for ask in asks]
    for thread in threads:
        thread.start()
    for thread in threads:
        thread.join()
    return raised


@pytest.mark.parametrize("shared", [True, False])
def test_eight_threads_ask_one_index(shared):
    data = table(20_000)
    index = bsi.Index(FORMS)
    index.append(data)
    wanted = [int(((data["a"] < limit) & (data["b"] >= 100).filled(False)).sum()) for limit in LIMITS]
    medians = [
        int(np.sort(data["a"][data["a"] >= limit])[(int((data["a"] >= limit).sum()) - 1) // 2]) for limit in LIMITS
    ]

    def ask(one):
        for _ in range(5):
            assert [one.count((col.a < limit) & (col.b >= 100)) for limit in LIMITS] == wanted
            assert [one.median("a", col.a >= limit) for limit in LIMITS] == medians

    handles = [index.share() if shared else index for _ in range(8)]
    assert in_threads([lambda one=one: ask(one) for one in handles]) == []


def test_an_index_is_closed_while_others_ask():
    for _ in range(20):
        index = bsi.Index(FORMS)
        index.append(table(5_000))
        asked, closed = [threading.Event() for _ in range(3)], []

        def ask(place, index=index, asked=asked, closed=closed):
            try:
                for _ in range(100_000):
                    assert index.count(col.a >= 0) == 5_000
                    asked[place].set()
            except bsi.Closed:
                closed.append(place)

        def close(index=index, asked=asked):
            assert all(event.wait(60) for event in asked)
            index.close()

        assert in_threads([lambda: ask(0), lambda: ask(1), lambda: ask(2), close]) == []
        assert sorted(closed) == [0, 1, 2]


@pytest.mark.parametrize("make", [lambda: bsi.Index(FORMS), lambda: bsi.Parts(4, FORMS)])
def test_rows_come_in_while_others_ask(make):
    index, data = make(), table(400)

    def append():
        for _ in range(50):
            index.append(data)

    def ask():
        for _ in range(50):
            mask = index.mask(col.b.isnull())
            assert len(mask) % 400 == 0 and mask.sum() == np.ma.getmaskarray(data["b"]).sum() * (len(mask) // 400)
            assert len(index.rows(col.a >= 0)) % 400 == 0
            last = np.arange(400)[-3:] + len(mask) - 400 if len(mask) else []
            assert index.take(last, "a")["a"] == data["a"][400 - len(last) :].tolist()

    assert in_threads([append, append, ask, ask]) == [] and len(index) == 40_000


def test_parts_put_answers_together():
    data = table(100_003)
    index = bsi.Index(FORMS)
    index.append(data)
    for n in (1, 2, 3, 7, 16):
        with bsi.Parts(n, FORMS) as parts:
            for start, end in ((0, 0), (0, 1), (1, 50_000), (50_000, 100_003)):
                parts.append({name: values[start:end] for name, values in data.items()})
            assert len(parts) == 100_003 and repr(parts).startswith("Parts of 100,003 rows")
            for where in (
                bsi.all_rows,
                col.a < 345_678,
                (col.b < 12) | (col.a == int(data["a"][5])),
                col.b.isnull(),
                col.a < 0,
            ):
                assert parts.count(where) == index.count(where)
                assert (parts.mask(where) == index.mask(where)).all() and (parts.rows(where) == index.rows(where)).all()
                for name in FORMS:
                    assert parts.sum(name, where) == index.sum(name, where)
                    for end in ("least", "greatest", "median"):
                        assert getattr(parts, end)(name, where) == getattr(index, end)(name, where), (
                            n,
                            end,
                            name,
                            where,
                        )


def test_parts_do_not_count_their_rows_anew(monkeypatch):
    class Runs(list):
        def __iter__(self):
            raise AssertionError("all runs are gone through")

    calls, at_once = [], bsi.parts._Threads._at_once
    monkeypatch.setattr("bsi.parts.FEW_ROWS", 100)
    monkeypatch.setattr("bsi.parts._Threads._at_once", lambda *given: calls.append(1) or at_once(*given))
    made = bsi.Parts(2, FORMS)
    made.append(table(150))
    for parts in (made, pickle.loads(pickle.dumps(made))):
        calls.clear()
        parts._store.runs = Runs(parts._store.runs)
        assert (parts.count(), len(calls)) == (150, 0)
        parts.append(table(50))
        assert (parts.count(), len(calls)) == (200, 2)


def test_parts_give_rows_back_as_one_index(monkeypatch):
    data, rng = table(3_003), np.random.default_rng(4)
    index = bsi.Index(FORMS)
    index.append(data)
    for n, most in ((1, 0), (3, 0), (3, 1000), (7, 10**6)):
        monkeypatch.setattr("bsi.taking.MAX_ASKED", most)
        with bsi.Parts(n, FORMS) as parts:
            for start, end in ((0, 0), (0, 1), (1, 50), (50, 3_003)):
                parts.append({name: values[start:end] for name, values in data.items()})
            rows = rng.integers(0, 3_003, 100)
            assert parts.take(rows) == index.take(rows) == {
                "a": data["a"][rows].tolist(),
                "b": data["b"][rows].tolist(),
            }
            assert parts.take([]) == {"a": [], "b": []}
            assert parts.nlargest(9, "b").tolist() == index.nlargest(9, "b").tolist()


def test_a_median_of_parts_takes_few_rounds(monkeypatch):
    numbers = {"random": table(20_000)["a"], "in order": np.arange(1 << 20)[::50], "far": np.arange(20_000) ** 3 >> 23}
    numbers["two"] = np.repeat([0, (1 << 20) - 1], 10_000)
    for name, given in numbers.items():
        parts, rounds = bsi.Parts(4, {"a": bsi.slices(20)}), []
        parts.append({"a": given})
        each = parts._store._each_of
        monkeypatch.setattr(parts._store, "_each_of", lambda *asked: rounds.append(asked) or each(*asked))
        assert parts.median("a") == np.sort(given)[(len(given) - 1) // 2]
        assert len(rounds) <= (2 if name == "random" else 8), (name, [call for call, _ in rounds])


@pytest.mark.parametrize("seed", range(6))
def test_ranks_of_parts_where_few_numbers_are_given_at_once(seed, monkeypatch):
    rng = np.random.default_rng(seed)
    for few in (0, 1, 5, 1 << 12):
        monkeypatch.setattr("bsi.gathered.FEW", few)
        rows, most = int(rng.integers(1, 400)), int(rng.choice([2, 30, 1 << 20]))
        given = rng.choice([np.sort, rng.permutation])(rng.integers(0, most, rows) ** 2 // most)
        with bsi.Parts(int(rng.integers(1, 6)), FORMS) as parts:
            for start in range(0, rows, 97):
                there = rng.random(len(given[start : start + 97])) < 0.8
                parts.append({"a": given[start : start + 97], "b": np.ma.MaskedArray(np.zeros(len(there), int), ~there)})
            for where in (bsi.all_rows, col.b.notnull(), bsi.Predicate(["all"] + ["not"] * 994)):
                found = np.sort(given[parts.rows(where)])
                assert parts.median("a", where) == (found[(len(found) - 1) // 2] if len(found) else None)
                ranks = [0, 0.3, 0.5, 0.99, 1]
                wanted = np.quantile(found, ranks, method="lower").tolist() if len(found) else [None] * 5
                assert parts.quantile("a", ranks, where) == wanted


def test_a_median_of_parts_takes_four_fields_less():
    parts = bsi.Parts(2, FORMS)
    parts.append(table(50))
    assert parts.median("a", bsi.Predicate(["all"] + ["not"] * 994)) == parts.median("a", bsi.Predicate(["all"]))
    for more in (996, 999):
        with pytest.raises(bsi.BadQuery, match=f"at most 996 fields, and this one has {more + 1:,}"):
            parts.median("a", bsi.Predicate(["all"] + ["not"] * more))


def test_parts_change_nothing_at_a_refusal():
    parts = bsi.Parts(3, FORMS, limit=50)
    parts.append(table(30))
    for bad, why in (
        ({"a": [0] * 20, "b": [0] * 19 + [600]}, "column 'b', row 19: 600 is not from -400 to 599"),
        (table(21), "row 20 is past the limit of 50 rows"),
    ):
        with pytest.raises(bsi.Error, match=why):
            parts.append(bad)
        assert len(parts) == 30 and len(parts.mask()) == 30
    parts.close()
    with pytest.raises(bsi.Closed):
        parts.count()
    for n in (0, -1, 257):
        with pytest.raises(ValueError, match="1 to 256 parts"):
            bsi.Parts(n, FORMS)


def test_memory_that_is_refused(monkeypatch):
    index = bsi.Index(FORMS)
    monkeypatch.setattr(bsi.native.Handle, "append", lambda self, columns: (bsi.native.NO_MEMORY, 2))
    with pytest.raises(bsi.NoMemory, match="2 rows were appended") as refused:
        index.append(table(5))
    assert refused.value.appended == 2 and isinstance(refused.value, MemoryError)
    parts = bsi.Parts(2, FORMS)
    with pytest.raises(bsi.NoMemory, match="they are closed"):
        parts.append(table(50))
    with pytest.raises(bsi.Closed):
        parts.count()


def test_an_append_to_parts_that_is_interrupted(monkeypatch):
    parts = bsi.Parts(2, FORMS)
    parts.append(table(50))

    def interrupted(self, columns):
        raise KeyboardInterrupt

    monkeypatch.setattr(bsi.native.Handle, "append", interrupted)
    with pytest.raises(KeyboardInterrupt):
        parts.append(table(50))
    with pytest.raises(bsi.Closed):
        parts.mask()


# A signal whose handler asks the index, over and over while the main program asks it, and a forked child.
SIGNALS = """
import signal, sys
import bsi
table = bsi.Index({"a": bsi.slices(9)}) if sys.argv[1] == "Index" else bsi.Parts(2, {"a": bsi.slices(9)})
table.append({"a": list(range(500))})
heard = []
signal.signal(signal.SIGALRM, lambda *_: heard.append(table.count(bsi.col.a < 100)))
while len(heard) < 300:
    before = len(heard)
    signal.setitimer(signal.ITIMER_REAL, 0.00003 * (1 + before % 40))
    while len(heard) == before:
        assert table.sum("a", bsi.col.a < 3) == 3
assert set(heard) == {100}
"""
FORKED = """
import os, signal
import bsi
parts = bsi.Parts(2, {"a": bsi.slices(9)})
parts.append({"a": [1, 2, 3]})
if os.fork() == 0:
    signal.alarm(20)
    for ask in (parts.count, lambda: parts.append({"a": [1]}), lambda: len(parts), lambda: parts.take([0])):
        try:
            ask()
            os._exit(1)
        except bsi.Error as why:
            assert "not in a forked child" in str(why)
    parts.close()
    os._exit(0)
assert os.waitstatus_to_exitcode(os.wait()[1]) == 0 and parts.count() == 3
"""


@pytest.mark.parametrize("code, word", [(SIGNALS, "Index"), (SIGNALS, "Parts"), (FORKED, "")])
def test_signals_and_forks(code, word):
    ran = subprocess.run([sys.executable, "-c", code, word], capture_output=True, text=True, check=False, timeout=60)
    assert (ran.returncode, ran.stderr) == (0, "")


def test_each_status_has_its_exception():
    names = ["Closed", "Open", "NoMemory", "BadSchema", "NoColumns", "BadFeeder", "BadColumns", "BadRow", "IndexFull"]
    names += ["Shared", "BadQuery", "NoRoom", "BadText"]
    assert [bsi.errors.BY_STATUS[status].__name__ for status in range(1, 14)] == names
    for status in (1, 2, 3, 4, 5, 6, 7, 10, 11, 12, 13):
        with pytest.raises(bsi.errors.BY_STATUS[status]):
            bsi.native.check(status)
    with pytest.raises(bsi.Error, match="status 99"):
        bsi.native.check(99)
