"""Random tables of all kinds and forms, and random questions, beside the same by NumPy."""

import numpy as np
import pytest

import bsi
import model

TABLES = 10_000


def check_question(asked, table, name):
    where, rows = table.predicate()
    assert asked.count(where) == rows.sum(), where
    assert (asked.mask(where) == rows).all(), where
    assert asked.rows(where).tolist() == np.flatnonzero(rows).tolist(), where
    total, *ends = table.answers(name, rows)
    if total is not None:
        assert asked.sum(name, where) == total, (name, where)
    for word, end in zip(("least", "greatest", "median"), ends):
        found = getattr(asked, word)(name, where)
        assert found == end and (found is None) == (end is None), (word, name, where)


@pytest.mark.parametrize("seed", range(10))
def test_10_000_tables_and_questions(seed):
    rng = np.random.default_rng(seed)
    for _ in range(TABLES // 10):
        table = model.Table(rng)
        with bsi.Index(table.forms()) as index:
            assert index.append(table.data()) == len(index) == table.rows
            check_question(index, table, str(rng.choice(list(table.columns))))


def test_parts_answer_as_one_index():
    rng = np.random.default_rng(77)
    for _ in range(60):
        table = model.Table(rng)
        with bsi.Parts(int(rng.integers(1, 6)), table.forms()) as parts:
            data, cut = table.data(), int(rng.integers(0, table.rows + 1))
            parts.append({name: values[:cut] for name, values in data.items()})
            parts.append({name: values[cut:] for name, values in data.items()})
            assert len(parts) == table.rows
            for _ in range(4):
                check_question(parts, table, str(rng.choice(list(table.columns))))


def test_frames_answer_as_pandas():
    pandas = pytest.importorskip("pandas")
    rng = np.random.default_rng(78)
    for _ in range(60):
        rows = int(rng.integers(1, 300))
        frame = pandas.DataFrame(
            {
                "Whole No": rng.integers(-(10**12), 10**12, rows),
                "flag": rng.random(rows) < 0.5,
                "price": np.where(rng.random(rows) < 0.2, np.nan, np.round(rng.random(rows) * 1000, 2)),
                "day": pandas.Timestamp("2026-01-01") + pandas.to_timedelta(rng.integers(0, 400, rows), unit="D"),
                "who": model.WORDS[rng.integers(0, 6, rows)],
            }
        )
        c, limit, day = bsi.col, float(np.round(rng.random() * 1000, 2)), frame["day"].iloc[0]
        with bsi.Index.from_frame(frame) as index:
            for where, mask in (
                (c.price < limit, frame["price"] < limit),
                ((c.day >= day) & ~(c.who == "cat"), (frame["day"] >= day) & ~(frame["who"] == "cat")),
                (c.price.isnull() | (c.flag == True), frame["price"].isna() | frame["flag"]),  # noqa: E712
                ((c.who > "bell") & (c["Whole No"] > 0), (frame["who"] > "bell") & (frame["Whole No"] > 0)),
            ):
                assert index.count(where) == mask.sum(), where
                assert (index.mask(where) == mask.to_numpy()).all(), where
                chosen = frame[mask]
                assert index.sum("Whole No", where) == chosen["Whole No"].sum()
                assert index.greatest("day", where) == (chosen["day"].max() if len(chosen) else None)
                median = chosen["price"].quantile(0.5, interpolation="lower")
                assert index.median("price", where) == (
                    None if np.isnan(median) else bsi.Decimals(2).decode(round(median * 100))
                )
                assert index.least("who", where) == (chosen["who"].min() if len(chosen) else None)


def grouped(table, names, rows):
    """Returns the numbers of the rows that have each value, or pair of values, of some columns, in their order."""
    columns, found = [table.columns[name] for name in names], {}
    for row in np.flatnonzero(rows & np.logical_and.reduce([there for _, _, there, _ in columns])).tolist():
        found.setdefault(tuple(int(numbers[row]) for _, numbers, _, _ in columns), []).append(row)
    values = [tuple(value(number) for (*_, value), number in zip(columns, key)) for key in sorted(found)]
    return {key if len(names) > 1 else key[0]: rows for key, rows in zip(values, map(found.get, sorted(found)))}


def check_groups(index, table, names, name):
    """Groups by some columns are those of plain Python, and the figures of another column in each of them."""
    where, rows = table.predicate(1)
    wanted, asked = grouped(table, names, rows), index.groupby(names if len(names) > 1 else names[0])
    counts = [(key, len(found)) for key, found in wanted.items()]
    assert list(asked.count(where=where).items()) == counts, (names, where)
    figures = {key: table.answers(name, np.isin(np.arange(table.rows), found)) for key, found in wanted.items()}
    for place, word in enumerate(("sum", "least", "greatest", "median")):
        if word != "sum" or table.answers(name, rows)[0] is not None:
            found = getattr(asked, word)(name, where)
            assert found == {key: one[place] for key, one in figures.items()}, (names, word, name, where)
    there = {key: int(table.columns[name][2][found].sum()) for key, found in wanted.items()}
    assert asked.count(name, where) == there, (names, name, where)
    if table.answers(name, rows)[0] is not None:
        assert asked.mean(name, where) == {key: one[0] / there[key] if there[key] else None for key, one in figures.items()}
    if len(names) == 1:
        assert list(index.value_counts(names[0], where).items()) == sorted(counts, key=lambda one: -one[1])
        assert index.distinct(names[0], where) == len(wanted)
        if isinstance(table.forms()[names[0]].kind, (bsi.Texts, bsi.Flags)):
            check_frequent(index.describe(names, where)[names[0]], wanted)


def check_frequent(figures, wanted):
    counts = {key: len(found) for key, found in wanted.items()}
    top = max(counts, key=counts.get, default=None)
    assert list(figures)[:4] == ["count", "unique", "top", "freq"]
    assert [figures[word] for word in ("unique", "top", "freq")] == [len(counts), top, counts.get(top)]


@pytest.mark.parametrize("seed", range(4))
def test_groups_of_any_kind(seed):
    rng = np.random.default_rng(900 + seed)
    for _ in range(60):
        table = model.Table(rng)
        with bsi.Index(table.forms()) as index:
            index.append(table.data())
            columns = list(table.columns)
            names = [str(name) for name in rng.permutation(columns)[: int(rng.integers(1, 3))]]
            check_groups(index, table, names, str(rng.choice(columns)))


def test_frames_without_some_columns():
    rng = np.random.default_rng(79)
    for _ in range(60):
        table = model.Table(rng)
        dropped = [name for name in table.columns if rng.random() < 0.5][1:]
        forms = {name: form for name, form in table.forms().items() if name not in dropped}
        given = dropped[0] if len(dropped) == 1 and rng.random() < 0.5 else dropped
        kinds = {name: form.kind for name, form in forms.items()}
        with bsi.Index.from_frame(table.data(), drop=given, kinds=kinds) as index:
            assert index.columns == list(forms) and len(index) == table.rows
            for name, (_, numbers, there, value) in table.columns.items():
                if name in forms:
                    total, *ends = table.answers(name, there)
                    assert [index.least(name), index.greatest(name), index.median(name)] == ends
                    assert index.rows(bsi.col[name].notnull()).tolist() == np.flatnonzero(there).tolist()
