"""10,000,000 rows once."""

import numpy as np

import bsi
from bsi import col

ROWS = 10_000_000


def test_ten_million_rows():
    rng = np.random.default_rng(11)
    a, b = rng.integers(0, 1 << 16, ROWS, np.int32), rng.integers(-300, 300, ROWS, np.int16)
    index = bsi.Index({"a": bsi.slices(16), "b": bsi.slices(10, offset=-300)}, limit=ROWS)
    assert index.append({"a": a, "b": np.ma.MaskedArray(b, b == 7)}) == ROWS
    where, rows = (col.a < 12_345) & (col.b >= -100), (a < 12_345) & (b >= -100) & (b != 7)
    assert index.count(where) == rows.sum() and (index.mask(where) == rows).all()
    assert (index.rows(where & (col.a == 99)) == np.flatnonzero(rows & (a == 99))).all()
    assert (
        index.sum("b", where) == int(b[rows].sum())
        and index.median("a", where) == np.partition(a[rows], (rows.sum() - 1) // 2)[(rows.sum() - 1) // 2]
    )
