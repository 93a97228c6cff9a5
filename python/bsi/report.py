"""A table of figures of groups, as `agg` gives it: as a text, as HTML in a notebook, or as a pandas frame."""

from __future__ import annotations

from datetime import datetime
from typing import Any, Dict, Iterator, List, Mapping, Sequence, Tuple

import numpy as np

from .summary import html_of, lines_of, shown

Figure = Tuple[str, str]


class Report(Mapping[Figure, Dict[Any, Any]]):
    """Figures of groups, each by its column and its name, as `report["price", "sum"]`."""

    def __init__(self, keys: Tuple[str, ...], groups: Sequence[Any], figures: Dict[Figure, Dict[Any, Any]]):
        self._keys, self._groups, self._figures = keys, list(groups), figures

    def __getitem__(self, figure: Figure) -> Dict[Any, Any]:
        return self._figures[figure]

    def __iter__(self) -> Iterator[Figure]:
        return iter(self._figures)

    def __len__(self) -> int:
        return len(self._figures)

    def _rows(self) -> List[List[str]]:
        head = [*self._keys, *(f"{column} {word}" for column, word in self._figures)]
        rows = [
            [*(shown(value) if value is not None else "null" for value in values_of(self._keys, group))]
            + [shown(answers[group]) for answers in self._figures.values()]
            for group in self._groups
        ]
        return [head, *rows]

    def __repr__(self) -> str:
        return lines_of(self._rows(), len(self._keys))

    def _repr_html_(self) -> str:
        return html_of(self._rows())

    def to_pandas(self) -> Any:
        """Returns the figures as a frame of pandas, with a column for each, under its column of the index: whole numbers,
        booleans, floats and times of their own types, of nullable ones where a figure is missing, and decimals and texts
        as objects."""
        import pandas

        index = _index_of(pandas, self._keys, self._groups)
        columns = {figure: _typed(pandas, [answers[one] for one in self._groups]) for figure, answers in self.items()}
        return pandas.DataFrame(columns, index=index) if columns else pandas.DataFrame(index=index)


def series_of(keys: Tuple[str, ...], answers: Dict[Any, Any]) -> Any:
    """Returns answers by group as a series of pandas."""
    import pandas

    return pandas.Series(_typed(pandas, list(answers.values())), _index_of(pandas, keys, list(answers)))


def values_of(keys: Tuple[str, ...], group: Any) -> Tuple[Any, ...]:
    """Returns the values of a group, one for each key."""
    return (group,) if len(keys) == 1 else group


def _index_of(pandas: Any, keys: Tuple[str, ...], groups: List[Any]) -> Any:
    if len(keys) == 1:
        return pandas.Index(_typed(pandas, groups), name=keys[0])
    columns = zip(*groups) if groups else [[] for _ in keys]
    return pandas.MultiIndex.from_arrays([_typed(pandas, list(column)) for column in columns], names=keys)


def _typed(pandas: Any, values: List[Any]) -> Any:
    """Returns values as an array of the narrowest type of pandas that has them."""
    types, is_whole = {type(value) for value in values if value is not None}, None not in values
    if types == {int} and all(value is None or abs(value) < 1 << 63 for value in values):
        return np.array(values, np.int64) if is_whole else pandas.array(values, "Int64")
    if types == {bool}:
        return np.array(values, bool) if is_whole else pandas.array(values, "boolean")
    if types == {float}:
        return np.array(values, np.float64)  # (None is nan)
    if types and types <= {datetime, np.datetime64}:
        try:
            return pandas.array(pandas.to_datetime(pandas.Series(values, dtype=object)))
        except (ValueError, TypeError, OverflowError):
            pass  # (past the years that pandas has)
    return pandas.Series(values, dtype=object).array
