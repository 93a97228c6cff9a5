"""A table of figures of columns, as `describe` gives it: as a text, as HTML in a notebook, or as a pandas frame."""

from __future__ import annotations

from decimal import Context, Decimal
from html import escape
from typing import Any, Dict, List, Mapping

# How many places a decimal of a column may have.
MAX_PLACES = 18
# The figures in the order of pandas.
ORDER = ("count", "unique", "top", "freq", "mean", "std", "min", "25%", "50%", "75%", "max")


class Summary(Mapping[str, Dict[str, Any]]):
    """Figures by column, each by name."""

    def __init__(self, figures: Dict[str, Dict[str, Any]]):
        self._figures = figures

    def __getitem__(self, column: str) -> Dict[str, Any]:
        return self._figures[column]

    def __iter__(self) -> Any:
        return iter(self._figures)

    def __len__(self) -> int:
        return len(self._figures)

    def _rows(self) -> List[List[str]]:
        columns = self._figures.values()
        rows = [[name, *(shown(column.get(name)) for column in columns)] for name in self._names()]
        return [["", *self._figures], *rows]

    def _names(self) -> List[str]:
        """Returns the names of the figures that a column has."""
        return [name for name in ORDER if any(name in column for column in self._figures.values())]

    def __repr__(self) -> str:
        return lines_of(self._rows(), 1)

    def _repr_html_(self) -> str:
        return html_of(self._rows())

    def to_pandas(self) -> Any:
        """Returns the figures as a frame of pandas: of floats for a column whose figures are numbers but no decimals, else
        of objects."""
        import pandas

        names, frame = self._names(), {}
        for column, figures in self._figures.items():
            given = [figures.get(name) for name in names]
            are_numbers = {type(one) for one in given if one is not None} <= {int, float}
            frame[column] = pandas.Series(given, names, "float64" if are_numbers else object)
        return pandas.DataFrame(frame, names)


def lines_of(rows: List[List[str]], left: int = 1) -> str:
    """Returns rows of cells as lines, with the first so many columns to the left and the others to the right."""
    widths = [max(map(len, column)) for column in zip(*rows)]
    align = [str.ljust if place < left else str.rjust for place in range(len(widths))]
    return "\n".join("  ".join(map(lambda side, *cell: side(*cell), align, row, widths)).rstrip() for row in rows)


def html_of(rows: List[List[str]]) -> str:
    """Returns rows of cells as a table in HTML, of which the first row is the head."""
    head, *body = [[escape(cell) for cell in row] for row in rows]
    lines = ["<tr>" + "".join(f"<th>{cell}</th>" for cell in head) + "</tr>"]
    lines += ["<tr>" + "".join(f"<td>{cell}</td>" for cell in row) + "</tr>" for row in body]
    return "<table>" + "".join(lines) + "</table>"


def shown(value: Any) -> str:
    """Returns a figure as a cell shows it."""
    if value is None:
        return ""
    if isinstance(value, float):
        return f"{value:.6g}"
    if isinstance(value, Decimal):
        # (a mean may have no end: it gets six places, or six digits)
        is_long = value.is_finite() and value.as_tuple().exponent < -MAX_PLACES  # type: ignore[operator]
        return f"{Context(max(6, value.adjusted() + 7)).plus(value) if is_long else value:f}"
    return f"{value:,}" if type(value) is int else str(value).removesuffix(" 00:00:00")
