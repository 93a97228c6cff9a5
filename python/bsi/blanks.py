"""Fields between blanks: each run of blanks becomes a tab, which then separates them as any other sign does."""

from __future__ import annotations

import re
from typing import Any, Callable

import numpy as np

from .fields import BLANKS, Lines
from .files import NEWLINE, RETURN, Run, places_of

TAB = b"\t"


def tabbed(run: Run, quote: bytes) -> Run:
    """Returns a whole run with a tab for each run of blanks outside quotes, and none where a line begins or ends."""
    data = np.frombuffer(run.text, np.uint8)
    are_blank = (data == BLANKS[0]) | (data == BLANKS[1])
    if len(run.quotes):
        are_blank &= np.bitwise_xor.accumulate((data == quote[0]).view(np.uint8)) == 0
    if not are_blank.any():
        return run
    are_ends = (data == NEWLINE) | (data == RETURN)
    # (the first blank behind a field stands for all of them)
    are_tabs = are_blank.copy()
    are_tabs[0] = False
    are_tabs[1:] &= ~(are_blank | are_ends)[:-1]
    kept = are_tabs | ~are_blank
    data, are_tabs, are_ends = data[kept], are_tabs[kept], are_ends[kept]
    data[are_tabs] = TAB[0]
    are_last = are_tabs & np.append(are_ends[1:], True)
    text = data[~are_last].tobytes()
    return Run(text, places_of(text, quote), run.is_whole)


class TabbedLines:
    """Turns lines, one after the other, into lines with a tab for each run of blanks outside quotes. A quoted field may
    go on in the next line."""

    def __init__(self, quote: str):
        at = re.escape(quote)
        # (the rest of a quoted field, as far as a line has it, and its last quote)
        rest = rf"(?:[^{at}]|{at}{at})*({at})?" if quote else ""
        quoted = rf"(?<![^ \t]){at}{rest}|" if quote else ""
        self._rest, self._parts = re.compile(rest), re.compile(rf"{quoted}[ \t]+")
        self._is_open = False

    def of(self, line: str) -> str:
        """Returns the next line with tabs."""
        begin = ""
        if self._is_open:
            found: Any = self._rest.match(line)
            self._is_open = found[1] is None
            begin, line = found[0], line[found.end() :]
        text = self._parts.sub(self._part, line)
        if self._is_open:
            return begin + (text if begin else text.lstrip("\t"))
        body = text.rstrip("\r\n")
        return begin + (body if begin else body.lstrip("\t")).rstrip("\t") + text[len(body) :]

    def _part(self, found: Any) -> str:
        """Returns a tab for blanks, and a quoted field as it stands."""
        if found[0][0] in " \t":
            return "\t"
        self._is_open = found[1] is None
        return found[0]


class BlankLines(Lines):
    """Lines whose fields stand between blanks, with a tab for each run of them."""

    def __init__(self, text: bytes, more: Callable[[], bytes], quote: str):
        super().__init__(text, more)
        self._tabbed = TabbedLines(quote)

    def __next__(self) -> str:
        return self._tabbed.of(super().__next__())
