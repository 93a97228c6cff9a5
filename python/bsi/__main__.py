"""python -m bsi FILE.. [QUESTION..]

Reads CSV or Parquet files, or opens saved indexes, shows how their columns are stored, and answers the questions. At a
terminal it then waits for further ones, one a line; if no question is given, it reads them from standard input. The
questions are those of bsi.questions, and `help` and `quit`:

    count price < 100 and temp null
    median "Amount (EUR)" Ordered >= 2026-01-31
"""

from __future__ import annotations

import argparse
import contextlib
import inspect
import os
import stat
import sys
from datetime import datetime
from decimal import Decimal
from typing import Any, Dict, Iterator, List, Optional

import numpy as np

from . import questions
from .choosing import chosen_of
from .errors import Error
from .groups import Groups
from .index import Index
from .index import open as open_index
from .kept import is_kept
from .kinds import Decimals, Flags, Texts, Times, Whole
from .parts import Parts, open_parts
from .questions import NoSign, ask, awaits_figure, is_question
from .reading import read_csv
from .records import is_record
from .report import values_of
from .summary import lines_of
from .version import __version__

MAX_SHOWN = 20
QUOTES = "put a question with > or < in quotes: 'count price > 100'"
FOR_CSV = ("null", "nulls", "delimiter", "header", "names", "decimal", "thousands", "dates", "encoding", "skiprows")
FOR_CSV += ("skip_bad",)
HEADERS = {None: "infer", "0": 0, "none": None}
KINDS = {"text": lambda _: Texts, "whole": lambda _: Whole(), "flags": lambda _: Flags()}
KINDS["decimals"] = lambda places: Decimals(int(places) if places.isdecimal() else places or 2)
KINDS["times"] = lambda unit: Times(unit or "s")
SIZED = ("decimals", "times")
KINDS["dates"] = lambda _: Times("D")


def _arguments(words: Optional[List[str]]) -> Any:
    _, _, rest = (__doc__ or "").partition("\n\n")
    parser = argparse.ArgumentParser(
        prog="python -m bsi",
        usage="python -m bsi [OPTION..] FILE.. [QUESTION..]",
        description=rest,
        formatter_class=argparse.RawDescriptionHelpFormatter,
    )
    parser.add_argument("words", nargs="+", metavar="WORD", help="files, and then questions about their rows")
    parser.add_argument("--version", action="version", version=f"bsi {__version__}")
    parser.add_argument("--columns", metavar="NAME,..", help="the columns to read; default: all")
    parser.add_argument("--drop", metavar="NAME,..", default="", help="columns to leave out")
    parser.add_argument("--kinds", metavar="NAME=KIND,..", default="", help=f"what columns hold: {', '.join(KINDS)}")
    parser.add_argument(
        "--text", metavar="NAME,..", default="", help="columns that hold texts, whatever they look like"
    )
    parser.add_argument(
        "--null", metavar="FIELD", action="append", default=[], help="a further field that means null"
    )
    parser.add_argument("--nulls", metavar="FIELD,..", default="", help="several such fields")
    blanks = "the sign between fields, as ' ' for any run of blanks; default: a comma"
    parser.add_argument("--delimiter", metavar="SIGN", help=blanks)
    parser.add_argument("--header", choices=("0", "none"), type=str.lower, help="whether the first line is a header")
    parser.add_argument("--names", metavar="NAME,..", help="titles of files without a header, or in place of it")
    parser.add_argument("--decimal", metavar="SIGN", help="the decimal sign, as a comma; default: a point")
    parser.add_argument("--thousands", metavar="SIGN", help="the sign between groups of three digits")
    parser.add_argument("--dates", metavar="FORM", help="how dates are written, as %%d.%%m.%%Y")
    parser.add_argument("--round", metavar="PLACES", type=int, help="rounds decimals of more places")
    parser.add_argument("--encoding", metavar="NAME", help="as cp1252; default: UTF-8")
    parser.add_argument("--skiprows", metavar="N", type=int, default=0, help="lines before the header")
    parser.add_argument("--skip-bad", action="store_true", help="leaves out rows that can't be stored, and reports them")
    parser.add_argument("--parts", metavar="N", type=int, default=1, help="splits the rows over N threads")
    return parser.parse_intermixed_args(words)


def _kinds(given: Any) -> Dict[str, Any]:
    """Returns the kinds that --kinds and --text name."""
    kinds: Dict[str, Any] = {name: Texts for name in given.text.split(",") if name}
    for pair in filter(None, given.kinds.split(",")):
        name, sign, spelt = pair.rpartition("=")
        word, _, size = spelt.partition(":")
        if not sign or word not in KINDS or size and word not in SIZED:
            raise ValueError(f"--kinds has NAME=KIND, of the kinds {', '.join(KINDS)}, and not {pair!r}")
        try:
            kinds[name] = KINDS[word](size)
        except ValueError as why:
            raise ValueError(f"--kinds {pair}: {why}") from None
    return kinds


def _wishes(given: Any) -> Dict[str, Any]:
    """Returns what is said of the columns of any file."""
    drop = [name for name in given.drop.split(",") if name]
    return {"kinds": _kinds(given), "drop": drop, "round": given.round}


def _csv(files: List[str], columns: Optional[List[str]], given: Any, progress: bool) -> Any:
    """Makes the index of CSV files, and reports which rows were left out."""
    named = ("delimiter", "thousands", "dates", "encoding", "skiprows", "parts")
    how = {**_wishes(given), **{name: getattr(given, name) for name in named}, "decimal": given.decimal or "."}
    how.update(header=HEADERS[given.header], names=given.names.split(",") if given.names else None)
    nulls = ["", *given.null, *filter(None, given.nulls.split(","))]
    bad = "skip" if given.skip_bad else "refuse"
    table = read_csv(files, columns, nulls=nulls, bad=bad, progress=progress, **how)
    if table.skipped:
        print(f"bsi: {table.skipped!r}", file=sys.stderr)
    return table


def _open(files: List[str], given: Any) -> Any:
    """Opens the index that one file keeps, or several as parts."""
    named = (*FOR_CSV, "columns", "drop", "kinds", "text", "round")
    alone = [name for name in named if getattr(given, name) not in (None, "", 0, [])]
    if alone or given.parts != 1:
        option = (alone or ["parts"])[0].replace("_", "-")
        raise ValueError(f"--{option} is for files that are read, not for saved indexes")
    return open_index(files[0]) if len(files) == 1 else open_parts(files)


def _read(files: List[str], given: Any) -> Any:
    """Makes the index of the files, or opens those that keep one."""
    if all(file.endswith(".bsi") or is_kept(file) for file in files) and files:
        return _open(files, given)
    columns = given.columns.split(",") if given.columns else None
    progress = sys.stderr is not None and sys.stderr.isatty()
    if not any(file.endswith((".parquet", ".pq")) for file in files):
        return _csv(files, columns, given, progress)
    import pandas

    alone = [name for name in FOR_CSV if getattr(given, name) not in (None, "", 0, [])]
    if alone:
        raise ValueError(f"--{alone[0].replace('_', '-')} is for CSV files alone")
    # (nullable types, since a whole number beside a null would be a float otherwise)
    is_new = "dtype_backend" in inspect.signature(pandas.read_parquet).parameters
    nullable = {"dtype_backend": "numpy_nullable"} if is_new else {"use_nullable_dtypes": True}
    frames = (pandas.read_parquet(file, columns=columns, **nullable) for file in files)
    found = chosen_of(frames, columns, **_wishes(given))
    table = Index(found.forms) if given.parts == 1 else Parts(given.parts, found.forms)
    return table._filled(found, progress)


def _shown(answer: Any) -> str:
    if answer is None:
        return "none"
    if isinstance(answer, datetime):
        return str(answer).removesuffix(" 00:00:00")
    if isinstance(answer, Groups):
        return lines_of([[*map(_cell, values_of(answer.keys_named, one)), _shown(answer[one])] for one in answer]) or "none"
    if not isinstance(answer, np.ndarray):
        return f"{answer:f}" if isinstance(answer, Decimal) else str(answer)
    more = [f".. {len(answer) - MAX_SHOWN:,} more"] if len(answer) > MAX_SHOWN else []
    return " ".join([*map(str, answer[:MAX_SHOWN].tolist()), *more]) or "none"


def _answer(table: Any, question: str, is_argument: bool = False) -> bool:
    """Prints the answer to a question, and returns whether it has one."""
    try:
        print(_shown(ask(table, question)), flush=True)
        return True
    except Error as why:
        print(f"bsi: {why}", file=sys.stderr, flush=True)
        if is_argument and isinstance(why, NoSign) and stat.S_ISREG(os.fstat(1).st_mode):
            print(f"bsi: the answers go to {_output()}; if > was meant as a sign: {QUOTES}", file=sys.stderr)
        return False


def _output() -> str:
    """Returns what the file that the answers go to is called, as far as the system says so."""
    try:
        return f"the file {os.path.basename(os.readlink('/proc/self/fd/1'))!r}"
    except OSError:
        return "a file"


def _cell(value: Any) -> str:
    return "null" if value is None else _shown(value)


def _joined(words: List[str]) -> List[str]:
    """Returns the questions, of which one may be given in several words."""
    found: List[str] = []
    for word in words:
        if not found or is_question(word) and not awaits_figure(found[-1]):
            found.append(word)
        else:
            found[-1] += f" {word}"
    return found


def main(words: Optional[List[str]] = None) -> int:
    given = _arguments(words)
    # (a file may be named as a record begins)
    are = (is_question(word) and not (is_record(word) and os.path.exists(word)) for word in given.words)
    first = next((place for place, is_one in enumerate(are) if is_one), len(given.words))
    files, asked = given.words[:first], _joined(given.words[first:])
    try:
        table = _read(files, given)
    except (Error, OSError, ImportError, ValueError) as why:
        print(f"bsi: {why}", file=sys.stderr)
        return 1
    print(table, flush=True)
    answered = [_answer(table, question, True) for question in asked]
    if sys.stdin is not None and sys.stdin.isatty():
        for line in _typed():
            _answer(table, line)
    elif sys.stdin is not None and not asked:
        answered += [_answer(table, line) for line in sys.stdin if line.strip()]
    return 0 if all(answered) else 1


def _typed() -> Iterator[str]:
    """Yields the lines that are typed at a terminal, up to its end."""
    with contextlib.suppress(ImportError):
        import readline  # noqa: F401 (it lets input() be edited)
    with contextlib.suppress(EOFError):
        while True:
            line = input("? ").strip()
            if line in ("quit", "exit"):
                return
            if line == "help":
                print((questions.__doc__ or "").partition("\n\n")[2])
            elif line:
                yield line


if __name__ == "__main__":
    try:
        sys.exit(main())
    except KeyboardInterrupt:
        sys.exit(130)
