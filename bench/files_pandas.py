#!/usr/bin/env python3
"""Answers what `bsi files` is asked over the same row files, with pandas in one process: the files are read one after the other.

usage: files_pandas.py ASKS CSV..
"""

import operator
import sys

import pandas

TESTS = {"<": operator.lt, "<=": operator.le, "=": operator.eq, "<>": operator.ne, ">": operator.gt, ">=": operator.ge}
TOTALS = {
    "sum": lambda numbers: numbers.sum(),
    "least": lambda numbers: numbers.min(),
    "greatest": lambda numbers: numbers.max(),
    "median": lambda numbers: numbers.quantile(0.5, interpolation="lower"),
}


def found(frame, fields):
    """Returns which rows a predicate finds. A blank compares as false."""
    stack, at = [], 0
    while at < len(fields):
        if fields[at] == "not":
            stack.append(~stack.pop())
            at += 1
        elif fields[at] in ("and", "or"):
            last = stack.pop()
            stack.append(stack.pop() & last if fields[at] == "and" else stack.pop() | last)
            at += 1
        else:
            column, test, constant = fields[at : at + 3]
            stack.append(TESTS[test](frame[column], int(constant)))
            at += 3
    return stack.pop()


def answer(frame, ask):
    total, *fields = ask.split(",")
    if total == "count":
        return f"count {found(frame, fields).sum()}"
    numbers = frame[fields[0]][found(frame, fields[1:])]
    return f"{'sum' if total == 'sum' else 'value'} {int(TOTALS[total](numbers))}"


def main(asks, *paths):
    frame = pandas.concat([pandas.read_csv(path) for path in paths], ignore_index=True)
    with open(asks, encoding="utf-8") as lines:
        for ask in lines.read().splitlines():
            print(answer(frame, ask))


main(*sys.argv[1:])
