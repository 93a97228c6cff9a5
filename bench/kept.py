#!/usr/bin/env python3
"""Saves a million rows and asks them, by turns: `bsi save` and `bsi ask`, `bsi files` over the CSV file, pandas' pickle, and SQLite's file.
The best of the rounds is printed in milliseconds, and the sizes of the files in bytes. All answers must be the same.

Then the same rows are saved in slices, range and equality encoded. Of each form it prints, by turns and the best of the rounds, the
milliseconds of processor time that one thread takes to open the bytes of the file by the C library, and that `bsi files` takes on one
processor to read the rows from CSV; how fast bytes are saved and opened; the peak memory of `bsi ask`; and the size of the file. It needs
out/lib/libbsi.so (make lib), or the one that BSI_LIBRARY names.

usage: bench/kept.py [--program FILE] [--rounds N] [--rows N] [--only commands|forms]
"""

import argparse
import os
import resource
import sqlite3
import subprocess
import sys
import tempfile
import time

import numpy
import pandas

sys.path.insert(0, os.path.join(os.path.dirname(os.path.abspath(__file__)), "..", "python"))
PROGRAM = os.path.join(os.path.dirname(os.path.abspath(__file__)), "../crates/bsi/out/bsi")
SCHEMA = "column,price,slices,14\ncolumn,day,range,19 20\ncolumn,qty,slices,10\nlimit,100000000\n"
ASKS = "count,day,=,100\nsum,qty,price,>,5000\n"
# The sizes of the columns price, day and qty in each form.
FORMS = {"slices": ("14", "9", "10"), "range": ("100 100", "19 20", "32 32"), "equality": ("100 100", "19 20", "32 32")}
SEGMENTS = 4


class Room:
    """A folder with a row file, in which each way keeps the rows and asks them."""

    def __init__(self, program, folder, rows):
        self.program, self.folder = program, folder
        chance = numpy.random.default_rng(7)
        bounds = {"price": 10_000, "day": 366, "qty": 1_024}
        frame = pandas.DataFrame({name: chance.integers(0, bound, rows) for name, bound in bounds.items()})
        frame.to_csv(self.at("rows.csv"), index=False)
        frame[: rows // SEGMENTS].to_csv(self.at("part.csv"), index=False)
        frame[:0].to_csv(self.at("none.csv"), index=False)
        for name, text in (("schema", SCHEMA), ("asks", ASKS)):
            with open(self.at(name), "w", encoding="ascii") as file:
                file.write(text)

    def at(self, name):
        return os.path.join(self.folder, name)

    def bsi(self, *words):
        """Runs the program, and returns the numbers of its answers."""
        lines = subprocess.run([self.program, *words], check=True, capture_output=True, text=True).stdout.splitlines()
        return [int(line.split()[1]) for line in lines if line.startswith(("count", "sum"))]

    def ask_csv(self):
        return self.bsi("files", "--schema", self.at("schema"), "--asks", self.at("asks"), self.at("rows.csv"))

    def save_kept(self):
        self.bsi("save", "--schema", self.at("schema"), "--to", self.at("rows.bsi"), self.at("rows.csv"))

    def ask_kept(self):
        return self.bsi("ask", self.at("rows.bsi"), "--asks", self.at("asks"))

    def save_pickle(self):
        pandas.read_csv(self.at("rows.csv")).to_pickle(self.at("rows.pickle"))

    def ask_pickle(self):
        frame = pandas.read_pickle(self.at("rows.pickle"))
        return [int((frame.day == 100).sum()), int(frame.qty[frame.price > 5000].sum())]

    def save_sqlite(self):
        if os.path.exists(self.at("rows.sqlite")):
            os.remove(self.at("rows.sqlite"))
        with sqlite3.connect(self.at("rows.sqlite")) as base:
            pandas.read_csv(self.at("rows.csv")).to_sql("rows", base, index=False)

    def ask_sqlite(self):
        asks = ("select count(*) from rows where day = 100", "select sum(qty) from rows where price > 5000")
        with sqlite3.connect(self.at("rows.sqlite")) as base:
            return [base.execute(ask).fetchone()[0] for ask in asks]


def best_times(room, rounds):
    """Returns the best time of each way in milliseconds, the ways by turns."""
    ways = [room.save_kept, room.save_pickle, room.save_sqlite, room.ask_csv, room.ask_kept, room.ask_pickle, room.ask_sqlite]
    best, answers = {}, []
    for _ in range(rounds):
        for way in ways:
            begun = time.perf_counter()
            answer = way()
            spent = 1_000 * (time.perf_counter() - begun)
            best[way.__name__] = min(spent, best.get(way.__name__, spent))
            answers += [answer] if answer else []
    assert all(answer == answers[0] for answer in answers), answers
    return best


def processor_time(call):
    """Returns the milliseconds of processor time that a call takes, with the commands that it runs, and what it returns."""
    of_commands = lambda: sum(resource.getrusage(resource.RUSAGE_CHILDREN)[:2])
    begun = time.process_time() + of_commands()
    found = call()
    return 1_000 * (time.process_time() + of_commands() - begun), found


class Form:
    """The rows of a room kept in one form: in a file of one segment, and in one of several."""

    def __init__(self, room, form):
        from bsi.native import Handle

        self.room, self.handle_of, self.schema = room, Handle.of_kept, room.at(f"{form}.schema")
        columns = [f"column,{name},{form},{sizes}\n" for name, sizes in zip(("price", "day", "qty"), FORMS[form])]
        with open(self.schema, "w", encoding="ascii") as file:
            file.writelines([*columns, "limit,100000000\n"])
        self.one, self.several = room.at(f"{form}.one"), room.at(f"{form}.several")
        room.bsi("save", "--schema", self.schema, "--to", self.one, room.at("rows.csv"))
        room.bsi("save", "--schema", self.schema, "--to", self.several, room.at("part.csv"))
        for _ in range(SEGMENTS - 1):
            room.bsi("add", self.several, room.at("part.csv"))
        self.none = room.at(f"{form}.none")
        room.bsi("save", "--schema", self.schema, "--to", self.none, room.at("none.csv"))
        self.data = numpy.fromfile(self.one, numpy.uint8)
        self.opened, _ = self.handle_of(self.data)

    def read_csv(self):
        words = ["files", "--schema", self.schema, "--asks", self.room.at("asks"), self.room.at("rows.csv")]
        return subprocess.run(["taskset", "-c", "0", self.room.program, *words], check=True, capture_output=True)

    def open_bytes(self):
        return self.handle_of(self.data)

    def save_bytes(self):
        return self.opened.save(b"", len(self.data))

    def peak(self, path):
        """Returns the peak memory in bytes of `bsi ask` that has answered a question of a file."""
        with subprocess.Popen([self.room.program, "ask", path], stdin=subprocess.PIPE, stdout=subprocess.PIPE, bufsize=0) as asked:
            asked.stdin.write(b"sum,qty,price,>,5000\n")
            asked.stdout.readline()
            with open(f"/proc/{asked.pid}/status", encoding="ascii") as file:
                (peak,) = [int(line.split()[1]) for line in file if line.startswith("VmHWM:")]
            asked.stdin.close()
        return 1_024 * peak


def bitmaps_of(schema):
    """Returns how many bitmaps a schema's columns take in an index, and in a file."""
    from bsi.kept import read_schema

    with open(schema, encoding="ascii") as file:
        forms, _ = read_schema(file.read())
    return sum(form.bitmaps for form in forms.values()), sum(1 + form.places for form in forms.values())


def sizes_of(form, rows):
    """Returns what of the sizes of a form's files is printed."""
    of_index, of_file = (8 * -(-rows // 64) * count for count in bitmaps_of(form.schema))
    size, parts = os.path.getsize(form.one), os.path.getsize(form.several)
    lines = {"the file, bytes": f"{size:,}", "to the words of its places": f"{size / of_file:.4f}", "the index, bytes": f"{of_index:,}"}
    empty = form.peak(form.none)
    lines["`bsi ask` of no rows, bytes"] = f"{empty:,}"
    for name, path, body in (("one segment", form.one, size), (f"{SEGMENTS} segments", form.several, parts // SEGMENTS)):
        more = form.peak(path) - empty
        lines[f"more for {name}, bytes"] = f"{more:,}"
        lines[f"to the index and the body, {name}"] = f"{more / (of_index + body):.2f}"
    return lines


def print_forms(room, rounds, rows):
    """Prints a table of the forms."""
    forms, best = {form: Form(room, form) for form in FORMS}, {}
    for _ in range(rounds):
        for name, form in forms.items():
            for way in (form.read_csv, form.open_bytes, form.save_bytes):
                spent, _ = processor_time(way)
                best[name, way.__name__] = min(spent, best.get((name, way.__name__), spent))
    table = {}
    for name, form in forms.items():
        read, opened, saved = (best[name, way] for way in ("read_csv", "open_bytes", "save_bytes"))
        times = {"from CSV, ms": f"{read:.1f}", "opened, ms": f"{opened:.2f}", "opened / from CSV": f"{opened / read:.3f}"}
        speeds = {f"{word}, GB/s": f"{len(form.data) / 1e6 / spent:.2f}" for word, spent in (("opened", opened), ("saved", saved))}
        table[name] = {**times, **speeds, **sizes_of(form, rows)}
    print("| |", " | ".join(table), "|")
    print("|---" * (1 + len(table)) + "|")
    for line in table["slices"]:
        print("|", " | ".join([line, *(table[name][line] for name in table)]), "|")


def print_commands(room, rounds):
    """Prints the times of whole commands, and the sizes of their files."""
    for name, spent in best_times(room, rounds).items():
        print(f"{name} {spent:.1f} ms")
    for name in sorted(os.listdir(room.folder)):
        if name.startswith("rows."):
            print(name, os.path.getsize(room.at(name)))


def main():
    parser = argparse.ArgumentParser(usage=__doc__.split("usage: ")[1].strip())
    parser.add_argument("--program", default=PROGRAM)
    parser.add_argument("--rounds", type=int, default=5)
    parser.add_argument("--rows", type=int, default=1_000_000)
    parser.add_argument("--only", choices=("commands", "forms"))
    chosen = parser.parse_args()
    with tempfile.TemporaryDirectory() as folder:
        room = Room(chosen.program, folder, chosen.rows)
        if chosen.only != "forms":
            print_commands(room, chosen.rounds)
        if chosen.only != "commands":
            print_forms(room, chosen.rounds, chosen.rows)


if __name__ == "__main__":
    main()
