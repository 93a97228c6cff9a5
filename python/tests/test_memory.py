"""Memory that the library is refused, and memory that it gives back."""

import subprocess
import sys

# An append for which there is no room: what stands is a first part of the rows, as the error says, and can be asked.
REFUSED = """
import resource
import numpy as np, bsi
rows = np.arange(1_000_000) % 1000
index = bsi.Index({"a": bsi.equality(1000)})
index.append({"a": rows[:100]})
used = int(open("/proc/self/statm").read().split()[0]) * resource.getpagesize()
resource.setrlimit(resource.RLIMIT_AS, (used + (64 << 20), -1))
try:
    index.append({"a": rows})
except bsi.NoMemory as why:
    resource.setrlimit(resource.RLIMIT_AS, (-1, -1))
    whole = np.concatenate([rows[:100], rows])[: len(index)]
    assert len(index) == 100 + why.appended and why.appended < len(rows), (len(index), why.appended)
    assert index.count(bsi.col.a == 7) == (whole == 7).sum() and index.sum("a") == whole.sum()
    assert index.append({"a": rows[why.appended :]}) == len(rows) - why.appended and len(index) == len(rows) + 100
    print(str(why))
"""
# Many indexes, shared handles, questions and refusals: what the process holds does not grow.
GIVEN_BACK = """
import resource
import numpy as np, bsi
rows = {"a": np.arange(5000)}
def work(times):
    for _ in range(times):
        index = bsi.Index({"a": bsi.slices(13)})
        index.append(rows)
        other = index.share()
        assert other.count(bsi.col.a < 50) == 50 and index.median("a") == 2499
        assert len(index.rows(bsi.col.a > 4990)) == 9
        try:
            index.append(rows)
        except bsi.Shared:
            pass
        index.close()
    return resource.getrusage(resource.RUSAGE_SELF).ru_maxrss
print(-work(300) + work(3000))
"""
# How much more memory a process takes while it reads a file than before, in bytes, and how many its bitmaps have.
READ = """
import gc, io, sys
import bsi
def status(word):
    return next(1024 * int(line.split()[1]) for line in open("/proc/self/status") if line.startswith(word))
bsi.read_csv(io.StringIO("a,b\\n1,2\\n"))
gc.collect()
open("/proc/self/clear_refs", "w").write("5")
before = status("VmRSS")
index = bsi.read_csv(sys.argv[1])
print(status("VmHWM") - before, sum(form.bitmaps for form in index.forms.values()) * len(index) // 8)
"""


def run(code, *words):
    ran = subprocess.run([sys.executable, "-c", code, *words], capture_output=True, text=True, check=False)
    assert ran.returncode == 0, ran.stderr
    return ran.stdout.strip()


def test_an_append_without_memory_says_what_stands():
    assert "rows were appended" in run(REFUSED)


def test_memory_is_given_back():
    assert int(run(GIVEN_BACK)) < 3000


def test_a_file_is_read_in_the_memory_of_its_index(tmp_path):
    path, rows = tmp_path / "rows.csv", 1_000_000
    days = [f"2026-01-{day:02}" for day in range(1, 32)]
    lines = (f"{days[row % 31]},{row % 8},{'true' if row % 3 else 'false'},{'true' if row % 7 else ''}\n" for row in range(rows))
    path.write_text("day,n,f,g\n" + "".join(lines))
    peak, bitmaps = map(int, run(READ, str(path)).split())
    # (besides a byte a row, and what a block of the file takes while it is read)
    assert peak < bitmaps + rows + (7 << 20), (peak, bitmaps)
