"""docs/PYTHON.md and README.md print what they say, and the example draws."""

import doctest
import os
import re
import subprocess
import sys

import numpy as np
import pytest
from producer import Arrow, Stream, texts

TOP = os.path.dirname(os.path.dirname(os.path.dirname(os.path.abspath(__file__))))
PAGE, EXAMPLES = os.path.join(TOP, "docs", "PYTHON.md"), os.path.join(TOP, "examples")
README = os.path.join(TOP, "README.md")


def blocks(language, path=PAGE):
    with open(path, encoding="utf-8") as page:
        return re.findall(rf"^```{language}\n(.*?)^```$", page.read(), re.MULTILINE | re.DOTALL)


def stream(*names, notes=True):
    """Returns rows as an Arrow stream: a price, a name, and a note or none."""
    prices = Arrow("l", len(names), [None, np.arange(len(names)) * 50 + 150 + 50 * (not notes)])
    columns = {"price": prices, "who": texts(*names), **({"note": texts(*names)} if notes else {})}
    rows = Arrow("+s", len(names), [None], children=columns)
    return Stream(rows, rows)


def test_the_page_prints_what_it_says(monkeypatch, tmp_path):
    pytest.importorskip("pandas")
    monkeypatch.chdir(EXAMPLES)
    lines = "\n".join(blocks("python"))
    names = {"folder": tmp_path, "table": stream("Meyer", "Sato", "Ada"), "newer": stream("Okafor", "Ada", notes=False)}
    test = doctest.DocTestParser().get_doctest(lines, names, "PYTHON.md", PAGE, 0)
    found = doctest.DocTestRunner(optionflags=doctest.REPORT_NDIFF).run(test)
    assert found.attempted > 15 and found.failed == 0


def test_the_readme_gives_what_its_comments_say(monkeypatch):
    pytest.importorskip("pandas")
    monkeypatch.chdir(EXAMPLES)
    (block,) = blocks("python", README)
    names, said = {}, []
    for line in block.splitlines():
        question, _, wanted = line.partition("  #")
        if wanted:
            said.append((repr(eval(question, names)), wanted.strip()))
        else:
            exec(line, names)
    assert said and all(found == wanted for found, wanted in said)


def test_the_commands_of_the_page_print_what_they_say():
    pytest.importorskip("pandas")
    commands = [text for text in blocks("text") if text.startswith("$ python3 ")]
    assert commands
    for text in commands:
        line, _, wanted = text.partition("\n")
        command = line.removeprefix("$ ").replace("python3", sys.executable, 1)
        ran = subprocess.run(["sh", "-c", command], cwd=EXAMPLES, capture_output=True, text=True, check=False)
        assert (ran.stdout, ran.stderr) == (wanted, "")


def test_the_example_draws(tmp_path):
    pytest.importorskip("pandas")
    pytest.importorskip("matplotlib")
    picture = tmp_path / "weather.png"
    example = os.path.join(TOP, "python", "examples", "weather.py")
    ran = subprocess.run([sys.executable, example, str(picture)], capture_output=True, text=True, check=False)
    assert ran.returncode == 0, ran.stderr
    assert "208 station days of freezing rain" in ran.stdout and picture.stat().st_size > 10_000
