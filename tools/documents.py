#!/usr/bin/env python3
"""Checks the documents against the repository: sizes, words, links, the version, quoted code, the examples, and what runs print.

- No page is too long. The pages that people read have at most 24,000 words together, and docs/PROMISES.md has at most 2,800, as `wc -w`
  counts them: all that has blanks around it, and so each bar of a table.
- A link to a file of the repository leads to one, and behind a # to a heading; so does each name docs/X.md.
- The version in VERSION is that of the manual page, whose date is that of the newest heading of CHANGELOG.md, of that
  heading, of README.md, and as a number of include/bsi.h.
- The lines of a block ```rust stand so, one below the other, in a file of crates/bsi_examples/src.
- Each clause of a block ```text after a line `fn NAME..` is one of a free function of that name, and after `fn TYPE::NAME..` of one in
  an `impl` of that type, where S stands for what self shows at the call, and S' at the return.
- examples/README.md names each file and folder of examples/. docs/ARCHITECTURE.md lists the crates of crates.txt, in its order, each by
  the idea with which its root file begins, and with its modules. docs/crates.svg draws them, and which of them the code of each uses.
  Each wrong body that docs/PROMISES.md names is there.
- A line `$ COMMAND` of a block ```console, run in examples/ with the program of the tarball of `make dist` on the path and no kit, prints
  the lines below it.
"""

import glob
import os
import re
import sys
import tempfile
import textwrap

import workspace

LINK = re.compile(r"\]\(([^)\s]+)\)|(?:src|href)=\"([^\"]+)\"")
NAMED = re.compile(r"\bdocs/[A-Z_-]+\.md\b")
BLOCK = re.compile(r"^```(\w*)\n(.*?)^```$", re.MULTILINE | re.DOTALL)
HEADING = re.compile(r"^#+ (.*)$", re.MULTILINE)
# A crate's box in the drawing, its name, and which crates it also uses: some, or one to another of the list.
BOX = re.compile(
    r'<rect x="(\d+)" y="(\d+)" width="(\d+)" height="(\d+)"[^>]*/>\n<text[^>]*>(\w+)</text>(?:\n<text[^>]*>also ([^<]*)</text>)?'
)
# An `impl` or a trait: what it is of, and its functions.
ITEM = re.compile(r"^(?:impl|(?:pub )?trait)\b(.*?)\{$(.*?)^\}", re.MULTILINE | re.DOTALL)
VERSION = re.compile(r"\d+\.\d+\.\d+")
# How many bytes a page may have, and how many those may have that are named.
MAX_SIZE = 12_288
MAX_SIZES = {
    "README.md": 7_900,
    "CONTRIBUTING.md": 6_900,
    "CHANGELOG.md": 6_500,
    "docs/ARCHITECTURE.md": 14_500,
    "docs/C.md": 5_900,
    "docs/DECISIONS.md": 10_850,
    "docs/DESIGN.md": 8_850,
    "docs/FORMATS.md": 22_050,
    "docs/GLOSSARY.md": 7_500,
    "docs/GUIDE.md": 8_900,
    "docs/PERFORMANCE.md": 8_700,
    "docs/PROMISES.md": 20_700,
    "docs/PYTHON.md": 10_650,
    "docs/TOOLS.md": 4_600,
}
# How many words some pages may have together: all that people read, and the one for reviewers.
MAX_WORDS = (
    (24_000, "README.md", "CHANGELOG.md", "CONTRIBUTING.md", "docs/*.md", "examples/README.md", "cases/README.md", "python/README.md"),
    (2_800, "docs/PROMISES.md"),
)
# What the program of the tarball finds on a machine without the kit.
PATH = "/usr/local/bin:/usr/bin:/bin"


def text_of(path):
    with open(path, encoding="utf-8") as file:
        return file.read()


def documents(top):
    """Returns the path of each document below the folder, from there."""
    patterns = ("*.md", "docs/*.md", "examples/*.md", "cases/*.md", "crates/*/*.md")
    found = [path for pattern in patterns for path in glob.glob(os.path.join(top, pattern))]
    return sorted(os.path.relpath(path, top) for path in found)


def blocks(top, language):
    """Returns each block of that language, with the document that it stands in."""
    for document in documents(top):
        for found, text in BLOCK.findall(text_of(os.path.join(top, document))):
            if found == language:
                yield document, text


def fault_in_sizes(top):
    """Returns which page is too long, or None."""
    for document in documents(top):
        size, most = os.path.getsize(os.path.join(top, document)), MAX_SIZES.get(document, MAX_SIZE)
        if size > most:
            return f"{document} has {size} bytes, more than {most}"
    return None


def fault_in_words(top):
    """Returns which pages have too many words, or None."""
    for most, *patterns in MAX_WORDS:
        paths = [path for pattern in patterns for path in glob.glob(os.path.join(top, pattern))]
        count = sum(len(text_of(path).split()) for path in paths)
        if count > most:
            return f"{', '.join(patterns)}: {count} words, more than {most}"
    return None


def anchors(path):
    """Returns the names of a document's headings in links."""
    heads = HEADING.findall(BLOCK.sub("", text_of(path)))
    return {re.sub(r"[^\w\- ]", "", head.lower()).replace(" ", "-") for head in heads}


def leads(top, document, link):
    """Returns whether a link of a document leads somewhere."""
    target, _, anchor = link.partition("#")
    path = os.path.normpath(os.path.join(top, os.path.dirname(document), target)) if target else os.path.join(top, document)
    is_there = os.path.exists(path) and (path + os.sep).startswith(os.path.abspath(top) + os.sep)
    return is_there and (not anchor or os.path.isfile(path) and anchor in anchors(path))


def fault_in_links(top):
    """Returns which link of a document leads nowhere, or None."""
    for document in documents(top):
        text = BLOCK.sub("", text_of(os.path.join(top, document)))
        links = [first or second for first, second in LINK.findall(text)]
        for link in links:
            if not re.match(r"[a-z]+:", link) and not leads(top, document, link):
                return f"{document}: the link {link} leads nowhere"
        for name in NAMED.findall(text):
            if not os.path.isfile(os.path.join(top, name)):
                return f"{document}: there is no {name}"
    return None


def fault_in_version(top):
    """Returns which file tells another version or date, or None."""
    version = text_of(os.path.join(top, "VERSION")).strip()
    if not VERSION.fullmatch(version):
        return f"VERSION is {version!r}"
    newest = re.search(r"^## (.*)$", text_of(os.path.join(top, "CHANGELOG.md")), re.MULTILINE)
    told, _, date = newest.group(1).partition(", ") if newest else ("", "", "")
    if told != version:
        return f"CHANGELOG.md begins with {told!r}, and VERSION is {version}"
    head = f'.TH BSI 1 {date} "bsi {version}"'
    if head not in text_of(os.path.join(top, "man", "bsi.1")):
        return f"man/bsi.1 has no head {head}"
    if f"bsi {version}" not in text_of(os.path.join(top, "README.md")):
        return f"README.md does not say bsi {version}"
    major, minor, patch = map(int, version.split("."))
    line = f"#define BSI_VERSION {10000 * major + 100 * minor + patch}\n"
    if line not in text_of(os.path.join(top, "include", "bsi.h")):
        return f"include/bsi.h has no line {line.strip()}"
    return None


def stand_in(lines, source):
    """Returns whether the lines stand in the source, one below the other, whatever their common margin."""
    wanted = textwrap.dedent("".join(lines)).rstrip()
    all_lines = source.splitlines(keepends=True)
    places = range(len(all_lines) - len(lines) + 1)
    return any(textwrap.dedent("".join(all_lines[at : at + len(lines)])).rstrip() == wanted for at in places)


def fault_in_rattle(top):
    """Returns which lines of Rattle are those of no proved use, or None."""
    sources = [text_of(path) for path in glob.glob(os.path.join(top, "crates", "bsi_examples", "src", "*.rt"))]
    found = list(blocks(top, "rust"))
    if not any(document == "README.md" for document, _ in found):
        return "README.md has no lines of Rattle"
    for document, text in found:
        lines = text.splitlines(keepends=True)
        if not any(stand_in(lines, source) for source in sources):
            return f"{document}: the lines from {lines[0].strip()!r} on stand in no file of crates/bsi_examples/src"
    return None


def as_quoted(clause):
    """Returns a clause as a document quotes it."""
    shown = re.sub(r"\bself\.new\b", "S'", clause)
    shown = re.sub(r"\bself(\.old|\.now)?\b", "S", shown)
    return " ".join(re.sub(r"(\w)\.(now|old)\b", r"\1", shown).split())


def type_of(head):
    """Returns the name of the type, or of the trait, that the head of an item is of."""
    while re.search(r"<[^<>]*>", head):
        head = re.sub(r"<[^<>]*>", "", head)
    return re.search(r"\w+", head.rpartition(" for ")[2])[0]


def contracts_in(owner, source):
    """Returns each function of these lines with its owner and its clauses, as a document quotes them."""
    for name, head in re.findall(r"\bfn (\w+)(.*?)\{$", source, re.MULTILINE | re.DOTALL):
        clauses = re.findall(r"\b(requires|ensures) (\w* ?)\{(.*?)\}\s*(?=requires|ensures|//|$)", head, re.DOTALL)
        yield owner + name, {f"{kind} {label}".strip() + ": " + as_quoted(text) for kind, label, text in clauses}


def contracts_of(source):
    """Returns each function of a source, with its type before its name where it has one, and its clauses as a document quotes them."""
    yield from contracts_in("", ITEM.sub("", source))
    for head, body in ITEM.findall(source):
        yield from contracts_in(f"{type_of(head)}::", body)


def fault_in_clauses(top):
    """Returns which clauses that a document quotes are none of such a function, or None."""
    sources = glob.glob(os.path.join(top, "crates", "*", "src", "**", "*.rt"), recursive=True)
    contracts = [found for path in sources for found in contracts_of(text_of(path))]
    for document, text in blocks(top, "text"):
        for head, body in re.findall(r"^fn ([^\n]*)\n((?: {2}.*\n)*)", text, re.MULTILINE):
            name = re.match(r"(?:\w+::)?\w+", head)[0]
            quoted = {" ".join(line.split()) for line in body.splitlines()}
            if not any(name == found and quoted <= clauses for found, clauses in contracts):
                return f"{document}: no function {name} has all of the clauses {sorted(quoted)}"
    return None


def fault_in_names(top):
    """Returns which example is not named in their README, or None."""
    folder = os.path.join(top, "examples")
    text = text_of(os.path.join(folder, "README.md"))
    for name in sorted(os.listdir(folder)):
        if name != "README.md" and f"`{name}`" not in text:
            return f"examples/README.md does not name `{name}`"
    return None


def used_by(top, crate, listed):
    """Returns which of the listed crates the code of a crate uses."""
    sources = glob.glob(os.path.join(top, "crates", crate, "src", "**", "*.rt"), recursive=True)
    code = re.sub(r"//.*|ghost use [^;]*;", "", "\n".join(map(text_of, sources)))
    return {other for other in listed if other != crate and re.search(rf"(?<![\w.]){other}::|\buse {other}\b", code)}


def fault_in_modules(top, crate, cell):
    """Returns which module of a crate a cell does not name, or which name in it is no module and no function, or None."""
    folder = os.path.join(top, "crates", crate, "src")
    paths = glob.glob(os.path.join(folder, "**", "*.rt"), recursive=True)
    sources = {os.path.relpath(path, folder)[:-3]: text_of(path) for path in paths}
    modules = {module for module in sources if os.sep not in module} - {"lib", "main", "tests"}
    named = set(re.findall(r"`([a-z_/]+)`", cell))
    if cell.strip() and not modules <= named:
        return f"{crate}: docs/ARCHITECTURE.md does not name the modules {sorted(modules - named)}"
    known = {part for module in sources for part in (module, os.path.basename(module))}
    told = {name for name in named - known if not re.search(rf"\b(fn|as) {name}\b|\buse {name}\b", "\n".join(sources.values()))}
    return f"{crate}: docs/ARCHITECTURE.md names {sorted(told)}, which are not there" if told else None


def boxes_of(drawing):
    """Returns for each crate of the drawing its box, and the words in it of the crates that it also uses."""
    return {name: (tuple(map(int, box)), also) for *box, name, also in BOX.findall(drawing)}


def nearest(boxes, x, y):
    """Returns the crate whose box is nearest to a point."""

    def distance(crate):
        (left, top, width, height), _ = boxes[crate]
        return max(left - x, 0, x - left - width) + max(top - y, 0, y - top - height)

    return min(boxes, key=distance)


def fault_in_drawing(top, drawing, listed):
    """Returns of which crate the drawing shows other uses than its code has, or None."""
    boxes = boxes_of(drawing)
    ends = [list(map(int, re.findall(r"-?\d+", line))) for line in re.findall(r'<path d="(M[^"]*)" marker-end', drawing)]
    arrows = {(nearest(boxes, *end[:2]), nearest(boxes, *end[-2:])) for end in ends}
    for crate, (_, also) in boxes.items():
        used = used_by(top, crate, listed)
        shown = {other for start, other in arrows if start == crate}
        for words in filter(None, also.split(", ")):
            first, _, last = words.partition(" to ")
            places = sorted(place for place, other in enumerate(listed) if other.removeprefix("bsi_") in (first, last))
            shown |= {other for other in listed[places[0] : places[-1] + 1] if not last or other in used}
        if shown != used:
            return f"docs/crates.svg shows that {crate} uses {sorted(shown - used)}, and not {sorted(used - shown)}"
    return None


def fault_in_crates(top):
    """Returns what differs between crates.txt, or the sources, and the crates of docs/ARCHITECTURE.md and crates.svg, or None."""
    listed = re.findall(r"^(\w+)[^:#\n]*:", text_of(os.path.join(top, "crates.txt")), re.MULTILINE)
    table = r"^\| `(\w+)` \| ([^|;(]*)[^|]*\|(.*)\|$"
    rows = re.findall(table, text_of(os.path.join(top, "docs", "ARCHITECTURE.md")), re.MULTILINE)
    if [crate for crate, *_ in rows] != listed:
        return f"crates.txt and docs/ARCHITECTURE.md list other crates: {set(crate for crate, *_ in rows) ^ set(listed)}"
    drawing = text_of(os.path.join(top, "docs", "crates.svg"))
    drawn = re.findall(r">(\w+)</text>", drawing)
    if sorted(drawn) != sorted(listed):
        return f"crates.txt and docs/crates.svg have other crates: {set(drawn) ^ set(listed)}"
    for crate, idea, cell in rows:
        (root,) = [path for name in ("lib", "main") for path in glob.glob(os.path.join(top, "crates", crate, "src", f"{name}.rt"))]
        head = " ".join(re.findall(r"^//! ?(.*)$", text_of(root), re.MULTILINE)).removeprefix("Tests of ")
        if not head.lower().startswith(idea.strip().lower()):
            return f"{crate}: docs/ARCHITECTURE.md has {idea.strip()!r}, and the crate begins with {head[:80]!r}"
        if fault := fault_in_modules(top, crate, cell):
            return fault
    return fault_in_drawing(top, drawing, listed)


def fault_in_wrong_bodies(top):
    """Returns which wrong body docs/PROMISES.md names that is not there, or None."""
    folders = (("crates", "*", "must-fail"), ("tests", "wrong-bodies", "*"))
    there = {os.path.basename(path)[:-5] for folder in folders for path in glob.glob(os.path.join(top, *folder, "*.edit"))}
    page = text_of(os.path.join(top, "docs", "PROMISES.md"))
    names = re.findall(r"`(\w+)`", " ".join(re.findall(r"\*(`\w+`(?:, `\w+`)*)\*", page)))
    return next((f"docs/PROMISES.md names the wrong body {name}, which is not there" for name in names if name not in there), None)


def runs_of(text):
    """Returns each command of a block, and the lines that it is to print."""
    commands = []
    for line in text.splitlines(keepends=True):
        if line.startswith("$ "):
            commands.append((line[2:].strip(), []))
        elif commands:
            commands[-1][1].append(line)
    return [(command, "".join(lines)) for command, lines in commands]


def fault_in_runs(top, program="bin/bsi"):
    """Returns which command of a document prints something else, or None."""
    path = os.pathsep.join([os.path.dirname(program), PATH])
    found = [(document, run) for document, text in blocks(top, "console") for run in runs_of(text)]
    if not os.path.isfile(program):
        return f"the program is not built: {program}"
    if not found:
        return "no document runs an example"
    for document, (command, wanted) in found:
        ran = workspace.run(["sh", "-c", command], b"", {"PATH": path}, os.path.join(top, "examples"))
        printed = ran.out.decode(errors="replace")
        if ran.status or printed != wanted:
            pairs = zip(printed.splitlines() + [""], wanted.splitlines() + [""])
            differ = next((f"{a!r} in place of {b!r}" for a, b in pairs if a != b), workspace.ending(ran.status))
            return f"{document}: {command}: {differ}"
    return None


def fault_in_tarball(top):
    """Returns what is wrong with the tarball of `make dist`, or which command of a document its program answers otherwise, or None."""
    with tempfile.TemporaryDirectory(prefix="bsi-dist-") as room:
        unpack = f"cd out/dist && sha256sum --check --quiet SHA256SUMS && tar -xzf *.tar.gz -C {room}"
        ran = workspace.run(["sh", "-c", f"make -s -o build -o lib -o wheel dist && {unpack}"], folder=top)
        if ran.status:
            return f"make dist: {workspace.ending(ran.status)}: {ran.err.decode(errors='replace').strip()}"
        return fault_in_runs(top, *glob.glob(os.path.join(room, "*", "bin", "bsi")))


CHECKS = (
    ("sizes", fault_in_sizes),
    ("words", fault_in_words),
    ("links within the repository", fault_in_links),
    ("the version", fault_in_version),
    ("lines of Rattle", fault_in_rattle),
    ("quoted clauses", fault_in_clauses),
    ("names of examples", fault_in_names),
    ("the list of crates", fault_in_crates),
    ("wrong bodies", fault_in_wrong_bodies),
    ("runs of examples by the tarball's program", fault_in_tarball),
)


def check_all(tally, top):
    """Counts each check of the documents below the folder."""
    for name, fault_in in CHECKS:
        tally.check(f"documents: {name}", fault_in(top))


if __name__ == "__main__":
    counted = workspace.Tally()
    check_all(counted, workspace.TOP)
    sys.exit(counted.close())
