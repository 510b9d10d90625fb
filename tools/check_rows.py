#!/usr/bin/env python3
"""Checks the rows of crates.txt: tools/check_rows.py.

A section of crates.txt begins with a line `# ROW NAME, ..`, and its crates are in that row. A crate uses crates of its own
row and of lower rows. The section `questions` and the sections of the replicated half (`stores`, `groups`, `worlds`,
`runs`) see nothing of each other; above them only the crates of BOTH see both halves, the others see `questions` alone.
The drawing in crates/README.md has each crate in its row. docs/design/ARCHITECTURE.md has the same drawing, and each crate in its
table. Exit status 1 where one of these does not hold.
"""
import fnmatch
import os
import re
import sys

TOP = os.path.dirname(os.path.dirname(os.path.realpath(__file__)))
HALVES = {"questions": "questions", "stores": "replicated", "groups": "replicated", "worlds": "replicated", "runs": "replicated"}
BOTH = ("command_line", "osdgate", "osdgate_bench", "tests_*")
# The drawing's lines.
LONGEST = 15


def rows(text):
    """Each crate's row, its half (of the rows below the commands, `both` or none) and what it uses."""
    found, row, name = {}, None, None
    for line in text.splitlines():
        if section := re.match(r"# (\d) (\w+)", line):
            row, name = int(section[1]), section[2]
        elif ":" in line and not line.startswith("#"):
            head, _, uses = line.partition(":")
            crate = head.split()[0]
            both = any(fnmatch.fnmatch(crate, it) for it in BOTH)
            half = HALVES.get(name) or ("both" if both else "questions" if (row or 0) > 5 else None)
            found[crate] = (row, half, uses.split())
    return found


def faults_of(crates):
    for crate, (row, half, uses) in crates.items():
        if row is None:
            yield f"crates.txt: {crate} is in no section"
            continue
        for used in (it for it in uses if it in crates):
            its_row, its_half, _ = crates[used]
            if its_row is not None and its_row > row:
                yield f"crates.txt: {crate} of row {row} uses {used} of row {its_row}"
            if {half, its_half} == {"questions", "replicated"}:
                yield f"crates.txt: {crate} uses {used} across the two halves"


def drawn_in(text):
    """The words of the drawing, the first fenced block, by their row."""
    drawing = text.split("```")[1].strip("\n").splitlines()
    words, row = {}, None
    for line in drawing:
        if begins := re.match(r"(\d) ", line):
            row = int(begins[1])
        words.setdefault(row, set()).update(re.findall(r"[a-z][a-z_*]*", line))
    return len(drawing), words


def drawing_faults(crates, text):
    count, words = drawn_in(text)
    if count > LONGEST:
        yield f"crates/README.md: the drawing has {count} lines, at most {LONGEST}"
    for crate, (row, _, _) in crates.items():
        if not any(fnmatch.fnmatch(crate, word) for word in words.get(row, ())):
            yield f"crates/README.md: {crate} is not drawn in row {row}"
    for word in sorted(set().union(*words.values())):
        if "_" in word and not fnmatch.filter(crates, word):
            yield f"crates/README.md: there is no crate {word}"


def architecture_faults(crates, page, text):
    """Where the page on the architecture has another drawing, or leaves out a crate."""
    if page.split("```")[1] != text.split("```")[1]:
        yield "docs/design/ARCHITECTURE.md: its drawing is not that of crates/README.md"
    listed = set(re.findall(r"`([a-z_]+)`", page))
    for crate in (it for it in crates if it not in listed):
        yield f"docs/design/ARCHITECTURE.md: {crate} is not in the table"


def read(name):
    with open(f"{TOP}/{name}", encoding="utf-8") as it:
        return it.read()


def main():
    crates = rows(read("crates.txt"))
    text = read("crates/README.md")
    faults = [*faults_of(crates), *drawing_faults(crates, text)]
    faults += architecture_faults(crates, read("docs/design/ARCHITECTURE.md"), text)
    print("".join(f"{it}\n" for it in faults), end="")
    return 1 if faults else 0


if __name__ == "__main__":
    sys.exit(main())
