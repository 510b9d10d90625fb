#!/usr/bin/env python3
"""Lists public names that only one other crate uses, or none: tools/public_names.py [CRATE ..].

A public name is what a crate's `src/lib.rt` exports by `pub use`. Crates of tests do not count as users. A law, a function with an
empty body whose clauses are a theorem, needs no user and is not listed. Nor is a name that a command or a program uses, as part
of the product's interface. A name that a crate exports again is used by
those who use it there. Without names of crates every library is listed. It prints a line a name, and exits with 0: a list to read.
"""
import collections
import glob
import os
import re
import sys

import check_rows

TOP = os.path.dirname(os.path.dirname(os.path.realpath(__file__)))
TESTS = "tests_"
# Commands and programs are in this row and above.
COMMANDS = 6
USE = re.compile(r"^[ \t]*(pub )?use ((?!Rattle)[^;]+);", re.M)
PATH = re.compile(r"(?<![\w:.$])([a-z]\w*)::(\w+)")
LAW = re.compile(r"^pub fn (\w+)\(\)[^{}]*(?:\{[^{}]*\}\s*(?:ensures[^{}]*)?)*\{\}", re.M)


def source(path):
    with open(path, encoding="utf-8") as it:
        return re.sub(r"//.*", "", it.read())


def names_in(tree, front=()):
    """The paths of a `use` tree, as tuples of segments."""
    head, brace, rest = tree.strip().partition("{")
    steps = front + tuple(it for it in re.split(r"::|\s+as\s+\w+", head.strip()) if it)
    if not brace:
        return [steps]
    parts, depth, part = [], 0, ""
    for letter in rest.rstrip().removesuffix("}") + ",":
        depth += (letter == "{") - (letter == "}")
        if letter == "," and not depth:
            parts, part = parts + [part], ""
        else:
            part += letter
    return [name for it in parts if it.strip() for name in names_in(it, steps)]


def exported(crate):
    """The names of a library's own modules that it exports, without its laws."""
    text = source(f"{TOP}/crates/{crate}/src/lib.rt")
    modules = set(re.findall(r"^(?:pub )?mod (\w+);", text, re.M))
    laws = {law for path in glob.glob(f"{TOP}/crates/{crate}/src/*.rt") for law in LAW.findall(source(path))}
    found = [it for public, tree in USE.findall(text) if public for it in names_in(tree)]
    return sorted({it[-1] for it in found if it[0] in modules} - laws)


def home(doors, name):
    """The crate that defines a name which is exported as (crate, name)."""
    while name in doors and doors[name] != name:
        name = doors[name]
    return name


def users(crates):
    """Who uses each name of a crate: (crate, name) to the crates."""
    doors, uses = {}, []
    for path in glob.glob(f"{TOP}/crates/*/src/*.rt"):
        user, text = path.split("/")[-3], source(path)
        if user.startswith(TESTS):
            continue
        for public, tree in USE.findall(text):
            for it in names_in(tree):
                if public and len(it) > 1 and it[0] in crates:
                    doors[user, it[-1]] = (it[0], it[-1])
                elif not public:
                    uses.append((user, it[:2]))
        uses += [(user, it) for it in PATH.findall(text)]
    found = collections.defaultdict(set)
    for user, name in uses:
        found[home(doors, tuple(name))].add(user)
    return found


def main(words):
    rows = check_rows.rows(check_rows.read("crates.txt"))
    used, count = users(rows), 0
    for path in sorted(glob.glob(f"{TOP}/crates/*/src/lib.rt")):
        crate = path.split("/")[-3]
        for name in exported(crate) if not words or crate in words else ():
            who = used[crate, name] - {crate}
            if len(who) < 2 and not any(rows[it][0] >= COMMANDS for it in who):
                count += 1
                print(f"{crate} {name}: {'used by ' + who.pop() + ' alone' if who else 'used by no crate'}")
    print(f"{count} public names")


if __name__ == "__main__":
    main(sys.argv[1:])
