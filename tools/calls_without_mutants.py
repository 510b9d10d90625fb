#!/usr/bin/env python3
"""Lists public calls that no mutant of their crate breaks: tools/calls_without_mutants.py [--write] [--rows FROM-TO] [CRATE ..].

A public call is a `pub fn` with an `ensures` clause, which `src/lib.rt` exports or which is a method of a type that it exports.
A mutant, crates/NAME/must-fail/*.edit, breaks the function whose body it edits and each function of the crate that calls it, by
name. So the list is of calls that reach no edited body. A law, a function with an empty body, has no mutant and is not listed. Nor
is `copy`, nor a reader or maker of a value: its body is one expression, perhaps behind one `let`, without a branch, a loop or a
comparison, and of the crate's own functions it calls such ones alone. Its clause is its body. A line `let _field = &self.field;` in
a body does not count: it only shows the prover the field's invariant.
Calls are told apart by their names alone, so a call that shares its name with an edited function may be missed. --rows takes the
rows of crates.txt. It prints a line a crate and, below it, a line a call with its clauses, and exits with 0. --write puts the list of
all crates into docs/design/PROVED.md, in place of printing it.
"""
import argparse
import glob
import os
import re

import check_rows

TOP = os.path.dirname(os.path.dirname(os.path.realpath(__file__)))
PAGE = f"{TOP}/docs/design/PROVED.md"
# Its list, between the two lines that mark it.
LISTED = re.compile(r"(?<=<!-- begin list, written by tools/calls_without_mutants.py --write -->\n).*?(?=<!-- end -->)", re.S)
HEAD = re.compile(r"^(?P<pad> *)(?P<public>pub(?P<within>\([a-z ]+\))? )?(?:const )?fn (?P<name>\w+)", re.M)
BRANCH = re.compile(r"\b(if|match|for|while|loop|else)\b|&&|\|\||[=!<>]=| [<>] ")
CLAUSE = re.compile(r"^ *ensures(?: (\w+))? \{", re.M)
TYPE = re.compile(r"^(?:pub(?:\([a-z]+\))? )?(?:struct|enum|trait) (\w+)", re.M)
SHOWN = re.compile(r"^ *let _\w* = &self\.\w+;\n?", re.M)
CALL = re.compile(r"(?:\b(\w+)::)?\b([a-z_]\w*)(?:::<[^>()]*>)?\(")


def functions(text):
    """Each function as (name, is public, clauses, lines of its body)."""
    found = []
    for head in HEAD.finditer(text):
        pad = head["pad"]
        rest = text[head.end():]
        end = re.search(rf"^{pad}\}}[ \t]*$|^{pad}\{{\}}[ \t]*$|;[ \t]*$(?=\n\n)", rest, re.M)
        whole = rest[: end.end()] if end else rest
        body = re.search(rf"^{pad}\{{|\{{[ \t]*$", whole, re.M)
        clauses = [it or "its clause" for it in CLAUSE.findall(whole)]
        inner = SHOWN.sub("", whole[body.end():].rstrip().removesuffix("}")) if body else ""
        found.append((head["name"], bool(head["public"]) and not head["within"], clauses, inner))
    return found


def edited(crate):
    """The texts that the crate's mutants replace, by file."""
    texts = {}
    for path in glob.glob(f"{TOP}/crates/{crate}/must-fail/*.edit"):
        file = None
        for line in open(path, encoding="utf-8"):
            if line.startswith("file: "):
                file = line[6:].strip()
            elif line.startswith("old: "):
                texts.setdefault(file, []).append(line[5:].rstrip("\n"))
    return texts


def exported(crate):
    text = open(f"{TOP}/crates/{crate}/src/lib.rt", encoding="utf-8").read()
    return set(re.findall(r"\w+", " ".join(re.findall(r"^pub use ([^;]+);", text, re.M)))) | set(re.findall(r"^pub mod (\w+);", text, re.M))


def is_plain(body):
    """Whether a body is one expression, perhaps behind one `let`, without a branch, a loop or a comparison."""
    return not BRANCH.search(body) and body.count(";") <= 1 and len("".join(body.split())) <= 160


def called(body, types):
    """The names of the functions that a body calls, but those of a type that is not the crate's own."""
    return {name for of, name in CALL.findall(body) if not of[:1].isupper() or of == "Self" or of in types}


def readers(bodies, calls):
    """The functions that only read or make a value: their bodies are plain, and call no others."""
    found = {name for name, texts in bodies.items() if all(is_plain(it) for it in texts)}
    while True:
        left = {name for name in found if calls[name] <= found}
        if left == found:
            return found
        found = left


def unbroken(crate):
    """The public calls of a crate that reach no edited body, with their clauses."""
    cuts, doors = edited(crate), exported(crate)
    bodies, broken, public, types = {}, set(), {}, set()
    for path in sorted(glob.glob(f"{TOP}/crates/{crate}/src/**/*.rt", recursive=True)):
        text = open(path, encoding="utf-8").read().split("#[cfg(test)]")[0]
        file = os.path.relpath(path, f"{TOP}/crates/{crate}")
        types.update(TYPE.findall(text))
        shown = set(re.findall(r"^impl(?:<[^>]*>)? (\w+)", text, re.M)) & doors
        for name, is_public, clauses, body in functions(text):
            bodies.setdefault(name, []).append(body)
            if any(old.strip() in body for old in cuts.get(file, [])):
                broken.add(name)
            if is_public and clauses and body.strip() and (name in doors or shown or os.path.basename(file)[:-3] in doors):
                public[f"{file[4:-3]}::{name}"] = (name, clauses)
    calls = {name: called(" ".join(texts), types) & bodies.keys() - {name} for name, texts in bodies.items()}
    reaching, reading = set(broken), readers(bodies, calls)
    while True:
        more = {name for name, uses in calls.items() if name not in reaching and uses & reaching}
        if not more:
            break
        reaching |= more
    return {
        label: clauses
        for label, (name, clauses) in public.items()
        if name not in reaching | reading and name != "copy"
    }, len(public)


def libraries(first, last, names):
    """The libraries of these rows, or those of them that are named, each with its unbroken calls and the number of its public calls."""
    for crate, (row, _, _) in check_rows.rows(check_rows.read("crates.txt")).items():
        is_wanted = first <= row <= last and (not names or crate in names) and not crate.startswith("tests_")
        if is_wanted and os.path.isfile(f"{TOP}/crates/{crate}/src/lib.rt"):
            left, count = unbroken(crate)
            if count:
                yield crate, left, count


def write(found):
    """Puts the list into its page."""
    public = sum(count for _, _, count in found)
    rows = [f"| `{crate}` | {', '.join(f'`{it}`' for it in left)} |\n" for crate, left, _ in found if left]
    head = f"Of {public} public calls, {sum(len(left) for _, left, _ in found)} in {len(rows)} crates:\n\n| Crate | Calls |\n|---|---|\n"
    with open(PAGE, encoding="utf-8") as it:
        page = it.read()
    if not LISTED.search(page):
        raise SystemExit(f"{PAGE} has no place for the list")
    with open(PAGE, "w", encoding="utf-8") as it:
        it.write(LISTED.sub(lambda _: head + "".join(rows), page))


def main():
    options = argparse.ArgumentParser(description=__doc__.split("\n\n")[0])
    options.add_argument("--write", action="store_true")
    options.add_argument("--rows", default="0-7")
    options.add_argument("crates", nargs="*")
    given = options.parse_args()
    if given.write:
        write([*libraries(0, 7, ())])
        return
    first, last = (int(it) for it in given.rows.split("-"))
    for crate, left, count in libraries(first, last, given.crates):
        print(f"{crate}: {count} public calls, {len(left)} without a mutant")
        for label, clauses in left.items():
            print(f"  {label} ({', '.join(clauses)})")


if __name__ == "__main__":
    main()
