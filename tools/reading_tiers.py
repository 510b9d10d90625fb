#!/usr/bin/env python3
"""What each part of the auditing guide rests on: tools/reading_tiers.py [--write].

A part is some rows of the last table of docs/design/READING.md, which is written by hand: its first row names it, and may
set a limit, as `at most 1,000 lines`. A row has files to begin with and contracts, as links to their sources; behind a link a
clause may be named, which alone counts then. docs/design/STATEMENTS.md lists these files, the files that the clauses of the
contracts name, and what all of them import, with their lines, and every other statement. --write writes it.

Without --write it reports what does not hold: a list that the tool would not write, a part above its limit, and each file
of a crate's specs/ whose first line is wrong. A file is a statement if a clause of a public call names it or a statement
imports it; any other is a refinement. With --write it also mends links to files that are in another crate now.
"""
import glob
import os
import re
import sys

TOP = os.path.dirname(os.path.dirname(os.path.realpath(__file__)))
PAGE, LISTS = "docs/design/READING.md", "docs/design/STATEMENTS.md"
STATEMENT, REFINEMENT = "-- Statement: ", "-- Refinement: "
USE = re.compile(r"^\s*(?:pub )?(?:ghost )?use Rattle\.(\w+)\.specs\.([\w.]+?)(?:\.\{(.*)\}| as (\w+))?;?\s*$", re.M)
ROOT = re.compile(r"\]\(\.\./\.\./crates/(\w+)/specs/(\w+)\.antt\)")
PART = re.compile(r"^\*\*(.+)\*\*(?:, at most ([\d,]+) lines)?")
CONTRACT = re.compile(r"\[`(?:\w+::)?(\w+)`\]\(\.\./\.\./(crates/\w+/src/[\w/]+\.rt)\)(?: `(\w+)`)?")
WORD = re.compile(r"[\w◌']+")


def read(path):
    with open(f"{TOP}/{path}", encoding="utf-8") as it:
        return it.read()


def crates():
    """The repository's crates, lowest first."""
    return [line.split(":")[0].split()[0] for line in read("crates.txt").splitlines() if ":" in line]


class Definitions:
    """Every file of definitions, as (crate, module), with its lines, its label and what it imports."""

    def __init__(self):
        self.order = crates()
        self.lines, self.label, self.imports, self.types = {}, {}, {}, {}
        for path in sorted(glob.glob(f"{TOP}/crates/*/specs/*.antt")):
            name = (path.split("/")[-3], os.path.basename(path)[:-5])
            if name[1] != "Lib":
                self.take(name, read(os.path.relpath(path, TOP)))

    def take(self, name, text):
        self.lines[name] = text.count("\n")
        self.label[name] = text.split("\n", 1)[0]
        self.imports[name], self.types[name] = set(), set()
        for crate, path, _, _ in USE.findall(text):
            parts = path.split(".")
            if parts[0] == "declared" and crate in self.order:
                kept = [it for it in parts[1:] if it not in ("TheVariants", "TheConstants")]
                self.types[name].add((crate, kept[-1] if kept else "its constants"))
            elif crate in self.order:
                self.imports[name].add((crate, parts[0]))

    def closure(self, roots):
        found, left = set(), list(roots)
        while left:
            name = left.pop()
            if name not in found:
                found.add(name)
                left += self.imports[name]
        return found

    def types_in(self, names):
        return set().union(*(self.types[it] for it in names))

    def by_crate(self, names):
        """The names of each crate, lowest crate first."""
        return [(it, sorted(n for n in names if n[0] == it)) for it in self.order if any(n[0] == it for n in names)]


# ---- the lists


def link(definitions, name):
    crate, module = name
    return f"[`{module}`](../../crates/{crate}/specs/{module}.antt) {definitions.lines[name]}"


def count(definitions, names):
    lines = sum(definitions.lines[it] for it in names)
    return f"{len(names)} files, {lines:,} lines"


def table(definitions, names):
    rows = ["| Crate | Files |", "|---|---|"]
    for crate, files in definitions.by_crate(names):
        rows.append(f"| `{crate}` | {', '.join(link(definitions, it) for it in files)} |")
    return rows


def parts(page):
    """The parts of the guide's last table: of each its name, its limit, the files to begin with, and its contracts, each as
    a function, its source file and the clause that counts, or an empty name for all."""
    found = []
    for row in page.splitlines():
        cells = [it.strip() for it in row.strip("|").split("|")]
        if len(cells) < 4 or not ROOT.search(row):
            continue
        if begins := PART.match(cells[0]):
            found.append((begins[1], begins[2] and int(begins[2].replace(",", "")), set(), set()))
        if found:
            found[-1][2].update(ROOT.findall(cells[1]))
            found[-1][3].update(CONTRACT.findall(cells[3]))
    return found


def named_by(contract, order):
    """The files of definitions that the clauses of a contract name; nothing if its source lacks the function."""
    function, source, only = contract
    text = re.sub(r"//[^\n]*", "", read(source)) if os.path.exists(f"{TOP}/{source}") else ""
    begins = re.search(rf"^\s*pub (?:const )?fn {function}\b", text, re.M)
    said = [it for name, it in named_clauses_at(text, begins.start()) if only in ("", name)] if begins else []
    known = local_names(text, order)
    return {known[word] for clause in said for word in set(WORD.findall(clause)) & set(known)}


def part_text(definitions, title, names, before):
    """A part's list: the files that no part before has, and the types of the code that they name."""
    new = names - before
    said = f"{count(definitions, names)}"
    said += f", of which {count(definitions, names & before)} are in parts above." if names & before else "."
    types = definitions.types_in(names) - definitions.types_in(before)
    named = [f"{crate} {', '.join(f'`{it[1]}`' for it in own)}" for crate, own in definitions.by_crate(types)]
    return [f"## {title}", "", said, "", *table(definitions, new), "", f"Types of the code: {'; '.join(named) or 'none'}.", ""]


def is_statement(definitions, name):
    return definitions.label[name].startswith(STATEMENT)


def written(definitions, page):
    """The lists as they should be, the files of all parts, and what is wrong with the guide's table."""
    before, faults = set(), []
    out = ["# What each part rests on", "", "Written by `tools/reading_tiers.py --write`, from the table of [READING](READING.md). A number is a file's lines, comments included.", ""]
    for title, limit, roots, contracts in parts(page):
        faults += [f"{PAGE}: no file {'/specs/'.join(it)}.antt" for it in sorted(roots - set(definitions.label))]
        named = {it: named_by(it, definitions.order) for it in contracts}
        faults += [f"{PAGE}: {title}: no definition in a clause {it[2]} of {it[0]} in {it[1]}" for it in sorted(contracts) if not named[it]]
        names = definitions.closure((roots | set().union(*named.values())) & set(definitions.label))
        lines = sum(definitions.lines[it] for it in names)
        if limit and lines > limit:
            faults.append(f"{PAGE}: {title}: {lines} lines, at most {limit}")
        out += part_text(definitions, title, names, before)
        before |= names
    if not before:
        faults.append(f"{PAGE}: no part")
    rest = {it for it in definitions.label if is_statement(definitions, it) and it not in before}
    out += ["## In no part", "", f"Contracts of public calls use these too. {count(definitions, rest)}.", "", *table(definitions, rest), ""]
    return "\n".join(out), before, faults


def mended(definitions, page):
    """The page with each link to a file that went to another crate mended: to the one crate that has a file of this
    name, or of several the one whose name begins with the same word."""

    def mend(found):
        crate, module = found[1], found[2]
        having = [it for it in definitions.order if (it, module) in definitions.label]
        if crate not in having and len(having) > 1:
            having = [it for it in having if it.split("_")[0] == crate.split("_")[0]]
        if crate in having or len(having) != 1:
            return found[0]
        return f"[{having[0]} `{module}`](../../crates/{having[0]}/specs/{module}.antt)"

    return re.sub(r"\[(?:\w+ )?`\w+`\]\(\.\./\.\./crates/(\w+)/specs/(\w+)\.antt\)", mend, page)


# ---- which files clauses of public calls name


def block(text, at):
    """The text of a block in braces that begins at this place, and where it ends."""
    depth, begin = 0, at
    while True:
        depth += {"{": 1, "}": -1}.get(text[at], 0)
        at += 1
        if depth == 0:
            return text[begin + 1 : at - 1], at


def exported(crate):
    """The names and modules that a crate's lib.rt gives to others. Programs and crates of tests give none."""
    if not os.path.exists(f"{TOP}/crates/{crate}/src/lib.rt"):
        return set()
    text = read(f"crates/{crate}/src/lib.rt")
    names = set(re.findall(r"^pub mod (\w+)", text, re.M))
    for listed, one in re.findall(r"^pub use [\w:]+::(?:\{([^}]*)\}|(\w+));", text, re.M):
        names |= {it.split()[-1] for it in (listed or one).split(",") if it.strip()}
    return names


ITEM = re.compile(r"^(?:pub(?:\([^)]*\))? )?(?:unsafe )?(impl|trait|fn)\b[^\n]*", re.M)
CLAUSE = re.compile(r"\b(?:requires|ensures)\b[^{;]*?\{|\{|;")
MEMBER = re.compile(r"^\s*ghost \w+ = \{", re.M)
CALL = re.compile(r"^    (?:(pub) )?fn \w+", re.M)


def without_kinds(text):
    """A type's name without what stands between angles."""
    while re.search(r"<[^<>]*>", text):
        text = re.sub(r"<[^<>]*>", "", text)
    return text


def named_clauses_at(text, at):
    """The clauses of the function that begins at this index, each with its name."""
    said, place = [], text.index("(", at)
    while True:
        found = CLAUSE.search(text, place)
        if not found or found[0] in "{;":
            return said
        clause, place = block(text, found.end() - 1)
        said.append((found[0].split()[1].rstrip("{"), clause))


def clauses_at(text, at):
    return [clause for _, clause in named_clauses_at(text, at)]


def clauses_inside(text, item, is_public):
    """The clauses of the public calls in an `impl` or a `trait` of a type or trait that is public."""
    whole = re.match(r"[^{]*", text[item.start() :])[0]
    head = without_kinds(whole.split(" where")[0])
    kind = re.findall(r"\w+", head.split(":")[0] if item[1] == "trait" else head)[-1]
    if not is_public(kind) or re.search(r"\bModel for\b", head):
        return []
    body, _ = block(text, text.index("{", item.start()))
    calls = [it for it in CALL.finditer(body) if it[1] or item[1] == "trait" or " for " in head]
    said = [clause for it in calls for clause in clauses_at(body, it.start())]
    return said + [block(body, it.end() - 1)[0] for it in MEMBER.finditer(body)]


def clauses(text, is_public):
    """The clauses of public calls in a source file. A type's model is none."""
    said = []
    for item in ITEM.finditer(text):
        if item[1] != "fn":
            said += clauses_inside(text, item, is_public)
        elif item[0].startswith("pub fn") and is_public(re.search(r"fn (\w+)", item[0])[1]):
            said += clauses_at(text, item.start())
    return said


def local_names(text, order):
    """What each name of a source file's `ghost use` lines comes from."""
    known = {}
    for crate, path, listed, alias in USE.findall(text):
        module = path.split(".")[0]
        if crate not in order or module == "declared":
            continue
        for it in listed.split(",") if listed else []:
            words = it.split()
            if words:
                known[words[-1]] = (crate, module)
        if alias:
            known[alias] = (crate, module)
    return known


def used_by_calls(definitions):
    """Each file of definitions that a clause of a public call names, with one source file that does."""
    used = {}
    for crate in definitions.order:
        names = exported(crate)
        for path in sorted(glob.glob(f"{TOP}/crates/{crate}/src/**/*.rt", recursive=True)):
            source = os.path.relpath(path, TOP)
            text = re.sub(r"//[^\n]*", "", read(source))
            known = local_names(text, definitions.order)
            of_module = os.path.basename(path)[:-3] in names
            for clause in clauses(text, lambda it: of_module or it in names):
                for word in set(WORD.findall(clause)) & set(known):
                    used.setdefault(known[word], source)
    return used


def label_faults(definitions):
    used = used_by_calls(definitions)
    statements = definitions.closure(used)
    faults = []
    for name in sorted(definitions.label):
        label = definitions.label[name]
        # Nothing is public of programs and of crates of tests, so either label will do there.
        wanted = (STATEMENT, REFINEMENT) if not exported(name[0]) else STATEMENT if name in statements else REFINEMENT
        if not label.startswith(wanted):
            why = f": a public call of {used[name]} names it" if name in used else ""
            kinds = wanted if isinstance(wanted, str) else "` or `".join(wanted)
            faults.append(f"crates/{name[0]}/specs/{name[1]}.antt: its first line is to begin with `{kinds}`{why}")
    return faults


def check():
    """What does not hold, a line each."""
    definitions = Definitions()
    right, names, faults = written(definitions, read(PAGE))
    if not os.path.exists(f"{TOP}/{LISTS}") or right != read(LISTS):
        faults.append(f"{LISTS}: not what tools/reading_tiers.py --write makes of it")
    faults += [f"{PAGE}: a part has the refinement {'/'.join(it)}" for it in sorted(names) if not is_statement(definitions, it)]
    return faults + label_faults(definitions)


def write():
    definitions = Definitions()
    page = mended(definitions, read(PAGE))
    for name, text in ((PAGE, page), (LISTS, written(definitions, page)[0])):
        with open(f"{TOP}/{name}", "w", encoding="utf-8") as it:
            it.write(text)


def main():
    if sys.argv[1:] == ["--write"]:
        write()
    elif sys.argv[1:]:
        sys.exit("usage: tools/reading_tiers.py [--write]")
    faults = check()
    print("\n".join(faults + [f"auditing guide: {len(faults)} faults"]))
    return 1 if faults else 0


if __name__ == "__main__":
    sys.exit(main())
