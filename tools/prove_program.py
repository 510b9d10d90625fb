"""Proves a program or a static library and the crates below it, and builds it: prove_program.py [--over-ci] TOP CRATE NAME.

`rt ci` does it, on a copy of these crates without their mutants, so crates are proved side by side. What it proves it keeps
for later runs of `rt ci` on this machine, and what those kept it takes. `rt ci` builds programs; a static library is built here,
over the libraries that it proved. The result is copied to crates/CRATE/out. It says each crate as it is done, and each minute how
long it has been going on, under the name NAME. Exit status 3 where something is not proved, and then it prints the end of what was
printed. Ended by a signal, it ends all that it started and leaves no folder.

With --over-ci it proves nothing, and builds a static library in place, over the libraries that `rt ci` left in a clone that had none.
"""
import os
import re
import shutil
import signal
import subprocess
import sys
import tempfile
import threading
import time

# Lines of `rt ci` that it prints where something is not proved.
PRINTED = 60
# What `rt ci` says of a crate that is done.
DONE = re.compile(r"rt: (\w+) (proved$|is kept:)")


def rows_below(top, name):
    """The rows of crates.txt of the crates below a crate and of it itself, by their crates."""
    rows, used = {}, {}
    with open(f"{top}/crates.txt", encoding="utf-8") as it:
        for row in it:
            found = re.match(r"(\w+)[^:#]*:([^#]*)", row)
            if found:
                rows[found[1]], used[found[1]] = row, found[2].split()
    below, open_names = {}, [name]
    while open_names:
        crate = open_names.pop()
        if crate not in below:
            below[crate] = rows[crate]
            open_names += [it for it in used[crate] if it in rows]
    return below


def copy_crates(top, rows, to):
    """Makes a repository of these crates alone, without their mutants and builds."""
    os.makedirs(f"{to}/crates")
    # As in a clone: the top of a repository has this folder.
    os.makedirs(f"{to}/.git")
    with open(f"{to}/crates.txt", "w", encoding="utf-8") as it:
        it.write("".join(rows.values()))
    if os.path.exists(f"{top}/HANDLES"):
        shutil.copy(f"{top}/HANDLES", f"{to}/HANDLES")
    for crate in rows:
        shutil.copytree(f"{top}/crates/{crate}", f"{to}/crates/{crate}", ignore=shutil.ignore_patterns("out", "must-fail"))


class Progress:
    """Says what is done, and each minute that it goes on."""

    def __init__(self, name, count):
        self.name, self.count = name, count
        self.done, self.begun = set(), time.time()
        self.ended = threading.Event()

    def say(self, text):
        minutes = int((time.time() - self.begun) / 60)
        print(f"{self.name}: {text}, {minutes} minutes so far", file=sys.stderr, flush=True)

    def read(self, line):
        """Takes a line of `rt ci`."""
        found = DONE.match(line)
        if found and found[1] not in self.done:
            self.done.add(found[1])
            self.say(f"proved {found[1]}, crate {len(self.done)} of {self.count}")

    def each_minute(self):
        while not self.ended.wait(60):
            self.say(f"proving, {len(self.done)} of {self.count} crates are done")


def run(words, folder, read, **more):
    """Runs a command in a folder, and reads each line of what it prints: its status, and the lines that it printed last."""
    how = {"stdin": subprocess.DEVNULL, "stdout": subprocess.PIPE, "stderr": subprocess.STDOUT, "text": True, "errors": "replace"}
    ran = subprocess.Popen(words, cwd=folder, env={**os.environ, **more}, start_new_session=True, **how)
    last = []
    try:
        for line in ran.stdout:
            read(line)
            last = [*last[1 - PRINTED :], line]
        return ran.wait(), last
    finally:
        if ran.poll() is None:
            os.killpg(ran.pid, signal.SIGTERM)
            ran.wait()


def prove(folder, progress):
    """Runs `rt ci` in a folder."""
    jobs = os.environ.get("RT_JOBS") or str(min(os.cpu_count() or 1, 4))
    return run(["rt", "ci"], folder, progress.read, RT_JOBS=jobs)


def build_static(folder, crate, rows):
    """Builds a static library over the libraries that `rt ci` proved in a folder, as `rt lib` builds it over its own."""
    kit = os.path.dirname(subprocess.run(["rt", "doc"], capture_output=True, text=True, check=True).stdout.splitlines()[0])
    used = re.match(r"[^:]*:([^#]*)", rows[crate])[1].split()
    words = [f"{kit}/bin/rattle", "build", "--crate-name", crate, "src/lib.rt", "--crate-type", "staticlib", "-L", f"dependency={kit}/rlibs"]
    for name in ["std", *used]:
        rlib = f"{folder}/crates/{name}/out/rlib" if name in rows else f"{kit}/rlibs"
        words += ["--extern", f"{name}={rlib}/{name}.rlib"]
    for name in rows:
        if name != crate:
            words += ["-L", f"dependency={folder}/crates/{name}/out/rlib"]
    words += ["--antt-project", f"{kit}/rattle/logic/antt-project.json", "--logic-built", f"{kit}/logic_built", "--links", f"{crate}="]
    words += ["--toolchain", f"{kit}/toolchain", "--backend", "llvm", "--jobs", "1", "-o", f"out/lib{crate}.a"]
    os.makedirs(f"{folder}/crates/{crate}/out", exist_ok=True)
    return run(words, f"{folder}/crates/{crate}", lambda _: None)


def prove_and_build(folder, crate, rows, progress):
    """Proves all crates of a folder, and builds the last one: the status, what was printed last, and the file's name."""
    is_static = "staticlib" in rows[crate].partition(":")[0].split()
    status, last = prove(folder, progress)
    if not status and is_static:
        status, last = build_static(folder, crate, rows)
    return status, last, f"lib{crate}.a" if is_static else crate


def build_over_ci(top, crate, name):
    """Builds a static library over what `rt ci` left in a clone."""
    status, last = build_static(top, crate, rows_below(top, crate))
    if status or not os.path.exists(f"{top}/crates/{crate}/out/lib{crate}.a"):
        sys.stderr.write("".join(last))
        print(f"{name}: {crate} is not built", file=sys.stderr)
        return 3
    return 0


def main(top, crate, name):
    for sent in (signal.SIGINT, signal.SIGTERM, signal.SIGHUP):
        signal.signal(sent, lambda *_: sys.exit(130))
    rows = rows_below(top, crate)
    progress = Progress(name, len(rows))
    with tempfile.TemporaryDirectory(prefix="proving-") as room:
        folder = os.path.realpath(f"{room}/top")
        copy_crates(top, rows, folder)
        threading.Thread(target=progress.each_minute, daemon=True).start()
        status, last, file = prove_and_build(folder, crate, rows, progress)
        progress.ended.set()
        made, out = f"{folder}/crates/{crate}/out/{file}", f"{top}/crates/{crate}/out"
        if status or not os.path.exists(made):
            sys.stderr.write("".join(last))
            print(f"{name}: {crate} is not proved", file=sys.stderr)
            return 3
        os.makedirs(out, exist_ok=True)
        shutil.copy(made, f"{out}/{file}.new")
        os.replace(f"{out}/{file}.new", f"{out}/{file}")
    progress.say(f"{crate} is proved and built")
    return 0


if __name__ == "__main__":
    if sys.argv[1:2] == ["--over-ci"]:
        sys.exit(build_over_ci(*sys.argv[2:]))
    sys.exit(main(*sys.argv[1:]))
