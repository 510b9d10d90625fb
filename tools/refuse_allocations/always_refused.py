#!/usr/bin/env python3
"""Tries each public call as if it always wanted memory: always_refused.py [TEST_CRATE ..].

While the call runs, all memory that it asks for is refused. Some test must fail then, and is named; else the call could always
answer want of memory and no test would tell. README.md beside this file says more. Exit status 1 where a call is missed.
"""
import bisect
import concurrent.futures
import glob
import os
import re
import struct
import subprocess
import sys
import tempfile
import time

import refused_tests

TOP = refused_tests.TOP
# The crates of tests with ample memory.
CRATES = ["tests_libraries", "tests_questions", "tests_worlds", "tests_clusters"]
# So many runs are made at a time, and seconds after which a run counts for nothing.
LANES, LIMIT = 4, 60
PUBLIC = re.compile(r"^\s*pub (?:const )?fn (\w+)", re.MULTILINE)


def public_calls():
    """The names of public functions, by crate: those of files below src/."""
    found = {}
    for file in glob.glob(f"{TOP}/crates/*/src/**/*.rt", recursive=True):
        crate = os.path.relpath(file, f"{TOP}/crates").split("/")[0]
        with open(file, encoding="utf-8") as it:
            found.setdefault(crate, set()).update(PUBLIC.findall(it.read()))
    return found


class Program:
    """The linked tests of a crate: where its functions stand, and how its tests are run."""

    def __init__(self, crate, room):
        self.crate, self.room, self.path = crate, room, f"{room}/{crate}"
        folder = f"{TOP}/crates/{crate}"
        # A test that takes too long on a busy machine is no reason to stop: it counts for nothing.
        subprocess.run([sys.executable, f"{refused_tests.HERE}/keep_tests.py", folder, self.path], check=False)
        if not os.path.exists(self.path):
            sys.exit(f"{crate}: its tests are not linked")
        self.env = refused_tests.environment(self.path, refused_tests.build_library(room))
        lines = subprocess.run(["nm", "-n", "--defined-only", self.path], capture_output=True, text=True, check=True).stdout
        rows = [line.split(" ", 2) for line in lines.splitlines()]
        self.starts = [int(row[0], 16) for row in rows]
        self.names = [row[2] for row in rows]

    def run(self, test, more):
        """Runs a test, and returns its status, None where it takes too long, and its seconds."""
        mark = f"{self.room}/mark"
        env, begun = {**self.env, "REFUSED_NUMBER": "0", "REFUSED_MARK": mark, **more}, time.time()
        how = {"stdin": subprocess.DEVNULL, "capture_output": True, "timeout": LIMIT}
        try:
            ran = subprocess.run([self.path, test], env=env, cwd=self.room, check=False, **how)
        except subprocess.TimeoutExpired:
            return None, time.time() - begun
        return ran.returncode, time.time() - begun

    def seen_by(self, test):
        """The functions that ask for memory in a test, and the test's seconds; none where it does not pass."""
        file = f"{self.room}/{self.crate}.{test.replace(':', '.')}.seen"
        status, seconds = self.run(test, {"REFUSED_SEEN": file})
        if status != 0 or not os.path.exists(file):
            return set(), seconds
        with open(file, "rb") as it:
            places = {it for (it,) in struct.iter_unpack("=Q", it.read()) if it}
        return {bisect.bisect_right(self.starts, it) - 1 for it in places if it < self.starts[-1]} - {-1}, seconds

    def is_missed(self, function, test):
        """Whether a test passes though a function is refused all memory."""
        end = self.starts[function + 1] if function + 1 < len(self.starts) else self.starts[function] + 1
        span = {"REFUSED_FIRST": f"{self.starts[function]:x}", "REFUSED_END": f"{end:x}"}
        return self.run(test, span)[0] in (0, None)


def call_of(name, public):
    """The crate and the name of the public call that a symbol is, or None."""
    words = name.split("::<")[0].split("::")
    crate, last = words[0], words[-1]
    if "Destruct" in name or crate not in public or last not in public[crate]:
        return None
    return crate, "::".join(words)


def calls_in(program, public, lanes):
    """The public calls that ask for memory in a program's tests: their functions, and the tests, the quickest first."""
    tests = refused_tests.tests_of(program.path)
    found = {}
    for test, (functions, seconds) in zip(tests, lanes.map(program.seen_by, tests)):
        for function in functions:
            call = call_of(program.names[function], public)
            if call:
                found.setdefault(call, []).append((seconds, function, test))
    return {call: sorted(rows) for call, rows in found.items()}


def failing(program, rows):
    """The first test that fails where the call is refused all memory, or None."""
    return next((test for _, function, test in rows if not program.is_missed(function, test)), None)


def main(crates):
    public, named = public_calls(), {}
    with tempfile.TemporaryDirectory() as room, concurrent.futures.ThreadPoolExecutor(LANES) as lanes:
        for crate in crates:
            program = Program(crate, room)
            calls = {call: rows for call, rows in calls_in(program, public, lanes).items() if not named.get(call)}
            tried = lanes.map(lambda rows, it=program: failing(it, rows), calls.values())
            named.update({call: test and f"{crate}: {test}" for call, test in zip(calls, tried)})
            print(f"{crate}: {len(calls)} calls tried", file=sys.stderr, flush=True)
    return table(named)


def table(named):
    """Prints a line for each crate, and the calls that no test misses; the exit status."""
    by_crate = {}
    for (crate, call), test in sorted(named.items()):
        by_crate.setdefault(crate, []).append((call, test))
    print("| Crate | Calls that take memory | A test fails | For example |\n|---|---|---|---|")
    for crate, rows in by_crate.items():
        example = next((f"`{call}`: `{test}`" for call, test in rows if test), "none")
        print(f"| `{crate}` | {len(rows)} | {sum(1 for _, test in rows if test)} | {example} |")
    missed = [call for (_, call), test in sorted(named.items()) if not test]
    for call in missed:
        print(f"missed: {call}")
    return 1 if missed else 0


if __name__ == "__main__":
    sys.exit(main(sys.argv[1:] or CRATES))
