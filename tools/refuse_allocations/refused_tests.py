"""Runs the tests of crates with one allocation after another refused, some runs side by side."""
import concurrent.futures
import os
import subprocess
import sys
import tempfile
import time
from dataclasses import dataclass

HERE = os.path.dirname(os.path.realpath(__file__))
TOP = os.path.dirname(os.path.dirname(HERE))
# The crates whose tests pass with any one allocation refused.
CRATES = ["tests_memory", "tests_memory_clusters"]
# The words with which a test may fail: a refusal had left a call in part, and all that the test asks after that then held. Where
# every allocation is refused, each of them has to come.
WORDS = {
    "changes::a_change_is_finished": [f"left at group {it}" for it in range(5)],
    "listings::a_list_begins_behind_what_stands": [f"{it} pieces stood" for it in range(1, 4)],
    "workers::a_worker_meets_a_fault": ["a worker met a fault"],
}
# So many runs are made at a time.
LANES = 4
# Seconds after which a run is said to hang.
LIMIT = 60
# In the shorter form one allocation in so many is refused.
PART = 23


def place_of(program, symbol):
    """Where a function stands in a program, in hexadecimal digits."""
    for line in subprocess.run(["nm", program], capture_output=True, text=True, check=True).stdout.splitlines():
        if line.endswith(f" {symbol}"):
            return line.split()[0]
    sys.exit(f"{program} has no {symbol}: this tool is for another toolchain")


def build_library(room):
    """The library that refuses, built."""
    library = f"{room}/refuse.so"
    subprocess.run(["cc", "-O1", "-fno-omit-frame-pointer", "-Wall", "-shared", "-fPIC", "-o", library, f"{HERE}/refuse.c"], check=True)
    return library


def environment(program, library):
    """What the library needs to know of a program."""
    places = {"REFUSED_ALLOC": place_of(program, "rattle_alloc"), "REFUSED_REALLOC": place_of(program, "rattle_realloc")}
    return {**os.environ, "LD_PRELOAD": library, "REFUSED_PROGRAM": program, **places}


@dataclass
class Ended:
    """How a run ended, None where it hung, what it said, and whether the allocation was asked for."""

    status: int | None
    said: str
    asked: bool


def run(program, test, number, env, room):
    """Runs a test whose allocation of this number is refused, counted from 1."""
    mark = f"{room}/{test.replace(':', '.')}.{number}"
    env = {**env, "REFUSED_NUMBER": str(number), "REFUSED_MARK": mark}
    how = {"stdin": subprocess.DEVNULL, "stdout": subprocess.PIPE, "stderr": subprocess.STDOUT, "timeout": LIMIT}
    try:
        ran = subprocess.run([program, test], env=env, cwd=room, check=False, **how)
    except subprocess.TimeoutExpired as hung:
        return Ended(None, (hung.stdout or b"").decode(errors="replace"), True)
    asked = os.path.exists(mark)
    if asked:
        os.remove(mark)
    return Ended(ran.returncode, ran.stdout.decode(errors="replace"), asked)


def asks_for(program, test, number, env, room):
    """Whether a test asks for so many allocations, where this one is refused."""
    return run(program, test, number, env, room).asked


def allocations(program, test, env, room):
    """How many allocations a test asks for, by halving: the last one whose number is met."""
    low, high = 0, 1
    while asks_for(program, test, high, env, room):
        low, high = high, 2 * high
    while low + 1 < high:
        middle = (low + high) // 2
        low, high = (middle, high) if asks_for(program, test, middle, env, room) else (low, middle)
    return low


@dataclass
class Row:
    """A line of the table, and which words came, of those with which the test may fail."""

    test: str
    allocations: int
    refused: int
    faults: int
    seconds: float
    words: set[str]


def words_of(test, ended):
    """The words with which a test has failed, of those with which it may."""
    return set(WORDS.get(test, [])) & set(ended.said.splitlines()) if ended.status else set()


def sweep(program, test, step, env, room):
    """Refuses one allocation after another, to the first number that is not met: the one before it may ask for more."""
    begun, numbers = time.time(), range(1, allocations(program, test, env, room) + 1, step)
    refused, faults, last, words = 0, 0, 0, set()
    with concurrent.futures.ThreadPoolExecutor(LANES) as lanes:
        while numbers:
            runs = {it: lanes.submit(run, program, test, it, env, room) for it in numbers}
            for number, made in runs.items():
                ended = made.result()
                if ended.asked:
                    refused, last = refused + 1, max(last, number)
                came = words_of(test, ended)
                words |= came
                if ended.status != 0 and not came:
                    faults += 1
                    how = "hangs" if ended.status is None else f"ends with status {ended.status}"
                    print(f"{test}, allocation {number} refused: {how}\n{ended.said}", flush=True)
            # A run behind the last one, until it is not met: a step that was made again has asked for more.
            following = range(numbers[-1] + step, numbers[-1] + step + 1)
            numbers = following if last == numbers[-1] else range(0)
    return Row(test, last, refused, faults, time.time() - begun, words)


def missing(row):
    """Tells of each word that did not come, and how many there are."""
    left = [word for word in WORDS.get(row.test, []) if word not in row.words]
    for word in left:
        print(f"{row.test}: no run ended with \"{word}\"", flush=True)
    return len(left)


def tests_of(program):
    """The full names of a program's tests."""
    listed = subprocess.run([program, "--list"], capture_output=True, text=True, check=True).stdout.split("\n")
    return [line.removesuffix(": test") for line in listed if line.endswith(": test")]


def sweep_crate(crate, step, room):
    """The rows of a crate's tests. Where every allocation is refused, a word that did not come is a fault, too."""
    program = f"{room}/{crate}"
    subprocess.run([sys.executable, f"{HERE}/keep_tests.py", f"{TOP}/crates/{crate}", program], check=True)
    env = environment(program, build_library(room))
    rows = []
    for test in tests_of(program):
        row = sweep(program, test, step, env, room)
        print(f"| `{row.test}` | {row.allocations} | {row.refused} | {row.seconds:.0f} |", flush=True)
        row.faults += missing(row) if step == 1 else 0
        rows.append(row)
    return rows


def sweep_all(is_short):
    """Prints the table, and tells how many allocations were refused, and how many runs were faults."""
    print("| Test | Allocations | Refused | Seconds |\n|---|---|---|---|", flush=True)
    with tempfile.TemporaryDirectory() as room:
        rows = [row for crate in CRATES for row in sweep_crate(crate, PART if is_short else 1, room)]
    return sum(row.refused for row in rows), sum(row.faults for row in rows)
