"""Makes the unverified build of a program and keeps it: keep_quick_build.py CRATE_FOLDER KEPT NAME.

`rt try` compiles and links a program that is not proved, runs it in a folder of its own below TMPDIR, and removes that
folder. While it runs here, on the word --help, what it has linked gets a second name, KEPT. It says every 15 seconds that
it goes on, under the name NAME. Exit status: 0 where KEPT is there and can be run, else 1. Ended by a signal, it ends all
that it started and leaves no folder.
"""
import os
import shutil
import signal
import subprocess
import sys
import tempfile
import time

# Seconds between two lines that say that it goes on.
SAID = 15
# So many times the program is run on --help: one run is over in some milliseconds.
RUNS = 12


def linked_below(folder):
    """The linked programs that are there now."""
    found = []
    for path, _, names in os.walk(folder):
        if "program" in names:
            found.append(f"{path}/program")
    return found


def keep(room, kept):
    """Gives what is linked now the name kept, if anything is."""
    for file in linked_below(f"{room}/tmp"):
        try:
            os.link(file, kept)
            return True
        except OSError:
            pass
    return False


def starts(program):
    """Whether it can be run from here, and ends by itself."""
    how = {"stdin": subprocess.DEVNULL, "capture_output": True, "timeout": 60}
    return subprocess.run([program, "--help"], **how).returncode in (0, 1, 2)


def is_kept(made):
    """Whether the program is there, and starts."""
    if not os.path.exists(made):
        return False
    os.chmod(made, 0o755)
    return starts(made)


def stop(ran):
    """Ends a command and all that it started."""
    try:
        os.killpg(ran.pid, signal.SIGTERM)
    except ProcessLookupError:
        pass


def say_on(name, begun, said):
    """Says how long it has been going on, where it is time to."""
    seconds = int(time.time() - begun)
    if seconds >= said + SAID:
        print(f"{name}: making the unverified build, {seconds} seconds so far", file=sys.stderr, flush=True)
        return seconds
    return said


def main(crate, kept, said_name):
    for sent in (signal.SIGINT, signal.SIGTERM, signal.SIGHUP):
        signal.signal(sent, lambda *_: sys.exit(130))
    name = os.path.basename(crate)
    begun = time.time()
    room = tempfile.mkdtemp(prefix=f"making-{name}-", dir=os.path.dirname(kept))
    ran, seconds = None, 0
    try:
        os.makedirs(f"{room}/tmp")
        os.makedirs(f"{room}/cases")
        for number in range(RUNS):
            open(f"{room}/cases/{number}", "wb").close()
        words = ["rt", "try", "--cases", f"{room}/cases", "--", "--help"]
        with open(f"{room}/said", "wb") as said:
            ran = subprocess.Popen(
                words,
                cwd=crate,
                env={**os.environ, "TMPDIR": f"{room}/tmp"},
                stdin=subprocess.DEVNULL,
                stdout=said,
                stderr=subprocess.STDOUT,
                start_new_session=True,
            )
            made = f"{room}/{name}"
            while ran.poll() is None and not keep(room, made):
                time.sleep(0.003)
                seconds = say_on(said_name, begun, seconds)
            # What `rt try` does beside running the program is not needed once the program is kept and starts.
            is_made = is_kept(made)
            if is_made:
                stop(ran)
            ran.wait()
        if not is_made:
            with open(f"{room}/said", encoding="utf-8", errors="replace") as said:
                sys.stderr.write(said.read() if ran.returncode else "")
            return 1
        os.replace(made, kept)
        return 0
    finally:
        if ran is not None and ran.poll() is None:
            stop(ran)
            ran.wait()
        shutil.rmtree(room, ignore_errors=True)


if __name__ == "__main__":
    sys.exit(main(*sys.argv[1:]))
