"""Links the tests of a crate and keeps them: keep_tests.py CRATE_FOLDER KEPT.

`rt try --test` links the tests into a program, runs it in a folder of its own below TMPDIR, and removes that folder. While
it runs here, the linked program gets a second name, KEPT: on the word --list it names the tests, and it runs the one whose
full name it is given. Exit status: 0 where KEPT is there, else 1.
"""
import glob
import os
import shutil
import subprocess
import sys
import tempfile
import time


def keep(room, kept):
    """Gives what is linked now the name kept, if anything is."""
    for file in glob.glob(f"{room}/linking/*/*/program"):
        try:
            os.link(file, kept)
            return True
        except OSError:
            pass
    return False


def main(crate, kept):
    room = tempfile.mkdtemp(prefix="making-", dir=os.path.dirname(kept))
    try:
        os.makedirs(f"{room}/linking")
        env = {**os.environ, "TMPDIR": f"{room}/linking"}
        with open(f"{room}/said", "wb") as said:
            how = {"stdin": subprocess.DEVNULL, "stdout": said, "stderr": subprocess.STDOUT}
            ran = subprocess.Popen(["rt", "try", "--test"], cwd=crate, env=env, **how)
            is_kept = False
            while ran.poll() is None:
                is_kept = is_kept or keep(room, kept)
                time.sleep(0.003)
        if not is_kept or ran.returncode:
            with open(f"{room}/said", encoding="utf-8", errors="replace") as said:
                sys.stderr.write(said.read())
            return 1
        os.chmod(kept, 0o755)
        return 0
    finally:
        shutil.rmtree(room, ignore_errors=True)


if __name__ == "__main__":
    sys.exit(main(*sys.argv[1:]))
