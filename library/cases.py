#!/usr/bin/env python3
"""Prints the verdict cases of sessions and documents for the tests of the C library: library/cases.py FILE..

Each case is a line of fields; a text is an x and its bytes in hexadecimal digits:

    RULES ENDS UNTIL CAPS POOL NAMESPACE OBJECT FROM TICK READS WRITES
    TAGS, then for each NAME PAIRS, then for each KEY VALUE
    CALLS, then for each CLASS METHOD READS WRITES LISTED
    ANSWER TEXT AT

RULES and ANSWER are numbers of sigmuyap.h. TEXT is the report if it is denied or depends on the address; if the text is refused it is
the name of the rule, and AT is where.
"""
import os
import re
import subprocess
import sys
import tempfile

# The class registry of this project: what each method does, and whether its class is on the default list.
REGISTRY = {"counter.get": (1, 0, 1), "counter.add": (1, 1, 1), "vault.peek": (1, 0, 0)}
# The numbers of the rules, by the value of `--rules`. Without the option it is the program's default.
RULES = {b"project": "0", b"ceph": "1"}
DEFAULT_RULES = b"project"
STUB = '#!/bin/sh\nprintf "x%s\\0" "$@" >>"$ARGUMENTS"\nprintf "\\0" >>"$ARGUMENTS"\n'


def sessions(path):
    """The commands of a session file or a document, each with the lines below it."""
    command, output = None, []
    for line in open(path, encoding="utf-8", errors="surrogateescape").read().split("\n"):
        if line.startswith(("$ ", "```")):
            if command is not None:
                yield command, output
            command, output = line[2:] if line.startswith("$ ") else None, []
        elif command is not None and (command.endswith("\\") or "<<" in command and "\nEND" not in command):
            command += "\n" + line
        elif command is not None:
            output.append(line)
    if command is not None:
        yield command, output


def arguments(command, folder):
    """The arguments that a command gives osdgate, by a program that only notes them."""
    noted = os.path.join(folder, "arguments")
    open(noted, "wb").close()
    subprocess.run(["bash", "-c", command], cwd=folder, env={**os.environ, "ARGUMENTS": noted}, capture_output=True, check=False)
    calls = [call.split(b"\0") for call in open(noted, "rb").read().split(b"\0\0")]
    return [word[1:] for word in calls[0]] if len(calls) == 2 else None


def field(text):
    return "x" + text.hex()


class Request:
    """The request of one command, by its options; ValueError for an option that the library has no word for."""

    def __init__(self, words):
        self.values = {b"--pool": b"", b"--namespace": b"", b"--object": b"", b"--from": b"", b"--until": None, b"--tick": b"0"}
        self.values.update({b"--caps": None, b"--rules": DEFAULT_RULES})
        self.flags, self.tags, self.calls = set(), {}, []
        self.is_looked_up = False
        words = list(words)
        while words:
            self.take(words.pop(0), words)
        if self.values[b"--caps"] is None:
            raise ValueError("no text")
        if self.is_looked_up and self.values[b"--rules"] == b"ceph":
            raise ValueError("Ceph's class table says whether the class is listed, and the library has none")

    def take(self, word, rest):
        if word in self.values:
            self.values[word] = rest.pop(0)
        elif word in (b"--read", b"--write"):
            self.flags.add(word)
        elif word == b"--list":
            self.flags.add(b"--read")
        elif word == b"--check":
            pass
        elif word == b"--tag":
            name, _, pair = rest.pop(0).partition(b":")
            pairs = self.tags.setdefault(name, [])
            if pair:
                key, _, value = pair.partition(b"=")
                pairs.append((key, value))
        elif word == b"--call":
            name, flags, *listed = rest.pop(0).split(b":")
            self.calls.append((name, (int(b"r" in flags), int(b"w" in flags), int(bool(listed)))))
            self.is_looked_up |= not listed
        elif word.decode(errors="replace") in REGISTRY:
            self.calls.append((word, REGISTRY[word.decode()]))
        else:
            raise ValueError(word)

    def fields(self):
        value = self.values
        yield from (RULES[value[b"--rules"]], str(int(value[b"--until"] is not None)), (value[b"--until"] or b"0").decode())
        yield from (field(value[option]) for option in (b"--caps", b"--pool", b"--namespace", b"--object", b"--from"))
        yield from (value[b"--tick"].decode(), str(int(b"--read" in self.flags)), str(int(b"--write" in self.flags)))
        yield str(len(self.tags))
        for name, pairs in self.tags.items():
            yield from (field(name), str(len(pairs)))
            yield from (field(part) for pair in pairs for part in pair)
        yield str(len(self.calls))
        for name, does in self.calls:
            yield from (field(part) for part in name.split(b"."))
            yield from map(str, does)


def expected(output):
    """What the command prints, as the library answers it: its report has no grants behind the conditions."""
    lines = [line for line in output if not line.startswith(("osdgate: ", "[status ")) and line]
    if lines[0] == "allow" and len(lines) == 1:
        return "1", field(b""), "0"
    if lines[0] in ("deny", "depends"):
        return {"deny": "0", "depends": "8"}[lines[0]], field("".join(line.split("   ")[0] + "\n" for line in lines[1:]).encode()), "0"
    refused = re.fullmatch(r"refused ([CEG]\d \w+)(?: (?:at )?(\d+))?", lines[0])
    if refused:
        return "5", field(refused[1].encode()), refused[2] or "0"
    raise ValueError(lines[0])


def main():
    skipped = 0
    with tempfile.TemporaryDirectory() as folder:
        stub = os.path.join(folder, "osdgate")
        open(stub, "w").write(STUB)
        os.chmod(stub, 0o755)
        for path in sys.argv[1:]:
            for command, output in sessions(path):
                words = arguments(command, folder)
                try:
                    if not words or words[0] != b"verdict":
                        raise ValueError("no verdict")
                    print(*Request(words[1:]).fields(), *expected(output))
                except (KeyError, ValueError, IndexError) as reason:
                    skipped += 1
                    if os.environ.get("SHOW_SKIPPED"):
                        print(command, reason, file=sys.stderr)
    print(f"{skipped} commands are no cases of the library", file=sys.stderr)


main()
