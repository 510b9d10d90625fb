#!/usr/bin/env python3
"""Compares the verdicts of ./osdgate by Ceph's rules with those of the compiled OSDCap. See README.md.

usage: compare.py FOLDER TEXTS [SEED [JOBS [DONE]]]

FOLDER is one that `beside_ceph get` filled. JOBS processes share the texts, one if it is not given; what is compared does not depend
on it. A run that ended early is continued by DONE, the number of its texts that were compared. OSDGATE names another program than
./osdgate. With SIGMUYAP_LIBRARY that C library is asked in place of the program.
"""
import json
import multiprocessing
import os
import random
import shlex
import subprocess
import sys
import tempfile

TOP = os.path.dirname(os.path.dirname(os.path.dirname(os.path.abspath(__file__))))
# How many texts are asked at once, and how many requests each of them.
BATCH, REQUESTS = 500, 20

POOLS = ["a", "b", "ab", "all", "rbd", "vms", "a b", "é", "*", "a*"]
NAMESPACES = ["", "a", "ab", "x", "a*", "*", "a*b", "é"]
OBJECTS = ["a", "ab", "rbd_info", "rbd_info_x", "rbd_children", "rbd_mirroring", "rbd_header.1", "rbd_header", "x*", "*", "é"]
APPLICATIONS = ["cephfs", "rbd", "rgw", "all"]
KEYS = ["data", "metadata", "all", "allied", "*", "k"]
VALUES = ["a", "all", "allied", "*", "cephfs_a"]
CLASSES = ["rbd", "lock", "lua", "pool", "refcount"]
METHODS = ["metadata_list", "get_id", "lock", "child_attach", "child_detach", "tag", "x"]
# What those of them do that Ceph's class table has: whether they read, and whether they write.
DOES = {("rbd", "metadata_list"): (True, False), ("rbd", "get_id"): (True, False), ("rbd", "child_attach"): (True, True),
        ("rbd", "child_detach"): (True, True), ("lock", "lock"): (True, True)}
PROFILES = ["rbd", "rbd-read-only", "read-only", "read-write", "osd", "rbdx", "RBD", "nosuch", "crash"]
ADDRESSES = ["10.0.0.1", "10.1.2.3", "11.0.0.0", "9.255.255.255", "127.0.0.1", "0.0.0.0", "255.255.255.255", "192.168.1.7",
             "::", "::1", "fd00::1", "fd00:0:0:1::", "::ffff:10.0.0.1", "ffff:ffff:ffff:ffff:ffff:ffff:ffff:ffff"]
NETWORKS = ["10.0.0.0/8", "10.1.2.3/8", "10.0.0.0/08", "10.0.0.1/32", "10.0.0.1/33", "10.0.0.1/40", "0.0.0.0/0", "::/0",
            "fd00::/8", "fd00::1/128", "fd00::1/200", "fd00::/64", "::ffff:10.0.0.0/104", "127.0.0.1", "fd00::1", "[fd00::]/8",
            "0/0", "10/8", "127.1/8", "010.0.0.0/8", "/", "beef", "10.0.0.0/8/9", "10.0.0.0//8", "10.0.0.0/8a", "::1/128",
            "192.168.0.0/16", "10.0.0.0/7", "10.0.0.0/31", "10.0.0.0/4294967304", "10.0.0.0/18446744073709551624", "10.0.0.0/"]


class Texts:
    """Random capability texts: most of the grammar, many with a few bytes changed."""

    def __init__(self, chance):
        self.chance = chance

    def one_of(self, things):
        return self.chance.choice(things)

    def often(self, share):
        return self.chance.random() < share

    def blanks(self):
        return " " if self.often(0.96) else self.one_of(["  ", "\t", " \t ", "\n", "\r\n", "\v", ""])

    def value(self, values):
        text = self.one_of(values)
        if not text or not all(c.isascii() and (c.isalnum() or c in "_./-") for c in text) or self.often(0.15):
            quote = self.one_of("\"'")
            return quote + text + quote if self.often(0.98) else text
        return text

    def equals(self):
        return self.one_of(["=", "=", "=", " "]) if self.often(0.95) else self.one_of([" = ", "= ", " =", "\t", ""])

    def pool(self):
        return f"{self.blanks()}pool{self.equals()}{self.value(POOLS)}"

    def namespace(self):
        star = "*" if self.often(0.2) else ""
        return f"{self.blanks()}namespace{self.equals()}{self.value(NAMESPACES)}{star}"

    def prefix(self):
        between = self.blanks() if self.often(0.97) else "="
        return f"{self.blanks()}object_prefix{between}{self.value(OBJECTS)}"

    def part(self, values):
        if self.often(0.3):
            return self.one_of(["*", "all"])
        text = self.value(values)
        return f'"{text}"' if text.startswith("all") and self.often(0.8) else text

    def tag(self):
        between = self.one_of(["=", "=", "=", " = ", "= ", " ="]) if self.often(0.97) else self.one_of([" ", ""])
        return f"{self.blanks()}tag{self.blanks()}{self.value(APPLICATIONS)}{self.blanks()}{self.part(KEYS)}{between}{self.part(VALUES)}"

    def match(self):
        kind = self.chance.random()
        if kind < 0.35:
            return ""
        if kind < 0.45:
            return self.tag()
        if kind < 0.5:
            return self.namespace() + self.tag()
        text = self.pool() if self.often(0.7) else ""
        text += self.namespace() if self.often(0.4) else ""
        return text + (self.prefix() if self.often(0.4) else "")

    def access(self):
        kind = self.chance.random()
        if kind < 0.15:
            return self.blanks() + self.one_of(["*", "all"])
        if kind < 0.35:
            method = self.blanks() + self.value(METHODS) if self.often(0.6) else ""
            return f"{self.blanks()}class{self.blanks()}{self.value(CLASSES)}{method}"
        letters = "".join(letter for letter in "rwx" if self.often(0.6))
        text = self.blanks() + letters if letters else ""
        text += self.blanks() + "class-read" if self.often(0.2) else ""
        text += self.blanks() + "class-write" if self.often(0.2) else ""
        return text or self.blanks() + "r"

    def network(self):
        return f"{self.blanks()}network{self.blanks()}{self.one_of(NETWORKS)}" if self.often(0.25) else ""

    def grant(self):
        kind = self.chance.random()
        if kind < 0.25:
            pool = self.pool() if self.often(0.6) else ""
            namespace = self.namespace() if self.often(0.4) else ""
            return f"profile{self.equals()}{self.value(PROFILES)}{pool}{namespace}{self.network()}"
        if kind < 0.35:
            return f"allow{self.match()}{self.access()}{self.network()}"
        return f"allow{self.access()}{self.match()}{self.network()}"

    def changed(self, text):
        for _ in range(self.one_of([1, 1, 2, 3])):
            at = self.chance.randrange(len(text) + 1)
            kind = self.chance.random()
            if kind < 0.35:
                text = text[:at] + text[at + 1:]
            elif kind < 0.7:
                text = text[:at] + self.one_of(list("\"'=*,; \t\nalrwx/.é:") + ["all", "allow", " pool=a", "*"]) + text[at:]
            else:
                text = text[:at] + text[at:at + 4] + text[at:]
        return text

    def text(self):
        count = self.one_of([1, 1, 1, 2, 2, 3, 4, 6])
        separators = [", ", ",", ";", "; ", " , ", " ;\t", ",\n"] if self.often(0.05) else [", ", ",", ";", " ; "]
        text = self.grant()
        for _ in range(count - 1):
            text += self.one_of(separators) + self.grant()
        if self.often(0.1):
            text = self.one_of([" ", "\n", "\t"]) + text + self.one_of(["", " ", "\n", ","])
        return self.changed(text) if self.often(0.25) else text


class Request:
    """A request, in the words of ./osdgate and in the fields of the program beside Ceph's."""

    def __init__(self, chance):
        self.pool = chance.choice(POOLS)
        self.namespace = chance.choice(NAMESPACES)
        self.object = chance.choice(OBJECTS)
        self.reads = chance.random() < 0.5
        self.writes = chance.random() < 0.4
        self.address = chance.choice(ADDRESSES)
        self.tags = {}
        for application in APPLICATIONS:
            if chance.random() < 0.35:
                keys = [key for key in KEYS if chance.random() < 0.3]
                self.tags[application] = {key: chance.choice(VALUES) for key in keys}
        self.calls = []
        while chance.random() < 0.35 and len(self.calls) < 3:
            name = chance.choice(CLASSES), chance.choice(METHODS)
            flags = DOES.get(name, chance.choice([(True, False), (False, True), (True, True)]))
            self.calls.append((*name, *flags, chance.random() < 0.6))
        if not (self.reads or self.writes or self.calls):
            self.reads = True

    def words(self):
        words = ["--pool", self.pool, "--namespace", self.namespace, "--object", self.object, "--from", self.address]
        words += ["--read"] if self.reads else []
        words += ["--write"] if self.writes else []
        for application, pairs in self.tags.items():
            words += ["--tag", application]
            for key, value in pairs.items():
                words += ["--tag", f"{application}:{key}={value}"]
        for class_, method, reads, writes, listed in self.calls:
            flags = ("r" if reads else "") + ("w" if writes else "")
            words += ["--call", f"{class_}.{method}:{flags}" + (":listed" if listed else "")]
        return " ".join(shlex.quote(word) for word in words)

    def fields(self):
        tags = [(application, key, value) for application, pairs in self.tags.items()
                for key, value in list(pairs.items()) or [(None, None)]]
        tags = ",".join(hexes(application) if key is None else ":".join(map(hexes, (application, key, value)))
                        for application, key, value in tags)
        calls = ",".join(":".join([hexes(class_), hexes(method), str(int(reads)), str(int(writes)), str(int(listed))])
                         for class_, method, reads, writes, listed in self.calls)
        return "\t".join([hexes(self.pool), hexes(self.namespace), hexes(self.object), str(int(self.reads)),
                          str(int(self.writes)), self.address, tags, calls])

    def arguments(self):
        """Those of `Ticket.allows` of the C library's Python package."""
        return {"pool": self.pool, "namespace": self.namespace, "object": self.object, "read": self.reads, "write": self.writes,
                "tags": {application: list(pairs.items()) for application, pairs in self.tags.items()},
                "calls": list(map(self.call_of, self.calls)), "address": self.address}

    @staticmethod
    def call_of(call):
        from sigmuyap import Call

        return Call(*call)


def hexes(text):
    return text.encode().hex()


def run_ours(folder, texts, requests, form):
    """What ./osdgate prints of some entities and requests."""
    auth, table = os.path.join(folder, "auth"), os.path.join(folder, "requests")
    with open(auth, "w") as file:
        json.dump([{"entity": f"client.{number}", "key": "", "caps": {"osd": text}} for number, text in texts], file)
    with open(table, "w") as file:
        file.write("\n".join(request.words() for request in requests) + "\n")
    program = os.environ.get("OSDGATE", os.path.join(TOP, "osdgate"))
    # No class is listed but where a call says so.
    words = ["who", "--rules", "ceph", "--listed", "-", "--format", form, "--auth", auth, "--requests", table]
    done = subprocess.run([program, *words], capture_output=True, text=True)
    if done.returncode == 2 or not done.stdout:
        sys.exit(f"compare: {program} answers nothing: {done.stderr}")
    return done.stdout


def bytes_of_refusals(folder, texts, request):
    """The bytes at which refused texts are refused, by the numbers of the texts."""
    if not texts:
        return {}
    rows = json.loads(run_ours(folder, texts, [request], "json"))["entities"]
    assert [row["entity"] for row in rows] == [f"client.{number}" for number, _ in texts]
    answers = [row["answers"][0] for row in rows]
    faults = [answer["fault"] for answer in answers]
    return {number: fault.get("byte", fault["text"]) for (number, _), fault in zip(texts, faults)}


def asked_of_program(folder, texts, requests):
    """For each text its answers: allow or deny for each request, or for each the byte at which the text is refused."""
    numbered = list(enumerate(texts))
    rows = [line.split() for line in run_ours(folder, numbered, requests, "text").splitlines()[1:]]
    assert [row[0] for row in rows] == [f"client.{number}" for number, _ in numbered]
    assert all(len(row) == len(requests) + 1 for row in rows)
    refused = [it for it in numbered if rows[it[0]][1] not in ("allow", "deny")]
    stopped = bytes_of_refusals(folder, refused, requests[0])
    return [[stopped[number]] * len(requests) if number in stopped else rows[number][1:] for number, _ in numbered]


def asked_of_library(texts, requests):
    """The same of the C library."""
    sys.path.insert(0, os.path.join(TOP, "python"))
    from sigmuyap import Refused, Rules, Ticket

    asked = [request.arguments() for request in requests]
    answers = []
    for text in texts:
        try:
            with Ticket(text, rules=Rules.CEPH) as ticket:
                answers.append(["allow" if ticket.allows(**it) else "deny" for it in asked])
        except Refused as refused:
            answers.append([refused.fault.at] * len(requests))
    return answers


def asked_of_ours(folder, texts, requests):
    """The same of the C library if one is named, and else of the program."""
    if "SIGMUYAP_LIBRARY" in os.environ:
        return asked_of_library(texts, requests)
    return asked_of_program(folder, texts, requests)


def ceph_answers(line, requests):
    """The answers of a line of Ceph's."""
    if line.startswith("refused"):
        return [int(line.split(" ")[1])] * len(requests)
    return ["allow" if answer == "1" else "deny" for answer in line]


def asked_of_ceph(ceph, folder, texts, requests):
    """The same of Ceph."""
    lines, table = os.path.join(folder, "texts"), os.path.join(folder, "fields")
    with open(lines, "w") as file:
        file.write("".join(hexes(text) + "\n" for text in texts))
    with open(table, "w") as file:
        file.write("".join(request.fields() + "\n" for request in requests))
    beside = os.path.join(os.path.dirname(os.path.abspath(__file__)), "beside_ceph")
    done = subprocess.run([beside, "answers", ceph, lines, table], capture_output=True, text=True, check=True)
    return [ceph_answers(line, requests) for line in done.stdout.splitlines()]


def compared(batch):
    """The counts of a batch: texts, those that Ceph reads, verdicts on these, and those that allow. Or its first difference."""
    ceph, seed, number, count = batch
    # Each batch has a chance of its own, so that the processes do not matter.
    chance = random.Random(f"{seed} {number}")
    # An empty text is one that an entity does not have: there is nothing to read.
    texts = [Texts(chance).text() or "allow r" for _ in range(count)]
    requests = [Request(chance) for _ in range(REQUESTS)]
    with tempfile.TemporaryDirectory() as folder:
        ours, theirs = asked_of_ours(folder, texts, requests), asked_of_ceph(ceph, folder, texts, requests)
    for at, text in enumerate(texts):
        for request, mine, other in zip(requests, ours[at], theirs[at], strict=True):
            if mine != other:
                return f"text {text!r}\nrequest {request.words()}\nours {mine}, Ceph's {other}, of text {number * BATCH + at}"
    read = [it for it in theirs if it[0] in ("allow", "deny")]
    return len(texts), len(read), sum(len(it) for it in read), sum(it.count("allow") for it in read)


def main():
    folder, count, *more = sys.argv[1:]
    seed, jobs, done = map(int, [*more, *["1", "1", "0"][len(more):]])
    starts = range(done // BATCH * BATCH, int(count), BATCH)
    batches = [(folder, seed, start // BATCH, min(BATCH, int(count) - start)) for start in starts]
    sums = [0, 0, 0, 0]
    with multiprocessing.Pool(jobs) as pool:
        for number, found in enumerate(pool.imap(compared, batches)):
            if isinstance(found, str):
                pool.terminate()
                sys.exit(f"compare: {found}")
            sums = [one + other for one, other in zip(sums, found)]
            if (number + 1) % 20 == 0:
                print(f"compare: {sums[0]} texts, {sums[2]} verdicts, {sums[3]} allow, no difference so far", file=sys.stderr, flush=True)
    texts, read, verdicts, allowed = sums
    behind = f" behind {starts.start}" if starts.start else ""
    print(f"compare: no difference; seed {seed}: {texts} texts{behind}, of which Ceph reads {read}, and {verdicts} verdicts, of which {allowed} allow")


if __name__ == "__main__":
    main()
