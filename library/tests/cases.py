#!/usr/bin/env python3
"""Asks the verdicts of the sessions by the Python package, and a few more calls of it. Cases come on standard input."""
import sys

from sigmuyap import AddressNeeded, Call, Line, Refused, Request, Rules, Ticket, version


class Fields:
    """The fields of a case."""

    def __init__(self, line):
        self.rest = line.split()

    def number(self):
        return int(self.rest.pop(0))

    def text(self):
        return bytes.fromhex(self.rest.pop(0)[1:])


def check_raises(error, call):
    try:
        call()
    except error:
        return
    raise AssertionError(error)


def check_case(fields):
    rules, ends, until = Rules(fields.number()), fields.number(), fields.number()
    caps, pool, namespace, name, address = (fields.text() for _ in range(5))
    tick, reads, writes = fields.number(), bool(fields.number()), bool(fields.number())
    tags = {fields.text(): [(fields.text(), fields.text()) for _ in range(fields.number())] for _ in range(fields.number())}
    calls = [Call(fields.text(), fields.text(), *(bool(fields.number()) for _ in range(3))) for _ in range(fields.number())]
    expected, more, at = fields.number(), fields.text().decode(), fields.number()
    try:
        ticket = Ticket(caps, until=until if ends else None, rules=rules)
    except Refused as refused:
        assert expected == 5 and refused.fault == (more, at), refused
        return
    asked = dict(pool=pool, namespace=namespace, object=name, read=reads, write=writes, tick=tick, tags=tags, calls=calls, address=address)
    if expected == 8:
        check_raises(AddressNeeded, lambda: ticket.allows(**asked))
        check_raises(AddressNeeded, lambda: ticket.report(**asked))
        return
    assert ticket.allows(**asked) == (expected == 1), "verdict"
    if not tags and not calls:
        request = Request(pool, namespace, name, reads, writes, tick, address)
        assert ticket.allows_all([request, request]) == [expected == 1] * 2, "verdicts"
    lines = ticket.report(**asked)
    if expected == 1:
        assert lines is None, "report"
    else:
        assert "".join(f"{line.path} {line.condition}\n" for line in lines) == more, "report"


def check_calls():
    with Ticket("profile rbd pool=vms ; allow r") as ticket:
        assert ticket.text() == "profile rbd pool=vms, allow r" and len(ticket) > 1 and ticket
        second = ticket.share()
    assert not ticket and second.text() == "profile rbd pool=vms, allow r"
    assert Ticket("allow rw").gain_over(second) is not None and Ticket("allow r").gain_over(Ticket("allow rw")) is None
    assert second.gain_over(second) is None
    assert Ticket("allow r").report(write=True) == [Line("1", "write")]
    assert version() == 1
    check_raises(UnicodeError, lambda: Ticket(b"\xff"))
    check_raises(ValueError, lambda: Ticket("allow r", rules=9))
    check_raises(ValueError, lambda: ticket.allows())
    near = Ticket("allow r network 10.0.0.0/8", rules=Rules.CEPH)
    assert near.text() == "allow r network 10.0.0.0/8" and near.allows(read=True, address="10.1.2.3")
    assert near.report(read=True, address="11.1.2.3") == [Line("1", "network")]
    check_raises(ValueError, lambda: near.allows(read=True, address="10.1.2.3:6789"))
    check_raises(AddressNeeded, lambda: near.allows(read=True))
    requests = [Request(read=True, address=address) for address in ("10.1.2.3", "11.1.2.3", b"::ffff:10.1.2.3")]
    assert near.allows_all(requests) == [True, False, False] and near.allows_all([]) == []
    check_raises(AddressNeeded, lambda: near.allows_all([*requests, Request(read=True)]))
    check_raises(ValueError, lambda: ticket.allows_all(requests))
    check_raises(Refused, lambda: Ticket("allow r pool=", rules=Rules.CEPH))
    assert near.gain_over(Ticket("allow w", rules=Rules.CEPH)).endswith("--read --from 10.0.0.0")


def main():
    cases = faults = 0
    check_calls()
    for line in sys.stdin:
        cases += 1
        try:
            check_case(Fields(line))
        except AssertionError as fault:
            faults += 1
            print(f"case {cases}: {fault}", file=sys.stderr)
    print(f"{cases} cases, {faults} faults")
    return faults != 0


sys.exit(main())
