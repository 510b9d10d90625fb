"""Sigmuyap's access gate: which requests does a Ceph OSD capability text allow?

    from sigmuyap import Ticket
    Ticket("allow rw pool=data").allows(pool="data", object="x", write=True)

The shared library is found by the environment variable SIGMUYAP_LIBRARY, or as libsigmuyap.so where the system looks for
libraries. Names and texts are `str`, which stands for its UTF-8 bytes, or `bytes`.
"""

from __future__ import annotations

import ctypes
import enum
import os
from typing import Callable, Iterable, List, Mapping, NamedTuple, Optional, Sequence, Tuple, Union

__all__ = ["AddressNeeded", "Call", "Fault", "Line", "Names", "Refused", "Request", "Rules", "Tags", "Ticket", "version"]

Names = Union[str, bytes]
#: The application tags of a pool: for each application its pairs of a key and a value.
Tags = Mapping[Names, Sequence[Tuple[Names, Names]]]

_DENY, _ALLOW, _EMPTY, _NOT_UTF8, _NO_MEMORY, _REFUSED, _BAD_RULES, _BAD_LENGTH, _DEPENDS, _BAD_ADDRESS = range(10)
_VERSION = 1


class _Handle(ctypes.Structure):
    _fields_ = [("at", ctypes.c_void_p)]


class _Fault(ctypes.Structure):
    _fields_ = [("rule", ctypes.c_uint32), ("at", ctypes.c_size_t)]


class _Text(ctypes.Structure):
    _fields_ = [("at", ctypes.c_char_p), ("len", ctypes.c_size_t)]


class _Request(ctypes.Structure):
    _fields_ = [
        ("pool", _Text),
        ("name_space", _Text),
        ("object", _Text),
        ("from_", _Text),
        ("tick", ctypes.c_uint64),
        ("reads", ctypes.c_bool),
        ("writes", ctypes.c_bool),
    ]


class _Pair(ctypes.Structure):
    _fields_ = [("key", _Text), ("value", _Text)]


class _Application(ctypes.Structure):
    _fields_ = [("name", _Text), ("pairs", ctypes.POINTER(_Pair)), ("pairs_len", ctypes.c_size_t)]


class _Call(ctypes.Structure):
    _fields_ = [
        ("class_", _Text),
        ("method", _Text),
        ("reads", ctypes.c_bool),
        ("writes", ctypes.c_bool),
        ("listed", ctypes.c_bool),
    ]


#: Application tags and calls as C takes them, each list with its length.
_Lists = Tuple["ctypes.Array[_Application]", int, "ctypes.Array[_Call]", int]


def _load() -> ctypes.PyDLL:
    # PyDLL keeps the interpreter's lock during a call, so that one call at a time uses a handle.
    library = ctypes.PyDLL(os.environ.get("SIGMUYAP_LIBRARY", "libsigmuyap.so.1"))
    size, number, handle = ctypes.c_size_t, ctypes.c_uint32, ctypes.POINTER(_Handle)
    asked = [ctypes.POINTER(_Request), ctypes.POINTER(_Application), size, ctypes.POINTER(_Call), size]
    room = [ctypes.c_char_p, size]
    needed = ctypes.POINTER(size)
    for name, result, arguments in [
        ("sig_version", number, []),
        ("sig_ticket_parse", number, [handle, number, *room, ctypes.c_bool, ctypes.c_uint64, ctypes.POINTER(_Fault)]),
        ("sig_judge", number, [handle, ctypes.POINTER(_Request)]),
        ("sig_judge_all", number, [handle, ctypes.POINTER(_Request), size, ctypes.POINTER(ctypes.c_uint8), size]),
        ("sig_judge_with", number, [handle, *asked]),
        ("sig_report", number, [handle, *asked, *room, needed]),
        ("sig_ticket_text", number, [handle, *room, needed]),
        ("sig_ticket_grants", size, [handle]),
        ("sig_widening", number, [handle, handle, *room, needed]),
        ("sig_ticket_share", number, [handle, handle]),
        ("sig_ticket_free", None, [handle]),
        ("sig_fault_name", size, [number, *room]),
    ]:
        function = getattr(library, name)
        function.restype, function.argtypes = result, arguments
    if library.sig_version() != _VERSION:
        raise ImportError(f"libsigmuyap has interface {library.sig_version()}, and this package is for {_VERSION}")
    return library


_library = _load()


def version() -> int:
    """The version of the library's interface."""
    return int(_library.sig_version())


def _bytes(text: Names) -> bytes:
    return text if isinstance(text, bytes) else text.encode()


def _text(text: Names) -> _Text:
    held = _bytes(text)
    return _Text(held, len(held))


class Fault(NamedTuple):
    """The rule that a text breaks, as `C7 NetworkClause`, and where: a byte's offset (C) or a grant's number (G)."""

    rule: str
    at: int


class Refused(ValueError):
    """The capability text has a fault."""

    def __init__(self, fault: Fault) -> None:
        super().__init__(f"{fault.rule} at {fault.at}")
        self.fault = fault


class AddressNeeded(ValueError):
    """The ticket allows some addresses and denies others: pass `address`."""


class Rules(enum.IntEnum):
    """Rules by which capability texts are read: this project's, or those of Ceph 16.2.15."""

    PROJECT = 0
    CEPH = 1


class Line(NamedTuple):
    """A line of a report: the path of a grant, and the first condition that the request fails."""

    path: str
    condition: str


class Request(NamedTuple):
    """A request without class calls, for a pool without application tags. A listing has the empty object name."""

    pool: Names = ""
    namespace: Names = ""
    object: Names = ""
    read: bool = False
    write: bool = False
    tick: int = 0
    address: Names = ""

    def _as_c(self) -> _Request:
        names = [_text(name) for name in (self.pool, self.namespace, self.object, self.address)]
        return _Request(*names, self.tick, self.read, self.write)


class Call(NamedTuple):
    """A call of a class's method, with what the class registry says of the method."""

    class_: Names
    method: Names
    read: bool = False
    write: bool = False
    listed: bool = False

    def _as_c(self) -> _Call:
        return _Call(_text(self.class_), _text(self.method), self.read, self.write, self.listed)


def _fault_of(fault: _Fault) -> Fault:
    name = ctypes.create_string_buffer(32)
    length = _library.sig_fault_name(fault.rule, name, len(name))
    return Fault(name.raw[:length].decode(), int(fault.at))


def _checked(answer: int) -> int:
    if answer == _EMPTY:
        raise ValueError("the ticket was closed")
    if answer == _NOT_UTF8:
        raise UnicodeError("a name is not UTF-8")
    if answer == _NO_MEMORY:
        raise MemoryError
    if answer == _BAD_RULES:
        raise ValueError("these rules are not known")
    if answer == _DEPENDS:
        raise AddressNeeded("the answer depends on the client's address")
    if answer == _BAD_ADDRESS:
        raise ValueError("the address is neither IPv4 nor IPv6")
    return answer


class Ticket:
    """The ticket of a capability text. Close it, or use it in a `with`; a ticket that is collected closes itself."""

    def __init__(self, caps: Names, *, until: Optional[int] = None, rules: Union[Rules, int] = Rules.PROJECT) -> None:
        self._handle = _Handle(None)
        fault, text = _Fault(), _bytes(caps)
        answer = _library.sig_ticket_parse(self._handle, rules, text, len(text), until is not None, until or 0, fault)
        if answer == _REFUSED:
            raise Refused(_fault_of(fault))
        if answer == _NOT_UTF8:
            raise UnicodeError("the text is not UTF-8")
        _checked(answer)

    def allows(
        self,
        *,
        pool: Names = "",
        namespace: Names = "",
        object: Names = "",
        read: bool = False,
        write: bool = False,
        tick: int = 0,
        tags: Optional[Tags] = None,
        calls: Iterable[Call] = (),
        address: Names = "",
    ) -> bool:
        """Whether the ticket allows a request. A listing has the empty object name. Only grants with a network look at the address."""
        request = Request(pool, namespace, object, read, write, tick, address)._as_c()
        applications, asked = _applications(tags or {}), _calls(calls)
        if not len(applications) and not len(asked):
            return bool(_checked(_library.sig_judge(self._handle, request)) == _ALLOW)
        answer = _library.sig_judge_with(self._handle, request, *_lists(applications, asked))
        return bool(_checked(answer) == _ALLOW)

    def allows_all(self, requests: Iterable[Request]) -> List[bool]:
        """Whether the ticket allows each of some requests, in their order. It calls the library once."""
        held = [request._as_c() for request in requests]
        # One place more, so that no pointer is null.
        asked, answers = (_Request * (len(held) + 1))(*held), (ctypes.c_uint8 * (len(held) + 1))()
        _checked(_library.sig_judge_all(self._handle, asked, len(held), answers, len(held)))
        return [_checked(answer) == _ALLOW for answer in answers[: len(held)]]

    def report(
        self,
        *,
        pool: Names = "",
        namespace: Names = "",
        object: Names = "",
        read: bool = False,
        write: bool = False,
        tick: int = 0,
        tags: Optional[Tags] = None,
        calls: Iterable[Call] = (),
        address: Names = "",
    ) -> Optional[List[Line]]:
        """Why a request is denied: a line for each grant. None if it is allowed."""
        request = Request(pool, namespace, object, read, write, tick, address)._as_c()
        lists = _lists(_applications(tags or {}), _calls(calls))
        text = _whole(_DENY, lambda *out: _library.sig_report(self._handle, request, *lists, *out))
        if text is None:
            return None
        return [Line(*line.decode().split(" ", 1)) for line in text.splitlines()]

    def text(self) -> str:
        """The text: by this project's rules the canonical one, by Ceph's the one that was read."""
        text = _whole(_DENY, lambda *out: _library.sig_ticket_text(self._handle, *out))
        assert text is not None
        return text.decode()

    def gain_over(self, old: "Ticket") -> Optional[str]:
        """A request that this ticket allows and `old` denies, in the words of `osdgate verdict`; None if there is none."""
        if old is self:
            return None
        text = _whole(_ALLOW, lambda *out: _library.sig_widening(old._handle, self._handle, *out))
        return None if text is None else text.decode()

    def share(self) -> "Ticket":
        """A second ticket over the same grants, which copies none of them."""
        second = Ticket.__new__(Ticket)
        second._handle = _Handle(None)
        _checked(_library.sig_ticket_share(self._handle, second._handle))
        return second

    def close(self) -> None:
        """Drops the grants. A ticket that is closed may be closed again."""
        _library.sig_ticket_free(self._handle)

    def __len__(self) -> int:
        """The number of grants, profiles expanded."""
        return int(_library.sig_ticket_grants(self._handle))

    def __bool__(self) -> bool:
        return self._handle.at is not None

    def __enter__(self) -> "Ticket":
        return self

    def __exit__(self, *error: object) -> None:
        self.close()

    def __del__(self) -> None:
        if hasattr(self, "_handle"):
            self.close()


def _applications(tags: Tags) -> "ctypes.Array[_Application]":
    made = (_Application * len(tags))()
    for application, (name, pairs) in zip(made, tags.items()):
        # One place more, so that the pointer of an empty list is not null.
        held = (_Pair * (len(pairs) + 1))(*[_Pair(_text(key), _text(value)) for key, value in pairs])
        application.name, application.pairs, application.pairs_len = _text(name), held, len(pairs)
    return made


def _calls(calls: Iterable[Call]) -> "ctypes.Array[_Call]":
    made = [call._as_c() for call in calls]
    return (_Call * len(made))(*made)


def _lists(applications: "ctypes.Array[_Application]", calls: "ctypes.Array[_Call]") -> "_Lists":
    # An array with no items has no address of its own: one of one item stands for it.
    tags = applications if len(applications) else (_Application * 1)()
    asked = calls if len(calls) else (_Call * 1)()
    return tags, len(applications), asked, len(calls)


def _whole(done: int, call: Callable[..., int]) -> Optional[bytes]:
    """A text by a call that takes a buffer: asked for its length, and then for the text."""
    needed = ctypes.c_size_t(0)
    out = ctypes.create_string_buffer(1)
    if _checked(call(out, 0, needed)) != done:
        return None
    out = ctypes.create_string_buffer(needed.value + 1)
    _checked(call(out, needed.value, needed))
    return out.raw[: needed.value]
