"""Nambroit for Python: a rule of a CSN.1 description is compiled, and by it blocks are judged, told, shown and written.

    >>> from nambroit import Description
    >>> rule = Description("<M> ::= <A : bit (3)> 0 <B : bit (4)> ;", "M")
    >>> rule.show(b"\\xa5")
    "[<A>=3'5 . <B>=4'5]"
    >>> [(field.label, field.value) for field in rule.fields(b"\\xa5")]
    [('A', 5), (None, 0), ('B', 5)]
    >>> rule.write("[<A>=3'5 . <B>=4'5]")
    Block(octets=b'\\xa5', bits=8)

The calls are those of csn.h, which says what is proved of each. The library is the file that NAMBROIT_LIBRARY names, else
`libcsn.so` beside this module. It takes nothing but the standard library.
"""
from __future__ import annotations

import ctypes
import json
import os
import threading
from pathlib import Path
from typing import NamedTuple

__all__ = ["Block", "Conflict", "Description", "Event", "Fault", "Field", "NoBlock", "NoTree", "Refused", "RuleRefused",
           "Stream", "SyntaxRefused", "TooLong"]

VERSION = 1
READINGS = {"received": 0, "sent": 1}
FORMS = {"text": 0, "json": 1}
ROLES = {0: "root", 1: "part", 2: "alternative", 3: "turn"}
KINDS = {0: "begin", 6: "end", 1: "literal", 2: "spare", 3: "field", 4: "rest", 5: "padding"}
MISFITS = {1: "WrongKind", 2: "WrongLabel", 3: "WrongCount", 4: "WrongWidth", 5: "WrongSpare", 6: "NoSuchAlternative",
           7: "WindowLength", 8: "TooManyBits"}

OK, NO_MEMORY, BAD_ARGUMENT, SYNTAX, DESCRIPTION, CONFLICT, TOO_LONG, REFUSED = 0, 2, 3, 4, 5, 6, 7, 8
NO_BLOCK, NO_LABEL, NO_TEXT, NO_JSON, NO_TREE = 9, 10, 11, 12, 13


class Block(NamedTuple):
    """The first `bits` bits of some octets, the most significant bit of an octet first."""

    octets: bytes
    bits: int


class Event(NamedTuple):
    """A leaf of a block has ended, or a node with parts begins or ends: `kind` is one of KINDS, `role` one of ROLES, and `number`
    that of an alternative or of a turn. A leaf has `bits` bits from `place` on, which write `value`, if they are at most 64."""

    node: int
    kind: str
    role: str
    number: int
    place: int
    bits: int
    value: int | None


class Field(NamedTuple):
    """A leaf of a block: `bits` bits from `place` on, which write the number `value`, if they are at most 64. `kind` is one of
    KINDS; `label` that of the part that the leaf is, if it has one."""

    node: int
    kind: str
    place: int
    bits: int
    value: int | None
    label: str | None


class Fault(Exception):
    """Whatever the library refuses. Want of memory is Python's own MemoryError."""


class SyntaxRefused(Fault):
    """The text has no rules from byte `place` on."""

    def __init__(self, place: int):
        super().__init__(f"syntax {place}")
        self.place = place


class RuleRefused(Fault):
    """The rules are refused by the reason `number`, 1 to 13, at byte `place` of the text."""

    def __init__(self, number: int, place: int):
        super().__init__(f"description {number} {place}")
        self.number, self.place = number, place


class Conflict(Fault):
    """The rule is not certified: a conflict of the kind `number`, 1 to 6, at the node `node`."""

    def __init__(self, number: int, node: int):
        super().__init__(f"conflict {number} {node}")
        self.number, self.node = number, node


class TooLong(Fault):
    """A description of more than 262,144 bytes, a tree of more than 16,777,216, or a block in pieces of more than 524,288 bits."""


class Refused(Fault):
    """The block has no tree: `place` of its bits can be followed. `ended` says that these are all, so it ends too early.
    `events` are those before the place, where they were asked for."""

    def __init__(self, place: int, ended: bool, events: list[Event] | None = None):
        super().__init__(f"no {place} {'ended' if ended else 'bit'}")
        self.place, self.ended, self.events = place, ended, events


class NoTree(Fault):
    """The bytes are no tree. Of a text, `place` of them begin one; of JSON, `place` is None, and `is_json` says whether the
    bytes are JSON at all."""

    def __init__(self, place: int | None, is_json: bool = False):
        super().__init__(f"no tree from byte {place} on" if place is not None else "JSON without a tree" if is_json else "no JSON")
        self.place, self.is_json = place, is_json


class NoBlock(Fault):
    """No block has the tree: `why` names the reason of its first misfit, as the program does, and `path` the way there from the
    root, at each tree the number of the next one in it."""

    def __init__(self, why: str, path: tuple[int, ...] = ()):
        super().__init__("/" + "/".join(str(step) for step in path) + " " + why)
        self.why, self.path = why, path


class _Rule(ctypes.Structure):
    _fields_ = [("at", ctypes.c_void_p)]


class _Stream(ctypes.Structure):
    _fields_ = [("at", ctypes.c_void_p)]


class _Why(ctypes.Structure):
    _fields_ = [("number", ctypes.c_uint32), ("place", ctypes.c_uint32)]


class _Event(ctypes.Structure):
    _fields_ = [("node", ctypes.c_uint32), ("kind", ctypes.c_uint32), ("role", ctypes.c_uint32), ("number", ctypes.c_uint32),
                ("place", ctypes.c_uint32), ("bits", ctypes.c_uint32), ("value", ctypes.c_uint64)]


def _load() -> ctypes.CDLL:
    """The library, with the types of its calls."""
    library = ctypes.CDLL(os.environ.get("NAMBROIT_LIBRARY") or str(Path(__file__).with_name("libcsn.so")))
    u32, size, chars = ctypes.c_uint32, ctypes.c_size_t, ctypes.c_char_p
    rule, number, room = ctypes.POINTER(_Rule), ctypes.POINTER(size), ctypes.c_void_p
    stream = ctypes.POINTER(_Stream)
    calls = {
        "csn_version": [],
        "csn_compile": [chars, size, chars, size, u32, rule, ctypes.POINTER(_Why)],
        "csn_free": [rule],
        "csn_judge": [rule, chars, size, u32, number],
        "csn_tell": [rule, chars, size, u32, room, size, number, number],
        "csn_show": [rule, chars, size, u32, u32, room, size, number],
        "csn_write": [rule, chars, size, u32, room, size, number],
        "csn_misfit": [rule, chars, size, u32, room, size, number, number],
        "csn_nodes": [rule],
        "csn_label": [rule, u32, room, size, number],
        "csn_stream_open": [rule, stream],
        "csn_stream_begin": [stream],
        "csn_stream_push": [stream, chars, size, u32, number],
        "csn_stream_end": [stream, number],
        "csn_stream_free": [stream],
    }
    for name, arguments in calls.items():
        call = getattr(library, name)
        call.argtypes, call.restype = arguments, None if name.endswith("_free") else u32
    if library.csn_version() != VERSION:
        raise ImportError(f"libcsn.so is of version {library.csn_version()}, and this module of version {VERSION}")
    return library


_library = _load()


def _event(it: _Event) -> Event:
    value = it.value if it.bits <= 64 else None
    return Event(it.node, KINDS[it.kind], ROLES[it.role], it.number, it.place, it.bits, value)


def _bytes_of(text: str | bytes) -> bytes:
    return text.encode() if isinstance(text, str) else bytes(text)


class Description:
    """A rule of a description, compiled in a reading. Several threads may use it: one call waits for another."""

    def __init__(self, text: str | bytes, name: str | bytes, reading: str = "received"):
        self._lock = threading.Lock()
        self._rule = _Rule()
        self._number = ctypes.c_size_t()
        self._room = ctypes.create_string_buffer(4096)
        self._told, self._labels = (_Event * 256)(), {}
        given, asked, why = _bytes_of(text), _bytes_of(name), _Why()
        status = _library.csn_compile(given, len(given), asked, len(asked), READINGS[reading], self._rule, why)
        if status == SYNTAX:
            raise SyntaxRefused(why.place)
        if status == DESCRIPTION:
            raise RuleRefused(why.number, why.place)
        if status == CONFLICT:
            raise Conflict(why.number, why.place)
        _raise_other(status)
        self._labels = self.labels()

    def __del__(self):
        if hasattr(self, "_rule"):
            _library.csn_free(self._rule)

    def judge(self, octets: bytes, bits: int | None = None) -> None:
        """Refuses a block that has no tree, by a `Refused`."""
        octets, bits = bytes(octets), 8 * len(octets) if bits is None else bits
        with self._lock:
            status = _library.csn_judge(self._rule, octets, len(octets), bits, self._number)
            self._raise_block(status, bits)

    def events(self, octets: bytes, bits: int | None = None) -> list[Event]:
        """The events of a block in the order of its bits; a `Refused` with those before its place where it has no tree."""
        octets, bits = bytes(octets), 8 * len(octets) if bits is None else bits
        with self._lock:
            status, count = self._tell(octets, bits)
            if status in (OK, REFUSED) and count > len(self._told):
                self._told = (_Event * count)()
                status, count = self._tell(octets, bits)
            found = [_event(it) for it in self._told[:count]] if status in (OK, REFUSED) else []
            if status == REFUSED:
                raise Refused(self._number.value, self._number.value == bits, found)
            _raise_other(status)
            return found

    def fields(self, octets: bytes, bits: int | None = None) -> list[Field]:
        """The leaves of a block in the order of its bits; a `Refused` where it has no tree."""
        return [Field(it.node, it.kind, it.place, it.bits, it.value, self._labels.get(it.node - 1))
                for it in self.events(octets, bits) if it.kind not in ("begin", "end")]

    def _tell(self, octets: bytes, bits: int) -> tuple[int, int]:
        count = ctypes.c_size_t()
        status = _library.csn_tell(self._rule, octets, len(octets), bits, self._told, len(self._told), count, self._number)
        return status, count.value

    def show(self, octets: bytes, bits: int | None = None, form: str = "text") -> str:
        """The tree of a block as text or as JSON; a `Refused` where it has none."""
        octets, bits = bytes(octets), 8 * len(octets) if bits is None else bits

        def call(room, length):
            return _library.csn_show(self._rule, octets, len(octets), bits, FORMS[form], room, length, self._number)

        with self._lock:
            status = self._with_room(call, lambda number: number)
            self._raise_block(status, bits)
            return self._room.raw[:self._number.value].decode("ascii")

    def tree(self, octets: bytes, bits: int | None = None) -> object:
        """The tree of a block as the lists and dictionaries that its JSON writes."""
        return json.loads(self.show(octets, bits, "json"))

    def write(self, tree: str | bytes, form: str = "text") -> Block:
        """The block of a tree, from its text or its JSON."""
        given = _bytes_of(tree)

        def call(room, length):
            return _library.csn_write(self._rule, given, len(given), FORMS[form], room, length, self._number)

        with self._lock:
            status = self._with_room(call, lambda number: (number + 7) // 8)
            number = self._number.value
            if status == NO_BLOCK:
                raise NoBlock(MISFITS[number], self._misfit(given, form))
            if status == NO_TEXT:
                raise NoTree(number)
            if status in (NO_JSON, NO_TREE):
                raise NoTree(None, status == NO_TREE)
            _raise_other(status)
            return Block(self._room.raw[:(number + 7) // 8], number)

    def _misfit(self, given: bytes, form: str) -> tuple[int, ...]:
        """The path of the first misfit of a tree that has no block. It has at most 64 steps."""
        path, count = (ctypes.c_uint32 * 64)(), ctypes.c_size_t()
        _raise_other(_library.csn_misfit(self._rule, given, len(given), FORMS[form], path, 64, count, self._number), NO_BLOCK)
        return tuple(path[:count.value])

    def labels(self) -> dict[int, str]:
        """The labels of the nodes that have one, by their numbers."""
        found = {}
        with self._lock:
            for node in range(_library.csn_nodes(self._rule)):
                def call(room, length, node=node):
                    return _library.csn_label(self._rule, node, room, length, self._number)

                if self._with_room(call, lambda number: number) == OK:
                    found[node] = self._room.raw[:self._number.value].decode("ascii")
        return found

    def _with_room(self, call, octets_in) -> int:
        """Makes a call, and once more where the room was too small for what it gives."""
        status = call(self._room, len(self._room))
        needed = octets_in(self._number.value)
        if status == OK and needed > len(self._room):
            self._room = ctypes.create_string_buffer(needed)
            status = call(self._room, len(self._room))
        return status

    def _raise_block(self, status: int, bits: int) -> None:
        if status == REFUSED:
            raise Refused(self._number.value, self._number.value == bits)
        _raise_other(status)


class Stream:
    """Judges blocks of a rule that come in pieces: `push` and `end` refuse a block by a `Refused`, and after `end` the next one
    begins. Several threads may use it: one call waits for another."""

    def __init__(self, text: str | bytes, name: str | bytes, reading: str = "received"):
        self._lock, self._stream, self._number, self._bits = threading.Lock(), _Stream(), ctypes.c_size_t(), 0
        rule = Description(text, name, reading)
        _raise_other(_library.csn_stream_open(rule._rule, self._stream))

    def __del__(self):
        if hasattr(self, "_stream"):
            _library.csn_stream_free(self._stream)

    def push(self, octets: bytes, bits: int | None = None) -> None:
        """The next bits of the block: the first `bits` of the octets."""
        octets, bits = bytes(octets), 8 * len(octets) if bits is None else bits
        with self._lock:
            status = _library.csn_stream_push(self._stream, octets, len(octets), bits, self._number)
            if status in (OK, REFUSED):
                self._bits += bits
            if status == REFUSED:
                raise Refused(self._number.value, False)
            _raise_other(status)

    def end(self) -> None:
        """The block has ended."""
        with self._lock:
            status = _library.csn_stream_end(self._stream, self._number)
            bits, self._bits = self._bits, 0
            if status == REFUSED:
                raise Refused(self._number.value, self._number.value == bits)
            _raise_other(status)


def _raise_other(status: int, fine: int = OK) -> None:
    if status == NO_MEMORY:
        raise MemoryError
    if status == TOO_LONG:
        raise TooLong
    if status == BAD_ARGUMENT:
        raise ValueError("no block: it has fewer bits, or more than 524,288 are asked for")
    if status != fine:
        raise Fault(f"status {status}")
