"""The seat of a group, for Python: one class over libderecho_c.so, by ctypes.

    seat = Seat(Library(path), plan, card, log)
    for due in seat.due(): ..       write, sync or send it, then seat.did(due)
    seat.came(packet), seat.tick(), seat.standing(), seat.entry(number)

What a host owes is in derecho.h. A seat has a lock, since ctypes lets other threads run during a call.
"""
import ctypes
import threading
from collections import namedtuple
from ctypes import byref, c_size_t, c_uint32, c_uint64, sizeof

OK, OLD, CLOSED, OPEN, NOT_DUE, ROOM = range(6)
GROWTH, NO_QUORUM, ENDED, VERSION = 24, 25, 26, 27
WAIT, WRITE, SYNC, SEND, END = range(5)
GATHERS, TRIES, RUNS, HAS_ENDED, BROKEN = range(5)
CARD, NEW_LOG, MESSAGE, WRITES = 65, 10, 64, 1 << 16

Write = namedtuple("Write", "number at bytes")
Sync = namedtuple("Sync", "number")
Send = namedtuple("Send", "number to packet")
End = namedtuple("End", "number end detail")
View = namedtuple("View", "age number members")
Message = namedtuple("Message", "sender index bytes")
ENDS = ("done", "crashed", "suspected", "excluded", "no majority", "disk fault", "log full", "spent", "absent")


class Refused(Exception):
    """An answer that is neither done nor old: the call, and the answer's number."""


def _fields(narrow, wide=""):
    """Fields of 32 bits, then of 64 bits."""
    return [(name, c_uint32) for name in narrow.split()] + [(name, c_uint64) for name in wide.split()]


class _Due(ctypes.Structure):
    _fields_ = _fields("kind to", "number at length") + _fields("end spare", "detail")


class Standing(ctypes.Structure):
    _fields_ = _fields("stage me age members turns why", "entries logged durable first second third")


class _Item(ctypes.Structure):
    _fields_ = _fields("kind number index age members length")


class _Needs(ctypes.Structure):
    _fields_ = _fields("members window", "packet write log card fresh")


def _in(data):
    """Bytes, as a pointer that is never null, and a length."""
    return ctypes.c_char_p(bytes(data) + b"\0"), c_size_t(len(data))


def _out(size):
    """Room for bytes, and its length."""
    return ctypes.create_string_buffer(size), c_size_t(size)


def _sized(struct):
    return byref(struct), c_size_t(sizeof(struct))


def _done(call, code, wanted=(OK,)):
    if code not in wanted:
        raise Refused(call, code)
    return code


class Library:
    """The library in a file."""

    def __init__(self, path):
        self.of = ctypes.CDLL(path)
        if self.of.dr_version() != 1:
            raise Refused("dr_version", VERSION)

    def need(self, plan):
        needs = _Needs()
        _done("dr_need", self.of.dr_need(*_in(plan), *_sized(needs)))
        return needs

    def fresh(self, plan, group, me):
        """The card and the log of a member that never was."""
        card, log = _out(CARD), _out(NEW_LOG)
        _done("dr_fresh", self.of.dr_fresh(*_in(plan), *_in(group), c_uint32(me), *card, *log))
        return card[0].raw, log[0].raw


class Seat:
    """One member of a group."""

    def __init__(self, library, plan, card, log):
        self.of, self.lock, self.handle, self.room = library.of, threading.Lock(), ctypes.c_void_p(), _out(WRITES)
        self._call("dr_open", *_in(plan), *_in(card), *_in(log))

    def _call(self, name, *words, wanted=(OK,)):
        with self.lock:
            return _done(name, getattr(self.of, name)(byref(self.handle), *words), wanted)

    def next(self):
        """What is due, or None."""
        due = _Due()
        while self._call("dr_next", *_sized(due), *self.room, wanted=(OK, ROOM)) == ROOM:
            self.room = _out(due.length)
        said = self.room[0].raw[: due.length]
        return {WAIT: lambda: None, WRITE: lambda: Write(due.number, due.at, said), SYNC: lambda: Sync(due.number),
                SEND: lambda: Send(due.number, due.to, said),
                END: lambda: End(due.number, ENDS[due.end], due.detail)}[due.kind]()

    def due(self):
        """What is due, one after the other; each is to be answered before the next."""
        while (due := self.next()) is not None:
            yield due

    def did(self, due):
        self._call("dr_did", c_uint64(due.number))

    def failed(self, due):
        self._call("dr_failed", c_uint64(due.number), c_uint32(0), c_uint64(0))

    def came(self, packet):
        """Takes a packet; answers whether it is news, or raises why it was refused."""
        return self._call("dr_came", *_in(packet), wanted=(OK, OLD)) == OK

    def tick(self):
        return self._call("dr_tick", wanted=(OK, NOT_DUE)) == OK

    def again(self, to):
        self._call("dr_again", c_uint32(to))

    def without(self, missing):
        return self._call("dr_without", c_uint32(missing), wanted=(OK, NO_QUORUM)) == OK

    def standing(self):
        into = Standing()
        self._call("dr_standing", *_sized(into))
        return into

    def entry(self, number):
        item, text = _Item(), _out(MESSAGE)
        self._call("dr_entry", c_uint64(number), *_sized(item), *text)
        message = Message(item.number, item.index, text[0].raw[: item.length])
        return message if item.kind == 1 else View(item.age, item.number, item.members)

    def close(self):
        self._call("dr_close", wanted=(OK, CLOSED))
