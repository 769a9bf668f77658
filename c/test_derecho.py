#!/usr/bin/env python3
"""Tries derecho.py: test_derecho.py LIBRARY. A member alone delivers what its plan has; what is wrong is refused."""
import sys

import derecho

PLAN = b"""{"members": 1, "window": 2, "turns": 100, "patience": 0, "ages": 1, "messages": [["x", "yy"]],
"faults": [], "schedule": 7}"""
GROUP = b"0123456789abcdef"


def want_refused(code, call, *words):
    try:
        call(*words)
    except derecho.Refused as refused:
        assert refused.args[1] == code, refused
    else:
        raise AssertionError(f"{call} isn't refused")


def run_alone(library, card, log):
    seat = derecho.Seat(library, PLAN, card, bytes(log))
    want_refused(18, seat.came, b"")
    want_refused(9, seat.again, 16)
    assert not seat.without(1)
    for _ in range(20):
        for due in seat.due():
            if isinstance(due, derecho.Write):
                log[due.at : due.at + len(due.bytes)] = due.bytes
            seat.did(due)
        seat.tick()
    standing = seat.standing()
    entries = [seat.entry(k) for k in range(standing.entries)]
    seat.close()
    want_refused(derecho.CLOSED, seat.tick)
    return standing, entries


def main():
    library = derecho.Library(sys.argv[1])
    assert library.need(PLAN).members == 1
    want_refused(7, library.need, b"{")
    card, log = library.fresh(PLAN, GROUP, 0)
    standing, entries = run_alone(library, card, bytearray(log))
    assert (standing.stage, standing.durable) == (derecho.HAS_ENDED, 3)
    assert entries == [derecho.View(0, 0, 1), derecho.Message(0, 0, b"x"), derecho.Message(0, 1, b"yy")]
    print("as wanted")


if __name__ == "__main__":
    main()
