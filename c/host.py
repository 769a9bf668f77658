#!/usr/bin/env python3
"""A member of a group in a process of its own, over UDP, with its log in a file:

    host.py LIBRARY run PLAN FOLDER ME PORT [PAUSE [PATIENCE [BAD]]]

The numbers and what it prints are those of host.c.
"""
import fcntl
import os
import random
import signal
import socket
import sys
import time

sys.path.insert(0, os.path.dirname(os.path.abspath(__file__)))
import derecho


def main():
    library, command, plan_at, folder, me, port, *rest = sys.argv[1:]
    pause, patience, bad = ([*map(float, rest)] + [1000, 500, 0][len(rest):])[:3]
    me, port, stopped = int(me), int(port), []
    with open(plan_at, "rb") as file:
        plan = file.read()
    of = derecho.Library(library)
    members = of.need(plan).members
    with open(f"{folder}/member-{me}.card", "rb") as file:
        card = file.read()
    log = os.open(f"{folder}/member-{me}.log", os.O_RDWR)
    fcntl.flock(log, fcntl.LOCK_EX | fcntl.LOCK_NB)
    seat = derecho.Seat(of, plan, card, os.pread(log, 1 << 30, 0))
    line = socket.socket(socket.AF_INET, socket.SOCK_DGRAM)
    line.bind(("127.0.0.1", port + me))
    signal.signal(signal.SIGTERM, lambda *_: stopped.append(1))
    printed, ended, since, told, heard = 0, None, time.monotonic(), False, {}
    stands, turn, more = None, time.monotonic(), 1
    while not stopped:
        for due in seat.due():
            if isinstance(due, derecho.Write):
                os.pwrite(log, due.bytes, due.at)
            elif isinstance(due, derecho.Sync):
                os.fdatasync(log)
            elif isinstance(due, derecho.Send):
                for _ in range(1 if random.random() * 100 >= bad else random.choice((0, 2))):
                    line.sendto(due.packet, ("127.0.0.1", port + due.to))
            else:
                ended, told = due.end, False
                print(f"member {me}: {due.end} {due.detail}", file=sys.stderr)
            seat.did(due)
        standing = seat.standing()
        while printed < standing.durable:
            entry = seat.entry(printed)
            if isinstance(entry, derecho.View):
                print(f"view {entry.age} {entry.number} {entry.members:x}")
            else:
                print(f"msg {entry.sender} {entry.index} {entry.bytes.hex()}")
            printed += 1
        is_over = ended == "done" and standing.stage == derecho.HAS_ENDED
        if is_over and not told and standing.durable == standing.entries:
            print(f"all {standing.entries}")
            told = True
        sys.stdout.flush()
        line.settimeout(max(0.0001, turn - time.monotonic()))
        try:
            packet, (_, by) = line.recvfrom(2000)
            heard[by - port] = time.monotonic()
            seat.came(packet)
        except (TimeoutError, ConnectionRefusedError, BlockingIOError):
            pass
        except derecho.Refused as refused:
            if refused.args[1] == derecho.GROWTH:
                sys.exit(4)
        if time.monotonic() < turn:
            continue
        seat.tick()
        turn = time.monotonic() + pause / 1e6
        here = (standing.stage, standing.age)
        is_out = standing.stage == derecho.HAS_ENDED and ended not in (None, "done")
        waits = is_out or standing.stage in (derecho.GATHERS, derecho.TRIES)
        if here != stands:
            stands, since = here, time.monotonic()
        elif standing.stage == derecho.RUNS:
            more = 1 if time.monotonic() - since > 8 * patience / 1e3 else more
        elif waits and time.monotonic() - since > more * patience / 1e3 * (1 + random.random()):
            more = min(2 * more, 32)
            gone = [k for k in range(members) if k != me and heard.get(k, 0) < time.monotonic() - patience / 1e3]
            if not seat.without(sum(1 << k for k in gone)):
                seat.without(0)
            since, ended = time.monotonic(), None
    seat.close()


if __name__ == "__main__":
    main()
