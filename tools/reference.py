#!/usr/bin/env python3
"""A second `derecho sim`, plain and slow, written apart from the crates:

    tools/reference.py sim [--logs FOLDER [--missing L]] [--late L] < SCRIPT

prints the report of a script that keeps the rules, ends with its status, and leaves in FOLDER the logs that derecho
leaves there, byte for byte. A log that can't be opened is a fault of its disk; it knows no other fault of a disk, no
full log and no want of memory. `tools/compare-runs` holds derecho against it, and so does `tools/missing-runs`.
"""
import json
import os
import sys

USAGE = "usage: derecho (sim|run) [--logs FOLDER]"
BEAT, SUSPECTED, RECEIVED, LOGGED, DONE = range(5)
NULL = 2**32 - 1
VALUE = 2**48 - 1
MAGICS = [b"DERLOG01", b"DERLOG02"]


def numbers_of(mask):
    """The numbers of the members of a mask."""
    return [number for number in range(16) if mask >> number & 1]


def listed(mask):
    return ",".join(map(str, numbers_of(mask)))


def is_majority(mask, members):
    return 2 * mask.bit_count() > members.bit_count()


# Entries are ("view", age, number, members) and ("msg", sender, index, bytes); the other records ("vote", age, view,
# ballot, roster, leavers, trims), ("age vote", age, members), ("cut", keep) and ("upgrade",).


def encoded(record):
    """The bytes of a record."""
    kind, *fields = record
    if kind == "view":
        age, number, members = fields
        return b"\1" + age.to_bytes(2, "big") + bytes([number]) + members.to_bytes(2, "big")
    if kind == "msg":
        sender, index, text = fields
        return b"\2" + bytes([sender]) + index.to_bytes(4, "big") + bytes([len(text)]) + text
    if kind == "vote":
        age, view, ballot, roster, leavers, trims = fields
        counts = b"".join(trim.to_bytes(4, "big") for trim in trims[:roster])
        head = b"\3" + age.to_bytes(2, "big") + bytes([view, ballot]) + leavers.to_bytes(2, "big")
        return head + bytes([roster]) + counts
    if kind == "age vote":
        return b"\4" + fields[0].to_bytes(2, "big") + fields[1].to_bytes(2, "big")
    if kind == "cut":
        return b"\5" + fields[0].to_bytes(4, "big")
    return b"\6"


def decoded(data, at):
    """The record that begins at a place, and how many bytes it has; nothing where no valid one does."""

    def number(place, length):
        return int.from_bytes(data[at + place:at + place + length], "big")

    kind, record, length = number(0, 1), None, 1
    if kind == 1:
        record, length = ("view", number(1, 2), number(3, 1), number(4, 2)), 6
        valid = record[3] != 0
    elif kind == 2:
        length = 7 + number(6, 1)
        record = ("msg", number(1, 1), number(2, 4), bytes(data[at + 7:at + length]))
        valid = record[1] <= 15 and length <= 71
    elif kind == 3:
        roster = number(7, 1)
        length = 8 + 4 * roster
        trims = [number(8 + 4 * place, 4) for place in range(roster)]
        record = ("vote", number(1, 2), number(3, 1), number(4, 1), roster, number(5, 2), trims + [0] * (16 - roster))
        valid = 1 <= roster <= 16 and record[3] < roster and record[5] < 2**roster
    elif kind == 4:
        record, length = ("age vote", number(1, 2), number(3, 2)), 5
        valid = record[2] != 0
    elif kind == 5:
        record, length, valid = ("cut", number(1, 4)), 5, True
    else:
        record, valid = ("upgrade",), kind == 6 and at < len(data)
    return (record, length) if valid and at + length <= len(data) else None


class Stopped(Exception):
    """The run was killed before its next change of a file."""


class Refused(Exception):
    """The last line of a run that an opening ended, and the status that goes with it."""

    def __init__(self, status, line):
        super().__init__(line)
        self.status, self.line = status, line


class Folder:
    """Files of logs by the numbers of members. After so many changes the run stops, where a number is given."""

    def __init__(self, files, changes=None):
        self.files, self.changes, self.seen = dict(files), changes, 0

    def change(self):
        if self.changes is not None and self.seen == self.changes:
            raise Stopped
        self.seen += 1

    def lend(self, member):
        if member not in self.files:
            self.files[member] = b""
        if self.files[member] is None:
            raise Refused(6, f"fault: disk of member {member}")

    def cut(self, member):
        if self.files[member]:
            self.change()
            self.files[member] = b""

    def write(self, member, at, data):
        self.change()
        old = self.files[member]
        self.files[member] = old[:at] + data + old[at + len(data):]


class Log:
    """A log: its file, what is on it, and where its closed gate stands."""

    def __init__(self, folder, member):
        self.folder, self.member = folder, member
        self.entries, self.votes, self.age_votes, self.gate = [], [], [], 8
        folder.lend(member)
        if len(folder.files[member]) <= 9:
            folder.cut(member)
            folder.write(member, 0, MAGICS[1])
            folder.write(member, 8, b"\0")
        self.read(folder.files[member])

    def damaged(self, at):
        return Refused(7, f"refused: damaged log of member {self.member} at {at}")

    def read(self, data):
        if data[:8] not in MAGICS:
            raise self.damaged(0)
        self.newer, self.upgraded = data[:8] == MAGICS[1], False
        while data[self.gate] == 1:
            found = decoded(data, self.gate + 1)
            if not found or not self.is_placed(found[0]):
                raise self.damaged(self.gate)
            self.keep(found[0])
            self.gate += 1 + found[1]
            if self.gate >= len(data):
                raise self.damaged(self.gate)

    def is_placed(self, record):
        if record[0] in ("age vote", "cut") and not self.newer:
            return False
        if record[0] == "upgrade":
            return not self.newer
        return record[0] != "cut" or record[1] <= len(self.entries)

    def keep(self, record):
        if record[0] in ("view", "msg"):
            self.entries.append(record)
        elif record[0] == "vote":
            self.votes.append(record)
        elif record[0] == "age vote":
            self.age_votes.append(record)
        elif record[0] == "cut":
            del self.entries[record[1]:]
        else:
            self.newer = True

    def append(self, *records):
        """Appends records, all at once: behind each but the last stands an open gate."""
        at = self.gate
        for record in records:
            last = record is records[-1]
            data = encoded(record) + (b"\0" if last else b"\1")
            self.folder.write(self.member, at + 1, data)
            at += len(data)
        self.folder.write(self.member, self.gate, b"\1")
        self.gate = at
        for record in records:
            self.keep(record)

    def vote_age(self, age, members):
        if not self.newer:
            self.append(("upgrade",))
        self.append(("age vote", age, members))

    def raise_to(self, age, members, start):
        """Cuts the log back to what it and a start have in common, and brings it up to the start and View 0."""
        if self.entries != start[:len(self.entries)]:
            same = (one == other for one, other in zip(self.entries, start))
            self.append(("cut", next((at for at, equal in enumerate(same) if not equal), len(start))))
        self.append(*start[len(self.entries):], ("view", age, 0, members))


def last_view(entries):
    return next((entry for entry in reversed(entries) if entry[0] == "view"), None)


def may_stand(script, before, entry):
    """Whether an entry may stand behind these."""
    view = last_view(before)
    if entry[0] == "view":
        _, age, number, members = entry
        if members == 0 or members >> len(script["messages"]):
            return False
        if number == 0:
            return view is None or view[1] < age
        return view is not None and (age, number) == (view[1], view[2] + 1) and members != view[3]
    _, sender, index, text = entry
    if view is None or not view[3] >> sender & 1:
        return False
    texts = script["messages"][sender]
    own = sum(1 for other in before if other[0] == "msg" and other[1] == sender)
    return index == own and index < len(texts) and texts[index].encode() == text


def check_entries(script, logs):
    for member, log in logs.items():
        for place, entry in enumerate(log.entries):
            if not may_stand(script, log.entries[:place], entry):
                raise Refused(7, f"refused: foreign log of member {member} at entry {place}")


def check_quorum(logs, members, name):
    have, need = sum(1 for member in numbers_of(members) if member in logs), members.bit_count() // 2 + 1
    if have < need:
        raise Refused(7, f"refused: quorum of {name} has {have} of {need}")


def check_along(holders):
    for b in holders:
        for a in holders:
            pairs = zip(holders[a].entries, holders[b].entries)
            place = next((at for at, (one, other) in enumerate(pairs) if one != other), None)
            if a < b and place is not None:
                raise Refused(7, f"refused: logs of members {a} and {b} disagree at entry {place}")


def next_members(logs, roster, age, view, members):
    """The members of the view behind one, where a vote on a log of its members names it: who leaves isn't one, and who
    comes is."""
    best = None
    for member in numbers_of(members):
        for vote in logs[member].votes if member in logs else []:
            names = vote[1] == age and vote[2] == view and vote[4] == roster and vote[5] and members != vote[5]
            if names and (best is None or best[3] < vote[3]):
                best = vote
    return members ^ best[5] if best else None


def check_path(logs, roster, age, members):
    for view in range(256):
        check_quorum(logs, members, f"view {view}")
        members = next_members(logs, roster, age, view, members)
        if members is None:
            return


def choose(script, logs):
    """The number of the next age, and the entries that it starts with, by the logs that are there."""
    roster = len(script["messages"])
    check_entries(script, logs)
    check_quorum(logs, 2**roster - 1, "roster")
    views = [view for view in (last_view(log.entries) for log in logs.values()) if view]
    start = []
    if views:
        last = max(view[1] for view in views)
        holders = {member: log for member, log in logs.items() if (last_view(log.entries) or (0, -1))[1] == last}
        check_along(holders)
        start = list(max((log.entries for log in holders.values()), key=len))
        first = next(entry for entry in start if entry[:3] == ("view", last, 0))
        check_path(logs, roster, last, first[3])
    ages = [record[1] for log in logs.values() for record in log.entries + log.votes + log.age_votes
            if record[0] != "msg"]
    if ages and max(ages) == 65535:
        raise Refused(7, "refused: ages used up")
    return max(ages, default=-1) + 1, start


class Member:
    """A member of an age. `deeds` are what it does; each is answered by what the deed has given."""

    def __init__(self, script, nth, me, age, members, late, start):
        self.roster, self.window, self.me, self.age = len(script["messages"]), script["window"], me, age
        self.late = late
        self.columns = 6 + 2 * self.roster + 17 * self.window
        self.messages = [text.encode() for text in script["messages"][me]]
        self.totals = [len(texts) for texts in script["messages"]]
        self.most_turns, self.patience = script["turns"], script["patience"]
        own = [fault for fault in script["faults"] if fault["age"] == nth and fault["member"] == me]
        self.crashes = [fault["crash"] for fault in own if "crash" in fault]
        self.suspicions = [fault["suspect"] for fault in own if "suspect" in fault]
        self.history = start + [("view", age, 0, members)]
        self.logged = self.durable = len(self.history)
        self.turns = self.acts = 0
        self.end = None
        self.enter(0, members)

    def enter(self, view, members):
        """Begins in a view, in which nothing was sent, seen or suspected."""
        self.view, self.members = view, members
        self.others = [other for other in numbers_of(members) if other != self.me]
        self.suspects, self.promise, self.tag, self.value, self.committed = 0, 0, 0, (0, [0] * 16), None
        self.own = [0] * self.columns
        self.own[LOGGED] = self.logged if self.is_inside() else 0
        self.seen = {other: [0] * self.columns for other in self.others}
        self.pushed = {other: [0] * self.columns for other in self.others}
        self.waited, self.beats = dict.fromkeys(self.others, 0), dict.fromkeys(self.others, 0)
        self.items = {sender: [] for sender in numbers_of(members)}
        self.first = {sender: self.messages_of(sender) for sender in numbers_of(members)}
        self.place, self.queued = 0, self.messages_of(self.me)

    def messages_of(self, sender):
        return sum(1 for entry in self.history if entry[0] == "msg" and entry[1] == sender)

    def is_inside(self):
        """Whether it is in its view: a late member is so once it has joined."""
        return self.members >> self.me & 1

    def row(self, member):
        return self.own if member == self.me else self.seen[member]

    def trusted(self):
        """The members of the view that this one doesn't suspect."""
        return self.members & ~self.suspects

    def is_alone(self):
        return not is_majority(self.trusted(), self.members)

    def accept_columns(self):
        return [5 + self.roster] + [6 + self.roster + sender for sender in numbers_of(self.members)]

    def ring(self, item):
        return 6 + 2 * self.roster + 17 * (item % self.window)

    def deeds(self):
        parts = [self.look, self.judge, self.receive, self.send, self.fill, self.deliver_ready, self.persist,
                 self.report, self.mark_done, self.propose, self.accept, self.commit, self.push, self.end_turn]
        while True:
            yield from self.act("beat")
            self.turns += 1
            for part in parts if self.is_inside() else [self.take, self.crash_here, self.spend]:
                yield from part()
                if self.end is not None:
                    return

    def take(self):
        """Goes on from its letter, where there is one."""
        letter = yield ("take",)
        if letter:
            self.history = list(letter)
            self.enter(*last_view(letter)[2:])

    def act(self, kind="act"):
        yield (kind,)
        self.acts += 1
        self.own[BEAT] = self.acts

    def ends(self, end):
        yield from self.act()
        self.end = end

    def look(self):
        looked = [other for other in self.others if not self.suspects >> other & 1]
        for other in looked:
            for column in range(self.columns):
                self.seen[other][column] = yield ("look", self.view, other, column)
        for other in looked:
            beat = self.seen[other][BEAT]
            self.waited[other] = 0 if beat != self.beats[other] else self.waited[other] + 1
            self.beats[other] = beat

    def judge(self):
        trusted = [other for other in self.others if not self.suspects >> other & 1]
        by = next((other for other in trusted if self.seen[other][SUSPECTED] >> self.me & 1), None)
        if by is not None:
            yield from self.ends(f"suspected {by}")
            return
        for turn, other in self.suspicions:
            if turn == self.turns and self.namable() >> other & 1:
                yield from self.suspect(other)
        while (named := self.named_by_others()) is not None:
            yield from self.suspect(named)
        while (late := self.overdue()) is not None:
            yield from self.suspect(late)
        if self.suspects and self.is_alone():
            yield from self.ends(f"nomajority {listed(self.trusted())}")

    def namable(self):
        """Whom it may suspect or wish for: other members of its view, and late ones that no View of its age names."""
        were = 0
        for entry in self.history:
            if entry[:2] == ("view", self.age):
                were |= entry[3]
        return (self.members & ~(1 << self.me) | self.late & ~were) & ~self.suspects

    def named_by_others(self):
        for other in self.others:
            if not self.suspects >> other & 1:
                named = self.seen[other][SUSPECTED] & self.namable()
                if named:
                    return numbers_of(named)[0]
        return None

    def overdue(self):
        for other in self.others:
            if self.patience and not self.suspects >> other & 1:
                if self.waited[other] >= self.patience and self.seen[other][DONE] == 0:
                    return other
        return None

    def suspect(self, other):
        yield from self.act()
        self.suspects |= 1 << other
        self.own[SUSPECTED] = self.suspects
        for sender in numbers_of(self.members):
            self.own[5 + sender] |= 1
        self.promise = numbers_of(self.trusted())[0]
        self.show_value()

    def show_value(self):
        head = self.promise << 56 | self.tag << 48
        self.own[5 + self.roster] = head | self.value[0]
        for sender in numbers_of(self.members):
            self.own[6 + self.roster + sender] = head | self.value[1][sender]

    def count_item(self, sender, item):
        """Takes an item of a sender, and shows how many of it there are."""
        self.items[sender].append(item)
        self.own[5 + sender] = 2 * len(self.items[sender])
        members, place = numbers_of(self.members), 0
        while place // len(members) < len(self.items[members[place % len(members)]]):
            place += 1
        self.own[RECEIVED] = place

    def receive(self):
        for sender in self.others if not self.suspects else []:
            while (item := self.ready(sender)) is not None:
                yield from self.act()
                self.count_item(sender, item)

    def ready(self, sender):
        """The next item of a sender, where it is there: a message, or "null"."""
        item, row = len(self.items[sender]), self.seen[sender]
        head = self.ring(item)
        length = row[head] & NULL
        if row[head] >> 32 != item + 1 or length > 64 and length != NULL:
            return None
        if length == NULL:
            return "null"
        words = row[head + 1:head + 1 + (length + 3) // 4]
        if any(word >> 32 != item + 1 for word in words):
            return None
        return b"".join((word & NULL).to_bytes(4, "big") for word in words)[:length]

    def is_free(self):
        """Whether there is a slot for the next item."""
        over = len(self.items[self.me]) - self.window
        return all(self.seen[other][5 + self.me] >> 1 > over for other in self.others) or over < 0

    def put(self, item):
        yield from self.act()
        number = len(self.items[self.me])
        head, tag = self.ring(number), (number + 1) << 32
        self.own[head] = tag | (NULL if item == "null" else len(item))
        for at in range(0, 0 if item == "null" else len(item), 4):
            self.own[head + 1 + at // 4] = tag | int.from_bytes(item[at:at + 4].ljust(4, b"\0"), "big")
        self.count_item(self.me, item)

    def send(self):
        while not self.suspects and self.queued < len(self.messages) and self.is_free():
            yield from self.put(self.messages[self.queued])
            self.queued += 1

    def fill(self):
        while not self.suspects and self.queued >= len(self.messages) and self.is_free() and self.is_behind():
            yield from self.put("null")

    def is_behind(self):
        return any(len(items) > len(self.items[self.me]) for items in self.items.values())

    def deliver_ready(self):
        while not self.suspects and all(self.row(member)[RECEIVED] > self.place for member in self.items):
            yield from self.act()
            self.deliver()

    def deliver(self):
        members = numbers_of(self.members)
        number, sender = self.place // len(members), members[self.place % len(members)]
        items = self.items[sender]
        if items[number] != "null":
            index = self.first[sender] + sum(1 for item in items[:number] if item != "null")
            self.history.append(("msg", sender, index, items[number]))
        self.place += 1

    def persist(self):
        while self.logged < len(self.history):
            yield ("append", self.history[self.logged])
            self.logged += 1
            yield from self.act()
            self.own[LOGGED] = self.logged

    def report(self):
        least = min(self.row(member)[LOGGED] for member in self.items)
        if least > self.durable:
            yield from self.act()
            self.durable = least

    def mark_done(self):
        whole = all(self.messages_of(member) == self.totals[member] for member in self.items)
        if not self.suspects and not self.own[DONE] and whole and self.durable == len(self.history):
            yield from self.act()
            self.own[DONE] = 1

    def vote(self, ballot, value):
        """Logs a vote, and shows it."""
        yield ("append", ("vote", self.age, self.view, ballot, self.roster, value[0], value[1]))
        yield from self.act()
        self.tag, self.value = ballot + 1, value
        self.show_value()

    def tag_of(self, member):
        return self.row(member)[5 + self.roster] >> 48 & 255

    def value_of(self, member):
        row, trims = self.row(member), [0] * 16
        for sender in numbers_of(self.members):
            trims[sender] = row[6 + self.roster + sender] & VALUE
        return row[5 + self.roster] & VALUE, trims

    def may_propose(self):
        if self.tag == self.me + 1 or self.committed or self.promise != self.me or self.is_alone():
            return False
        rows = [self.row(member) for member in numbers_of(self.trusted())]
        final = all(row[5 + sender] & 1 for row in rows for sender in self.items)
        return final and all(row[column] >> 56 == self.me for row in rows for column in self.accept_columns())

    def proposal(self):
        trusted = numbers_of(self.trusted())
        highest = max(trusted, key=lambda member: (self.tag_of(member), -member))
        if self.tag_of(highest):
            return self.value_of(highest)
        least = [min(self.row(member)[5 + sender] >> 1 for member in trusted) if sender in self.items else 0
                 for sender in range(16)]
        return self.suspects, least

    def propose(self):
        if self.suspects and self.logged == len(self.history) and self.may_propose():
            yield from self.vote(self.me, self.proposal())

    def accept(self):
        ballot = self.promise
        if not self.suspects or self.committed or self.tag == ballot + 1 or self.logged < len(self.history):
            return
        if ballot != self.me and not self.suspects >> ballot & 1:
            if all(self.row(ballot)[column] >> 48 & 255 == ballot + 1 for column in self.accept_columns()):
                yield from self.vote(ballot, self.value_of(ballot))

    def commit(self):
        if not self.suspects:
            return
        alike = [member for member in self.items if self.tag_of(member) == self.tag]
        if self.committed is None and self.tag and 2 * len(alike) > len(self.items):
            yield from self.act()
            self.committed = self.value
        if self.committed and self.committed[0] >> self.me & 1:
            yield from self.ends(f"excluded {self.view + 1}")

    def stops(self):
        return [place for turn, place in self.crashes if turn == self.turns]

    def crash_here(self):
        if self.stops():
            yield from self.ends("crashed")

    def push(self):
        stops = self.stops()
        number = 0
        for other in self.others:
            for column in range(self.columns):
                if self.own[column] != self.pushed[other][column]:
                    if number in stops:
                        yield from self.ends("crashed")
                        return
                    yield ("push", self.view, other, column, self.own[column])
                    self.pushed[other][column] = self.own[column]
                    number += 1
        yield from self.crash_here()

    def end_turn(self):
        if not self.suspects and all(self.row(member)[DONE] for member in self.items):
            yield from self.ends("done")
            return
        if self.committed is not None:
            yield from self.act()
            before = self.members
            self.finish(*self.committed)
            yield from self.welcome(before)
        yield from self.spend()

    def spend(self):
        if self.turns == self.most_turns:
            yield from self.ends(f"spent {self.turns}")

    def welcome(self, before):
        """Gives each newcomer its letter, where it is the least member of the view before that has stayed."""
        if numbers_of(before & self.members)[0] == self.me:
            for newcomer in numbers_of(self.members & ~before):
                yield ("give", newcomer, list(self.history))

    def finish(self, leavers, trims):
        """Delivers what is left of what a value takes, and goes on in the next view."""
        members = numbers_of(self.members)
        for place in range(self.place, len(members) * max(trims)):
            if place // len(members) < trims[members[place % len(members)]]:
                self.place = place
                self.deliver()
        self.history.append(("view", self.age, self.view + 1, self.members ^ leavers))
        self.enter(self.view + 1, self.members ^ leavers)


class Running:
    """Members of an age over one table, words by bank, reader, row and column, with letters by late member."""

    def __init__(self, members, logs):
        self.logs, self.table, self.letters = logs, {}, {}
        self.streams = {member: member.deeds() for member in members}
        self.next = {member: next(stream) for member, stream in self.streams.items()}

    def step(self, member):
        kind, *fields = self.next[member]
        given = None
        if kind == "look":
            view, row, column = fields
            given = self.table.get((view, member.me, row, column), 0)
        elif kind == "push":
            view, other, column, word = fields
            self.table[view, other, member.me, column] = word
        elif kind == "append":
            self.logs[member.me].append(fields[0])
        elif kind == "give":
            self.letters[fields[0]] = fields[1]
        elif kind == "take":
            given = self.letters.get(member.me)
        try:
            self.next[member] = self.streams[member].send(given)
        except StopIteration:
            self.next[member] = ("rest",)


def run_age(script, members, logs):
    """Runs members until all have ended: in lockstep whole turns by ascending number, by a seed single deeds."""
    running, state = Running(members, logs), script["schedule"]
    live = list(members)
    while live:
        if state == "lockstep":
            for member in live:
                running.step(member)
                while running.next[member][0] not in ("beat", "rest"):
                    running.step(member)
        else:
            state = (state * 6364136223846793005 + 1442695040888963407) % 2**64
            running.step(live[(state >> 33) % len(live)])
        live = [member for member in live if member.end is None]


def entry_line(entry):
    if entry[0] == "view":
        return f"  view {entry[1]} {entry[2]} {listed(entry[3])}"
    return f"  msg {entry[1]} {entry[2]} {entry[3].hex() or '-'}"


def age_lines(age, roster, start, members):
    lines = [f"age {age} start {len(start)}"] + [entry_line(entry) for entry in start]
    there = {member.me: member for member in members}
    for me in range(roster):
        if me not in there:
            lines.append(f"member {me} absent")
            continue
        member = there[me]
        counts = f"history {len(member.history)} logged {member.logged} durable {member.durable}"
        lines.append(f"member {me} {member.end} {counts}")
        lines += [entry_line(entry) for entry in member.history[len(start):]]
    return lines


def open_age(script, folder, missing, late):
    """Opens an age on the logs that are there, those of late members too: its number, the entries that it starts
    with, the members of its first view, and these logs."""
    logs = {me: Log(folder, me) for me in range(len(script["messages"])) if not missing >> me & 1}
    age, start = choose(script, logs)
    members = sum(1 << me for me in logs if not late >> me & 1)
    for log in logs.values():
        log.vote_age(age, members)
    for log in logs.values():
        log.raise_to(age, members, start)
    return age, start, members, logs


def one_age(script, nth, folder, missing, late):
    """An age of a run: its lines, and how its members have ended."""
    age, start, mask, logs = open_age(script, folder, missing, late)
    waiting = sum(1 << me for me in logs) & ~mask
    members = [Member(script, nth, me, age, mask, waiting, start) for me in logs]
    run_age(script, members, logs)
    lines = age_lines(age, len(script["messages"]), start, members)
    return lines, [member.end.split()[0] for member in members]


def run(script, folder, missing=0, late=0):
    """The lines of a report, and the status."""
    there = 2 ** len(script["messages"]) - 1 & ~missing
    if there and not there & ~late:
        return [USAGE], 2
    lines, ends = [], []
    for nth in range(script["ages"]):
        try:
            told, ended = one_age(script, nth, folder, missing, late)
        except Refused as refused:
            return lines + [refused.line], refused.status
        lines += told
        ends += ended
    if "spent" in ends:
        return lines + ["unfinished"], 8
    if "nomajority" in ends:
        return lines + ["no majority"], 9
    return lines + ["ok"], 0


def files_of(path, roster):
    """What the files of a folder hold, by member; None where there is something else, which can't be opened."""
    files = {}
    for member in range(roster):
        name = os.path.join(path, f"member-{member}.log")
        if os.path.isfile(name):
            with open(name, "rb") as file:
                files[member] = file.read()
        elif os.path.lexists(name) or not os.path.isdir(path):
            files[member] = None
    return files


def mask_word(word):
    """The mask that a list of numbers names; nothing where it is no such list."""
    numbers = word.split(",")
    if any(number not in map(str, range(16)) for number in numbers):
        return None
    found = [int(number) for number in numbers]
    return sum(1 << number for number in found) if found == sorted(set(found)) else None


def option(words, name):
    """The value of an option, by whose name words begin, and the words behind it; nothing where they don't."""
    if words[:1] == [name] and len(words) > 1 and words[1] and words[1][0] != "-":
        return words[1], words[2:]
    if words and words[0].startswith(name + "=") and len(words[0]) > len(name) + 1:
        return words[0][len(name) + 1:], words[1:]
    return None, words


def play_of(words):
    """The folder, the mask of the missing and that of the late that words name; nothing where they are no command."""
    if words[:1] != ["sim"]:
        return None
    path, rest = option(words[1:], "--logs")
    gone, rest = option(rest, "--missing") if path else (None, rest)
    later, rest = option(rest, "--late")
    missing, late = (0 if named is None else mask_word(named) for named in (gone, later))
    return None if rest or missing is None or late is None else (path, missing, late)


def main():
    play = play_of(sys.argv[1:])
    if play is None:
        print(USAGE)
        sys.exit(2)
    path, missing, late = play
    script = json.load(sys.stdin)
    files = files_of(path, script["members"]) if path else {}
    folder = Folder(files)
    lines, status = run(script, folder, missing, late)
    for member, data in folder.files.items():
        if path and data is not None and files.get(member) != data:
            with open(os.path.join(path, f"member-{member}.log"), "wb") as file:
                file.write(data)
    print("\n".join(lines))
    sys.exit(status)


if __name__ == "__main__":
    main()
