#!/usr/bin/env python3
"""Tries the program on cut and changed journal files.

usage: tools/damaged_files.py PROGRAM [--values N] [--jobs N] [--folder DIR]

PROGRAM is the built program (crates/sb_bus/out/sb_bus) or the launcher `bus`. It makes a journal of
three records. Then for every length from 0 to the whole, for every byte with every other value
(with --values N: with N others), and for every byte with two values and a torn or missing end gate,
the file is written to a folder, the program is run there on one peek, and what it says and leaves is
compared with what a second reader, written here from docs/FORMATS.md alone, makes of the bytes. It
carries out queues that are created with defaults, sent to and received from with deletion; where a
changed byte spells another act or another field, it asks only that the program opens the file, or
names a gate from there on and leaves the file as it was. At the end stands how many files were of each class; the exit status is 1 where one was treated
otherwise.
"""
import argparse
import collections
import json
import os
import shutil
import sys
import tempfile
from concurrent.futures import ProcessPoolExecutor

import lib

MAGIC = b"SBNSJRNL"
MAX_COUNT = 1 << 62
MAX_PAYLOAD = 1_048_576
MAX_MOMENT = 253_402_214_400_000
MAX_BODIES = 262_144
NAME_BYTES = set(b"abcdefghijklmnopqrstuvwxyz0123456789.-_")
DEFAULT = {"lock": 60, "ttl": None, "most": 10, "window": None, "flags": (0, 0, 1), "to": (None, None)}

SCRIPT = [
    '{"at":1000,"do":"create-queue","name":"orders"}',
    '{"at":2000,"do":"send","to":"orders","messages":[{"body":"two lamps"},{"body":"one chair"}]}',
    '{"at":4000,"do":"receive","from":"orders","mode":"delete"}',
]
PEEK = ['{"do":"peek","from":"orders","start":1,"count":100}']
NOT_FOUND = '{"refused":"EntityNotFound"}\n'


class NoEvent(Exception):
    """These bytes spell no event, or one that changes nothing."""


class Unknown(Exception):
    """These bytes may spell an event that this reader doesn't carry out."""


class Damaged(Exception):
    """The journal can't be read from this place on."""


class Event:
    """The bytes of one event, read from the front (docs/FORMATS.md, section 2)."""

    def __init__(self, payload):
        self.rest = payload

    def take(self, count):
        if len(self.rest) < count:
            raise NoEvent
        front, self.rest = self.rest[:count], self.rest[count:]
        return front

    def number(self, size):
        return int.from_bytes(self.take(size), "big")

    def one_of(self, count):
        value = self.number(1)
        if value >= count:
            raise NoEvent
        return value

    def sized(self):
        return self.take(self.number(4))

    def text(self):
        content = self.sized()
        try:
            content.decode("utf-8")
        except UnicodeDecodeError:
            raise NoEvent from None
        return content

    def optional(self, part):
        return part() if self.one_of(2) else None

    def listed(self, part):
        count = self.number(4)
        # each item has a byte or more
        if count > len(self.rest):
            raise NoEvent
        return [part() for _ in range(count)]

    def path(self):
        return self.text(), self.optional(self.text), self.one_of(3)

    def token(self):
        return self.number(8), self.number(8)

    def by(self):
        return self.text(), self.number(8)

    def description(self):
        return {
            "lock": self.number(4),
            "ttl": self.optional(lambda: self.number(8)),
            "most": self.number(4),
            "window": self.optional(lambda: self.number(4)),
            "flags": (self.one_of(2), self.one_of(2), self.one_of(2)),
            "to": (self.optional(self.text), self.optional(self.text)),
        }

    def system_text(self):
        code, text = self.number(1), self.text()
        if not 1 <= code <= 8 or not text:
            raise NoEvent
        return code, text

    def value(self):
        kind = self.one_of(3)
        if kind == 0:
            return self.number(8)
        return self.text() if kind == 1 else self.one_of(2)

    def rising(self, part):
        items = self.listed(part)
        if any(a[0] >= b[0] for a, b in zip(items, items[1:])):
            raise NoEvent
        return items

    def message(self):
        return {
            "body": self.sized(),
            "system": self.rising(self.system_text),
            "properties": self.rising(lambda: (self.text(), self.value())),
            "ttl": self.optional(lambda: self.number(8)),
            "schedule": self.optional(lambda: self.number(8)),
        }


class Namespace:
    """What the events of a journal lead to."""

    def __init__(self):
        self.moment = 0
        self.queues = {}

    def carry_out(self, payload):
        """Carries one event out, or raises NoEvent."""
        event = Event(payload)
        if event.one_of(2) == 0:
            event.number(8)
            raise NoEvent  # nothing is ever due here
        moment = event.number(8)
        by = event.optional(event.by)
        act = event.number(1)
        acts = {1: self.create, 7: self.send, 9: self.receive}
        if not 1 <= act <= 0x13 or not self.moment <= moment <= MAX_MOMENT:
            raise NoEvent
        if act not in acts:
            raise Unknown
        change = acts[act](event, moment)
        if event.rest:
            raise NoEvent
        if by is not None:
            raise Unknown
        change()
        self.moment = moment

    def queue(self, path):
        name, subscription, part = path
        if subscription is not None or part != 0 or name not in self.queues:
            raise NoEvent
        return self.queues[name]

    def create(self, event, _moment):
        name, description = event.text(), event.description()

        def change():
            good = 1 <= len(name) <= 260 and set(name) <= NAME_BYTES
            if not good or name in self.queues:
                raise NoEvent
            if description != DEFAULT:
                raise Unknown
            self.queues[name] = {"last": 0, "copies": []}

        return change

    def send(self, event, moment):
        path, messages = event.path(), event.listed(event.message)
        transaction = event.optional(lambda: event.number(8))

        def change():
            queue = self.queue(path)
            bodies = [m["body"] for m in messages]
            plain = all(not m["system"] and not m["properties"] and m["ttl"] is None and m["schedule"] is None for m in messages)
            if not 1 <= len(bodies) <= 100 or sum(map(len, bodies)) > MAX_BODIES:
                raise NoEvent
            if transaction is not None or not plain:
                raise Unknown
            for body in bodies:
                queue["last"] += 1
                queue["copies"].append((queue["last"], moment, body))

        return change

    def receive(self, event, _moment):
        path, mode = event.path(), event.one_of(2)
        session = event.optional(event.token)

        def change():
            queue = self.queue(path)
            if session is not None or not queue["copies"]:
                raise NoEvent
            if mode != 1:
                raise Unknown
            queue["copies"].pop(0)

        return change

    def peek_reply(self):
        """The reply line to PEEK."""
        queue = self.queues.get(b"orders")
        if queue is None:
            return NOT_FOUND
        copies = [copy_shown(*copy) for copy in queue["copies"][:100]]
        return compact({"copies": copies, "ok": "copies"})


def copy_shown(number, moment, body):
    """A copy as a peek shows it."""
    shown = {"delivery": 0, "enqueued": moment, "enqueued_seq": number, "props": {}, "seq": number, "state": "ready", "sys": {}}
    try:
        shown["body"] = body.decode("utf-8")
    except UnicodeDecodeError:
        shown["body_hex"] = body.hex()
    return shown


def compact(value):
    return json.dumps(value, sort_keys=True, separators=(",", ":"), ensure_ascii=False) + "\n"


def number_at(data, place, size):
    return int.from_bytes(data[place : place + size], "big")


def head_fault(data):
    """The place of the first fault of a head, if there is one."""
    if data[1:9] != MAGIC:
        return 1
    if data[9] != 1:
        return 9
    if not 1 <= number_at(data, 18, 8) <= MAX_COUNT:
        return 18
    if not 1 <= number_at(data, 26, 8) <= MAX_COUNT:
        return 26
    return None


def records_in(data):
    """The records behind open gates, each with the place of its gate, and the place of the end gate."""
    gate, number, records = 42 + number_at(data, 34, 8), number_at(data, 26, 8), []
    if gate > len(data):
        raise Damaged(42)
    while gate < len(data) and data[gate] == 1:
        size = number_at(data, gate + 1, 4)
        whole = gate + 13 + size <= len(data)
        if not whole or size > MAX_PAYLOAD or number_at(data, gate + 5, 8) != number:
            raise Damaged(gate)
        records.append((gate, data[gate + 13 : gate + 13 + size]))
        gate, number = gate + 13 + size, number + 1
    return records, gate


def read_journal(data):
    """The class of a file, the reply to PEEK, the status, and the bytes that an opening leaves; where this
    reader can't tell the reply, in place of the status the gate from which on it can't."""
    if len(data) < 43 or (len(data) == 43 and data[0] != 1):
        return "no journal, replaced by a new one", NOT_FOUND, 1, None
    try:
        if data[0] != 1:
            raise Damaged(0)
        place = head_fault(data)
        if place is not None:
            raise Damaged(place)
        records, end = records_in(data)
        if number_at(data, 34, 8) != 0:
            raise Damaged(42)
        namespace = Namespace()
        for gate, payload in records:
            try:
                namespace.carry_out(payload)
            except NoEvent:
                raise Damaged(gate) from None
            except Unknown:
                left = data[:end] + b"\0" + data[end + 1 :]
                return f"another event at {gate}", None, gate, left
    except Damaged as fault:
        line = compact({"disk": "a", "place": fault.args[0], "refused": "Damaged"})
        return f"damaged at {fault.args[0]}, left as it was", line, 6, data
    reply = namespace.peek_reply()
    left = data[:end] + b"\0" + data[end + 1 :]
    gate = "as it was" if left == data else "closed"
    status = 1 if reply == NOT_FOUND else 0
    return f"whole, with {len(records)} records, end gate {gate}", reply, status, left


def is_new_file(data):
    """A new journal, of any salt."""
    one = (1).to_bytes(8, "big")
    return len(data) == 43 and data[:10] == b"\1" + MAGIC + b"\1" and data[18:] == one + one + bytes(8) + b"\0"


def run(program, folder, lines):
    done = lib.run(program, folder, lines)
    return done.stdout.decode("utf-8", "surrogateescape"), done.returncode


def tried(program, folder, data):
    """The class of a file, and what the program did otherwise with it."""
    kind, reply, status, left = read_journal(data)
    journal = os.path.join(folder, "a.journal")
    with open(journal, "wb") as file:
        file.write(data)
    told, ended = run(program, folder, PEEK)
    with open(journal, "rb") as file:
        found = file.read()
    with open(os.path.join(folder, "b.journal"), "rb") as file:
        other = file.read()
    faults = []
    if reply is None:
        if ended == 6 and json.loads(told)["place"] >= status:
            left = data
        elif ended not in (0, 1):
            faults.append(f"status {ended}")
        reply, status = told, ended
    if ended != status:
        faults.append(f"status {ended}, not {status}")
    if told != reply:
        faults.append(f"output {told!r}, not {reply!r}")
    if not (is_new_file(found) if left is None else found == left):
        faults.append(f"left {found.hex()}")
    if other:
        faults.append("wrote to b.journal")
    return kind, "; ".join(faults)


def cases(data, values):
    """Each file that is tried, with its name."""
    for size in range(len(data) + 1):
        yield f"the first {size} bytes", data[:size]
    steps = list(range(1, 256)) if values >= 255 else [1 + (255 * k) // values for k in range(values)]
    for place, byte in enumerate(data):
        for step in steps:
            other = (byte + step) % 256
            yield f"byte {place} is {other:02x}", data[:place] + bytes([other]) + data[place + 1 :]
    # a new file is made where no more stands than its making leaves
    for size in (42, 43, 44):
        for other in (0, 0x58):
            yield f"the first {size} bytes, byte 0 is {other:02x}", bytes([other]) + data[1:size]
    # both at once: a torn end gate must not be closed where anything before it is damaged
    for place in range(len(data) - 1):
        for other in (0, 0xFF):
            changed = data[:place] + bytes([other]) + data[place + 1 : -1]
            yield f"byte {place} is {other:02x}, the end gate 07", changed + b"\7"
            yield f"byte {place} is {other:02x}, no end gate", changed


def tried_all(work):
    """The cases of one worker: how many of each class, and the differences."""
    program, parent, some = work
    folder = tempfile.mkdtemp(dir=parent)
    counts, differences = collections.Counter(), []
    for name, data in some:
        kind, fault = tried(program, folder, data)
        counts[kind] += 1
        if fault:
            differences.append(f"{name} ({kind}): {fault}")
    return counts, differences


def made_journal(program, parent):
    """The journal that the script leaves."""
    folder = tempfile.mkdtemp(dir=parent)
    told, status = run(program, folder, SCRIPT)
    if status != 0 or told.count("\n") != 3:
        sys.exit(f"the script ended with status {status} and {told!r}")
    with open(os.path.join(folder, "a.journal"), "rb") as file:
        return file.read()


def summary(counts, differences):
    for kind in sorted(counts):
        print(f"{counts[kind]:7} {kind}")
    print(f"{sum(counts.values()):7} files, {len(differences)} treated otherwise")
    for line in differences[:20]:
        print(f"DIFFERENT: {line}")


def main():
    words = argparse.ArgumentParser(description="Tries the program on cut and changed journal files.")
    words.add_argument("program")
    words.add_argument("--values", type=int, default=255, help="how many other values a byte gets (255: all)")
    words.add_argument("--jobs", type=int, default=os.cpu_count())
    words.add_argument("--folder", help="where the temporary folder is made")
    given = words.parse_args()
    program = os.path.abspath(given.program)
    parent = tempfile.mkdtemp(dir=given.folder)
    counts, differences = collections.Counter(), []
    try:
        data = made_journal(program, parent)
        print(f"a journal of {len(data)} bytes and {len(records_in(data)[0])} records: {data.hex()}", flush=True)
        every = list(cases(data, given.values))
        work = [(program, parent, every[k :: given.jobs * 8]) for k in range(given.jobs * 8)]
        with ProcessPoolExecutor(given.jobs) as workers:
            for some, more in workers.map(tried_all, work):
                counts += some
                differences += more
    finally:
        shutil.rmtree(parent)
    summary(counts, differences)
    return 1 if differences or not counts else 0


if __name__ == "__main__":
    sys.exit(main())
