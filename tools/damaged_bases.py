#!/usr/bin/env python3
"""Tries the program on cut and changed journals that begin with a base.

usage: tools/damaged_bases.py PROGRAM [STEP]

PROGRAM is the built program (crates/sb_bus/out/sb_bus). It makes a checkpoint of a namespace that has something of each
kind. Then for every length of that file, or each STEP-th, and for every byte with three other values, or with one of
these for each STEP-th, a check is run over the file. It has to tell damage at the byte that docs/FORMATS.md names (section 1.2): of
the head where that is, else at 42, and to leave the file as it was; or else the numbers of a state that these bytes spell.
Then the next checkpoint has to write just these bytes again, since a state has one base. At the end stands how many
files were of each class; the exit status is 1 where one was treated otherwise.
"""
import collections
import json
import os
import subprocess
import sys
import tempfile
from concurrent.futures import ThreadPoolExecutor

import lib
from damaged_files import Damaged, head_fault, number_at, records_in

HEAD = 42
LINES = [
    {"do": "create-queue", "name": "q", "lock": 60, "max_delivery": 2, "window": 600},
    {"do": "create-queue", "name": "s", "requires_session": True},
    {"do": "create-topic", "name": "t"},
    {"do": "create-subscription", "topic": "t", "name": "all"},
    {"do": "create-rule", "topic": "t", "subscription": "all", "name": "red", "filter": "c = 'r'", "action": "SET d = 1"},
    {"do": "send", "to": "q", "messages": [{"body": "x", "sys": {"MessageId": f"id-{n}"}} for n in range(2)]},
    {"do": "send", "to": "t", "messages": [{"body": "y", "props": {"c": "r", "n": 3}}]},
    {"do": "send", "to": "s", "messages": [{"body": "z", "sys": {"SessionId": it}} for it in ("one", "two")]},
    {"do": "accept", "from": "s"},
    {"do": "receive", "from": "q"},
    {"do": "begin", "entity": "q"},
    {"do": "send", "to": "q", "messages": [{"body": "n"}], "client": "shop", "number": 7},
]


def call(program, folder, *words):
    done = subprocess.run([program, *words, "--data", folder], stdin=subprocess.DEVNULL, capture_output=True, timeout=60, check=False)
    return done.returncode, done.stdout.decode()


def read(folder, name):
    with open(os.path.join(folder, name), "rb") as file:
        return file.read()


def made_journal(program, folder):
    """The file that a checkpoint of all of these lines leaves."""
    lib.wants(lib.run(program, folder, [json.dumps(it) for it in LINES]).returncode == 0, "a line was refused")
    lib.wants(call(program, folder, "run", "--checkpoint")[0] == 0, "the checkpoint failed")
    return read(folder, "b.journal")


def is_none(data):
    """Whether a crash of a first creation may leave this, so that a new journal is made there."""
    return len(data) < 43 or (len(data) == 43 and data[0] != 1)


def place_of(data):
    """Where the framing of a file is at fault, or none."""
    if is_none(data):
        return None
    if data[0] != 1:
        return 0
    place = head_fault(data)
    if place is not None:
        return place
    try:
        records_in(data)
    except Damaged as fault:
        return fault.args[0]
    return None


def tried(program, data):
    """The class of a file, and what the program did otherwise with it."""
    with tempfile.TemporaryDirectory() as folder:
        with open(os.path.join(folder, "a.journal"), "wb") as file:
            file.write(data)
        status, told = call(program, folder, "check")
        if status == 6:
            place, framing = json.loads(told)["place"], place_of(data)
            if place != (HEAD if framing is None else framing) or read(folder, "a.journal") != data:
                return "", f"told {told.strip()}, where {framing} is at fault, or changed the file"
            return f"damaged at {place}, left as it was", None
        if status != 0 or place_of(data) is not None:
            return "", f"status {status}: {told.strip()}"
        if is_none(data):
            return "no journal, replaced by a new one", None
        length = number_at(data, 34, 8)
        status, _ = call(program, folder, "run", "--checkpoint")
        if status != 0 or (length and read(folder, "b.journal")[HEAD : HEAD + length] != data[HEAD : HEAD + length]):
            return "", f"the next checkpoint ended with {status}, or wrote another base"
        return "a state, written again to the same bytes", None


def cases(data, step):
    for length in range(0, len(data), step):
        yield f"the first {length} bytes", data[:length]
    for place in range(len(data)):
        for number, other in enumerate((data[place] ^ 1, data[place] ^ 0x80, 0xFF - data[place])):
            if (place + number) % step == 0:
                yield f"byte {place} as {other:02x}", data[:place] + bytes([other]) + data[place + 1 :]


def main():
    program, words = lib.given_words(__doc__, 2)
    step = int(words[0]) if words else 1
    with tempfile.TemporaryDirectory() as folder:
        data = made_journal(program, folder)
    counts, wrong = collections.Counter(), []
    with ThreadPoolExecutor(os.cpu_count()) as pool:
        every = list(cases(data, step))
        for (name, _), (kind, fault) in zip(every, pool.map(lambda case: tried(program, case[1]), every)):
            counts[kind] += not fault
            if fault:
                wrong.append(f"{name}: {fault}")
    print(f"a journal of {len(data)} bytes, {number_at(data, 34, 8)} of them a base")
    for kind in sorted(filter(None, counts)):
        print(f"{counts[kind]:7} {kind}")
    for line in wrong[:20]:
        print(f"WRONG: {line}")
    sys.exit(1 if wrong else 0)


if __name__ == "__main__":
    main()
