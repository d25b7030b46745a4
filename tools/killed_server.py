#!/usr/bin/env python3
"""Kills a server under load, starts it again, and looks for what was lost or doubled.

usage: tools/killed_server.py PROGRAM [--callers N] [ROUNDS [WORD ..]]

PROGRAM is the built program (crates/sb_bus/out/sb_bus). Four callers, or --callers N, each over a connection of its
own, number their sends and write down each that was acknowledged. In each of ROUNDS (8) the server is killed with
SIGKILL while they send; after the next start each caller repeats its last number, as it can't know whether that acted.
At the end all messages are taken out of the queue: each acknowledged one must be there, and none twice. The exit
status is 1 otherwise. The server gets the words behind ROUNDS, too; without any it makes a checkpoint after each
100,000 bytes of records, so that it is killed in the midst of some.
"""
import json
import os
import random
import signal
import sys
import tempfile
import time

import lib

CALLERS = 4


def send(name, port, number, log):
    """Sends from this number on until the server is gone; each acknowledged number is logged."""
    try:
        caller = lib.Caller(port)
        while True:
            message = {"body": f"{name} {number}"}
            call = {"do": "send", "to": "q", "messages": [message], "client": name, "number": number}
            reply = caller.line(call)
            if reply.get("ok") not in ("sent", "kept"):
                log.write(f"refused {number} {json.dumps(reply)}\n")
                os._exit(1)
            log.write(f"{number}\n")
            log.flush()
            number += 1
    except OSError:
        os._exit(0)


def acknowledged(path):
    if not os.path.exists(path):
        return []
    with open(path, encoding="ascii") as log:
        lines = log.read().splitlines()
    refused = [line for line in lines if line.startswith("refused")]
    if refused:
        sys.exit(f"{path}: {refused[0]}")
    return [int(line) for line in lines]


def killed(program, callers, rounds, more, folder):
    data = os.path.join(folder, "data")
    os.mkdir(data)
    names = [f"caller-{i}" for i in range(callers)]
    logs = [os.path.join(folder, name) for name in names]
    port, more = lib.free_port(), ["--workers", str(callers + 1), *more]
    server = lib.start(program, data, port, *more)
    with lib.Caller(port) as caller:
        caller.line({"do": "create-queue", "name": "q"})
    for _ in range(rounds):
        children = []
        for name, path in zip(names, logs):
            following = max(acknowledged(path), default=0) + 1
            child = os.fork()
            if child == 0:
                with open(path, "a", encoding="ascii") as log:
                    send(name, port, following, log)
            children.append(child)
        time.sleep(random.uniform(0.2, 1.5))
        lib.stop(server, signal.SIGKILL)
        if any(os.waitpid(child, 0)[1] for child in children):
            for path in logs:
                acknowledged(path)
        server = lib.start(program, data, port, *more)
    bodies = lib.taken(port, "q")
    lib.stop(server)
    there = set(bodies)
    wrong = len(bodies) - len(there)
    print(f"{len(bodies)} messages, {wrong} of them doubled")
    for name, path in zip(names, logs):
        numbers = acknowledged(path)
        lost = [number for number in numbers if f"{name} {number}" not in there]
        print(f"{name}: {len(numbers)} acknowledged, {len(lost)} lost")
        wrong += len(lost)
    lib.wants(not wrong, f"{wrong} messages were lost or doubled")


def main():
    program, words = lib.given_words(__doc__, most=11)
    callers = CALLERS
    if words[:1] == ["--callers"]:
        callers, words = int(words[1]), words[2:]
    rounds, more = int(words[0]) if words else 8, words[1:] or ["--checkpoint-after", "100000"]
    with tempfile.TemporaryDirectory() as folder:
        lib.tell(lambda: killed(program, callers, rounds, more, folder))


if __name__ == "__main__":
    main()
