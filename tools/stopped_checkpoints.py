#!/usr/bin/env python3
"""Stops a checkpoint at each of its calls of the system, and opens what is left.

usage: tools/stopped_checkpoints.py PROGRAM [--short]

PROGRAM is the built program (crates/sb_bus/out/sb_bus). A journal that has something of each kind is copied, and a run with
--checkpoint over the copy is killed at its first write, sync or change of length, at the second, and so on, until one ends
by itself; and so again with that call answered by a full disk, where the run may end with status 5, or with 11 where
the folder can't be opened. Of what is left at each a check has to tell the same numbers, and the next checkpoint has to
end well and to leave them. All of this is done over the first file and over the one behind a checkpoint, on the other
disk. With --short a call in four is stopped. The exit status is 1 where something else happens.
"""
import json
import os
import shutil
import subprocess
import sys
import tempfile

import lib

CALLS = "pwrite64,write,fsync,fdatasync,ftruncate"
LINES = [
    {"do": "create-queue", "name": "q", "lock": 60, "max_delivery": 2, "window": 600},
    {"do": "create-queue", "name": "s", "requires_session": True},
    {"do": "create-topic", "name": "t"},
    {"do": "create-subscription", "topic": "t", "name": "all"},
    {"do": "create-rule", "topic": "t", "subscription": "all", "name": "red", "filter": "colour = 'red'"},
    {"do": "send", "to": "q", "messages": [{"body": "x" * 70_000, "sys": {"MessageId": f"id-{n}"}} for n in range(3)]},
    {"do": "send", "to": "t", "messages": [{"body": "y" * 200, "props": {"colour": "red", "size": 3}}]},
    {"do": "send", "to": "s", "messages": [{"body": "z", "sys": {"SessionId": it}} for it in ("one", "two")]},
    {"do": "accept", "from": "s"},
    {"do": "receive", "from": "q"},
    {"do": "begin", "entity": "q"},
    {"do": "send", "to": "q", "messages": [{"body": "numbered"}], "client": "shop", "number": 7},
]


def checkpoint(program, folder, before=()):
    words = [*before, program, "run", "--data", folder, "--checkpoint"]
    return subprocess.run(words, stdin=subprocess.DEVNULL, capture_output=True, timeout=60, check=False)


def numbers(program, folder):
    done = subprocess.run([program, "check", "--data", folder], capture_output=True, timeout=60, check=False)
    lib.wants(done.returncode == 0, f"a check ended with status {done.returncode}: {done.stdout.decode()}{done.stderr.decode()}")
    return json.loads(done.stdout)


def stopped_at(program, folder, call, how):
    """Whether a checkpoint came to this call of the system, counted from 1, which then went so."""
    inject = f"inject={CALLS}:{how}:when={call}"
    with tempfile.NamedTemporaryFile("r") as seen:
        done = checkpoint(program, folder, ["strace", "-f", "-qq", "-o", seen.name, "-e", f"trace={CALLS}", "-e", inject])
        came = how.startswith("error") and "(INJECTED)" in seen.read() or done.returncode in (-9, 137)
    lib.wants(done.returncode in ((0, 5, 11) if how.startswith("error") else (0, -9, 137)), f"a checkpoint with {inject} ended with status {done.returncode}")
    return came


def stop_each(program, made, how, step, wanted):
    """How many calls of a checkpoint of this journal there are, each step-th of which goes so."""
    call = 1
    with tempfile.TemporaryDirectory() as top:
        while True:
            copy = os.path.join(top, str(call))
            shutil.copytree(made, copy)
            came = stopped_at(program, copy, call, how)
            for when in ("that was stopped", "behind one that was stopped"):
                found = numbers(program, copy)
                lib.wants(found == wanted, f"a checkpoint {when} at call {call} ({how}) left {found}, and not {wanted}")
                again = checkpoint(program, copy)
                lib.wants(again.returncode == 0, f"a checkpoint {when} at call {call} ({how}) ended with status {again.returncode}")
            if not came:
                return call
            call += step


def main():
    program, words = lib.given_words(__doc__, 2)
    step = 4 if "--short" in words else 1
    with tempfile.TemporaryDirectory() as made:
        lib.run(program, made, [json.dumps(it) for it in LINES])
        wanted = numbers(program, made)
        for journal in ("the first file", "the file behind a checkpoint"):
            for how in ("signal=KILL", "error=ENOSPC"):
                calls = stop_each(program, made, how, step, wanted)
                print(f"ok: {journal}, {how}: stopped at a call in {step} of {calls}, and all is there")
            lib.wants(checkpoint(program, made).returncode == 0, "a checkpoint of the journal that is copied failed")


if __name__ == "__main__":
    try:
        main()
    except lib.Failed as fault:
        sys.exit(f"WRONG: {fault}")
