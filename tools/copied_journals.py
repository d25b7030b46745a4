#!/usr/bin/env python3
"""Copies the journal of a server under load, and looks at each copy and at the journal itself.

usage: tools/copied_journals.py PROGRAM [COPIES]

PROGRAM is the built program (crates/sb_bus/out/sb_bus). Four callers send while the journal is copied again
and again, 1,000 times where nothing is said: the file that counts first, then the other one. The server makes a checkpoint
after each 10,000 bytes of records. `check --look` has to find each copy sound, with every message whose send
was acknowledged before the copying began, and none whose send began after it ended; it has to leave the copy as it is,
and `check` has to tell the same. So it has to be of a look at the server's own folder, in which it makes no file, and
the server goes on. The exit status is 1 where one is otherwise.
"""
import json
import os
import random
import shutil
import subprocess
import tempfile
import threading
import time

import lib

CALLERS = 4
SENDS = 20  # for each copy, so that copies don't take longer and longer to open
WAIT = 0.01  # s at most from where a copy's sends may begin to the copying, which falls among them
BODY = "x" * 200
FILES = ["a.journal", "b.journal"]
WORDS = ("--workers", str(CALLERS + 1), "--checkpoint-after", "10000")


class Load:
    """Callers that send until they are stopped, and how many sends were begun, acknowledged and are let begin."""

    def __init__(self, port):
        self.begun, self.acknowledged, self.most, self.refused = 0, 0, SENDS, []
        self.is_over, self.lock = False, threading.Lock()
        self.threads = [threading.Thread(target=self.send, args=(port,)) for _ in range(CALLERS)]
        for thread in self.threads:
            thread.start()

    def send(self, port):
        with lib.Caller(port) as caller:
            while not self.is_over:
                with self.lock:
                    may_begin = self.begun < self.most
                    self.begun += may_begin
                if not may_begin:
                    time.sleep(0.001)
                    continue
                reply = caller.line({"do": "send", "to": "q", "messages": [{"body": BODY}]})
                with self.lock:
                    if reply.get("ok") == "sent":
                        self.acknowledged += 1
                    else:
                        self.refused.append(reply)

    def stop(self):
        self.is_over = True
        for thread in self.threads:
            thread.join()


def told(program, folder, *words):
    """The line that a check of a folder tells."""
    call = [program, "check", "--data", folder, *words]
    done = subprocess.run(call, stdin=subprocess.DEVNULL, capture_output=True, text=True, timeout=600, check=False)
    lib.wants(done.returncode == 0, f"{' '.join(call)} ended with status {done.returncode}: {done.stdout}{done.stderr}")
    return done.stdout


def content(path):
    with open(path, "rb") as file:
        return file.read()


def counts(path):
    """Whether a file begins with the byte 1."""
    with open(path, "rb") as file:
        return file.read(1) == b"\1"


def copies_told(program, data):
    """How many messages a copy of the journal has, by a look at it and by a check."""
    with tempfile.TemporaryDirectory() as folder:
        paths = [os.path.join(folder, name) for name in sorted(FILES, key=lambda name: not counts(os.path.join(data, name)))]
        for path in paths:
            shutil.copyfile(os.path.join(data, os.path.basename(path)), path)
            os.chmod(path, 0o400)
        before = [content(path) for path in paths]
        looked = told(program, folder, "--look")
        lib.wants(sorted(os.listdir(folder)) == FILES, f"a look made files: {os.listdir(folder)}")
        lib.wants([content(path) for path in paths] == before, "a look changed the copy")
        for path in paths:
            os.chmod(path, 0o600)
        lib.wants(told(program, folder) == looked, f"a check doesn't tell the look's {looked}")
        return json.loads(looked)["copies"]


def is_within(load, number, what, find):
    """What `find` finds has all that was acknowledged before, and nothing that began after it."""
    load.most = number * SENDS
    time.sleep(random.uniform(0, WAIT))
    least = load.acknowledged
    found = find()
    most = load.begun
    lib.wants(least <= found <= most, f"{what} {number} has {found} messages, and not {least} to {most}")
    return found


def copied(program, copies):
    port = lib.free_port()
    with tempfile.TemporaryDirectory() as data, lib.serving(program, data, port, *WORDS):
        with lib.Caller(port) as caller:
            caller.line({"do": "create-queue", "name": "q"})
        names = sorted(os.listdir(data))
        load = Load(port)
        try:
            for number in range(1, copies + 1):
                found = is_within(load, number, "copy", lambda: copies_told(program, data))
                if number % 10 == 0:
                    is_within(load, number, "look", lambda: json.loads(told(program, data, "--look"))["copies"])
        finally:
            load.stop()
        lib.wants(sorted(os.listdir(data)) == names, f"a look made files: {os.listdir(data)}")
    lib.wants(not load.refused, f"sends were answered {load.refused[:3]}")
    print(f"{copies} copies, the last one with {found} messages")


def main():
    program, more = lib.given_words(__doc__, most=2)
    lib.tell(lambda: copied(program, int(more[0]) if more else 1000))


if __name__ == "__main__":
    main()
