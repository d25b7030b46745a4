#!/usr/bin/env python3
"""Looks at the journal of a server that makes one checkpoint after another.

usage: tools/looked_checkpoints.py PROGRAM [LOOKS]

PROGRAM is the built program (crates/sb_bus/out/sb_bus). A server that makes a checkpoint after each 2,000 bytes of records
is sent messages without end, while `check --look` is asked LOOKS (200) times for the numbers of its journal. Each
look has to end with status 0, whichever of the two files counts by then, and none may tell fewer records than the
one before it, or fewer than were acknowledged as it began. The exit status is 1 otherwise.
"""
import json
import os
import subprocess
import tempfile
import threading

import lib


def look(program, folder):
    done = subprocess.run([program, "check", "--data", folder, "--look"], capture_output=True, timeout=60, check=False)
    lib.wants(done.returncode == 0, f"a look ended with status {done.returncode}: {done.stdout.decode()}{done.stderr.decode()}")
    return json.loads(done.stdout)["events"]


def generation(folder):
    """The greatest generation of the two files."""
    found = []
    for name in ("a.journal", "b.journal"):
        with open(os.path.join(folder, name), "rb") as file:
            found.append(int.from_bytes(file.read(26)[18:], "big"))
    return max(found)


class Sending(threading.Thread):
    """Sends without end, and keeps how many were acknowledged."""

    def __init__(self, port):
        super().__init__(daemon=True)
        self.caller, self.count, self.ends, self.wrong = lib.Caller(port), 0, False, None

    def run(self):
        while not self.ends:
            reply = self.caller.line({"do": "send", "to": "q", "messages": [{"body": "x" * 100, "ttl": 1}]})
            if reply.get("ok") != "sent":
                self.wrong = reply
                return
            self.count += 1


def looked(program, looks, folder):
    port = lib.free_port()
    with lib.serving(program, folder, port, "--checkpoint-after", "2000"):
        with lib.Caller(port) as caller:
            caller.line({"do": "create-queue", "name": "q"})
        sending = Sending(port)
        sending.start()
        last = 0
        for _ in range(looks):
            least = max(last, sending.count)
            last = look(program, folder)
            lib.wants(last >= least, f"a look told {last} records, where there were {least}")
        sending.ends = True
        sending.join()
        lib.wants(sending.wrong is None, f"a send was answered {sending.wrong}")
    print(f"{looks} looks, {sending.count} sends, {generation(folder) - 1} checkpoints")


def main():
    program, words = lib.given_words(__doc__, most=2)
    with tempfile.TemporaryDirectory() as folder:
        lib.tell(lambda: looked(program, int(words[0]) if words else 200, folder))


if __name__ == "__main__":
    main()
