#!/usr/bin/env python3
"""Runs the built program twice at once on one folder.

usage: tools/two_runs.py PROGRAM

PROGRAM is the built program (crates/sb_bus/out/sb_bus). While a first run is at work, a second one on
its folder has to end with status 11 and one line on standard error, without a byte on standard output
or in the journal; a look has to tell what the first one acknowledged; the first one then goes on. It is ended by kill -9, and a third run has to find all
that the first one acknowledged. So it is also where the first run ends by itself. The exit status is 1
where something else happens.
"""
import json
import subprocess
import sys
import tempfile

import lib

CREATE = '{"do":"create-queue","name":"q"}'
PEEK = '{"do":"peek","from":"q","start":1,"count":100}'


def send(body):
    return json.dumps({"do": "send", "to": "q", "messages": [{"body": body}]})


def main():
    program, _ = lib.given_words(__doc__)
    failed = []

    def expect(what, holds):
        print(f"{'ok' if holds else 'WRONG'}: {what}")
        if not holds:
            failed.append(what)

    def begin(folder):
        pipe = subprocess.PIPE
        return subprocess.Popen([program, "run", "--data", folder], stdin=pipe, stdout=pipe, text=True, bufsize=1)

    def ask(run, line):
        run.stdin.write(line + "\n")
        return json.loads(run.stdout.readline())

    def journal(folder):
        with open(f"{folder}/a.journal", "rb") as file:
            return file.read()

    def is_kept_out(name, folder):
        before = journal(folder)
        second = lib.run(program, folder, [send("of the second run")])
        print(second.stderr.decode(), end="")
        expect(f"{name}: a second run ends with 11", second.returncode == 11)
        expect(f"{name}: it says so in one line", second.stderr.count(b"\n") == 1)
        expect(f"{name}: it answers nothing", second.stdout == b"")
        expect(f"{name}: it writes nothing", journal(folder) == before)

    def is_looked_at(name, folder):
        before = journal(folder)
        look = subprocess.run([program, "check", "--data", folder, "--look"], capture_output=True, timeout=60, check=False)
        expect(f"{name}: a look beside it ends with 0", look.returncode == 0)
        expect(f"{name}: it tells what was acknowledged", json.loads(look.stdout or "{}").get("copies") == 1)
        expect(f"{name}: it writes nothing", journal(folder) == before)

    def finds(name, folder, bodies):
        third = lib.run(program, folder, [PEEK])
        expect(f"{name}: a third run ends with 0", third.returncode == 0)
        found = [copy["body"] for copy in json.loads(third.stdout or "{}").get("copies", [])]
        expect(f"{name}: it finds what was acknowledged", found == bodies)

    for name, end in [("killed", lambda run: run.kill()), ("ended", lambda run: run.stdin.close())]:
        with tempfile.TemporaryDirectory() as folder:
            first = begin(folder)
            expect(f"{name}: a queue is made", ask(first, CREATE) == {"ok": "done"})
            expect(f"{name}: a send", ask(first, send("one"))["ok"] == "sent")
            is_kept_out(name, folder)
            is_looked_at(name, folder)
            expect(f"{name}: the first run goes on", ask(first, send("two"))["ok"] == "sent")
            end(first)
            expect(f"{name}: the first run's status", first.wait() == (-9 if name == "killed" else 0))
            finds(name, folder, ["one", "two"])
    sys.exit(1 if failed else 0)


if __name__ == "__main__":
    main()
