#!/usr/bin/env python3
"""Looks by strace at what a server asks of the system.

usage: tools/traced_server.py PROGRAM

PROGRAM is the built program (crates/sb_bus/out/sb_bus). A server of one worker answers a few requests while strace
notes its calls. It has to open nothing but its folder and the two journals in it, beside what the loader opens and
where the system tells the limits of a process; to bind one port of 127.0.0.1 and connect to nothing; to sync the folder
before it writes to a journal; to write and sync each record, then its gate, before it sends the response, and to write
nothing for a call that only looks or is refused. The exit status is 1 where it does something else.
"""
import os
import re
import tempfile
import time

import lib

CALLS = "open,openat,creat,bind,connect,write,pwrite64,writev,fsync,fdatasync,sendto,sendmsg,accept4,accept"
LOADED = re.compile(
    r"/etc/ld\.so\.\w+|/(usr/)?lib(64)?/.*|.*\.so(\.\d+)*|/proc/self/(limits|cgroup)|/sys/(fs/cgroup|devices/system/cpu)/.*"
)
# each request with the calls that answer it: w a write to the journal, s a sync of it, r a response; the first record
# is followed by zeros, which the next ones are written over
REQUESTS = [
    ('{"do":"create-queue","name":"q"}', "wwswsr"),
    ('{"do":"send","to":"q","messages":[{"body":"a"},{"body":"b"}]}', "wswsr"),
    ('{"do":"peek","from":"q","start":1,"count":1}', "r"),
    ('{"do":"receive","from":"q"}', "wswsr"),
    ('{"do":"receive","from":"none"}', "r"),
    ('{"do":"counts","entity":"q"}', "r"),
]


def traced(program, folder):
    """The calls of a server that has answered the requests, and the port that it had."""
    wrapper, trace = os.path.join(folder, "traced"), os.path.join(folder, "trace")
    with open(wrapper, "w", encoding="ascii") as script:
        script.write(f"#!/bin/sh\nexec strace -D -f -y -s 8 -e trace={CALLS} -o '{trace}' '{program}' \"$@\"\n")
    os.chmod(wrapper, 0o755)
    port = lib.free_port()
    with lib.serving(wrapper, os.path.join(folder, "data"), port, "--workers", "1"), lib.Caller(port) as caller:
        for line, _ in REQUESTS:
            caller.ask("POST", "/$script", line.encode())
    for _ in range(200):
        with open(trace, encoding="utf-8", errors="replace") as file:
            lines = file.read().splitlines()
        if lines and "+++" in lines[-1]:
            return [line.split(None, 1)[1] for line in lines], port
        time.sleep(0.05)
    raise lib.Failed("strace doesn't end")


def opened(calls):
    """The paths that were opened."""
    found = [re.match(r'open(?:at)?\((?:[^"]*, )?"([^"]*)"', call) for call in calls]
    return {it[1] for it in found if it}


def letters(calls, journal):
    """The writes and syncs of the journal, and the responses."""
    told = ""
    for call in calls:
        if re.match(r"(write|pwrite64|writev)\(", call):
            told += "w" if f"<{journal}>" in call else "?"
        elif re.match(r"f(data)?sync\(", call) and f"<{journal}>" in call:
            told += "s"
        elif re.match(r"send(to|msg)\(", call):
            told += "r"
    return told


def place_of(calls, pattern):
    """Where the first such call stands, or behind all."""
    return next((place for place, call in enumerate(calls) if re.search(pattern, call)), len(calls))


def rows(program):
    with tempfile.TemporaryDirectory() as folder:
        folder = os.path.realpath(folder)
        data = os.path.join(folder, "data")
        os.mkdir(data)
        calls, port = traced(program, folder)
    journals = {os.path.join(data, f"{letter}.journal") for letter in "ab"}
    others = {path for path in opened(calls) if not LOADED.fullmatch(path)}
    lib.wants(others == {data} | journals, f"opened were {sorted(others)}")
    bound = [call for call in calls if call.startswith("bind(")]
    at = f'sin_port=htons({port}), sin_addr=inet_addr("127.0.0.1")'
    lib.wants(len(bound) == 1 and at in bound[0], f"bound were {bound}")
    lib.wants(not any(call.startswith("connect(") for call in calls), "it connected to something")
    writes = place_of(calls, r"^(write|pwrite64|writev)\((?![12]<)")
    synced = place_of(calls, rf"^f(data)?sync\(\d+<{re.escape(data)}>\)")
    made = max(place_of(calls, rf'^openat\(.*"{re.escape(path)}"') for path in journals)
    lib.wants(made < synced < writes, "the folder isn't synced between the making of its files and the first write")
    begun = place_of(calls, r"^accept4?\(")
    told = letters(calls[begun:], os.path.join(data, "a.journal"))
    wanted = "".join(row for _, row in REQUESTS)
    lib.wants(told == wanted, f"the calls were {told}, and not {wanted}")


def main():
    program, _ = lib.given_words(__doc__)
    lib.tell(lambda: rows(program))


if __name__ == "__main__":
    main()
