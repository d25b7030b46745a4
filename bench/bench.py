#!/usr/bin/env python3
"""Times the built program beside the disk that it writes to.

usage: bench/bench.py [--program PROGRAM] [--calls N] [--repeat N] [--over OVER,..] [--idle N] [--waiting N]
                      [--json FILE] [--compare FILE] [SCENARIO..]

Each scenario (send, receive, lock-and-settle, batch, fan-out, session) is run over `run`, a line at a time
through pipes, and over 1, 4 and 16 kept connections to a server, or as --over says (1,16,64,256,1000), beside
--idle connections that say nothing and --waiting receives on another queue. The callers stand in 16 processes
at most, and make one call each at least. Of a row stand the calls a second, the median and the 99th of a hundred
of their times in ms, and what each takes the server of its own and in the kernel, in microseconds; of several
repetitions the one of median rate. In the same run the disk is timed: records a second at one write and two syncs
each, as the journal's, of the size of a message. --json keeps all in a file, and --compare says of each row how its
rate stands to the disk beside that of such a file. It isn't part of the gate.
"""
import contextlib
import json
import os
import resource
import statistics
import subprocess
import sys
import tempfile
import time
from concurrent.futures import ThreadPoolExecutor

import shared
from shared import done, lib, used

BODY = "x" * 1024
PROCESSES = 16  # that callers stand in at most
QUEUE = [{"do": "create-queue", "name": "q"}]
SESSIONS = [{"do": "create-queue", "name": "q", "requires_session": True}]
SUBSCRIBED = [{"do": "create-topic", "name": "q"}]
SUBSCRIBED += [{"do": "create-subscription", "topic": "q", "name": f"s{number}"} for number in range(10)]


def send(caller, messages=1, **fields):
    call = {"do": "send", "to": "q", "messages": [{"body": BODY, **fields}] * messages}
    done(caller.line(call), "sent")


def receive(caller):
    done(caller.line({"do": "receive", "from": "q", "mode": "delete"}), "message")


def lock_and_settle(caller, **held):
    message = done(caller.line({"do": "receive", "from": "q", **held}), "message")["message"]
    settle = {"do": "complete", "from": "q", "seq": message["seq"], "token": message["token"], **held}
    done(caller.line(settle), "done")


def session(caller):
    """A message to a session of its own, which is accepted, worked off and closed."""
    id = f"{os.getpid()} {time.monotonic_ns()}"
    send(caller, sys={"SessionId": id})
    held = {"session": done(caller.line({"do": "accept", "from": "q", "id": id}), "session")["session"]}
    lock_and_settle(caller, **held)
    done(caller.line({"do": "session-close", "from": "q", **held}), "done")


# the lines before a scenario, its messages before, and what is timed
SCENARIOS = {
    "send": (QUEUE, False, send),
    "receive": (QUEUE, True, receive),
    "lock-and-settle": (QUEUE, True, lock_and_settle),
    "batch": (QUEUE, False, lambda caller: send(caller, messages=20)),
    "fan-out": (SUBSCRIBED, False, send),
    "session": (SESSIONS, False, session),
}


class Run:
    """A `run` that is asked a line at a time."""

    def __init__(self, program, folder):
        pipe = subprocess.PIPE
        self.process = subprocess.Popen([program, "run", "--data", folder], stdin=pipe, stdout=pipe)

    def line(self, call):
        self.process.stdin.write(json.dumps({"at": time.time_ns() // 1_000_000, **call}).encode() + b"\n")
        self.process.stdin.flush()
        return json.loads(self.process.stdout.readline())


def prepare(caller, scenario, calls):
    lines, is_filled, _ = SCENARIOS[scenario]
    for line in lines:
        done(caller.line(line), "done")
    for first in range(0, calls if is_filled else 0, 100):
        send(caller, messages=min(100, calls - first))


def timed(caller, scenario, calls):
    """The seconds of each call."""
    call, took = SCENARIOS[scenario][2], []
    for _ in range(calls):
        begun = time.monotonic()
        call(caller)
        took.append(time.monotonic() - begun)
    return took


def by_callers(port, scenario, calls, many):
    """The seconds of each of so many calls of each of so many callers at once."""
    with contextlib.ExitStack() as stack:
        callers = [stack.enter_context(lib.Caller(port)) for _ in range(many)]
        with ThreadPoolExecutor(many) as pool:
            took = pool.map(lambda caller: timed(caller, scenario, calls), callers)
            return [seconds for some in took for seconds in some]


def in_child(port, scenario, calls, many):
    """A process that is so many callers, and the pipe from which their times are read."""
    reader, writer = os.pipe()
    child = os.fork()
    if child:
        os.close(writer)
        return child, reader
    status = 1
    try:
        with os.fdopen(writer, "w", encoding="ascii") as out:
            json.dump(by_callers(port, scenario, calls, many), out)
        status = 0
    except (OSError, lib.Failed) as fault:
        print(f"bench: {fault}", file=sys.stderr)
    finally:
        os._exit(status)


def over_connections(program, folder, scenario, many, calls, idle, waiting):
    port, places = lib.free_port(), many + idle + waiting + 8
    with lib.serving(program, folder, port, "--workers", str(places)) as server, shared.beside(port, idle, waiting):
        with lib.Caller(port) as caller:
            prepare(caller, scenario, calls)
        before, begun = used(server.pid), time.monotonic()
        parts = [many // PROCESSES + (k < many % PROCESSES) for k in range(min(many, PROCESSES))]
        callers = [in_child(port, scenario, max(1, calls // many), part) for part in parts]
        took = []
        for child, reader in callers:
            with os.fdopen(reader, encoding="ascii") as times:
                said = times.read()
            lib.wants(os.waitpid(child, 0)[1] == 0, f"a caller of {scenario} failed")
            took += json.loads(said)
        return took, time.monotonic() - begun, before, used(server.pid)


def over_run(program, folder, scenario, calls):
    run = Run(program, folder)
    prepare(run, scenario, calls)
    before, begun = used(run.process.pid), time.monotonic()
    took = timed(run, scenario, calls)
    seconds, after = time.monotonic() - begun, used(run.process.pid)
    run.process.communicate()
    return took, seconds, before, after


def measured(program, scenario, over, calls, idle, waiting):
    """One repetition, as a row."""
    with tempfile.TemporaryDirectory(dir=os.environ.get("TMPDIR", "/var/tmp")) as folder:
        if over == "run":
            took, seconds, before, after = over_run(program, folder, scenario, calls)
        else:
            took, seconds, before, after = over_connections(
                program, folder, scenario, int(over), calls, idle, waiting
            )
    own, kernel = ((now - then) / len(took) * 1e6 for now, then in zip(after, before))
    cuts = statistics.quantiles(took, n=100, method="inclusive")
    row = {"rate": len(took) / seconds, "median_ms": cuts[49] * 1000, "p99_ms": cuts[98] * 1000}
    return {**row, "own_us": own, "kernel_us": kernel}


def tell(key, row, disk, kept):
    numbers = f"{row['rate']:8.0f} a second, {row['median_ms']:7.2f} ms, 99th {row['p99_ms']:7.2f} ms"
    numbers += f", {row['own_us']:5.0f} us own, {row['kernel_us']:5.0f} us kernel"
    if kept and key in kept["rows"]:
        numbers += f", {row['rate'] / disk / (kept['rows'][key]['rate'] / kept['disk']):5.2f} of what is kept"
    print(f"{key:24} {numbers}", flush=True)


def words():
    given = shared.words(__doc__)
    given.add_argument("scenarios", nargs="*", choices=[*SCENARIOS, []], metavar="SCENARIO")
    given.add_argument("--program", default=f"{lib.TOP}/bus")
    given.add_argument("--calls", type=int, default=2000)
    given.add_argument("--repeat", type=int, default=3)
    given.add_argument("--over", default="run,1,4,16")
    given.add_argument("--idle", type=int, default=0)
    given.add_argument("--waiting", type=int, default=0)
    given.add_argument("--json")
    given.add_argument("--compare")
    return given.parse_args()


def main():
    given, kept = words(), None
    if given.compare:
        with open(given.compare, encoding="utf-8") as file:
            kept = json.load(file)
    program = shared.built(given.program)
    hard = resource.getrlimit(resource.RLIMIT_NOFILE)[1]
    resource.setrlimit(resource.RLIMIT_NOFILE, (hard, hard))
    disk, rows = shared.disk_rate(os.environ.get("TMPDIR", "/var/tmp")), {}
    print(f"disk: {disk:.0f} records a second at two syncs each", flush=True)
    for scenario in given.scenarios or SCENARIOS:
        for over in given.over.split(","):
            some = [
                measured(program, scenario, over, given.calls, given.idle, given.waiting) for _ in range(given.repeat)
            ]
            key = f"{scenario} over {over}"
            rows[key] = sorted(some, key=lambda row: row["rate"])[len(some) // 2]
            tell(key, rows[key], disk, kept)
    if given.json:
        with open(given.json, "w", encoding="utf-8") as file:
            json.dump({"disk": disk, "rows": rows}, file, indent=1)


if __name__ == "__main__":
    shared.ended(main)
