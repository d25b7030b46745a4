#!/usr/bin/env python3
"""Runs the client programs of examples/ against a server.

usage: tools/client_examples.py PROGRAM [LINES]

PROGRAM is the built program (crates/sb_bus/out/sb_bus). So many numbered sends, 1,000 where nothing is said, go on through a server that is killed
and started again, and through a second call with the same lines; the worker gets an order that takes longer than
its lock and one that is none; the sessions are worked off in order; readings are added up by one program and then by the
other, each once, though a worker lost its session whose turn on one came late; and what is left is shown as a table. Then a server's
own numbers are looked at, by `/$metrics` and `/$status`: each call is counted once, by what it asks for and how it was answered. It
needs node, curl and awk. The exit status is 1 where something else happens.
"""
import json
import os
import re
import signal
import subprocess
import tempfile
import time

import lib

EXAMPLES = os.path.join(lib.TOP, "examples")
HISTOGRAM = "zolmutarn_call_microseconds"
BOUNDS = [10, 25, 50, 100, 250, 500, 1000, 2500, 5000, 10000, 25000, 50000, 100000, 250000, 1000000, "+Inf"]
SEND = {"do": "send", "messages": [{"body": "hi"}]}
TAKE = {"do": "receive", "from": "q", "mode": "delete"}
TOGETHER = {"do": "together", "entity": "q", "operations": [{**SEND, "to": "q"}, {**SEND, "to": "q"}]}
# Calls with their answers, and whether each is a record of the journal.
COUNTED = [
    ({"do": "create-queue", "name": "q"}, "done", True),
    ({**SEND, "to": "q"}, "done", True),
    ({**SEND, "to": "q", "client": "c", "number": 1}, "done", True),
    ({**SEND, "to": "q", "client": "c", "number": 1}, "kept", False),
    ({**SEND, "to": "nowhere"}, "refused", False),
    (TOGETHER, "done", True),
    ({**TOGETHER, "operations": []}, "refused", False),
    *[(TAKE, "done", True)] * 4,
    (TAKE, "empty", False),
    ({"do": "counts", "entity": "q"}, "done", False),
    ({"do": "counts", "entity": "nowhere"}, "refused", False),
]


def made_queue(port, name, **fields):
    with lib.Caller(port) as caller:
        reply = caller.line({"do": "create-queue", "name": name, **fields})
        lib.wants(reply == {"ok": "done"}, f"{name} was answered {reply}")


def sent(port, queue, bodies, **fields):
    with lib.Caller(port) as caller:
        reply = caller.line({"do": "send", "to": queue, "messages": [{"body": body, **fields} for body in bodies]})
        lib.wants(reply.get("ok") == "sent", f"a send was answered {reply}")


def example(name, *words, **how):
    """An example's process, whose input and output are pipes."""
    pipe = subprocess.PIPE
    return subprocess.Popen([os.path.join(EXAMPLES, name), *words], stdin=pipe, stdout=pipe, stderr=pipe, text=True, **how)


def output(process, given=""):
    told, faults = process.communicate(given, timeout=120)
    lib.wants(process.returncode == 0, f"{process.args[0]} ended with status {process.returncode}: {faults}")
    return told


def numbered_sends(program, folder, port, count):
    words = [str(port), "sends", "desk 1"]
    lines = [f"order {number}" for number in range(1, count + 1)]
    given = "".join(f"{line}\n" for line in lines)
    server = lib.start(program, folder, port)
    try:
        made_queue(port, "sends")
        sender = example("numbered_sends.py", *words)
        sender.stdin.write(given)
        sender.stdin.flush()
        for _ in range(3):
            time.sleep(0.4)
            lib.stop(server, signal.SIGKILL)
            server = lib.start(program, folder, port)
        output(sender)
        told = output(example("numbered_sends.py", *words), given)
        lib.wants(told == "0 sent\n", f"the same lines again were told as {told}")
        lib.wants(lib.taken(port, "sends") == lines, "a line was lost, doubled or came out of turn")
    finally:
        lib.stop(server)


def worker(port):
    made_queue(port, "orders", lock=5)
    sent(port, "orders", ['{"seconds":0}', '{"seconds":7}', "a lamp", '{"seconds":0}'])
    told = output(example("worker.mjs", str(port), "orders", "2"))
    wanted = ["1 done", "2 done", "3 is no order: the order is no JSON", "4 done"]
    lib.wants(told.splitlines() == wanted, f"the worker wrote {told}")
    with lib.Caller(port) as caller:
        counts = caller.line({"do": "counts", "entity": "orders"})["counts"]
        dead = caller.line({"do": "receive", "from": "orders/$deadletterqueue", "mode": "delete"})["message"]
    lib.wants(counts == {"dead": 1, "main": 0, "transfer": 0}, f"behind the worker stand {counts}")
    reasons = {"deadletterreason": "BadOrder", "deadlettererrordescription": "the order is no JSON"}
    lib.wants(dead["body"] == "a lamp" and dead["props"] == reasons, f"the dead letter is {dead}")


def sessions(port):
    made_queue(port, "jobs", requires_session=True)
    for number in (1, 2, 3):
        for id in ("a", "b"):
            sent(port, "jobs", [f'{id} "{number}"'], sys={"SessionId": id})
    told = output(example("sessions.sh", str(port), "jobs"))
    wanted = [f'{id} {id} "{number}"' for id in ("a", "b") for number in (1, 2, 3)]
    lib.wants(told.splitlines() == wanted, f"the sessions were told as {told}")
    with lib.Caller(port) as caller:
        held = caller.line({"do": "accept", "from": "jobs", "id": "a"})
        state = caller.line({"do": "session-state", "from": "jobs", "session": held["session"]})
    lib.wants(state == {"ok": "state", "state": "3"}, f"the session remembers {state}")


def came_late(port, session, known):
    """As of a worker that received the first reading of a session, and gave the session back before its turn: nothing is done."""
    with lib.Caller(port) as caller:
        status, head, _ = caller.ask("POST", f"/readings/sessions/{session}")
        lib.wants(status == 201, f"the accept of a session was answered {head}")
        place = re.search(r"\r\nLocation: http://[^/]+(\S+)", head)[1]
        status, head, _ = caller.ask("POST", f"{place}/messages/head")
        lib.wants(status == 201, f"a receive of a session was answered {head}")
        told = json.loads(re.search(r"\r\nBrokerProperties: (.*?)\r\n", head)[1])
        held = {"from": "readings", "session": place.rsplit("/", 1)[1]}
        completed = {"do": "complete", **held, "seq": told["SequenceNumber"], "token": told["LockToken"]}
        remembered = {"do": "session-set", **held, "state": json.dumps(known)}
        turn = {"do": "together", "entity": "readings", "operations": [completed, remembered]}
        calls = [("DELETE", place, b""), ("POST", "/$together", json.dumps(turn).encode())]
        answers = [caller.ask(method, path, body)[::2] for method, path, body in calls]
    lib.wants(answers == [(200, b""), (404, b'{"part":0,"refused":"SessionLost"}')], f"a session's holder was answered {answers}")


def readings(port):
    made_queue(port, "readings", requires_session=True)
    sent(port, "readings", ["7", "-2", "x", "10"], sys={"SessionId": "thermo 1"})
    sent(port, "readings", ["5"], sys={"SessionId": "scale"})
    told = output(example("readings.py", str(port), "readings", "0"))
    wanted = ["thermo 1: 3 readings, 15 together", "scale: 1 readings, 5 together"]
    lib.wants(told.splitlines() == wanted, f"the readings were told as {told}")
    sent(port, "readings", ["20", "30"], sys={"SessionId": "thermo 1"})
    came_late(port, "thermo%201", {"count": 4, "sum": 35})
    told = output(example("readings.mjs", str(port), "readings", "0"))
    lib.wants(told == "thermo 1: 5 readings, 65 together\n", f"more readings were told as {told}")
    with lib.Caller(port) as caller:
        counts = caller.line({"do": "counts", "entity": "readings"})["counts"]
    lib.wants(counts == {"dead": 1, "main": 0, "transfer": 0}, f"behind the readings stand {counts}")


def table(port):
    process = example("look.sh", str(port), "r")
    told, faults = process.communicate(timeout=120)
    lib.wants(process.returncode == 1, f"a look at a dead letter ended with status {process.returncode}: {faults}")
    heads = "ENTITY READY HELD DEFERRED SCHEDULED DEAD AGE".split()
    wanted = [['{"ok":"health"}'], heads, "readings 0 0 0 0 1 -".split()]
    lib.wants([line.split() for line in told.splitlines()] == wanted, f"the table is {told}")


def numbers_of(caller):
    """The values of a server's metrics, by their names with their labels."""
    status, head, text = caller.ask("GET", "/$metrics")
    lib.wants(status == 200, f"the metrics were answered {head}")
    lines = [line for line in text.decode().splitlines() if not line.startswith("#")]
    return {name: float(value) for name, value in (line.rsplit(" ", 1) for line in lines)}


def counts_of(numbers):
    """How many calls there were, by act and answer."""
    form = re.compile(r'zolmutarn_calls_total\{act="([a-z-]+)",answer="([a-z]+)"\}')
    found = [(form.fullmatch(name), n) for name, n in numbers.items()]
    return {(name[1], name[2]): n for name, n in found if name}


def is_histogram(numbers):
    """The counts rise along the bounds up to that of all calls."""
    counts = [numbers[f'{HISTOGRAM}_bucket{{le="{most}"}}'] for most in BOUNDS]
    all_calls = numbers[f"{HISTOGRAM}_count"]
    lib.wants(counts == sorted(counts) and counts[-1] == all_calls, f"of {all_calls} calls took at most so long: {counts}")
    lib.wants(sum(counts_of(numbers).values()) == all_calls, f"{all_calls} calls are {counts_of(numbers)}")
    lib.wants(all_calls == 0 or numbers[f"{HISTOGRAM}_sum"] > 0, f"{all_calls} calls took no time")


def counted(caller, call, answer, is_record):
    """A call adds one to its count, and the look at the numbers one to that of lists; its record takes two syncs."""
    before = numbers_of(caller)
    reply = caller.line(call)
    lib.wants(("refused" in reply) == (answer == "refused"), f"{call} was answered {reply}")
    now = numbers_of(caller)
    is_histogram(now)
    was, counts = counts_of(before), counts_of(now)
    risen = {key: n - was.get(key, 0) for key, n in counts.items() if n > was.get(key, 0)}
    lib.wants(risen == {(call["do"], answer): 1, ("list", "done"): 1}, f"{call} has raised {risen}")
    names = ("journal_records_total", "syncs_total", "journal_bytes")
    records, syncs, grown = (now[f"zolmutarn_{name}"] - before[f"zolmutarn_{name}"] for name in names)
    fits = (records, syncs, grown > 0) == (is_record, 2 * is_record, is_record)
    lib.wants(fits, f"{call} made {records} records, {syncs} syncs and {grown} bytes")
    lib.wants(now["zolmutarn_connections"] >= 1, f"{now['zolmutarn_connections']} connections, where one asks")


def until(caller, wanted):
    """Waits until so many calls wait and so many connections are open, some seconds at most."""
    for _ in range(100):
        now = numbers_of(caller)
        came = [now["zolmutarn_waiting_receives"], now["zolmutarn_connections"]]
        if came == wanted:
            return
        time.sleep(0.05)
    raise lib.Failed(f"there are {came[0]} calls that wait and {came[1]} connections, not {wanted}")


def waiting(port, caller):
    """A receive on a connection of its own waits, gets its message, and goes."""
    until(caller, [0, 1])
    with lib.Caller(port) as other:
        other.socket.sendall(b"DELETE /q/messages/head?timeout=60 HTTP/1.1\r\nHost: h\r\n\r\n")
        until(caller, [1, 2])
        caller.line({**SEND, "to": "q"})
        status, _, body = other.answer()
        lib.wants((status, body) == (200, b"hi"), f"a receive that waits was answered {status}, {body}")
        until(caller, [0, 2])
    until(caller, [0, 1])


def server_of(program, caller, begun):
    """What `/$status` says of a server that was called with two threads and three workers."""
    status, head, body = caller.ask("GET", "/$status")
    lib.wants(status == 200, f"the status was answered {head}")
    server = json.loads(body)["server"]
    version = subprocess.run([program, "--version"], capture_output=True, text=True, check=True).stdout.split()[-1]
    metrics = numbers_of(caller)
    shown = [server["journal_bytes"], server["journal_records"], server["syncs"]]
    same = [metrics[f"zolmutarn_{name}"] for name in ("journal_bytes", "journal_records_total", "syncs_total")]
    lib.wants(shown == same, f"the status says {shown} of the journal, and the metrics {same}")
    is_young = 0 <= server["uptime_seconds"] <= metrics["zolmutarn_uptime_seconds"] <= time.monotonic() - begun + 1
    lib.wants(is_young, f"the server has run for {server['uptime_seconds']} s")
    rest = [server[name] for name in ("version", "threads", "workers", "connections", "waiting")]
    lib.wants(rest == [version, 2, 3, 1, 0] and len(server) == 9, f"the status shows {server}")


def numbers(program):
    """Over a server of its own, to whom nobody else speaks."""
    port, begun = lib.free_port(), time.monotonic()
    with tempfile.TemporaryDirectory() as folder, lib.serving(program, folder, port, "--workers", "3", "--threads", "2"):
        with lib.Caller(port) as caller:
            for row in COUNTED:
                counted(caller, *row)
            waiting(port, caller)
            server_of(program, caller, begun)


def tried(program, count):
    with tempfile.TemporaryDirectory() as folder:
        numbered_sends(program, folder, lib.free_port(), count)
    port = lib.free_port()
    with tempfile.TemporaryDirectory() as folder, lib.serving(program, folder, port):
        worker(port)
        sessions(port)
        readings(port)
        table(port)
    numbers(program)


def main():
    program, more = lib.given_words(__doc__, most=2)
    lib.tell(lambda: tried(program, int(more[0]) if more else 1000))


if __name__ == "__main__":
    main()
