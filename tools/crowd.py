#!/usr/bin/env python3
"""Keeps many connections to a server busy or waiting, and looks at what is lost and at who waits.

usage: tools/crowd.py PROGRAM [--short] [--seconds S] [ROW..]

PROGRAM is the built program (crates/sb_bus/out/sb_bus). Each row has a server of its own:
kept      2,000 kept connections send once a second each, for --seconds (60): each message is there once, behind a kill
greeted   1,000 connections send again as soon as they are answered, all from the begin on: each has its first response
          before the others have had twenty each
handed    1,000 receives wait, by DELETE and by POST, and 1,000 messages are sent: each receive has one of its own
killed    the server is killed while 1,000 kept connections send numbered messages, and 500 receive and complete, all as
          fast as they can, and is started again, twice: what was acknowledged is there once, or was completed once
left      the callers of 50 receives that wait leave, by a close or a reset, and then 50 messages are sent: all stand in
          the queue. DELETE and POST, 1,000 receives together
beside    how long a sender waits: alone; beside 1,000 idle connections; 500 receives that wait; 100 callers who send a
          byte a second; 100 who read nothing of what they ask for; 10,000 connections that are made and reset
proxied   nginx before it with kept connections, and 64 callers who send and receive for --seconds (20): none has an
          answer of 500 or above, and each message is had once. Not without nginx
Without a ROW all of them. With --short there are a tenth of each, for some seconds, without nginx. The exit status is 1 where a message
is lost or doubled, or a sender waits for more than 5 seconds for a response.
"""
import argparse
import contextlib
import json
import multiprocessing
import os
import shutil
import signal
import socket
import statistics
import struct
import subprocess
import sys
import tempfile
import threading
import time

import lib
from many import Crowd, raise_limit, request

QUEUE = {"do": "create-queue", "name": "q"}
LOCK = 3  # seconds of a lock in the queue of a server that is killed
LONGEST = 5  # seconds that a sender may wait
NGINX = """
daemon off; master_process off; pid {folder}/pid; error_log {folder}/errors;
events {{ worker_connections 1024; }}
http {{
    access_log off;
    client_body_temp_path {folder}/body; proxy_temp_path {folder}/proxy; fastcgi_temp_path {folder}/fastcgi;
    uwsgi_temp_path {folder}/uwsgi; scgi_temp_path {folder}/scgi;
    upstream bus {{ server 127.0.0.1:{port}; keepalive 64; keepalive_timeout 50s; }}
    server {{
        listen 127.0.0.1:{entrance}; keepalive_requests 100000000;
        location / {{ proxy_pass http://bus; proxy_http_version 1.1; proxy_set_header Connection ""; }}
    }}
}}
"""


def begin(program, folder, port, connections):
    words = ("--workers", str(max(1024, connections + 8)))
    return lib.start(program, folder, port, *words, stderr=subprocess.DEVNULL)


@contextlib.contextmanager
def served(program, connections):
    """A server with a place for each of so many connections, and one connection to it, with the queues q and r."""
    port = lib.free_port()
    with tempfile.TemporaryDirectory() as folder:
        server = begin(program, folder, port, connections)
        try:
            with lib.Caller(port) as caller:
                for name in "q", "r":
                    lib.wants(caller.line({**QUEUE, "name": name})["ok"] == "done", "the queue wasn't made")
                yield server, port, caller
        finally:
            if server.poll() is None:
                lib.stop(server)


def taken_behind_kill(program, server):
    """The bodies of all messages of the queue q, by a server that is started where this one is killed."""
    folder, port = server.args[3], lib.free_port()
    lib.stop(server, signal.SIGKILL)
    with lib.serving(program, folder, port, "--workers", "4", stderr=subprocess.DEVNULL):
        return lib.taken(port, "q")


def milliseconds(times):
    cuts = statistics.quantiles(times, n=100, method="inclusive")
    return f"median {cuts[49] * 1000:.2f} ms, 99th {cuts[98] * 1000:.2f} ms, longest {max(times) * 1000:.1f} ms"


def accepted(status, body):
    lib.wants(status == 201, f"a send was answered {status} {body.decode(errors='replace')}")


def kept(program, part, seconds):
    many, sent, times, seconds = 2000 // part, 0, [], seconds or (60, 2)[part > 1]

    def send(it):
        nonlocal sent
        crowd.ask(it, request("POST", "/q/messages", b"%d" % sent))
        sent += 1

    with served(program, many) as (server, port, _), Crowd(port, many) as crowd:
        for it, status, _, body in crowd.each_second(seconds, send):
            accepted(status, body)
            times.append(time.monotonic() - it.begun)
        bodies = sorted(int(body) for body in taken_behind_kill(program, server))
    lib.wants(bodies == list(range(sent)), f"{len(bodies)} messages of {sent} sends, or others")
    wanted = f"{sent} of the {many * seconds:.0f} messages that they would have had time for"
    return f"{many} connections sent {wanted}, each is there once; a send took {milliseconds(times)}"


def greeted(program, part, _):
    many, silent, answered = 1000 // part, set(range(1000 // part)), 0
    with served(program, many) as (_, port, _), Crowd(port, many) as crowd:
        begun = time.monotonic()
        for number, it in enumerate(crowd.all):
            crowd.ask(it, request("POST", "/q/messages", b"x"), number)
        for it, status, _, body in crowd.answers(begun + 300):
            accepted(status, body)
            answered += 1
            silent.discard(it.asked)
            if not silent:
                break
            lib.wants(answered < 20 * many, f"{len(silent)} of {many} have no response, the others {answered}")
            crowd.ask(it, request("POST", "/q/messages", b"x"), it.asked)
        took = time.monotonic() - begun
    lib.wants(not silent, f"{len(silent)} of {many} have no response behind 300 seconds, the others {answered}")
    return f"{many} connections that ask at once have a response each when {answered} have come, in {took:.1f} s"


def handed(program, part, _):
    many, sent, got, behind = 1000 // part, {}, [], []

    def note(status, body):
        lib.wants(status in (200, 201), f"a receive was answered {status} {body}")
        got.append(int(body))
        behind.append(time.monotonic() - sent[int(body)])

    with served(program, many + 10) as (_, port, _), Crowd(port, many) as crowd, Crowd(port, 10) as senders:
        for number, it in enumerate(crowd.all):
            crowd.ask(it, request(("DELETE", "POST")[number % 2], "/q/messages/head?timeout=120"))
        time.sleep(1)
        for number in range(0, many, 10):
            for k, it in enumerate(senders.all):
                senders.ask(it, request("POST", "/q/messages", b"%d" % (number + k)), number + k)
            for it, status, _, body in senders.answers(time.monotonic() + 60, is_rest=True):
                accepted(status, body)
                sent[it.asked] = time.monotonic()
            for _, status, _, body in crowd.answers(time.monotonic() + 0.01, is_rest=True):
                note(status, body)
        for _, status, _, body in crowd.answers(time.monotonic() + 100, is_rest=True):
            note(status, body)
    lib.wants(sorted(got) == list(range(many)), "a message was had twice, or by nobody")
    return f"{many} receives that waited have one message each, {milliseconds(behind)} behind its send"


class Account:
    """What the callers of a server that is killed know of their messages."""

    def __init__(self):
        self.numbers = {}  # of each sender the last number, and whether that was acknowledged
        self.sent, self.completed, self.unsure = set(), [], set()

    def send(self, crowd, it, name):
        number, is_acknowledged = self.numbers.get(name, (0, True))
        number += is_acknowledged
        self.numbers[name] = number, False
        fields = f"Repeat-Client: {name}", f"Repeat-Number: {number}"
        crowd.ask(it, request("POST", "/q/messages", f"{name} {number}".encode(), fields), ("send", name))

    def receive(self, crowd, it):
        crowd.ask(it, request("POST", "/q/messages/head?timeout=60"), ("receive", None))

    def note(self, crowd, it, status, head, body):
        """Writes an answer down, and asks further."""
        what, of_what = it.asked
        if status == 0:  # the server was killed, and what this one asked may have acted
            if what == "complete":
                self.unsure.add(of_what)
            return
        if what == "send":
            accepted(status, body)
            number, _ = self.numbers[of_what]
            self.numbers[of_what] = number, True
            self.sent.add(f"{of_what} {number}")
            self.send(crowd, it, of_what)
        elif what == "receive" and status == 201:
            location = next(line for line in head.split("\r\n") if line.startswith("Location: "))
            path = location.removeprefix("Location: http://localhost")
            crowd.ask(it, request("DELETE", path), ("complete", body.decode()))
        else:
            lib.wants(status in (200, 204, 404), f"a {what} was answered {status} {body}")
            if what == "complete" and status == 200:
                self.completed.append(of_what)
            self.receive(crowd, it)

    def judged(self, rest):
        """What is wrong, where these messages stand in the queue at the end."""
        there = self.completed + rest
        lost = self.sent - set(there) - self.unsure
        lib.wants(not lost, f"{len(lost)} acknowledged messages are lost, as {sorted(lost)[:3]}")
        lib.wants(self.sent.issuperset(there), "there are messages that nobody sent")
        lib.wants(len(there) == len(set(there)), f"{len(there) - len(set(there))} messages were had twice")


def under_load(account, server, port, senders, receivers, seconds):
    """Sends and receives until the server, which is killed behind so many seconds, is gone."""
    with Crowd(port, senders + receivers) as crowd:
        death = threading.Timer(seconds, lib.stop, [server, signal.SIGKILL])
        death.start()
        for number, it in enumerate(list(crowd.all)):
            if number < senders:
                account.send(crowd, it, f"caller {number}")
            else:
                account.receive(crowd, it)
        for it, *answer in crowd.answers(time.monotonic() + seconds + 60, is_rest=True):
            account.note(crowd, it, *answer)
        death.join()


def killed(program, part, _):
    senders, receivers, account, rounds = 1000 // part, 500 // part, Account(), (2, 1)[part > 1]
    port = lib.free_port()
    with tempfile.TemporaryDirectory() as folder:
        server = begin(program, folder, port, senders + receivers)
        try:
            with lib.Caller(port) as caller:
                lib.wants(caller.line({**QUEUE, "lock": LOCK})["ok"] == "done", "the queue wasn't made")
            for _ in range(rounds):
                under_load(account, server, port, senders, receivers, (5, 2)[part > 1])
                server = begin(program, folder, port, senders + receivers)
            with lib.Caller(port) as caller:
                for name, (number, is_acknowledged) in account.numbers.items():
                    if not is_acknowledged:
                        fields = f"Repeat-Client: {name}", f"Repeat-Number: {number}"
                        status, _, body = caller.ask("POST", "/q/messages", f"{name} {number}".encode(), fields)
                        accepted(status, body)
                        account.sent.add(f"{name} {number}")
            time.sleep(LOCK + 0.5)
            account.judged(taken_behind_kill(program, server))
        finally:
            if server.poll() is None:
                lib.stop(server)
    numbers = f"{len(account.sent)} sends and {len(account.completed)} completed messages"
    unsure = f"{len(account.unsure)} completions had no answer"
    return f"{numbers} through {rounds} kill{'s' * (rounds > 1)}; {unsure}; none lost, none doubled"


def leave(conn, by_reset=True):
    if by_reset:
        conn.setsockopt(socket.SOL_SOCKET, socket.SO_LINGER, struct.pack("ii", 1, 0))
    conn.close()


def left(program, part, _):
    """Many at once, since each receive has to have looked once before its caller leaves."""
    rounds, many, lost = 20 // part, 50, 0
    with served(program, many) as (_, port, caller):
        for number in range(rounds):
            conns = [socket.create_connection(("127.0.0.1", port)) for _ in range(many)]
            for conn in conns:
                conn.sendall(request(("DELETE", "POST")[number % 2], "/q/messages/head?timeout=60"))
            time.sleep(0.5)
            for conn in conns:
                leave(conn, number % 4 >= 2)
            for _ in range(many):
                status, _, body = caller.ask("POST", "/q/messages", b"x")
                accepted(status, body)
            lost += many - len(lib.taken(port, "q"))
    lib.wants(lost == 0, f"{lost} of {rounds * many} messages went to callers who had left before they were sent")
    return f"{rounds * many} receives whose callers left: each message that was sent behind that is there"


def opened(stack, port, many):
    return [stack.enter_context(socket.create_connection(("127.0.0.1", port), timeout=30)) for _ in range(many)]


def waits(stack, port, many):
    for conn in opened(stack, port, many):
        conn.sendall(request("DELETE", "/r/messages/head?timeout=600"))


def by_bytes(port, many):
    """Callers who send a byte a second each."""
    with contextlib.ExitStack() as stack:
        conns = opened(stack, port, many)
        for byte in request("POST", "/r/messages", b"x" * 100):
            for conn in conns:
                conn.sendall(bytes([byte]))
                time.sleep(1 / many)


def deaf(stack, port, many):
    """Callers who ask for 4 MiB each, and read nothing."""
    with lib.Caller(port) as caller:
        status, _, body = caller.ask("POST", "/r/messages", b"x" * 16384)
        accepted(status, body)
    look = request("POST", "/$script", json.dumps({"do": "peek", "from": "r", "start": 1, "count": 1}).encode())
    for _ in range(many):
        conn = stack.enter_context(socket.socket())
        conn.setsockopt(socket.SOL_SOCKET, socket.SO_RCVBUF, 4096)
        conn.connect(("127.0.0.1", port))
        conn.sendall(look * 256)


def resets(port, many):
    for _ in range(many):
        with contextlib.suppress(OSError):
            leave(socket.create_connection(("127.0.0.1", port), timeout=30))


@contextlib.contextmanager
def in_child(what, *words):
    """A process beside that does this, and is ended behind the block."""
    child = multiprocessing.Process(target=what, args=words)
    child.start()
    try:
        yield child
    finally:
        child.kill()
        child.join()


def sends(caller, seconds, child=None):
    """The seconds that a sender waits for each response, for so long, and until the process beside has ended."""
    times, end = [], time.monotonic() + seconds
    while len(times) < 2 or time.monotonic() < end or (child and child.is_alive()):
        begun = time.monotonic()
        try:
            status, _, body = caller.ask("POST", "/q/messages", b"x")
        except OSError as fault:
            raise lib.Failed(f"a sender that waited for {time.monotonic() - begun:.1f} seconds: {fault}") from fault
        accepted(status, body)
        times.append(time.monotonic() - begun)
        lib.wants(times[-1] < LONGEST, f"a sender waited for {times[-1]:.1f} seconds")
    return times


def beside(program, part, seconds):
    rows = [
        ("alone", None, 0),
        ("idle connections", opened, 1000),
        ("receives that wait", waits, 500),
        ("callers of a byte a second", by_bytes, 100),
        ("who read nothing", deaf, 100),
        ("connects and resets", resets, 10000),
    ]
    said = []
    for name, what, whole in rows:
        many = whole // part
        places = 0 if what is resets else many
        with served(program, places) as (_, port, caller), contextlib.ExitStack() as stack:
            child = None
            if what in (by_bytes, resets):
                child = stack.enter_context(in_child(what, port, many))
            elif what:
                what(stack, port, many)
            times = sends(caller, seconds or (5, 0.5)[part > 1], child if what is resets else None)
            said.append(f"{many or ''} {name}: {milliseconds(times)}".strip())
    return "".join(f"\n    {it}" for it in said)


@contextlib.contextmanager
def nginx(port):
    """The port of an nginx before it."""
    entrance = lib.free_port()
    with tempfile.TemporaryDirectory() as folder:
        os.chmod(folder, 0o755)
        with open(f"{folder}/conf", "w", encoding="ascii") as conf:
            conf.write(NGINX.format(folder=folder, port=port, entrance=entrance))
        process = subprocess.Popen(["nginx", "-c", f"{folder}/conf", "-e", f"{folder}/errors"])
        try:
            while not lib.is_listening(entrance):
                lib.wants(process.poll() is None, "nginx ended")
                time.sleep(0.05)
            yield entrance
        finally:
            process.terminate()
            process.wait()


def proxied(program, part, seconds):
    if not shutil.which("nginx"):
        return "not run, for want of nginx"
    sent, got = [], []
    with served(program, 128) as (_, port, caller), nginx(port) as entrance, Crowd(entrance, 64) as crowd:
        def ask(it):
            if it.is_sender:
                crowd.ask(it, request("POST", "/q/messages", b"%d" % len(sent)))
                sent.append(it)
            else:
                crowd.ask(it, request("DELETE", f"/q/messages/head?timeout={10 // part + 1}"))

        for number, it in enumerate(crowd.all):
            it.is_sender = number % 2 == 0
        end = time.monotonic() + (seconds or (20, 2)[part > 1])
        for it in crowd.all:
            ask(it)
        for it, status, _, body in crowd.answers(end + 60, is_rest=True):
            lib.wants(status in (200, 201, 204), f"a caller behind nginx was answered {status} {body[:200]}")
            if status == 200:
                got.append(int(body))
            if time.monotonic() < end:
                ask(it)
        got += [int(body) for body in lib.taken(port, "q")]
    lib.wants(sorted(got) == list(range(len(sent))), f"{len(sent)} were sent, and {len(got)} were had")
    return f"64 callers behind nginx sent and had {len(sent)} messages, each once; no answer of 500 or above"


ROWS = {row.__name__: row for row in (kept, greeted, handed, killed, left, beside, proxied)}


def main():
    given = argparse.ArgumentParser(usage=__doc__.split("\n\n")[1].removeprefix("usage: "))
    given.add_argument("program")
    given.add_argument("--short", action="store_true")
    given.add_argument("--seconds", type=float)
    given.add_argument("rows", nargs="*", choices=[*ROWS, []], metavar="ROW")
    given = given.parse_intermixed_args()
    part = 10 if given.short else 1
    if not raise_limit(2 * (2000 // part) + 100):
        print("not run: the limit of open files is too low")
        return

    def rows():
        for name in given.rows or [it for it in ROWS if not given.short or it != "proxied"]:
            print(f"{name}: {ROWS[name](os.path.realpath(given.program), part, given.seconds)}", flush=True)

    lib.tell(rows)


if __name__ == "__main__":
    main()
