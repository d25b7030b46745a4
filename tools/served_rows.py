#!/usr/bin/env python3
"""Asks a server over real sockets, by curl, by the program's own client and byte by byte.

usage: tools/served_rows.py PROGRAM [--short]

PROGRAM is the built program (crates/sb_bus/out/sb_bus). A server is started on an empty folder; a message is sent and
received as docs/REST.md has it, settled by its Location, and the same two requests are sent whole, pipelined and cut
after each byte. A thousand sends in one piece have the numbers 1 to 1,000. The largest message comes back byte for
byte. A message of 100,000 user properties is refused within 20 seconds, in a batch and in a line. A moment lies
between two readings of the clock here. Two connections are open at once where a receive waits for a send. Of two workers
the one that waits for a session gets that of a message which is sent meanwhile, and then the one that the other gives
back. A server with --checkpoint leaves a journal that has gone on with the other file. What a server tells on standard
error, with a log of its calls, is read. A server that has no file left for a connection says so once, and takes it as
soon as there is one. A hundred callers of a byte a second are let go once the time of a
request has passed. A caller who says nothing is let go after the idle time; where all places are taken and another
waits for one, after 5 seconds, but a receive that waits keeps its place. The one worker of a server is free again once
its caller has taken nothing of its response for some minutes. --short leaves these three out. The exit status is 1 where
something is answered otherwise.
"""
import contextlib
import os
import re
import resource
import socket
import subprocess
import sys
import tempfile
import threading
import time
from concurrent.futures import ThreadPoolExecutor

from lib import Caller, free_port, given_words, is_listening, serving, start, tell, wants

SEND = b"POST /Q/messages HTTP/1.1\r\nHost: h\r\nContent-Length: 2\r\n\r\nhi"
RECEIVE = b"POST /q/messages/head?timeout=0 HTTP/1.1\r\nHost: h\r\n\r\n"
SENT = b"HTTP/1.1 201 Created\r\nContent-Length: 0\r\n\r\n"
TIME = r"[A-Z][a-z]{2}, \d\d [A-Z][a-z]{2} \d{4} \d\d:\d\d:\d\d GMT"
TOKEN = r"[0-9a-f]{8}-[0-9a-f]{4}-[0-9a-f]{4}-[0-9a-f]{4}-[0-9a-f]{12}"
RECEIVED = re.compile(
    (
        r"HTTP/1\.1 201 Created\r\n"
        r'BrokerProperties: \{"DeliveryCount":1,"EnqueuedSequenceNumber":(\d+),"EnqueuedTimeUtc":"%s",'
        r'"LockToken":"(%s)","LockedUntilUtc":"%s","SequenceNumber":\1\}\r\n'
        r"Location: (http://h/q/messages/\1/\2)\r\nContent-Length: 2\r\n\r\nhi"
    )
    % (TIME, TOKEN, TIME)
)
ACCEPTED = re.compile(
    (
        r'HTTP/1\.1 201 Created\r\nBrokerProperties: \{"LockedUntilUtc":"%s","SessionId":"(.*)"\}\r\n'
        r"Location: http://localhost(/s/sessions/\S+/%s)\r\nContent-Length: 0"
    )
    % (TIME, TOKEN)
)


def client(program, port, lines, status):
    """The reply lines that the program's client writes."""
    ran = subprocess.run(
        [program, "client", "--port", str(port)], input="".join(line + "\n" for line in lines),
        capture_output=True, text=True, check=False,
    )
    wants(ran.returncode == status, f"client ended with status {ran.returncode}")
    return ran.stdout.splitlines()


def curl(port, *words):
    """The status of a response and its headers and body, as curl prints them."""
    *words, path = words
    done = subprocess.run(
        ["curl", "-s", "-i", "-H", "Host: h", *words, f"http://127.0.0.1:{port}{path}"], capture_output=True, check=True
    )
    text = done.stdout.decode()
    return int(text.split(" ")[1]), text


def over_one_connection(port, pieces):
    """What comes back over one connection, which ends with the last request."""
    with socket.create_connection(("127.0.0.1", port), timeout=20) as conn:
        conn.setsockopt(socket.IPPROTO_TCP, socket.TCP_NODELAY, 1)
        for piece in pieces:
            conn.sendall(piece)
        conn.shutdown(socket.SHUT_WR)
        got = b""
        while piece := conn.recv(65536):
            got += piece
        return got


def settle(port, location, method, status):
    path = location.removeprefix("http://h")
    got, _ = curl(port, "-X", method, path)
    wants(got == status, f"{method} {path} was answered {got}")


def two_requests(port):
    both = SEND + RECEIVE
    for pieces in ([SEND, RECEIVE], [both], [both[i : i + 1] for i in range(len(both))]):
        got = over_one_connection(port, pieces)
        wants(got.startswith(SENT), f"a send was answered {got!r}")
        found = RECEIVED.fullmatch(got[len(SENT) :].decode())
        wants(found, f"a receive was answered {got[len(SENT):]!r}")
        location = found[3]
        settle(port, location.replace(found[2], found[2].upper()), "DELETE", 200)
        settle(port, location, "DELETE", 404)
    got = over_one_connection(port, [SEND[:-1]])
    wants(got == b"", f"a request that is cut off was answered {got!r}")


def thousand_sends(port):
    """A thousand sends in one piece are answered in their order, and have the numbers 1 to 1,000."""
    with Caller(port) as caller:
        caller.line({"do": "create-queue", "name": "many"})
        got = over_one_connection(port, [SEND.replace(b"/Q/", b"/many/") * 1000])
        wants(got == SENT * 1000, f"a thousand sends were answered {len(got)} bytes")
        numbers = []
        for begin in range(1, 1001, 100):
            copies = caller.line({"do": "peek", "from": "many", "start": begin, "count": 100})["copies"]
            numbers += [copy["seq"] for copy in copies]
        wants(numbers == list(range(1, 1001)), f"a thousand sends have the numbers {numbers}")
        caller.line({"do": "delete", "entity": "many"})


def by_curl(port):
    status, _ = curl(port, "-X", "POST", "--data-binary", "hello", "/q/messages")
    wants(status == 201, f"curl's send was answered {status}")
    status, text = curl(port, "-X", "DELETE", "/q/messages/head")
    wants(status == 200 and text.endswith("hello"), f"curl's receive was answered {text}")
    status, _ = curl(port, "-X", "DELETE", "/q/messages/head?timeout=0")
    wants(status == 204, f"a receive of nothing was answered {status}")
    with tempfile.NamedTemporaryFile() as body:
        for size, wanted in ((262_144, 201), (262_145, 403)):
            body.truncate(size)
            status, _ = curl(port, "-X", "POST", "--data-binary", f"@{body.name}", "/q/messages")
            wants(status == wanted, f"a body of {size} bytes was answered {status}")
    status, _ = curl(port, "-X", "DELETE", "/q/messages/head")
    wants(status == 200, f"the large message was answered {status}")


def largest_message(port):
    body = os.urandom(262_144)
    with Caller(port) as caller:
        status, _, _ = caller.ask("POST", "/q/messages", body)
        wants(status == 201, f"the largest message was answered {status}")
        status, _, came = caller.ask("DELETE", "/q/messages/head")
    wants(status == 200 and came == body, f"the largest message came back with status {status} and {len(came)} bytes")


def many_properties(port):
    """A message of 100,000 user properties, in a batch and in a line, is refused while its caller still waits."""
    names = ",".join(f'"{name:05x}":1' for name in range(100_000))
    batch = f'[{{"UserProperties":{{{names}}}}}]'
    line = f'{{"do":"send","to":"q","messages":[{{"props":{{{names}}}}}]}}'
    fields = ["Content-Type: application/vnd.microsoft.servicebus.json"]
    for path, body in (("/q/messages", batch), ("/script", line)):
        with Caller(port) as caller:
            try:
                _, _, told = caller.ask("POST", path, body.encode(), fields)
            except TimeoutError:
                told = b"nothing"
        wants(told.strip() == b'{"key":"props","refused":"BadCall"}', f"{path} answered 100,000 properties by {told}")


def system_clock(port):
    """A message is enqueued between two readings of the clock, and locked for 60 s from then on."""
    with Caller(port) as caller:
        before = int(time.time() * 1000)
        caller.line({"do": "send", "to": "q", "messages": [{"body": "now"}]})
        between = int(time.time() * 1000)
        message = caller.line({"do": "receive", "from": "q"})["message"]
        after = int(time.time() * 1000)
        caller.line({"do": "complete", "from": "q", "seq": message["seq"], "token": message["token"]})
    enqueued, locked = message["enqueued"], message["until"] - 60_000
    wants(before <= enqueued <= between <= locked <= after, f"{enqueued} and {locked} at {before}, {between}, {after}")


def two_at_once(port):
    """A receive waits on one connection while another sends."""
    got = []
    waiter = threading.Thread(target=lambda: got.append(curl(port, "-X", "DELETE", "/q/messages/head?timeout=30")))
    waiter.start()
    time.sleep(0.5)
    curl(port, "-X", "POST", "--data-binary", "late", "/q/messages")
    waiter.join()
    wants(got and got[0][0] == 200 and got[0][1].endswith("late"), f"a receive that waits was answered {got}")


def accepted(answer):
    """The id of a session that was accepted, and the path of its holder."""
    _, head, body = answer
    found = ACCEPTED.fullmatch(head)
    wants(found and not body, f"an accept was answered {head}")
    return found[1], found[2]


def session_waited_for(one, other, wakes):
    """What another worker accepts who waits while this is done."""
    with ThreadPoolExecutor(1) as pool:
        waiting = pool.submit(other.ask, "POST", "/s/sessions/head?timeout=15")
        time.sleep(0.5)
        wants(not waiting.done(), "an accept of nothing didn't wait")
        one.ask(*wakes)
        return accepted(waiting.result())


def two_workers(port):
    """One holds a session; the other, who waits for the next one, gets that of a message, and then what the first gives back."""
    send = ["POST", "/s/messages", b"hi"]
    with Caller(port) as one, Caller(port) as other:
        one.line({"do": "create-queue", "name": "s", "requires_session": True})
        one.ask(*send, ['BrokerProperties: {"SessionId":"till 3"}'])
        id, held = accepted(one.ask("POST", "/s/sessions/head?timeout=0"))
        wants(id == "till 3" and held.startswith("/s/sessions/till%203/"), f"{id} was accepted, as {held}")
        status, head, _ = other.ask("POST", "/s/sessions/till%203")
        wants(status == 409 and re.search(rf"\r\nRetry-After: {TIME}\r\n", head), f"a session that is held is told by {head}")
        wants(one.ask("PUT", f"{held}/state", b"\0\xff")[0] == 200, "a state isn't taken")
        id, _ = session_waited_for(one, other, [*send, ['BrokerProperties: {"SessionId":"b"}']])
        wants(id == "b", f"{id} was accepted behind a send to b")
        id, again = session_waited_for(one, other, ["DELETE", held])
        wants(id == "till 3" and again != held, f"{id} was accepted behind till 3, as {again}")
        status, _, state = other.ask("GET", f"{again}/state")
        wants((status, state) == (200, b"\0\xff"), f"a state was answered {status}, {state}")
        status, _, body = other.ask("DELETE", f"{again}/messages/head?timeout=0")
        wants((status, body) == (200, b"hi"), f"a receive in a session was answered {status}, {body}")
        status, _, body = one.ask("GET", f"{held}/state")
        wants((status, body) == (404, b'{"refused":"SessionLost"}'), f"a lost session's state was answered {status}, {body}")


def all_rows(program, is_short):
    port = free_port()
    with tempfile.TemporaryDirectory() as folder, serving(program, folder, port):
        told = client(program, port, ['{"do":"create-queue","name":"q"}', '{"do":"counts","entity":"q"}'], 0)
        wants(
            told == ['{"ok":"done"}', '{"counts":{"dead":0,"main":0,"transfer":0},"ok":"counts"}'],
            f"the client wrote {told}",
        )
        two_requests(port)
        thousand_sends(port)
        by_curl(port)
        largest_message(port)
        many_properties(port)
        system_clock(port)
        two_at_once(port)
        two_workers(port)
        port_in_use(program, port)
    two_workers_end(program)
    ends_with_a_checkpoint(program)
    lines_told(program)
    out_of_files(program)
    slow_callers(program)
    if not is_short:
        each_at_once(lambda: silent_caller(program), lambda: caller_who_takes_nothing(program), lambda: wanted_places(program))


def each_at_once(*rows):
    """Calls all of them, and fails where one does."""
    with ThreadPoolExecutor(len(rows)) as pool:
        for it in [pool.submit(row) for row in rows]:
            it.result()


def port_in_use(program, port):
    with tempfile.TemporaryDirectory() as folder:
        words = [program, "serve", "--data", folder, "--port", str(port)]
        busy = subprocess.run(words, capture_output=True, text=True, check=False)
    wants(
        busy.returncode == 11 and busy.stderr.count("\n") == 1 and not busy.stdout,
        f"a port in use: status {busy.returncode}, {busy.stderr}",
    )


def slow_callers(program):
    """A hundred callers of a byte a second, who are let go behind two seconds, and another who is served beside them."""
    port = free_port()
    with tempfile.TemporaryDirectory() as folder, serving(program, folder, port, "--request-time", "2"):
        with ThreadPoolExecutor(100) as pool:
            kept = [pool.submit(seconds_kept, port) for _ in range(100)]
            code, _ = curl(port, "-X", "POST", "--data-binary", "hi", "/q/messages")
            times = [it.result() for it in kept]
    wants(code == 410, f"{code} beside slow callers")
    wants(1.5 < min(times) and max(times) < 6, f"slow callers were kept {min(times):.1f} to {max(times):.1f} seconds")


def seconds_kept(port):
    """For how long a caller of a byte a second is kept."""
    begun = time.monotonic()
    with socket.create_connection(("127.0.0.1", port), 1) as conn:
        for byte in SEND:
            try:
                conn.sendall(bytes([byte]))
                if not conn.recv(1):
                    break
            except TimeoutError:
                continue
            except OSError:
                break
    return time.monotonic() - begun


def silent_caller(program):
    """A caller who says nothing is kept for the idle time, where a place is free."""
    port = free_port()
    with tempfile.TemporaryDirectory() as folder, serving(program, folder, port, "--workers", "2", "--idle-time", "60"):
        with socket.create_connection(("127.0.0.1", port), 90) as conn:
            begun = time.monotonic()
            wants(conn.recv(1) == b"", "a silent caller was told something")
            waited = time.monotonic() - begun
        wants(55 < waited < 75, f"a silent caller was kept for {waited:.1f} seconds")


def wanted_places(program):
    """Two places, both taken by connections that rest: they are kept, until a third caller waits for one. A receive that
    waits keeps its place."""
    port = free_port()
    with tempfile.TemporaryDirectory() as folder, serving(program, folder, port, "--workers", "2"):
        with Caller(port) as resting, Caller(port) as waiting:
            resting.line({"do": "create-queue", "name": "q"})
            waiting.line({"do": "counts", "entity": "q"})
            time.sleep(8)
            resting.line({"do": "counts", "entity": "q"})
            waiting.socket.sendall(b"DELETE /q/messages/head?timeout=60 HTTP/1.1\r\nHost: h\r\n\r\n")
            begun = time.monotonic()
            code, _ = curl(port, "-X", "POST", "--data-binary", "hi", "/q/messages")
            waited = time.monotonic() - begun
            got = waiting.socket.recv(4096)
    wants(code == 201 and 4 < waited < 9, f"{code} after {waited:.1f} seconds, where all places were taken")
    wants(got.startswith(b"HTTP/1.1 200"), f"a receive that waits was answered {got[:40]}")


def caller_who_takes_nothing(program):
    """One worker, whose caller asks for much and takes none of it: another is served once no more of it has gone out
    for a minute, and what the system's buffers take goes out."""
    port = free_port()
    with tempfile.TemporaryDirectory() as folder, serving(program, folder, port, "--workers", "1"):
        with Caller(port) as caller:
            caller.line({"do": "create-queue", "name": "q"})
            for _ in range(20):
                caller.ask("POST", "/q/messages", b"x" * 262_144)
        peek = b'{"do":"peek","from":"q","start":1,"count":20}'
        ask = b"POST /$script HTTP/1.1\r\nHost: h\r\nContent-Length: %d\r\n\r\n%s" % (len(peek), peek)
        with socket.create_connection(("127.0.0.1", port)) as conn:
            conn.sendall(4 * ask)
            begun = time.monotonic()
            code, _ = curl(port, "-X", "POST", "--data-binary", "hi", "/r/messages")
            waited = time.monotonic() - begun
    wants(code == 410 and 55 < waited < 300, f"{code} after {waited:.1f} seconds beside a caller who takes nothing")


def out_of_files(program):
    """Three workers and files for two connections: the third is told once, and taken when one of them has ended."""
    words, most = ["--workers", "3", "--threads", "1"], 30  # what three workers may come to
    with tempfile.TemporaryDirectory() as folder:
        said = os.path.join(folder, "said")
        with open(said, "wb") as stderr:
            port = free_port()
            with begun_with(program, folder, port, words, stderr, [], most) as server:
                client(program, port, ['{"do":"create-queue","name":"q"}'], 0)
                files = len(os.listdir(f"/proc/{server.pid}/fd"))
            port = free_port()
            spare = [os.open("/dev/null", os.O_RDONLY) for _ in range(most - files - 2)]
            with begun_with(program, folder, port, words, stderr, spare, most):
                for it in spare:
                    os.close(it)
                reply = third_of(port, lambda: told_in(said))
        times = told_in(said)
    wants(reply.get("ok") == "counts", f"the connection that waited for a file was answered {reply}")
    wants(times == 1, f"a connection that waits for a file was told {times} times")


def third_of(port, is_told):
    """The reply to the third of three connections, which waits for a file."""
    with Caller(port) as first:
        with Caller(port) as second:
            for it in (first, second):
                it.line({"do": "counts", "entity": "q"})
            third = Caller(port)
            until(is_told)
        with third:
            return third.line({"do": "counts", "entity": "q"})


@contextlib.contextmanager
def begun_with(program, folder, port, words, stderr, files, most):
    """A server that begins with these files, and may have so many."""
    call = [program, "serve", "--data", folder, "--port", str(port), *words]
    limit = lambda: resource.setrlimit(resource.RLIMIT_NOFILE, (most, most))
    server = subprocess.Popen(call, stdout=subprocess.DEVNULL, stderr=stderr, pass_fds=files, preexec_fn=limit)
    try:
        until(lambda: is_listening(port))
        yield server
    finally:
        server.kill()
        server.wait()


def told_in(said):
    """How often a server has told that it has no file for a connection."""
    with open(said, encoding="utf-8") as lines:
        return lines.read().count("a connection can't be taken yet")


def until(holds):
    """Waits for it, some seconds at most."""
    for _ in range(100):
        if holds():
            return
        time.sleep(0.05)


@contextlib.contextmanager
def ending(program, folder, port, *words):
    """A server that ends by itself within the block, and is killed where it doesn't."""
    server = start(program, folder, port, *words)
    try:
        yield server
    finally:
        server.kill()
        server.wait()


def two_workers_end(program):
    """Each worker ends after one connection, and the numbers of the history are told."""
    port = free_port()
    with tempfile.TemporaryDirectory() as folder:
        with ending(program, folder, port, "--workers", "2", "--connections", "1") as server:
            client(program, port, ['{"do":"create-queue","name":"q"}', '{"do":"delete","entity":"r"}'], 1)
            told, _ = server.communicate(timeout=20)
    wants(
        told == '{"changing":1,"entries":2,"ok":"report","refused":1}\n' and server.returncode == 0,
        f"status {server.returncode}, {told!r}",
    )


def ends_with_a_checkpoint(program):
    """The one worker has had its connection: the journal has gone on with the file of disk b, which has the message."""
    port = free_port()
    with tempfile.TemporaryDirectory() as folder:
        with ending(program, folder, port, "--workers", "1", "--connections", "1", "--checkpoint") as server:
            with Caller(port) as caller:
                caller.line({"do": "create-queue", "name": "q"})
                caller.ask("POST", "/q/messages", b"hi")
            server.communicate(timeout=20)
        check = subprocess.run([program, "check", "--data", folder], capture_output=True, text=True, timeout=20, check=False)
        firsts = []
        for name in ("a.journal", "b.journal"):
            with open(os.path.join(folder, name), "rb") as journal:
                firsts.append(journal.read(1))
    fits = server.returncode == 0 and check.stdout.startswith('{"copies":1,"entities":1,"events":2,"made":1,')
    wants(fits and firsts == [b"\0", b"\1"], f"status {server.returncode}, {check.stdout!r}, files that begin with {firsts}")


def lines_told(program):
    """What a server says of itself on standard error, and with --log one line of each call."""
    port = free_port()
    with tempfile.TemporaryDirectory() as folder, tempfile.TemporaryFile("w+") as said:
        server = start(program, folder, port, "--workers", "1", "--connections", "1", "--log", stderr=said)
        with Caller(port) as caller:
            caller.line({"do": "create-queue", "name": "q"})
            caller.ask("POST", "/q/messages", b"hi")
            caller.ask("DELETE", "/nobody's?a=b")
        server.communicate(timeout=20)
        said.seek(0)
        lines = said.read().splitlines()
    begin = r"\d{4}-\d\d-\d\dT\d\d:\d\d:\d\d\.\d{3}Z "
    wanted = [
        r"bus: opened 0 records in \d+\.\d{3} s", rf"bus: listens on 127\.0\.0\.1:{port}",
        begin + r"POST /\$script 200 \d+ \d+", begin + rf"POST /q/messages 201 {len(SENT)} \d+",
        begin + r"DELETE /nobody's\?a=b 404 \d+ \d+", "bus: the server ended with status 0",
    ]
    fits = len(lines) == len(wanted) and all(re.fullmatch(one, line) for one, line in zip(wanted, lines))
    wants(fits, f"on standard error stands {lines}")


def main():
    program, more = given_words(__doc__, most=2)
    if more not in ([], ["--short"]):
        sys.exit(__doc__)
    tell(lambda: all_rows(program, bool(more)))


if __name__ == "__main__":
    main()
