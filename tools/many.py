"""Many kept connections to a server, all asked and answered in one thread."""
import resource
import selectors
import socket
import time

import lib


def raise_limit(files):
    """Whether this process, and a server that it starts, may have so many files open."""
    _, hard = resource.getrlimit(resource.RLIMIT_NOFILE)
    resource.setrlimit(resource.RLIMIT_NOFILE, (hard, hard))
    return hard >= files


def request(method, path, body=b"", fields=()):
    lines = [f"{method} {path} HTTP/1.1", "Host: localhost", f"Content-Length: {len(body)}", *fields, "", ""]
    return "\r\n".join(lines).encode() + body


class Kept:
    """A connection that is asked one request after the other."""

    def __init__(self, port):
        self.socket = socket.create_connection(("127.0.0.1", port), timeout=30)
        self.socket.setsockopt(socket.IPPROTO_TCP, socket.TCP_NODELAY, 1)
        self.socket.setblocking(False)
        self.came = b""
        self.begun = 0.0  # when it was asked last
        self.asked = None  # what that was, to whoever asked
        self.is_waiting = False

    def answer(self):
        """The status of the response, its head and its body, once it is whole."""
        piece = self.socket.recv(65536)
        if not piece:
            raise ConnectionResetError("the server closed the connection")
        self.came += piece
        head, end, body = self.came.partition(b"\r\n\r\n")
        if not end or len(body) < int(head.lower().partition(b"content-length: ")[2].split(b"\r\n")[0] or 0):
            return None
        self.came = b""
        return int(head.split()[1]), head.decode(), body


class Crowd:
    """So many kept connections to a server."""

    def __init__(self, port, many):
        self.waits = selectors.DefaultSelector()
        self.all = []
        self.waiting = 0
        for _ in range(many):
            it = Kept(port)
            self.all.append(it)
            self.waits.register(it.socket, selectors.EVENT_READ, it)

    def __enter__(self):
        return self

    def __exit__(self, *_):
        for it in self.all:
            it.socket.close()
        self.waits.close()

    def ask(self, it, request, what=None):
        """Writes a request; it is small enough for the system to take it at once."""
        it.begun, it.asked, it.is_waiting = time.monotonic(), what, True
        self.waiting += 1
        try:
            lib.wants(it.socket.send(request) == len(request), "a request wasn't taken at once")
        except ConnectionError:
            pass  # as is found where it is read

    def look(self, it):
        """The answer that a connection has by now; one with the status 0 where it has ended, and is thrown out."""
        try:
            answer = it.answer()
        except OSError as fault:
            self.waits.unregister(it.socket)
            it.socket.close()
            self.all.remove(it)
            answer = 0, "", str(fault).encode()
        if answer is not None and it.is_waiting:
            it.is_waiting = False
            self.waiting -= 1
        return answer

    def answers(self, until, is_rest=False):
        """Each connection that has an answer, with its status, head and body, until that moment, or until none waits."""
        while (left := until - time.monotonic()) > 0 and (self.waiting or not is_rest):
            for key, _ in self.waits.select(left):
                answer = self.look(key.data)
                if answer is not None:
                    yield key.data, *answer

    def each_second(self, seconds, ask):
        """Calls `ask` for each connection once a second, where it doesn't wait, and yields the answers.

        Behind the time it waits for what is under way, for a minute at most.
        """
        all_of_them, begun, turn = list(self.all), time.monotonic(), 0
        while time.monotonic() < begun + seconds:
            while begun + turn / len(all_of_them) <= time.monotonic():
                it = all_of_them[turn % len(all_of_them)]
                if not it.is_waiting and it.socket.fileno() >= 0:
                    ask(it)
                turn += 1
            yield from self.answers(min(begun + turn / len(all_of_them), begun + seconds))
        yield from self.answers(time.monotonic() + 60, is_rest=True)
