"""What the tools share: the program that their words name, runs of it, servers, and connections to these."""
import contextlib
import json
import os
import signal
import socket
import subprocess
import sys
import time

TOP = os.path.dirname(os.path.dirname(os.path.realpath(__file__)))


class Failed(Exception):
    """Something went otherwise than it has to."""


def wants(holds, what):
    if not holds:
        raise Failed(what)


def given_words(usage, most=1):
    """The program that the first word names, and the words behind it, of which there are fewer than `most`."""
    if not 2 <= len(sys.argv) <= most + 1:
        sys.exit(usage)
    return os.path.realpath(sys.argv[1]), sys.argv[2:]


def run(program, folder, lines):
    """A run over these lines, once it has ended."""
    script = "".join(line + "\n" for line in lines).encode()
    words = [program, "run", "--data", folder]
    return subprocess.run(words, input=script, capture_output=True, timeout=60, check=False)


def free_port():
    with socket.socket() as probe:
        probe.bind(("127.0.0.1", 0))
        return probe.getsockname()[1]


def is_listening(port):
    """Whether somebody listens, without a connection that would be one of the server's."""
    with open("/proc/net/tcp", encoding="ascii") as sockets:
        return f"0100007F:{port:04X} 00000000:0000 0A" in sockets.read()


def start(program, folder, port, *words, stderr=None):
    """A server once it listens; its standard output is a pipe, its standard error goes to a file, where one is given."""
    call = [program, "serve", "--data", folder, "--port", str(port), *words]
    server = subprocess.Popen(call, stdout=subprocess.PIPE, stderr=stderr, text=True)
    for _ in range(600):
        if is_listening(port):
            return server
        wants(server.poll() is None, f"the server ended with status {server.returncode}")
        time.sleep(0.05)
    stop(server, signal.SIGKILL)
    raise Failed("the server doesn't listen")


def stop(server, number=signal.SIGTERM):
    server.send_signal(number)
    server.communicate()


@contextlib.contextmanager
def serving(program, folder, port, *words, stderr=None):
    """A server that is stopped behind the block."""
    server = start(program, folder, port, *words, stderr=stderr)
    try:
        yield server
    finally:
        stop(server)


class Caller:
    """A kept connection to a server; a fault of it is an OSError."""

    def __init__(self, port):
        self.socket = socket.create_connection(("127.0.0.1", port), timeout=20)
        self.came = b""

    def __enter__(self):
        return self

    def __exit__(self, *_):
        self.socket.close()

    def more(self):
        piece = self.socket.recv(65536)
        if not piece:
            raise ConnectionResetError("the server closed the connection")
        self.came += piece

    def ask(self, method, path, body=b"", headers=()):
        """The status of the response to a request, its head and its body."""
        lines = [f"{method} {path} HTTP/1.1", "Host: localhost", f"Content-Length: {len(body)}", *headers]
        self.socket.sendall("\r\n".join([*lines, "", ""]).encode() + body)
        return self.answer()

    def answer(self):
        """The status of the next response, its head and its body."""
        while b"\r\n\r\n" not in self.came:
            self.more()
        head, _, self.came = self.came.partition(b"\r\n\r\n")
        length = int(head.lower().partition(b"content-length: ")[2].split(b"\r\n")[0] or 0)
        while len(self.came) < length:
            self.more()
        body, self.came = self.came[:length], self.came[length:]
        return int(head.split()[1]), head.decode(), body

    def line(self, call):
        """The reply to a script line."""
        _, _, reply = self.ask("POST", "/$script", json.dumps(call).encode())
        return json.loads(reply)


def ask(port, method, path, body=b"", headers=()):
    """As of a caller who makes one call."""
    with Caller(port) as caller:
        return caller.ask(method, path, body, headers)


def taken(port, entity):
    """The bodies of all messages of an entity, each taken out, by a hundred lines a request."""
    line = json.dumps({"do": "receive", "from": entity, "mode": "delete"}).encode() + b"\n"
    with Caller(port) as caller:
        bodies = []
        while True:
            _, _, said = caller.ask("POST", "/$script", line * 100, ["Content-Type: application/x-ndjson"])
            replies = [json.loads(it) for it in said.splitlines()]
            bodies += [reply["message"]["body"] for reply in replies if reply["ok"] == "message"]
            if any(reply["ok"] == "empty" for reply in replies):
                return bodies


def tell(rows):
    """Calls what a tool tries, says whether all went as it has to, and ends."""
    try:
        rows()
    except Failed as failed:
        sys.exit(f"failed: {failed}")
    print("ok")
