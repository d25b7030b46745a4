#!/usr/bin/env python3
"""Makes faults of the program's outside, and reads the one line that it writes of each on standard error.

usage: tools/told_faults.py PROGRAM

PROGRAM is the built program (crates/sb_bus/out/sb_bus). Wrong words, an output nobody reads, a damaged journal, a server
that isn't there, that says nothing, that is none of this kind, that wants a key; a folder, a port and a key that can't be
had; time that would jump: each has its status and its line, with what failed, the system's words and what to do. The
disk that is full, the streams that are closed and the files that run out are in outside_faults.sh and served_rows.py.
The exit status is 1 where something is told otherwise.
"""
import contextlib
import os
import re
import socket
import subprocess
import tempfile
import threading

from lib import free_port, given_words, run, serving, tell, wants

MADE = '{"at":60000,"do":"create-queue","name":"q"}'
LOST = "see that the server runs; the last call may have acted, look before it is sent again"


def told(program, words, status, line, script=MADE):
    """Runs the program with these words, and compares its status and its one line on standard error."""
    ran = subprocess.run([program, *words], input=script + "\n", capture_output=True, text=True, timeout=60, check=False)
    fits = ran.returncode == status and re.fullmatch("bus: " + line + "\n", ran.stderr)
    wants(fits, f"bus {' '.join(words)} ended with status {ran.returncode}, and told {ran.stderr!r}")


@contextlib.contextmanager
def answering(reply):
    """A port where each connection gets these bytes, once it has sent something; none where there is no reply."""
    with socket.socket() as listener:
        listener.bind(("127.0.0.1", 0))
        listener.listen()
        held = []

        def answer():
            with contextlib.suppress(OSError):
                while True:
                    caller, _ = listener.accept()
                    held.append(caller)
                    caller.recv(65536)
                    if reply is not None:
                        caller.sendall(reply)
                        caller.close()

        thread = threading.Thread(target=answer, daemon=True)
        thread.start()
        yield str(listener.getsockname()[1])
        listener.shutdown(socket.SHUT_RDWR)
        thread.join()
        for caller in held:
            caller.close()


def words_told(program):
    told(program, ["run", "--dat", "a"], 2, "unexpected argument '--dat' found; try bus --help")
    told(program, ["serve", "--data=a", "--port=80800"], 2, "--port takes a number from 1 to 65535; try bus --help")


def link_told(program):
    client = lambda port, *words: ["client", "--port", port, *words]
    nobody = str(free_port())
    told(program, client(nobody), 8, rf"127\.0\.0\.1:{nobody}: Connection refused \(os error 111\); {LOST}")
    with answering(None) as port:
        told(program, client(port, "--patience", "1"), 8, rf"127\.0\.0\.1:{port}: the server said nothing in time; {LOST}")
    with answering(b"HTTP/1.1 200 OK\r\nContent-Length: 5\r\n\r\nhello") as port:
        told(
            program, client(port), 9,
            "the last response has no reply line; see that it is this broker that listens at the port",
        )


def key_told(program):
    with tempfile.TemporaryDirectory() as folder:
        key, short = f"{folder}/key", f"{folder}/short"
        for file, text in [(key, "0123456789abcdef"), (short, "0123")]:
            with open(file, "w", encoding="ascii") as it:
                it.write(text + "\n")
        port = free_port()
        with serving(program, folder, port, "--key", key):
            told(
                program, ["client", "--port", str(port)], 9,
                r"the server let this client not in \(401 or 403\); name the file of its key by --key",
            )
        told(
            program, ["client", "--port", str(port), "--key", short], 11,
            f"{short}: the first line is no key; write one of 16 to 256 visible ASCII characters",
        )
        told(
            program, ["client", "--port", str(port), "--key", f"{folder}/none"], 11,
            rf"{folder}/none: No such file or directory \(os error 2\); see that it may be read",
        )


def folder_told(program):
    advice = "name a folder that is there and that no other run holds"
    with tempfile.TemporaryDirectory() as folder:
        told(program, ["run", "--data", f"{folder}/no"], 11, rf"{folder}/no: No such file or directory \(os error 2\); {advice}")
        port = free_port()
        with serving(program, folder, port):
            told(program, ["run", "--data", folder], 11, f"{folder}: another run holds the folder; {advice}")
            told(
                program, ["serve", "--data", folder, "--port", str(port)], 11,
                rf"127\.0\.0\.1:{port}: Address already in use \(os error 98\); name another port, or end what has it",
            )


def journal_told(program):
    with tempfile.TemporaryDirectory() as folder:
        wants(run(program, folder, [MADE]).returncode == 0, "the run failed")
        told(
            program, ["run", "--data", folder, "--max-jump", "1"], 14,
            "time would jump by more days than --max-jump allows; set the clock right, or allow more days",
            '{"at":9000000000000,"do":"counts","entity":"q"}',
        )
        with open(f"{folder}/a.journal", "r+b") as journal:
            journal.seek(9)
            journal.write(b"\xff")
        told(
            program, ["check", "--data", folder], 6,
            f"{folder}: the journal is damaged at the place that the last line of the output names, and nothing was written to "
            "it; keep a copy and put a backup in its place",
        )
        os.remove(f"{folder}/a.journal")
        told(program, ["check", "--data", folder, "--look"], 11, f"{folder}: there is no a.journal; name a folder with a journal that may be read")


def all_rows(program):
    for row in [words_told, link_told, key_told, folder_told, journal_told]:
        row(program)


if __name__ == "__main__":
    PROGRAM, _ = given_words(__doc__)
    tell(lambda: all_rows(PROGRAM))
