#!/usr/bin/env python3
"""Adds up the readings of a lab's instruments, each of which is a session of a queue.

usage: readings.py PORT QUEUE [SECONDS]

A reading is a message whose body is a whole number and whose SessionId is its instrument; the queue is one with
"requires_session":true. The next instrument that has readings is accepted, they are received in their order,
and its session remembers their count and their sum. That is set as a reading is completed, both in one request or
neither: so each counts once, wherever a worker dies. Several of these may run at once; what one that dies held comes to
another once its lock has ended. With SECONDS it ends where no instrument has readings for so long; else it goes on.
"""
import http.client
import json
import sys
import time
from email.utils import parsedate_to_datetime
from urllib.parse import urlsplit

PAUSE = 1  # s before it goes on behind a fault
FAULTS = (OSError, http.client.HTTPException)  # a refusal is one, too


class Lab:
    """A kept connection to the server."""

    def __init__(self, port, timeout):
        self.connection = http.client.HTTPConnection("127.0.0.1", port, timeout=timeout)

    def ask(self, method, path, body=None, **fields):
        """The status of a response, its fields and its body."""
        self.connection.request(method, path, body, fields)
        response = self.connection.getresponse()
        came = response.read()
        if response.status not in (200, 201, 204):
            raise http.client.HTTPException(f"{method} {path}: {response.status} {came.decode()}")
        return response.status, response.headers, came


def place(fields):
    """Where what was accepted or received is asked for further, and what is told of it."""
    return urlsplit(fields["Location"]).path, json.loads(fields["BrokerProperties"])


def count(lab, queue, session, known, fields, body):
    """Counts a reading and completes it, or does neither; what is known behind it."""
    message, told = place(fields)
    try:
        value = int(body)
    except ValueError:
        lab.ask("PUT", f"{message}?disposition=dead-letter", BrokerProperties='{"DeadLetterReason":"NoNumber"}')
        return known
    known = {"count": known["count"] + 1, "sum": known["sum"] + value}
    held = {"from": queue, "session": session.rsplit("/", 1)[1]}
    completed = {"do": "complete", **held, "seq": told["SequenceNumber"], "token": told["LockToken"]}
    remembered = {"do": "session-set", **held, "state": json.dumps(known)}
    turn = {"do": "together", "entity": queue, "operations": [completed, remembered]}
    lab.ask("POST", "/$together", json.dumps(turn))
    return known


def work(lab, queue, fields):
    """Counts the readings of an instrument whose session was accepted, and gives that back."""
    session, told = place(fields)
    half = (parsedate_to_datetime(told["LockedUntilUtc"]).timestamp() - time.time()) / 2
    renewed = time.monotonic()
    status, _, body = lab.ask("GET", f"{session}/state")
    known = json.loads(body) if status == 200 else {"count": 0, "sum": 0}
    while True:
        if time.monotonic() - renewed > half:  # receiving doesn't renew the session's lock
            lab.ask("POST", session)
            renewed = time.monotonic()
        status, fields, body = lab.ask("POST", f"{session}/messages/head?timeout=0")
        if status == 204:
            break
        known = count(lab, queue, session, known, fields, body)
    lab.ask("DELETE", session)
    print(f"{told['SessionId']}: {known['count']} readings, {known['sum']} together", flush=True)


def main():
    if not 3 <= len(sys.argv) <= 4:
        sys.exit(__doc__)
    queue, ends = sys.argv[2], len(sys.argv) == 4
    seconds = int(sys.argv[3]) if ends else 60
    lab = Lab(int(sys.argv[1]), seconds + 30)
    while True:
        try:
            status, fields, _ = lab.ask("POST", f"/{queue}/sessions/head?timeout={seconds}")
            if status == 201:
                work(lab, queue, fields)
            elif ends:
                break
        except FAULTS as fault:
            print(f"again in a second, after: {fault}", file=sys.stderr)
            lab.connection.close()
            time.sleep(PAUSE)


if __name__ == "__main__":
    main()
