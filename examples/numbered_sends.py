#!/usr/bin/env python3
"""Sends each line of standard input to a queue as one message, and each once, whatever fails meanwhile.

usage: numbered_sends.py PORT QUEUE PLACE < LINES

Line N is call number N of the client PLACE, of which the server remembers the last number with its
reply. So a call whose reply was lost is made again and acts once; and after a crash the same lines are
given again from the first on, and what was sent is passed over. PLACE names where the lines come from,
as the file of a till, and not the process that sends them; each has a name of its own. New lines of a
place stand behind those that it has sent already: other lines in their stead would be passed over.
"""
import http.client
import json
import sys
import time

PAUSE = 0.5  # s before a call is made again
PASSING = ("DiskFault", "Stopped", "OutOfMemory")  # faults of the server, behind which the call may be made again


def asked(port, call):
    """The reply to a script line, over a connection of its own."""
    connection = http.client.HTTPConnection("127.0.0.1", port, timeout=30)
    try:
        connection.request("POST", "/$script", json.dumps(call))
        return json.loads(connection.getresponse().read())
    finally:
        connection.close()


def answered(port, call):
    """The reply to a call, which is made until there is one."""
    while True:
        try:
            reply = asked(port, call)
            if reply.get("refused") not in PASSING:
                return reply
            why = reply["refused"]
        except (OSError, http.client.HTTPException, ValueError) as fault:
            why = fault
        print(f"call {call['number']} again, after: {why}", file=sys.stderr)
        time.sleep(PAUSE)


def main():
    if len(sys.argv) != 4:
        sys.exit(__doc__)
    port, queue, place = int(sys.argv[1]), sys.argv[2], sys.argv[3]
    sent, last, number = 0, 0, 0
    for number, line in enumerate(sys.stdin, 1):
        if number < last:
            continue
        message = {"body": line.rstrip("\n")}
        call = {"do": "send", "to": queue, "messages": [message], "client": place, "number": number}
        reply = answered(port, call)
        if reply.get("refused") == "StaleNumber":
            last = reply["kept"]  # an earlier run came as far as this line
        elif "refused" in reply:
            sys.exit(f"line {number} was refused: {json.dumps(reply)}")
        elif reply["ok"] == "sent":
            sent += 1
    print(f"{sent} sent")
    if number < last:
        sys.exit(f"{place} has sent {last} lines already, and here are {number}: new lines stand behind those")


if __name__ == "__main__":
    main()
