#!/usr/bin/env python3
"""Runs the built program with each growth of its memory refused in turn.

usage: tools/refused_memory.py PROGRAM [EVERY]

PROGRAM is the built program (crates/sb_bus/out/sb_bus), which takes its memory by the C library's
malloc and realloc. A small library put before it (made here by `cc`) refuses the Nth call of these.
For each N (from 1 on by EVERY, where that is said) four scripts are run: one on an empty folder, one on the
journal that the first leaves, one that makes three queues, and one on the journal of that which locks and
completes messages, commits a transaction and goes through a session; until no call is refused any more. Each run
has to end with 0 and all replies, with 7 and the first replies (and the line of OutOfMemory behind them, or nothing),
or with 11 and nothing; and the journal must open again, with all that stood there before the run, each
acknowledged change, and at most the one more that wasn't acknowledged. Then a run with --checkpoint over the journal of
the third has to end with 0, and the other file counts, or with 7 or 11, and the same counts; and the state is what it was.

The same with a server, over which a message is sent, locked and completed by REST, a batch is sent, and a message of
the largest body is received and deleted: each response is the one that is due, whole, or 503 with OutOfMemory, behind
which nothing has changed and the same request passes; or the server ends before a call of that request. What stands
behind it are the changes that were acknowledged, each journaled once. Then, of the completion and the deletion, each
call for memory is refused in turn with the 40 behind it: a response that is due is tried again until there is memory
for it, and some have to come so. How many completions found no memory before their call is told. Last, the buffer of a
connection's first request is refused its memory 41 times, and that of a request behind a rest, which wants one again
since a connection that rests gives its buffer back: each response has to come, and be the one that is due. The exit
status is 1 where something ends otherwise.
"""
import collections
import json
import os
import re
import shutil
import subprocess
import sys
import tempfile
import time

import lib

SHIM = r"""
#define _GNU_SOURCE
#include <dlfcn.h>
#include <errno.h>
#include <fcntl.h>
#include <stdlib.h>
#include <unistd.h>
static long calls, refused, behind, size;
static int told = -1;
static int refuse(size_t n) {
    if (told < 0) {
        told = open(getenv("CALLS_TO"), O_WRONLY | O_CREAT | O_TRUNC | O_CLOEXEC, 0600);
        refused = atol(getenv("REFUSE_AT"));
        behind = atol(getenv("AND_BEHIND"));
        size = atol(getenv("OF_SIZE"));
    }
    if (size && n != (size_t)size) return 0;
    long call = __atomic_add_fetch(&calls, 1, __ATOMIC_SEQ_CST);
    if (pwrite(told, &call, sizeof call, 0) != sizeof call) abort();
    return refused <= call && call <= refused + behind;
}
void *malloc(size_t n) {
    static void *(*next)(size_t);
    if (!next) next = dlsym(RTLD_NEXT, "malloc");
    if (refuse(n)) { errno = ENOMEM; return 0; }
    return next(n);
}
void *realloc(void *p, size_t n) {
    static void *(*next)(void *, size_t);
    if (!next) next = dlsym(RTLD_NEXT, "realloc");
    if (refuse(n)) { errno = ENOMEM; return 0; }
    return next(p, n);
}
"""

FIRST = [
    '{"at":5,"do":"create-queue","name":"Q"}',
    '{"at":0,"do":"send","to":"q","messages":[{"body":"a"},{"body_hex":"ff"}]}',
    '{"do":"peek","from":"q","start":2,"count":2}',
    '{"at":9,"do":"receive","from":"q","mode":"delete"}',
]
# Of a lock, by the journal's salt and its number.
TOKEN = "{}-{}-{}-0000-{:012d}"
SETUP = [
    '{"at":0,"do":"create-queue","name":"q"}',
    '{"at":0,"do":"create-queue","name":"r"}',
    '{"at":0,"do":"create-queue","name":"s","requires_session":true}',
    '{"at":0,"do":"send","to":"q","messages":[{"body":"hi"},{"body":"ho"}]}',
    '{"at":0,"do":"send","to":"s","messages":[{"body":"hi","sys":{"SessionId":"s"}}]}',
]


def settling(folder):
    """Lines that lock two messages, complete one, commit the other's completion and a send, and use a session."""
    with open(f"{folder}/a.journal", "rb") as journal:
        salt = journal.read()[10:18].hex()
    tokens = [TOKEN.format(salt[:8], salt[8:12], salt[12:], number) for number in range(1, 5)]
    calls = [
        {"do": "receive", "from": "q"},
        {"do": "receive", "from": "q"},
        {"do": "complete", "from": "q", "seq": 1, "token": tokens[0]},
        {"do": "begin", "entity": "q"},
        {"do": "complete", "from": "q", "seq": 2, "token": tokens[1], "txn": 1},
        {"do": "send", "to": "r", "messages": [{"body": "hi"}], "txn": 1},
        {"do": "commit", "txn": 1},
        {"do": "accept", "from": "s", "id": "s"},
        {"do": "receive", "from": "s", "session": tokens[2]},
        {"do": "complete", "from": "s", "seq": 1, "token": tokens[3], "session": tokens[2]},
    ]
    return [json.dumps({"at": 10 * place, **call}) for place, call in enumerate(calls, 1)]


SECOND = ['{"at":9,"do":"receive","from":"q","mode":"delete"}'] * 2
WANTING = b'{"refused":"OutOfMemory"}\n'
HEAD = 18  # a file's salt differs from run to run


class Trial:
    """A folder of its own, the program, and the library before it."""

    def __init__(self, program, work, every):
        self.program, self.work, self.every = program, work, every
        self.library, self.calls = f"{work}/refuse.so", f"{work}/calls"
        with open(f"{work}/refuse.c", "w") as source:
            source.write(SHIM)
        subprocess.run(["cc", "-shared", "-fPIC", "-o", self.library, source.name, "-ldl"], check=True)

    def refusing(self, refused, behind=0, size=0):
        """What the library reads: that this call is refused, and so many behind it, among those of this size or all."""
        numbers = dict(REFUSE_AT=str(refused), AND_BEHIND=str(behind), OF_SIZE=str(size))
        return dict(LD_PRELOAD=self.library, CALLS_TO=self.calls, **numbers)

    def called(self):
        """How many calls the program has made, of those that are counted."""
        with open(self.calls, "rb") as calls:
            return int.from_bytes(calls.read(), sys.byteorder)

    def run(self, folder, lines, refused=None):
        env = dict(os.environ)
        if refused is not None:
            env.update(self.refusing(refused))
        script = "".join(line + "\n" for line in lines).encode()
        ended = subprocess.run([self.program, "run", "--data", folder], input=script, capture_output=True, env=env)
        return ended.returncode, ended.stdout.splitlines(True)

    def folder(self, start):
        path = f"{self.work}/data"
        shutil.rmtree(path, ignore_errors=True)
        if start:
            shutil.copytree(start, path)
        else:
            os.mkdir(path)
        return path

    def journals(self, start, lines):
        """The replies, and what the journal has behind each of the first lines."""
        found = []
        for count in range(len(lines) + 1):
            path = self.folder(start)
            _status, replies = self.run(path, lines[:count])
            found.append(behind_head(path))
        return replies, found

    def sweep(self, name, start, lines):
        replies, journals = self.journals(start, lines)
        classes, wrong, refused = collections.Counter(), 0, 1
        while True:
            path = self.folder(start)
            status, told = self.run(path, lines, refused)
            if self.called() < refused:
                break
            said = told[-1:] == [WANTING]
            whole = told[:-1] if said else told
            sound = whole == replies[: len(whole)] and status in (0, 7, 11)
            sound = sound and (status == 7 or not said) and (status != 0 or told == replies)
            count = len(whole)
            ends = {0: journals[-1:], 7: journals[count : count + (1 if said else 2)], 11: journals[:1]}
            may = ends.get(status, [])
            if start is None and count == 0:
                may = may + [b""]  # no journal was made yet
            sound = sound and behind_head(path) in may
            left = behind_head(path) or journals[0]
            sound = sound and self.run(path, [])[0] == 0 and behind_head(path) == left
            classes[(status, count, said)] += 1
            if not sound:
                wrong += 1
                print(f"WRONG: {name}, growth {refused}: status {status}, {told}")
            refused += self.every
        for (status, count, said), runs in sorted(classes.items()):
            line = "and its line" if said else "no line more"
            print(f"{name}: {runs:4} runs with status {status}, {count} replies, {line}")
        return wrong

    def checked(self, folder):
        """The line that a check of a folder tells."""
        return subprocess.run([self.program, "check", "--data", folder], capture_output=True).stdout

    def checkpoint_sweep(self, start):
        """Checkpoints of a journal, with each growth refused: with 0 the other file counts, else the same; and the state is the same."""
        wanted, classes, wrong, refused = self.checked(self.folder(start)), collections.Counter(), 0, 1
        while True:
            path = self.folder(start)
            env = dict(os.environ, **self.refusing(refused))
            words = [self.program, "run", "--data", path, "--checkpoint"]
            ended = subprocess.run(words, stdin=subprocess.DEVNULL, capture_output=True, env=env)
            if self.called() < refused:
                break
            status = ended.returncode
            with open(f"{path}/b.journal", "rb") as file:
                goes_on = file.read(1) == b"\1"
            sound = status in (0, 7, 11) and not ended.stdout and goes_on == (status == 0)
            sound = sound and self.checked(path) == wanted
            classes[status] += 1
            if not sound:
                wrong += 1
                print(f"WRONG: a checkpoint, growth {refused}: status {status}, {ended.stdout}, {self.checked(path)}")
            refused += self.every
        for status, runs in sorted(classes.items()):
            print(f"checkpoint: {runs:4} runs with status {status}")
        return wrong

    def served(self, base, refused, behind, count=None, size=0, rest=None):
        """The answers of a server over a copy of the base, with this call refused and so many behind it, to the first
        requests, where the caller rests before one of them if that is said; and whether it goes on behind them."""
        path, port = self.folder(base), lib.free_port()
        env = dict(os.environ, **self.refusing(refused, behind, size))
        words = [self.program, "serve", "--data", path, "--port", str(port), "--workers", "1"]
        server = subprocess.Popen(words, env=env, stdout=subprocess.DEVNULL, stderr=subprocess.DEVNULL)
        came = []
        try:
            while server.poll() is None and not lib.is_listening(port):
                time.sleep(0.01)
            if server.poll() is None:
                with lib.Caller(port) as caller:
                    for answer in self.asked(caller, REQUESTS[:count], rest):
                        came.append(answer)
            return came, server.poll() is None
        except OSError:
            return came, False
        finally:
            server.kill()
            server.wait()

    def asked(self, caller, requests, rest):
        """Asks in order, again where the answer is OutOfMemory, and gives each answer."""
        location, place = "", 0
        while place < len(requests):
            if place == rest:
                time.sleep(REST_S)
            method, target, fields, body = requests[place]
            status, head, told = caller.ask(method, target or location, body, fields)
            is_wanting = status == 503 and b"OutOfMemory" in told
            yield Answer(place, is_wanting, (re.sub(TIME, "", head), told), self.called())
            if not is_wanting:
                found = re.search(r"\r\nLocation: http://localhost(\S+)", head)
                location = found[1] if found else location
                place += 1

    def due(self, base):
        """What is due where no memory is wanting."""
        states = [self.state(self.folder(base))]
        for count in range(1, len(REQUESTS) + 1):
            came, _is_up = self.served(base, NEVER, 0, count)
            states.append(self.state(f"{self.work}/data"))
        return Due([answer.shape for answer in came], states, [answer.calls for answer in came])

    def tried(self, base, due, refused, behind):
        """The answers with this call refused and so many behind it, how the server ended, and whether all is sound."""
        came, is_up = self.served(base, refused, behind)
        done = [answer.shape for answer in came if not answer.is_wanting]
        sound = done == due.shapes[: len(done)] and len(came) <= len(done) + 1
        sound = sound and is_up == (len(done) == len(REQUESTS))
        sound = sound and self.state(f"{self.work}/data") == due.states[len(done)]
        ended = "and went on" if is_up else "and ended" if came else "and didn't begin"
        if not sound:
            answers = [(answer.place, answer.shape[0][:60]) for answer in came]
            print(f"WRONG: a server, growths {refused} to {refused + behind}: {answers} {ended}")
        return came, (len(done), len(came) - len(done), ended), sound

    def serve_sweep(self, base, due):
        """Serves with each call refused in turn; how many ended otherwise."""
        classes, wrong, completions, refused = collections.Counter(), 0, 0, 1
        while True:
            came, ended, sound = self.tried(base, due, refused, 0)
            if self.called() < refused:
                break
            completions += [answer.place for answer in came if answer.is_wanting] == [COMPLETION]
            classes[ended] += 1
            wrong += not sound
            refused += self.every
        for (done, wanting, ended), runs in sorted(classes.items()):
            print(f"a server: {runs:4} with {done} responses as they are due, {wanting} of OutOfMemory, {ended}")
        print(f"a server: {completions} completions found no memory")
        return wrong

    def late_sweep(self, base, due):
        """Refuses each call of a request that settles a message, and those behind it; how many ended otherwise."""
        wrong = 0
        for place in (COMPLETION, DELETION):
            late = 0
            for refused in range(due.calls[place - 1] + 1, due.calls[place] + 1):
                came, _ended, sound = self.tried(base, due, refused, BEHIND)
                answers = [answer for answer in came if answer.place == place]
                late += len(answers) == 1 and not answers[0].is_wanting and answers[0].calls >= refused + BEHIND
                wrong += not sound
            print(f"a server: {late} responses to {' '.join(REQUESTS[place][:2])} were tried again, and came whole")
            wrong += late == 0
        return wrong

    def buffer_sweep(self, base, due):
        """Refuses the buffer of the first request its memory, and one behind a rest its; how many ended otherwise."""
        wrong = 0
        for refused, which in ((1, "the first request"), (2, "one behind a rest")):
            came, is_up = self.served(base, refused, BEHIND, size=BUFFER, rest=COMPLETION)
            sound = is_up and [answer.shape for answer in came] == due.shapes and self.called() >= BEHIND + 3
            ended = "as is due" if sound else "OTHERWISE"
            print(f"a server: {self.called()} buffers wanted, where that of {which} was refused; answered {ended}")
            wrong += not sound
        return wrong

    def state(self, path):
        """How many events were journaled, what stands in the queue, and whether it may be received."""
        check = subprocess.run([self.program, "check", "--data", path], capture_output=True, check=False)
        _status, replies = self.run(path, ['{"do":"peek","from":"q","start":1,"count":100}'])
        shown = json.loads(replies[0])["copies"]
        return json.loads(check.stdout)["events"], [(copy["seq"], copy["state"], copy.get("body")) for copy in shown]


# An answer to the request at this place: whether memory was wanting, its head without the clock's times and its body,
# and how many calls for memory the server had made then.
Answer = collections.namedtuple("Answer", "place is_wanting shape calls")
# Of each request the response and the calls for memory until it came; the state before the first and behind each.
Due = collections.namedtuple("Due", "shapes states calls")

TIME = r"[A-Z][a-z]{2}, \d\d [A-Z][a-z]{2} \d{4} \d\d:\d\d:\d\d GMT"
BATCH = ["Content-Type: application/vnd.microsoft.servicebus.json"]
LARGEST = b"x" * 262_144
# Method, target (the location of the last lock where it is empty), fields and body.
REQUESTS = [
    ("POST", "/q/messages", [], LARGEST),
    ("POST", "/q/messages/head?timeout=0", [], b""),
    ("DELETE", "", [], b""),
    ("POST", "/q/messages", BATCH, b'[{"Body":"x"},{"Body":"y"}]'),
    ("DELETE", "/q/messages/head?timeout=0", [], b""),
]
COMPLETION, DELETION = 2, 4
NEVER = 1 << 60  # a call that no run comes to
BEHIND = 40
BUFFER = 1_082_368  # the bytes of a connection's buffer of requests
REST_S = 2  # behind a rest of so many seconds a connection has given its buffer back


def behind_head(folder):
    try:
        with open(f"{folder}/a.journal", "rb") as journal:
            return journal.read()[HEAD:]
    except FileNotFoundError:
        return b""


def main():
    program, more = lib.given_words(__doc__, most=2)
    with tempfile.TemporaryDirectory() as work:
        trial = Trial(program, work, int(more[0]) if more else 1)
        wrong = trial.sweep("first run", None, FIRST)
        base = f"{work}/base"
        os.mkdir(base)
        trial.run(base, FIRST)
        wrong += trial.sweep("later run", base, SECOND)
        due = trial.due(base)
        wrong += trial.serve_sweep(base, due) + trial.late_sweep(base, due) + trial.buffer_sweep(base, due)
        wrong += trial.sweep("setup", None, SETUP)
        made = f"{work}/made"
        os.mkdir(made)
        trial.run(made, SETUP)
        wrong += trial.sweep("settled", made, settling(made))
        wrong += trial.checkpoint_sweep(made)
    print(f"{wrong} runs ended otherwise")
    sys.exit(1 if wrong else 0)


if __name__ == "__main__":
    main()
