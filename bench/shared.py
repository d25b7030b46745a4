"""What the programs that measure share: their words, the programs that these name, and what they measure alike."""
import argparse
import contextlib
import os
import statistics
import subprocess
import sys
import tempfile
import time

HERE = os.path.dirname(os.path.realpath(__file__))
sys.path.insert(0, os.path.join(HERE, "..", "tools"))
import lib


def words(doc):
    """What takes the words that such a docstring says."""
    return argparse.ArgumentParser(usage=doc.split("\n\n")[1].removeprefix("usage: "))


def compared(doc):
    """As `words`, with the words of a program and of one beside it."""
    given = words(doc)
    given.add_argument("program", nargs="?", default=f"{lib.TOP}/bus")
    given.add_argument("--beside")
    return given


def built(program):
    """The path of a program, once it is built."""
    path = os.path.realpath(program)
    subprocess.run([path, "--version"], stdout=subprocess.DEVNULL, check=True)
    return path


def programs(given):
    """The names and paths of the one or two programs of `compared`."""
    return [(name, built(it)) for name, it in [("this", given.program), ("beside", given.beside)] if it]


def ended(main):
    """Runs what is measured, and ends with what failed."""
    try:
        main()
    except lib.Failed as failed:
        sys.exit(f"failed: {failed}")


def done(reply, *wanted):
    lib.wants(reply.get("ok") in wanted, f"a call was answered {reply}")
    return reply


def used(pid):
    """The seconds of a process's own and in the kernel."""
    with open(f"/proc/{pid}/stat", encoding="ascii") as stat:
        fields = stat.read().rpartition(")")[2].split()
    return [int(it) / os.sysconf("SC_CLK_TCK") for it in fields[11:13]]


def disk_rate(folder, records=2000):
    """Records a second: one write of a message's size and two syncs each."""
    with tempfile.TemporaryFile(dir=folder, buffering=0) as probe:
        begun = time.monotonic()
        for _ in range(records):
            probe.write(b"x" * 1088)
            os.fsync(probe.fileno())
            probe.seek(-1, os.SEEK_CUR)
            probe.write(b"y")
            os.fsync(probe.fileno())
        return records / (time.monotonic() - begun)


def sync_time(folder, appends=201):
    """The seconds of an append of 1 KiB and one sync, the median of some."""
    took = []
    with tempfile.TemporaryFile(dir=folder, buffering=0) as probe:
        for _ in range(appends):
            begun = time.monotonic()
            probe.write(b"x" * 1024)
            os.fdatasync(probe.fileno())
            took.append(time.monotonic() - begun)
    return statistics.median(took)


@contextlib.contextmanager
def beside(port, idle, waiting):
    """So many connections that say nothing, and so many receives that wait on a queue of their own."""
    with contextlib.ExitStack() as stack:
        kept = [stack.enter_context(lib.Caller(port)) for _ in range(idle + waiting)]
        if waiting:
            with lib.Caller(port) as caller:
                done(caller.line({"do": "create-queue", "name": "beside"}), "done")
        for caller in kept[:waiting]:
            head = b"DELETE /beside/messages/head?timeout=3600 HTTP/1.1\r\nHost: localhost\r\n\r\n"
            caller.socket.sendall(head)
        yield
