#!/usr/bin/env python3
"""Runs the scripts of crates/sb_rows/data/scripts/acts.rows with the built program over real files.

usage: tools/worked_scripts.py PROGRAM

PROGRAM is the built program (crates/sb_bus/out/sb_bus). Each case of the table (docs/ROWS.md) is a script of
lines that are read, each with the line that answers it, and is run over a folder of its own, or over that of
the case that it goes on over. Tokens stand there under one salt, which is put in the place of the folder's
own. The exit status is 1 where a line is answered otherwise.
"""
import os
import re
import subprocess
import sys
import tempfile
import uuid

import lib

SALT = "a1b2c3d4-e5f6-0718"
ROWS = os.path.join(lib.TOP, "crates", "sb_rows", "data", "scripts", "acts.rows")


def plain(text):
    """A line as it is sent: `<<COUNT*HEX>>` stands for so many times the bytes with these digits, `<<HEX>>` for one."""
    bytes_of = lambda found: int(found[1] or 1) * bytes.fromhex(found[2]).decode()
    return re.sub(r"<<(?:(\d+)\*)?([0-9a-f]+)>>", bytes_of, text)


class Case:
    """A script: its name, the case that it goes on over, its lines with their answers, and its status."""

    def __init__(self, name):
        self.name, self.over, self.asked, self.told, self.status = name, None, [], [], 0

    def take(self, key, value):
        if key == ">":
            self.asked.append(plain(value))
        elif key == "<":
            self.told.append(value)
        elif key == "over":
            self.over = value
        elif key == "status":
            self.status = int(value)
        elif key != "pieces":  # how a run over memory reads its input
            sys.exit(f"{self.name}: no key {key} here")


def cases_of(text):
    cases = []
    for line in text.splitlines():
        key, _, value = line.partition(" ")
        if key == "case":
            cases.append(Case(value))
        elif line and not line.startswith("#"):
            cases[-1].take(key, value)
    return cases


def salt_of(folder):
    """The upper half of the folder's tokens, once its journal is there."""
    with open(os.path.join(folder, "a.journal"), "rb") as journal:
        head = journal.read(18)
    return str(uuid.UUID(bytes=head[10:18] + bytes(8)))[:18]


def run(program, folder, case):
    """What is wrong with the answers to the lines, if something is."""
    words = [program, "run", "--data", folder]
    with subprocess.Popen(words, stdin=subprocess.PIPE, stdout=subprocess.PIPE, text=True) as bus:
        wrong = None
        for line, answer in zip(case.asked, case.told, strict=True):
            salt = salt_of(folder) if SALT in line + answer else SALT
            bus.stdin.write(line.replace(SALT, salt) + "\n")
            bus.stdin.flush()
            told = bus.stdout.readline().rstrip("\n").replace(salt, SALT)
            if told != answer:
                wrong = f"{line}\n  was answered {told}\n  and not      {answer}"
                break
        bus.stdin.close()
    if wrong is None and bus.returncode != case.status:
        wrong = f"status {bus.returncode}"
    return wrong


def main():
    program, _ = lib.given_words(__doc__)
    with open(ROWS, encoding="utf-8") as rows:
        cases = cases_of(rows.read())
    folders = {}
    failed = False
    for case in cases:
        folder = folders.get(case.over) or tempfile.mkdtemp()
        folders[case.name] = folder
        wrong = run(program, folder, case)
        print(f"{'ok' if wrong is None else 'WRONG'}: {case.name}")
        if wrong is not None:
            failed = True
            print(wrong)
    sys.exit(1 if failed else 0)


if __name__ == "__main__":
    main()
