#!/usr/bin/env python3
"""Counts the instructions that the built program executes on named inputs, which no other work on the machine changes.

With --compare it counts those of another Dhall program beside it. That is given by its path, takes the same commands, and reads
standard input. What a run of `encode` on `1` executes is taken off each row, as start-up. It needs valgrind. Plain Python 3, some
minutes.
"""
import argparse
import os
import re
import shutil
import subprocess
import sys
import tempfile

import speed

ROWS = [
    ("encode", "list of 10,000 numbers", lambda: speed.numbers(10000)),
    ("encode", "record of 3,000 fields", lambda: speed.record(3000)),
    ("encode", "ordinary code of 10 KB", lambda: speed.services(1)),
    ("resolve", "ordinary code of 10 KB", lambda: speed.services(1)),
    ("type", "ordinary code of 10 KB", lambda: speed.services(1)),
    ("normalize", "ordinary code of 10 KB", lambda: speed.services(1)),
    ("hash", "ordinary code of 10 KB", lambda: speed.services(1)),
    ("type", "list of 10,000 numbers", lambda: speed.numbers(10000)),
    ("normalize", "list of 10,000 numbers", lambda: speed.numbers(10000)),
    ("normalize", "Natural/fold of 20,000", lambda: speed.fold(20000)),
    ("normalize", "List/fold over 5,000 numbers", lambda: speed.list_fold(5000)),
    ("normalize", "60 nested conditionals", lambda: speed.conditionals(60)),
    ("type", "record of 1,000 fields, 200 uses", lambda: speed.uses(200)),
    ("normalize", "records of 1,000 fields preferred", lambda: speed.preferred(1000)),
    ("normalize", "toMap of 1,000 fields", lambda: speed.to_map(1000)),
    ("normalize", "text of 2,000 interpolations", lambda: speed.interpolations(2000)),
    ("normalize", "Text/replace in 250,000 bytes", lambda: speed.replaced(250000)),
    ("type", "100 lets", lambda: speed.lets(100)),
    ("type", "merge of 300 alternatives", lambda: speed.merged(300)),
]


def count(words, text, folder=None):
    """The instructions of a run of a command on a text, and what it wrote and ended with. It runs in a folder, or else in an empty one."""
    with tempfile.TemporaryDirectory() as empty:
        tool = ["valgrind", "--tool=callgrind", f"--callgrind-out-file={empty}/counts", *words]
        ran = subprocess.run(tool, input=text.encode(), capture_output=True, cwd=folder or empty, env=dict(os.environ, XDG_CACHE_HOME=empty))
    found = re.search(rb"Collected : (\d+)", ran.stderr)
    if found is None:
        sys.exit(f"valgrind counted nothing of {' '.join(words)}: {ran.stderr[-200:].decode(errors='replace')}")
    return int(found.group(1)), (ran.returncode, ran.stdout)


class Counted:
    """A program, with what it executes before it reads its input."""

    def __init__(self, path):
        self.path = os.path.abspath(path)
        self.start = count([self.path, "encode"], "1")[0]

    def row(self, command, text):
        counted, answer = count([self.path, command], text)
        return max(counted - self.start, 1), answer


def show(given, ours, other):
    print("| Command | Input | Bytes | Million instructions |" + (" The other's | Ratio | |" if other else ""))
    print("|---|---|---:|---:|" + ("---:|---:|---|" if other else ""))
    for command, name, make in ROWS:
        if given.only not in f"{command} {name}":
            continue
        text = make()
        counted, answer = ours.row(command, text)
        line = f"| {command} | {name} | {len(text.encode())} | {counted / 1e6:.1f} |"
        if other:
            beside, others = other.row(command, text)
            line += f" {beside / 1e6:.1f} | {counted / beside:.2f} | {'' if answer == others else 'another answer'} |"
        print(line, flush=True)


def main():
    parser = argparse.ArgumentParser(description=__doc__.splitlines()[0])
    parser.add_argument("--program", default=os.path.join(speed.ROOT, "crates", "dhall", "out", "dhall"))
    parser.add_argument("--compare", metavar="OTHER", help="another program that takes the same commands")
    parser.add_argument("--only", default="", help="only rows with this text in their command and name")
    given = parser.parse_args()
    if shutil.which("valgrind") is None:
        sys.exit("valgrind is not here")
    for program in filter(None, [given.program, given.compare]):
        if not os.access(program, os.X_OK):
            sys.exit(f"no program at {program}")
    show(given, Counted(given.program), Counted(given.compare) if given.compare else None)


if __name__ == "__main__":
    main()
