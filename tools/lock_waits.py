#!/usr/bin/env python3
"""Tells which share of their time the workers of the built `dhall` wait for the lock of the table.

A graph of imports of speed.py is normalised under strace, which tells how long each call of futex took and for which address. Of
the addresses in the program's stack, where the table lies, the lock is the one with the most calls that wake; the other one is that of
workers who wait for a task. The share is of the seconds of all workers together. strace itself makes each call slower, so the
share is an upper bound.

Plain Python 3, and strace.
"""

import argparse
import collections
import os
import re
import subprocess
import tempfile
import time

import speed

WHOLE = re.compile(r"\d+\s+futex\((0x[0-9a-f]+), (FUTEX_\w+).*<([\d.]+)>$")
BEGUN = re.compile(r"(\d+)\s+futex\((0x[0-9a-f]+), (FUTEX_\w+).*unfinished")
ENDED = re.compile(r"(\d+)\s+<\.\.\. futex resumed>.*<([\d.]+)>$")


def calls(lines):
    """Each call: its address, what it does and its seconds."""
    open_calls = {}
    for line in lines:
        line = line.strip()
        if whole := WHOLE.match(line):
            yield whole[1], whole[2], float(whole[3])
        elif begun := BEGUN.match(line):
            open_calls[begun[1]] = begun[2], begun[3]
        elif (ended := ENDED.match(line)) and ended[1] in open_calls:
            yield *open_calls.pop(ended[1]), float(ended[2])


def waits(trace):
    """How often and how long it was waited for each address of the stack, by how often each was woken."""
    waited, woken = collections.defaultdict(lambda: [0, 0.0]), collections.Counter()
    for address, what, seconds in calls(trace):
        if not address.startswith("0x7ff"):
            continue
        if what.startswith("FUTEX_WAKE"):
            woken[address] += 1
        else:
            waited[address][0] += 1
            waited[address][1] += seconds
    return [(address, *waited[address]) for address, _ in woken.most_common()]


def show(program, make, size, workers, folder):
    place = os.path.join(folder, f"{make.__name__}-{size}")
    root, _ = speed.write(place, make(size))
    trace = os.path.join(folder, "trace")
    words = ["strace", "-f", "-T", "-qq", "-e", "trace=futex", "-o", trace, program, "normalize", "--workers", str(workers)]
    start = time.monotonic()
    subprocess.run(words, input=root, cwd=place, stdout=subprocess.DEVNULL, check=True)
    took = time.monotonic() - start
    with open(trace) as lines:
        found = waits(lines)
    _, count, seconds = found[0] if found else (None, 0, 0.0)
    print(f"| {make.__name__} | {size} | {workers} | {took:.2f} | {count} | {seconds:.4f} | {100 * seconds / (took * workers):.2f} % |", flush=True)


def main():
    parser = argparse.ArgumentParser(description=__doc__.split("\n")[0])
    parser.add_argument("--program", default="crates/dhall/out/dhall")
    program = os.path.abspath(parser.parse_args().program)
    print("| Graph | Size | Workers | Seconds, traced | Waits for the lock | Their seconds | Share |")
    print("|---|---|---|---|---|---|---|")
    with tempfile.TemporaryDirectory() as folder:
        for make, size in [(speed.fan, 200), (speed.tangle, 4000), (speed.chain, 500)]:
            for workers in [2, 4, 8]:
                show(program, make, size, workers, folder)


if __name__ == "__main__":
    main()
