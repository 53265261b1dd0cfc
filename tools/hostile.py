#!/usr/bin/env python3
"""Runs the built `dhall` on hostile inputs, imports, caches, devices and command lines, and compares each run with a reference.

The reference is expressions.py and programs.py beside it, which make expressions with texts that spell them and with what they are
written as, and programs with their values; the resolver in attacks/faults.py; and tables whose answers were worked out by hand.
Nothing of it comes from the program. Where a text or bytes are spoilt at random it asks for one fault in the input, or for an answer
that survives the way back. Of every run it asks that it ends in time, with a status that the README names, and with an answer or one
line that goes with the status (attacks/runs.py). The parts, each of which says what it attacks, stand in attacks/.

Plain Python 3. It prints a summary of each part, and exits with 1 if a run did anything else than what is stated.
"""

import argparse
import multiprocessing
import os
import resource
import shutil
import sys
import tempfile
import time
import traceback

from attacks import batch, binary, caches, endless, faults, gen, graphs, growth, json, memory, places, shapes, steps, streams, texts, typed, watch, web, words
from attacks.runs import Runs

PARTS = {part.__name__.split(".")[-1]: part for part in (
    endless, growth, memory, shapes, texts, binary, typed, json, steps, graphs, faults, places, caches, batch, gen, streams, words, web, watch)}


def run_part(name, program, *options):
    """The runs of a part, how long they took, and the processor time of the program."""
    sys.setrecursionlimit(100_000)
    runs = Runs(program, *options)
    start = time.monotonic()
    try:
        PARTS[name].attack(runs)
    except Exception:
        runs.report(f"the part {name}", f"did not go on: {traceback.format_exc()}")
    took, used = time.monotonic() - start, resource.getrusage(resource.RUSAGE_CHILDREN)
    return name, runs, took, used.ru_utime + used.ru_stime


def show(name, runs, took, used):
    print(f"\n{name}: {sum(runs.counts.values())} runs in {took:.0f} s, {used:.0f} s of processor time, {len(runs.found)} findings")
    groups = {}
    for (group, status), count in sorted(runs.counts.items(), key=str):
        groups.setdefault(group, []).append(f"{count} with status {status}")
    for group, counts in groups.items():
        print(f"  {group}: {', '.join(counts)}")
    for note in runs.notes:
        print(f"  {note}")
    print("  slowest: " + "; ".join(f"{seconds:.2f} s ({what:.60})" for seconds, what in runs.slowest), flush=True)


def attack(program, options):
    """All parts, several at once; the findings of each."""
    parts = [(name, program, options.seed, options.quick, options.slowness) for name in options.part or PARTS]
    start, found, total = time.monotonic(), [], 0
    with multiprocessing.Pool(min(options.jobs, len(parts)), maxtasksperchild=1) as pool:
        for job in [pool.apply_async(run_part, part) for part in parts]:
            name, runs, took, used = job.get()
            show(name, runs, took, used)
            found += runs.found
            total += sum(runs.counts.values())
    print(f"\n{total} runs in {time.monotonic() - start:.0f} s; {len(found)} findings")
    for what in found:
        print(f"FOUND {what}")
    return 1 if found else 0


def copied(program, folder, name):
    program = shutil.copy(program, os.path.join(folder, name))
    os.chmod(program, 0o755)
    return program


def main():
    here = os.path.dirname(os.path.abspath(__file__))
    parser = argparse.ArgumentParser(description=__doc__, formatter_class=argparse.RawDescriptionHelpFormatter,
                                     epilog="\n\n".join(f"{name}: {part.__doc__}" for name, part in PARTS.items()))
    parser.add_argument("program", nargs="?", default=os.path.join(here, "..", "crates", "dhall", "out", "dhall"),
                        help="the program (left out: crates/dhall/out/dhall, which `make build` makes)")
    parser.add_argument("--watcher", default=os.path.join(here, "..", "crates", "dhall_watch", "out", "dhall_watch"),
                        help="the watcher (left out: crates/dhall_watch/out/dhall_watch); where there is none, its part runs nothing")
    parser.add_argument("--part", action="append", choices=PARTS, help="only this part; may be given again")
    parser.add_argument("--seed", type=int, default=23)
    parser.add_argument("--quick", action="store_true", help="fewer random inputs and fewer sizes")
    parser.add_argument("--slowness", type=int, default=1, help="how many times as long a run may take, of a slow build or on a busy machine (1)")
    parser.add_argument("--jobs", type=int, default=2, help="how many parts at once (2)")
    options = parser.parse_args()
    if not os.access(options.program, os.X_OK):
        sys.exit(f"no program at {options.program}: build it first (make build)")
    print(f"program {os.path.abspath(options.program)}, seed {options.seed}", flush=True)
    # Copies that any user may run.
    with tempfile.TemporaryDirectory(prefix="hostile-") as folder:
        os.chmod(folder, 0o755)
        program = copied(options.program, folder, "dhall")
        if os.access(options.watcher, os.X_OK):
            copied(options.watcher, folder, "dhall_watch")
        return attack(program, options)


if __name__ == "__main__":
    sys.exit(main())
