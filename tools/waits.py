#!/usr/bin/env python3
"""Counts whether runs by many workers end, and whether they end alike: no clause speaks of how long a worker waits for another.

Graphs of imports of each shape are made at random. Each is run some twenty times, each time by another number of workers from 2 to 64, and
each run must end within its time with the one answer that this script knows. With --busy so many processes spin beside the runs. It prints
the median and the slowest time of each shape. A run that does not end is killed, after its threads are told, and what was found can be made
again by the same --seed. Plain Python 3; ten thousand runs take some minutes. It exits with 1 if a run did not end, or differs.
"""

import argparse
import contextlib
import os
import random
import shutil
import statistics
import subprocess
import sys
import time

import expressions
from attacks import batch, faults, gen
from attacks.caches import digest
from attacks.runs import IMPORT, Ran, new_folder, refused, shown, write, written

HERE = os.path.dirname(os.path.abspath(__file__))
RUNS_OF_A_GRAPH = 20


class Graph:
    """The files of a graph in a folder, with the words and the input of a run, and what the run is to write. The cache, if the graph uses
    one, is emptied before each run where it is to be cold."""

    def __init__(self, folder, text, wanted, words=("normalize",), operands=(), cache=None, is_cold=False):
        self.folder, self.text, self.wanted = folder, text.encode(), wanted
        self.words, self.operands, self.cache, self.is_cold = words, operands, cache, is_cold

    def command(self, workers):
        return [*self.words, "--workers", str(workers), *self.operands]

    def env(self):
        if self.cache is None:
            return {}
        if self.is_cold:
            shutil.rmtree(self.cache, ignore_errors=True)
        return {"XDG_CACHE_HOME": self.cache}


def listed(parts):
    return "[ " + ", ".join(map(str, parts)) + " ]"


def list_line(values):
    return written(listed(values).encode() + b"\n")


# ---- shapes: each makes a graph in a folder

def size(source, most):
    """How large a graph is: mostly small, since what many workers do at once does not need much to do."""
    return 2 + int((most - 2) * source.random() ** 2)


def chains(source, folder):
    """Each file asks the next one, so that all workers but one wait."""
    n = size(source, 400)
    for k in range(n):
        write(folder, f"c{k}", f"./c{k + 1} + 1" if k + 1 < n else "1")
    return Graph(folder, "./c0", written(b"%d\n" % n))


def choices(source, folder):
    """A chain of choices whose left sides are absent, or have a fault far below that a choice passes over."""
    n = size(source, 200)
    for k in range(n):
        left = source.choice([f"./gone{k}", f"./c{k + 1} sha256:{'0' * 64}"])
        write(folder, f"c{k}", f"({left} ? ./c{k + 1}) + 1" if k + 1 < n else "1")
    return Graph(folder, "./c0", written(b"%d\n" % n))


def fans(source, folder):
    """Nothing waits for anything but the root."""
    n = size(source, 600)
    for k in range(n):
        write(folder, f"f{k}", f"{k} + {k}")
    return Graph(folder, listed(f"./f{k}" for k in range(n)), list_line(2 * k for k in range(n)))


def tangles(source, folder):
    """Each file imports two others, which many import."""
    n = size(source, 400)
    for k in range(n + 1):
        write(folder, f"g{k}", gen.text_of(k))
    return Graph(folder, gen.list_text(n), list_line(gen.values(n)))


def with_faults(source, folder):
    """Random graphs with faults, loops and choices."""
    maker = faults.Maker(source, source.choice([2, 5, 13, 40, 120]))
    files = maker.files()
    faults.make_files(folder, files)
    root = maker.expression(-1, 4)
    return Graph(folder, faults.text_of(root), faults.wanted_of(faults.World(files).walk(root, [], None), "normalize"))


def loops(source, folder):
    """A loop that is entered at many places at once, with a way off it on which there is much to do."""
    n = source.choice([1, 2, 3, 11, 100, 400])
    for k in range(n):
        write(folder, f"k{k:03}", f"./t{k % 40} + ./k{(k + 1) % n:03}")
    for k in range(40):
        write(folder, f"t{k}", f"./t{k + 1} + 1" if k < 39 else "1")
    starts = [source.randrange(n) for _ in range(source.randrange(1, 60))]
    return Graph(folder, listed(f"./k{k:03}" for k in starts), refused(b"in ./k000: import cycle", IMPORT))


def frozen_tangle(source, folder):
    """The input, the answer and the values of files that import each other by their digests."""
    n = size(source, 150)
    values = gen.values(n)
    imports = [f"./g{k} sha256:{digest(expressions.encoded(('nat', v)))}" for k, v in enumerate(values)]
    for k in range(n + 1):
        write(folder, f"g{k}", str(k) if k < 2 else f"{imports[k // 2]} + {imports[k // 3]} + {k}")
    return listed(imports), list_line(values), values


def frozen_without_a_cache(source, folder):
    text, wanted, _ = frozen_tangle(source, folder)
    return Graph(folder, text, wanted)


def frozen_cold(source, folder):
    text, wanted, _ = frozen_tangle(source, folder)
    return Graph(folder, text, wanted, cache=os.path.join(folder, "cache"), is_cold=True)


def frozen_warm(source, folder):
    """The cache has all values but a few. Those are kept by the first run."""
    text, wanted, values = frozen_tangle(source, folder)
    cache = os.path.join(folder, "cache")
    for value in values:
        form = expressions.encoded(("nat", value))
        if source.random() < 0.9:
            write(cache, "dhall/1220" + digest(form), form)
    return Graph(folder, text, wanted, cache=cache)


def batches(source, folder):
    """Files of a graph with faults and loops, each in a session of its own."""
    maker = faults.Maker(source, source.choice([2, 5, 13, 40]))
    files = maker.files()
    faults.make_files(folder, files)
    names = [source.choice([*files, *faults.SPOILT]) for _ in range(source.randrange(1, 100))]
    ends = {name: faults.wanted_of(faults.World(files).outcome((name, 0, None), []), "hash") for name in names}
    return Graph(folder, "", batch.wanted_of(names, ends.get), words=["batch"], operands=names)


def generated(source, folder):
    n = size(source, 1500)
    return Graph(folder, "", gen.wanted_of(n), words=["gen"], operands=[str(n)])


SHAPES = {make.__name__.replace("_", " "): make for make in (
    chains, choices, fans, tangles, with_faults, loops, frozen_without_a_cache, frozen_cold, frozen_warm, batches, generated)}


# ---- runs

class Count:
    """The runs of a shape: their times, and what was found."""

    def __init__(self, name):
        self.name, self.times, self.slowest = name, [], (0.0, "")
        self.endless = self.others = 0

    def took(self, seconds, what):
        self.times.append(seconds)
        self.slowest = max(self.slowest, (seconds, what))

    def row(self):
        if not self.times:
            return f"| {self.name} | 0 | | | | {self.endless} | {self.others} |"
        median, (slowest, what) = statistics.median(self.times), self.slowest
        return f"| {self.name} | {len(self.times)} | {median * 1000:.1f} | {slowest * 1000:.1f} | {what} | {self.endless} | {self.others} |"


def threads_of(pid):
    """In what the threads of a process are, and how many in each."""
    found = {}
    for task in os.listdir(f"/proc/{pid}/task"):
        with contextlib.suppress(OSError):
            with open(f"/proc/{pid}/task/{task}/stat") as stat, open(f"/proc/{pid}/task/{task}/wchan") as where:
                state = stat.read().rpartition(")")[2].split()[0] + " " + where.read().strip()
            found[state] = found.get(state, 0) + 1
    return ", ".join(f"{many} {state}" for state, many in sorted(found.items()))


def run(program, graph, workers, seconds):
    """The run and its time; or None and what its threads were in when it did not end."""
    began = time.monotonic()
    child = subprocess.Popen([program, *graph.command(workers)], stdin=subprocess.PIPE, stdout=subprocess.PIPE, stderr=subprocess.PIPE, cwd=graph.folder, env=graph.env())
    try:
        out, err = child.communicate(graph.text, seconds)
    except subprocess.TimeoutExpired:
        where = threads_of(child.pid)
        child.kill()
        child.communicate()
        return None, where
    return Ran(child.returncode, out, err), time.monotonic() - began


def check(options, count, graph, name, workers):
    what = f"{name}, {workers} workers"
    ran, took = run(options.program, graph, workers, options.seconds)
    if ran is None:
        count.endless += 1
        print(f"FOUND {count.name}, {what}: no end within {options.seconds} seconds; threads: {took}", flush=True)
        return
    count.took(took, what)
    if ran != graph.wanted:
        count.others += 1
        print(f"FOUND {count.name}, {what}: was {shown(ran)}, wanted {shown(graph.wanted)}", flush=True)


def count_runs(options):
    """So many runs, of each shape about as many."""
    counts = {name: Count(name) for name in options.shape or SHAPES}
    left, number = options.runs, 0
    while left:
        for name, count in counts.items():
            source = random.Random(f"{options.seed}, {name}, {number}")
            with new_folder() as folder:
                graph = SHAPES[name](source, folder)
                for _ in range(min(left, RUNS_OF_A_GRAPH)):
                    check(options, count, graph, f"graph {number}", source.choice([2, 3, 4, 8, 64, source.randrange(2, 65)]))
                    left -= 1
        number += 1
    return list(counts.values())


@contextlib.contextmanager
def spinning(many):
    """So many processes that spin."""
    children = [subprocess.Popen([sys.executable, "-I", "-S", "-c", "while True: pass"]) for _ in range(many)]
    try:
        yield
    finally:
        for child in children:
            child.kill()
            child.wait()


def main():
    parser = argparse.ArgumentParser(description=__doc__, formatter_class=argparse.RawDescriptionHelpFormatter,
                                     epilog="\n".join(f"{name}: {make.__doc__}" for name, make in SHAPES.items() if make.__doc__))
    parser.add_argument("--program", default=os.path.join(HERE, "..", "crates", "dhall", "out", "dhall"))
    parser.add_argument("--runs", type=int, default=10_000, help="how many runs in all (10000)")
    parser.add_argument("--busy", type=int, default=0, metavar="N", help="how many processes spin beside them (0)")
    parser.add_argument("--seconds", type=float, default=10, help="how long a run may take (10)")
    parser.add_argument("--shape", action="append", choices=SHAPES, help="only this shape; may be given again")
    parser.add_argument("--seed", type=int, default=23)
    options = parser.parse_args()
    if not os.access(options.program, os.X_OK):
        sys.exit(f"no program at {options.program}: build it first (make build)")
    sys.setrecursionlimit(100_000)
    began = time.monotonic()
    with new_folder() as folder, spinning(options.busy):
        # A copy, so that it stays the same program.
        options.program = shutil.copy(options.program, os.path.join(folder, "dhall"))
        counts = count_runs(options)
    print("| Shape | Runs | Median, ms | Slowest, ms | Which | Did not end | Differ |")
    print("|---|---|---|---|---|---|---|")
    for count in counts:
        print(count.row())
    endless, others = sum(it.endless for it in counts), sum(it.others for it in counts)
    print(f"{options.runs} runs in {time.monotonic() - began:.0f} s, seed {options.seed}, {options.busy} spinning; {endless} did not end, {others} differ")
    return 1 if endless or others else 0


if __name__ == "__main__":
    sys.exit(main())
