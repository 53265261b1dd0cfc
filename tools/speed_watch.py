#!/usr/bin/env python3
"""Times the built `dhall_watch` on scripts that set thousands of files, ask one, and then edit one file and ask again.

For each graph and each file that is edited it prints how many files stand on that file, the time of the first ask with what it needs
(the run on the script up to there, less that on the script without the ask), the time of one edit with the ask after it (the rest of
the run on a script with many of them, by their number), and how many times as fast that is. With --dhall it also prints the time of a
fresh run of that program's `hash`, by one worker, over the same contents as files in a folder, and how many times as fast as that an
edit and an ask are. Then it prints the time of a thousand edits
before one ask, and the memory after ten and after ten thousand edits and asks of one file, beside that of a script as long without
asks. The least of a few runs counts, since other work on the machine only adds. Plain Python 3, a minute or two.

With --count it prints the first of these tables alone, with millions of instructions in the place of times. Valgrind counts them, and no
other work on the machine changes them. What a run of `hash` on `1` executes is taken off the fresh run. That takes some minutes.
"""
import argparse
import os
import random
import shutil
import sys
import tempfile

import instructions
import speed

MOST_BYTES = 1_048_576


def chain(n):
    """Each file is one more than the next."""
    return {f"./f{i}": f"./f{i + 1} + 1" if i < n - 1 else "1" for i in range(n)}


def fan(n):
    """A list of all the others."""
    return {"./f0": "[" + ",".join(f"./f{i}" for i in range(1, n)) + "]", **{f"./f{i}": f"{i} + {i}" for i in range(1, n)}}


def tangle(n):
    """Each file imports up to three later ones, and the first one lists those that no file imports; the same graph each time."""
    source = random.Random(n)
    later = [[]] + [source.sample(range(i + 1, n), min(source.randint(0, 3), n - 1 - i)) for i in range(1, n)]
    imported = {j for js in later for j in js}
    listed = ",".join(f"./f{i}" for i in range(1, n) if i not in imported)
    return {"./f0": f"[{listed}]", **{f"./f{i}": " + ".join([str(i), *(f"./f{j}" for j in later[i])]) for i in range(1, n)}}


def standing_on(files, name):
    """How many files come to this one by their imports."""
    users = {at: [] for at in files}
    for at, text in files.items():
        for word in text.strip("[]").replace(",", " ").split():
            if word in users:
                users[word].append(at)
    found, left = {name}, [name]
    while left:
        new = [at for at in users[left.pop()] if at not in found]
        found.update(new)
        left += new
    return len(found) - 1


def put(at, text):
    return f"set {at} {text.encode().hex()}\n"


def sets(files):
    return "".join(put(at, text) for at, text in files.items())


def best_of(given, program, words, text, folder=None):
    """The best of some runs, as speed.py tells it; with --count one run, with its millions of instructions as its time, and no memory."""
    if given.count:
        counted, (status, out) = instructions.count([program, *words], text, folder)
        return counted / 1e6, 0, status, out, b""
    return speed.best(program, words, text.encode(), given.tries, folder)


def ran(given, script):
    """The best of some runs on a script, which is to answer each ask with a digest."""
    assert len(script) <= MOST_BYTES, f"a script of {len(script)} bytes"
    best = best_of(given, given.program, [], script)
    lines = best[3].decode().splitlines()
    if best[2] != 0 or len(lines) != script.count("ask "):
        sys.exit(f"ended with {best[2]}: {best[4].decode()} {lines[-1:]}")
    return best


def fresh_run(given, files):
    """The time of a run of `hash` over these files in a folder, which is to answer a digest; with --count less that of a run on `1`."""
    words = ["hash", "--workers", "1"]
    with tempfile.TemporaryDirectory() as folder:
        for at, text in files.items():
            with open(os.path.join(folder, at), "w") as file:
                file.write(text)
        best = best_of(given, given.dhall, words, "./f0", folder)
    if best[2] != 0:
        sys.exit(f"a fresh run ended with {best[2]}: {best[4].decode()}")
    return best[0] - best_of(given, given.dhall, words, "1")[0] if given.count else best[0]


def show_edits(given):
    unit, times = (", millions", "Times fewer") if given.count else ("", "Times as fast")
    of_all, of_one, of_times = (".1f", ".2f", ".1f") if given.count else (".3f", ".5f", ".0f")
    more = ["Fresh run" + unit, times] if given.dhall else []
    speed.head(given, ["Graph", "Files", "Edited", "Stand on it", "First ask" + unit, "An edit and an ask" + unit, times, *more])
    for make, name in [(chain, "chain"), (fan, "fan"), (tangle, "random graph")]:
        files = make(given.files)
        start = sets(files)
        without = ran(given, start)[0]
        first = ran(given, start + "ask ./f0\n")[0]
        anew = fresh_run(given, files) if given.dhall else 0
        leaves = [at for at, text in files.items() if "./" not in text]
        source = random.Random(given.files)
        for at in ["./f0", "./f1", leaves[-1]] if make is chain else sorted(source.sample(leaves, 3), key=lambda at: standing_on(files, at)):
            more = "".join(put(at, f"{files[at]} + {k}") + "ask ./f0\n" for k in range(given.edits))
            each = (ran(given, start + "ask ./f0\n" + more)[0] - first) / given.edits
            fresh = first - without
            cells = [name, given.files, at, standing_on(files, at), f"{fresh:{of_all}}", f"{each:{of_one}}", f"{fresh / each:{of_times}}"]
            cells += [f"{anew:{of_all}}", f"{anew / each:{of_times}}"] if given.dhall else []
            print("| " + " | ".join(str(cell) for cell in cells) + " |", flush=True)


def show_many(given):
    files = tangle(given.files)
    start = sets(files) + "ask ./f0\n"
    leaf = next(at for at, text in files.items() if "./" not in text)
    edit = f"set {leaf} 31\n"
    first = ran(given, start)[0]
    one, many = (ran(given, start + edit * n + "ask ./f0\n")[0] - first for n in (1, 1000))
    print(f"\none edit and an ask: {one:.4f} s; a thousand edits and an ask: {many:.4f} s")
    # A script takes memory by its orders, so the memory of edits and asks is that above the same script with other orders in their place.
    for n in (10, 10_000):
        asks, drops = (ran(given, put("./a", "./b") + "".join(put("./b", str(k)) + order for k in range(n)))[1] for order in ("ask ./a\n", "drop ./c\n"))
        print(f"memory after {n} edits and asks of one file: {asks:.1f} MB; of {n} edits without an ask: {drops:.1f} MB")


def main():
    root = os.path.dirname(os.path.dirname(os.path.abspath(__file__)))
    parser = argparse.ArgumentParser(description=__doc__.splitlines()[0])
    parser.add_argument("--program", default=os.path.join(root, "crates", "dhall_watch", "out", "dhall_watch"))
    parser.add_argument("--dhall", help="the built `dhall`, for a column with a fresh run of it")
    parser.add_argument("--files", type=int, default=4000, help="how many files a graph has (4000)")
    parser.add_argument("--edits", type=int, default=20, help="how many edits are timed together (20)")
    parser.add_argument("--tries", type=int, default=3)
    parser.add_argument("--count", action="store_true", help="instructions by valgrind, in the place of times")
    given = parser.parse_args()
    given.program, given.compare = os.path.abspath(given.program), None
    if not os.access(given.program, os.X_OK):
        sys.exit(f"no program at {given.program}: build it first (make build)")
    if given.count and shutil.which("valgrind") is None:
        sys.exit("valgrind is not here")
    if given.dhall:
        given.dhall = os.path.abspath(given.dhall)
    show_edits(given)
    if not given.count:
        show_many(given)


if __name__ == "__main__":
    main()
