#!/usr/bin/env python3
"""Runs the built `dhall` for a long time on random programs over random graphs that are edited between the runs, and compares each run with
a reference.

The reference is programs.py and expressions.py, which know the value of each program, and the resolver of attacks/faults.py. In a round
of values, programs are spread over files and variables; files get other programs of their types, or another spelling of the same; entries of
the cache are dropped, torn and swapped; imports of roots are frozen by what they are, or by what they were. In a round of faults any file
is set to what has a value or not, or is dropped. In a plain round there are no files. Each run is by 1 to 8 workers. After each, the folder
has the files that the script wrote and no others, TMPDIR none, and the cache what is to be in it.

It prints a row for each tenth of its time with the greatest memory of a run in it, and at the end its counts and its findings. A round can
be run again by the same --seed and --first N. Plain Python 3. It exits with 1 if there are findings.
"""

import argparse
import hashlib
import os
import random
import shutil
import subprocess
import sys
import tempfile
import time

import expressions
import programs
from attacks import batch, faults, graphs, watch
from attacks.runs import IMPORT, MOST_BYTES, RESOLVING, Ran, Runs, flaw, refused, shown, write, written
from attacks.typed import answers, printed_line

HERE = os.path.dirname(os.path.abspath(__file__))
MOST_WORKERS = 8
STEPS = 30
SECONDS = 60


class Soak(Runs):
    """The runs of a soak, each from the launcher, with its greatest memory in KB."""

    def __init__(self, program, seed, folder):
        super().__init__(program, seed, False, 1)
        self.folder = folder
        self.temporary = os.path.join(folder, "tmp")
        self.paths = [os.path.join(folder, name) for name in ("in", "out", "err")]
        os.mkdir(self.temporary)
        self.launcher = subprocess.Popen([sys.executable, "-I", "-S", os.path.join(HERE, "attacks", "launcher.py")], stdin=subprocess.PIPE, stdout=subprocess.PIPE, text=True)
        self.total, self.greatest = 0, (0, "")

    def end(self):
        self.launcher.stdin.close()
        self.launcher.wait()
        self.launcher.stdout.close()

    def run(self, group, name, words, text=None, folder=None, env=None, seconds=SECONDS, is_formed=True):
        write("", self.paths[0], text or b"")
        began = time.monotonic()
        given = [self.program, *words], folder or self.folder, {"TMPDIR": self.temporary, **(env or {})}, seconds, self.paths
        self.launcher.stdin.write(f"{given!r}\n")
        self.launcher.stdin.flush()
        status, memory = map(int, self.launcher.stdout.readline().split())
        out, err = map(batch.read, self.paths[1:])
        took = time.monotonic() - began
        self.total, self.greatest = self.total + 1, max(self.greatest, (memory, name))
        self.count(group, name, status, took)
        ran = Ran(status, out, err)
        what = f"no end within {seconds} seconds" if took >= seconds and status < 0 else flaw(ran) if is_formed else None
        if what is not None:
            self.report(name, f"{what}: {shown(ran)}")
        if os.listdir(self.temporary):
            self.report(name, f"left {sorted(os.listdir(self.temporary))} in TMPDIR")
            empty(self.temporary)
        return ran


def empty(folder):
    shutil.rmtree(folder)
    os.mkdir(folder)


def by_workers(source, verb):
    return [verb, "--workers", str(source.randrange(1, MOST_WORKERS + 1))]


def expect_files(runs, name, folder, wanted):
    """Below the folder stand these files, as paths from it. One that was left is told once."""
    found = {os.path.relpath(os.path.join(at, file), folder) for at, _, files in os.walk(folder) for file in files}
    if found != wanted:
        runs.report(name, f"left {sorted(found - wanted)}, took away {sorted(wanted - found)}")
    for file in found - wanted:
        os.remove(os.path.join(folder, file))


# ---- rounds of values

class File:
    """A file or a variable with its program, whose value depends on those that it imports."""

    def __init__(self, at, t):
        self.at, self.type = at, t
        self.expression = self.run = None
        self.known = []
        self.were = []

    def value(self):
        if not self.known:
            self.known = [self.run([])]
        return self.known[0]


class Maker(graphs.Maker):
    """Makes programs over files that are edited later. The value of an import is that of its file at the time; in the root it may be
    another, which a frozen import has from the cache."""

    def __init__(self, source, root):
        super().__init__(source, root)
        self.is_root = False
        self.taken = {}

    def make(self, t, depth, scope):
        ready = [file for _, u, file in self.files if u == t]
        if ready and self.source.random() < 0.35:
            file = self.source.choice(ready)
            loc, is_root = self.source.choice(self.locations(file.at)), self.is_root
            return ("import", loc, 0, None), lambda values: self.taken[loc] if is_root and loc in self.taken else file.value()
        return programs.Maker.make(self, t, depth, scope)

    def root_program(self, depth):
        """A root with its type, and what works out its value."""
        self.here, self.is_root = [], True
        t = self.source.choice(self.ground)
        e, run = self.make(t, depth, [])
        self.is_root = False
        return e, t, run

    def known(self):
        self.here = []
        return {loc: file for _, _, file in self.files for loc in self.locations(file.at)}


def form_of(t, value):
    return expressions.encoded(programs.literal(t, value))


class Values:
    """The files, the variables and the cache of a round, and what is to be in them."""

    def __init__(self, runs, source, folder, name):
        self.runs, self.source, self.folder, self.name = runs, source, folder, name
        self.work, self.cache = os.path.join(folder, "work"), os.path.join(folder, "cache")
        os.makedirs(self.work)
        self.maker = Maker(source, self.work)
        self.env = {"XDG_CACHE_HOME": self.cache}
        # The bytes of each entry of the cache, and those that it is to have.
        self.entries, self.forms = {}, {}
        for n in range(source.randrange(1, 30)):
            at = f"V{n}" if source.random() < 0.15 else source.choice(graphs.FOLDERS) + [f"f{n}.dhall"]
            self.put(File(at, source.choice(self.maker.ground)), self.maker.files)

    # ---- files

    def put(self, file, before):
        """Gives a file a program over those before it, unless some number passes the greatest one or the text is too long."""
        old, files = (file.expression, file.run), self.maker.files
        self.maker.files, self.maker.here = before, [] if isinstance(file.at, str) else file.at[:-1]
        file.expression, file.run = self.maker.make(file.type, self.source.randrange(1, 5), [])
        self.maker.files = files
        every = [*(it for _, _, it in files), file]
        try:
            for it in every:
                it.were += it.known
                it.known = []
            for it in every:
                it.value()
            is_good = self.write(file)
        except programs.TooLarge:
            is_good = False
        if is_good and old[1] is None:
            files.append((file.at, file.type, file))
        elif not is_good:
            file.expression, file.run = old
            for _, _, it in files:
                it.known = []

    def write(self, file):
        """Writes the program of a file in some spelling, if that is short enough."""
        text = expressions.spelled(self.source, file.expression)
        if len(text.encode()) > (100_000 if isinstance(file.at, str) else MOST_BYTES):
            return False
        if isinstance(file.at, str):
            self.env[file.at] = text
        else:
            write(self.work, "/".join(file.at), text)
        return True

    def edit(self):
        if self.maker.files:
            n = self.source.randrange(len(self.maker.files))
            file = self.maker.files[n][2]
            if self.source.random() < 0.3:
                self.write(file)
            else:
                self.put(file, self.maker.files[:n])

    # ---- the cache

    def spoil(self):
        """Drops an entry, or gives it other bytes, or the right ones."""
        if not self.entries:
            return
        name = self.source.choice(sorted(self.entries))
        form = self.forms[name]
        data = self.source.choice([None, form, form[:self.source.randrange(len(form))], self.source.choice(sorted(self.forms.values())), b"\xff"])
        if data is None:
            os.remove(os.path.join(self.cache, "dhall", name))
            del self.entries[name]
        else:
            self.entries[name] = data
            write(self.cache, f"dhall/{name}", data)

    def expect_files(self, name):
        expect_files(self.runs, name, self.work, {"/".join(at) for at, _, _ in self.maker.files if not isinstance(at, str)})
        found = batch.entries(self.cache)
        if found != self.entries:
            others = sorted(it for it in {*found, *self.entries} if found.get(it) != self.entries.get(it))
            self.runs.report(name, f"left a cache of which {others} are not what it is to have")
            self.entries = {it: data for it, data in found.items() if it in self.forms}

    # ---- roots

    def frozen(self, e, known):
        """Digests for some imports of a root, by their locations; and the file of one that is no longer what its digest says."""
        digests, stale = {}, None
        for loc in dict.fromkeys(i[1] for i in graphs.imports_of(e)):
            file, roll = known[loc], self.source.random()
            olds = [value for value in file.were if value != file.value()]
            if roll < 0.3 and stale is None and olds:
                form = form_of(file.type, self.source.choice(olds))
                stale = (loc, form, next(value for value in olds if form_of(file.type, value) == form))
            elif roll < 0.6:
                form = form_of(file.type, file.value())
            else:
                continue
            digests[loc] = hashlib.sha256(form).digest()
            self.forms["1220" + digests[loc].hex()] = form
        return digests, stale

    def ask(self, step):
        """One root by one command, over the files as they are."""
        known = self.maker.known()
        e, t, run = self.maker.root_program(self.source.randrange(1, 6))
        digests, stale = self.frozen(e, known)
        name, verb = f"{self.name}, step {step}", self.source.choice(RESOLVING)
        marked = graphs.with_each(e, lambda i: (*i[:3], digests.get(i[1])))
        is_there = stale is not None and self.entries.get("1220" + digests[stale[0]].hex()) == stale[1]
        self.maker.taken = {stale[0]: stale[2]} if is_there else {}
        try:
            value = run([])
        except programs.TooLarge:
            return
        text = (expressions.printed if verb == "freeze" else lambda it: expressions.spelled(self.source, it))(marked).encode()
        wanted = self.wanted(verb, e, t, value, digests, known)
        if len(text) > MOST_BYTES or len(wanted.out) > MOST_BYTES:
            return
        group = "values, as they were" if is_there else "values"
        if stale is not None and not is_there:
            group = "values, another digest"
            got = hashlib.sha256(form_of(known[stale[0]].type, known[stale[0]].value())).hexdigest()
            wanted = refused(f"in {location_text(stale[0])}: digest differs: wanted {digests[stale[0]].hex()} got {got}".encode(), IMPORT)
        else:
            self.entries.update({"1220" + it.hex(): self.forms["1220" + it.hex()] for it in digests.values()})
        self.runs.check(group, f"{verb}, {name}", by_workers(self.source, verb), text, wanted, folder=self.work, env=self.env)
        self.expect_files(name)

    def wanted(self, verb, e, t, value, digests, known):
        if verb == "resolve":
            return printed_line(graphs.with_each(e, lambda i: programs.literal(known[i[1]].type, self.maker.taken.get(i[1], known[i[1]].value()))))
        if verb == "freeze":
            new = lambda loc: hashlib.sha256(form_of(known[loc].type, known[loc].value())).digest()
            return written(expressions.printed(graphs.with_each(e, lambda i: (*i[:3], digests.get(i[1]) or new(i[1])))).encode())
        return answers(t, value)[verb]

    def ask_batch(self, step):
        files = [file for at, _, file in self.maker.files if not isinstance(at, str)]
        if not files:
            return
        asked = [self.source.choice(files) for _ in range(self.source.randrange(1, 20))]
        ends = {location_text(graphs.relative([], it.at)): answers(it.type, it.value())["hash"] for it in asked}
        words = [location_text(graphs.relative([], it.at)) for it in asked]
        name = f"batch, {self.name}, step {step}"
        ran = self.runs.run("values, batch", name, [*by_workers(self.source, "batch"), *words], folder=self.work, env=self.env, is_formed=False)
        self.runs.expect(name, ran, batch.wanted_of(words, ends.get))
        self.expect_files(name)


def location_text(loc):
    return expressions.Printer().location(loc)


def soak_values(runs, source, folder, name):
    values = Values(runs, source, folder, name)
    for step in range(STEPS):
        roll = source.random()
        if roll < 0.25:
            values.edit()
        elif roll < 0.35:
            values.spoil()
        elif roll < 0.45:
            values.ask_batch(step)
        else:
            values.ask(step)


# ---- rounds of faults

def soak_faults(runs, source, folder, name):
    """Files that are set and dropped, over which the resolver of the script says what each is."""
    size = source.choice([1, 2, 3, 5, 8, 13, 40])
    maker, contents = watch.Maker(source, size, True), {}
    names = [f"./f{n}" for n in range(size)] + ["./flast"]
    alone = lambda at, verb="hash": faults.wanted_of(watch.Now(contents).outcome((at, 0, None), []), verb)

    def edit(n):
        if names[n] in contents and source.random() < 0.2:
            del contents[names[n]]
            os.remove(os.path.join(folder, names[n]))
        else:
            contents[names[n]] = maker.content(n)
            write(folder, names[n], contents[names[n]][0])

    for n in range(size + 1):
        edit(n)
    for step in range(STEPS):
        what = f"{name}, step {step}"
        if source.random() < 0.4:
            edit(source.randrange(size + 1))
        elif source.random() < 0.3:
            words = [source.choice(names) for _ in range(source.randrange(1, 20))]
            ran = runs.run("faults, batch", f"batch, {what}", [*by_workers(source, "batch"), *words], folder=folder, is_formed=False)
            runs.expect(f"batch, {what}", ran, batch.wanted_of(words, alone))
        else:
            at, verb = source.choice(names), source.choice(["normalize", "type", "hash", "to-json"])
            runs.check("faults", f"{verb}, {what}", by_workers(source, verb), at.encode(), alone(at, verb), folder=folder)
        expect_files(runs, what, folder, {at[2:] for at in contents})


# ---- plain rounds

def soak_plain(runs, source, folder, name):
    """Programs without imports, and expressions in both forms."""
    for step in range(STEPS // 3):
        e, t, value = programs.Maker(source).program(source.randrange(1, 6))
        text = expressions.spelled(source, e).encode()
        for verb, wanted in answers(t, value).items():
            if len(text) <= MOST_BYTES and source.random() < 0.3:
                runs.check("programs", f"{verb}, {name}, step {step}", by_workers(source, verb), text, wanted, folder=folder)
        e = expressions.Maker(source).expression(source.randrange(1, 6))
        form, text = expressions.encoded(e), expressions.spelled(source, e).encode()
        runs.check("expressions", f"encode, {name}, step {step}", by_workers(source, "encode"), text, written(form), folder=folder)
        given = expressions.encoded_anyhow(source, e)
        runs.check("expressions", f"decode, {name}, step {step}", by_workers(source, "decode"), given, printed_line(e), folder=folder)
    expect_files(runs, name, folder, set())


ROUNDS = [soak_values, soak_values, soak_values, soak_faults, soak_faults, soak_plain]


# ---- the time of a soak

def megabytes(kilobytes):
    return f"{kilobytes / 1024:.1f}"


class Tenths:
    """The rows of the tenths of the time: the runs of each, and their greatest memory."""

    def __init__(self, runs, seconds):
        self.runs, self.seconds, self.began = runs, seconds, time.monotonic()
        self.done, self.rows = 0, []
        print("| Minutes | Runs | Greatest memory, MB | Of | Findings |\n|---|---|---|---|---|", flush=True)

    def goes_on(self):
        """Whether there is time left; a tenth that is over gets its row."""
        took = time.monotonic() - self.began
        if took >= self.seconds * (len(self.rows) + 1) / 10 and self.runs.total > self.done:
            memory, name = self.runs.greatest
            self.rows.append(memory)
            print(f"| {took / 60:.1f} | {self.runs.total - self.done} | {megabytes(memory)} | {name} | {len(self.runs.found)} |", flush=True)
            self.done, self.runs.greatest = self.runs.total, (0, "")
        return took < self.seconds


def soak(options, folder):
    runs = Soak(options.program, options.seed, folder)
    tenths, number = Tenths(runs, options.minutes * 60), options.first
    try:
        while tenths.goes_on():
            source = random.Random(f"{options.seed}, {number}")
            room = os.path.join(folder, "room")
            os.mkdir(room)
            source.choice(ROUNDS)(runs, source, room, f"round {number}")
            shutil.rmtree(room)
            number += 1
    finally:
        runs.end()
    if sorted(os.listdir(folder)) != ["dhall", "err", "in", "out", "tmp"]:
        runs.report("the soak", f"left {sorted(os.listdir(folder))}")
    return runs, tenths, number - options.first


def main():
    parser = argparse.ArgumentParser(description=__doc__, formatter_class=argparse.RawDescriptionHelpFormatter)
    parser.add_argument("--program", default=os.path.join(HERE, "..", "crates", "dhall", "out", "dhall"))
    parser.add_argument("--minutes", type=float, default=60, help="how long it goes on (60)")
    parser.add_argument("--seed", type=int, default=23)
    parser.add_argument("--first", type=int, default=0, metavar="N", help="the number of its first round (0)")
    options = parser.parse_args()
    if not os.access(options.program, os.X_OK):
        sys.exit(f"no program at {options.program}: build it first (make build)")
    sys.setrecursionlimit(100_000)
    with tempfile.TemporaryDirectory(prefix="soak-") as folder:
        options.program = shutil.copy(options.program, os.path.join(folder, "dhall"))
        runs, tenths, rounds = soak(options, folder)
    groups = {}
    for (group, status), count in sorted(runs.counts.items(), key=str):
        groups.setdefault(group, []).append(f"{count} with status {status}")
    for group, counts in groups.items():
        print(f"{group}: {', '.join(counts)}")
    print("slowest: " + "; ".join(f"{seconds:.2f} s ({what})" for seconds, what in runs.slowest))
    print(f"{runs.total} runs in {rounds} rounds from {options.first}, seed {options.seed}; greatest memory of the first tenth "
          f"{megabytes(tenths.rows[0])} MB, of the last {megabytes(tenths.rows[-1])} MB; {len(runs.found)} findings")
    for what in runs.found:
        print(f"FOUND {what}")
    return 1 if runs.found else 0


if __name__ == "__main__":
    sys.exit(main())
