"""Random graphs of imports with faults: files that are absent, spoilt, too large, without a type or without a normal form, folders,
links to themselves, the web, wrong digests, loops, and choices that pass over some of these. A resolver of this module, which goes
depth first, says which fault decides, or what the value is; each command answers so by any number of workers."""

import collections
import hashlib
import os
import random

import expressions
from attacks.runs import DESK, ILL, IMPORT, LIMIT, RESOLVING, TEXT, new_folder, refused, write, written

MOST_NATURAL = 2 ** 128 - 1

# A fault: the line without its place, the status, and whether a choice goes on to its right side.
Fault = collections.namedtuple("Fault", "line status passes")
# A fault at a location, and the loop with this least key.
At = collections.namedtuple("At", "location fault")
Loop = collections.namedtuple("Loop", "least")

ABSENT = Fault("absent", IMPORT, True)
# What stands at locations that have no file of ours.
OUTSIDE = {
    "./gone": ABSENT, "./gone/away": ABSENT, "./folder": ABSENT, "./f0.dhall/below": ABSENT, "env:UNSET": ABSENT, "~/gone": ABSENT,
    "missing": Fault("missing", IMPORT, True),
    "https://example.com/a": Fault("https is refused", IMPORT, True),
    # Nobody listens there.
    "http://127.0.0.1:1/a": Fault("device failed", DESK, False),
    "./link": Fault("device failed", DESK, False),
}
# Files that are no expression, or have no value; those of the first kind are no text either.
SPOILT = {
    "./bytes": (b"1 \xff", Fault("not UTF-8 at 2", TEXT, False), True),
    "./large": (b" " * 1_048_577, Fault("larger than 1048576 bytes", TEXT, False), True),
    "./spoilt": (b"1 )", Fault("syntax at 2", TEXT, False), False),
    "./empty": (b"", Fault("syntax at 0", TEXT, False), False),
    "./wide": (b"340282366920938463463374607431768211456", Fault("number too wide at 0", TEXT, False), False),
    "./out": (b"  1.5", Fault("left out of this profile at 2", TEXT, False), False),
    "./nested": (b"(" * 500 + b"1" + b")" * 500, Fault("nested deeper than 500", TEXT, False), False),
    "./ill": (b"\n 1 + True", Fault("type rule 14 at root, line 2, column 2", ILL, False), False),
    "./sum": (b"%d + 1" % MOST_NATURAL, Fault("number or literal too wide", LIMIT, False), False),
}


def rank(key):
    """Keys are ordered by their location, their mode and their digest, none first."""
    location, mode, digest = key
    return location.encode(), mode, b"" if digest is None else b"0" + digest


class World:
    """What stands where, and the outcome of each key: a number, a fault at its location, or a loop."""

    def __init__(self, files):
        self.files = files
        self.known = {}

    def outcome(self, key, chain):
        if key in chain:
            return Loop(min(chain[:chain.index(key) + 1], key=rank))
        if key not in self.known:
            self.known[key] = self.work(key, [key, *chain])
        return self.known[key]

    def work(self, key, chain):
        location, mode, digest = key
        if digest is not None:
            return self.compared(key, self.outcome((location, mode, None), chain))
        if mode == 2:
            return 1
        if location in OUTSIDE:
            return At(location, OUTSIDE[location])
        if location in SPOILT:
            _, fault, is_no_text = SPOILT[location]
            return At(location, fault) if mode == 0 or is_no_text else 1
        return 1 if mode == 1 else self.walk(self.files[location], chain, location)

    def compared(self, key, got):
        location, _, digest = key
        if not isinstance(got, int):
            return got
        found = hashlib.sha256(expressions.encoded(("nat", got))).digest()
        line = f"digest differs: wanted {digest.hex()} got {found.hex()}"
        return got if found == digest else At(location, Fault(line, IMPORT, True))

    def walk(self, e, chain, location):
        """The first part that has no value decides."""
        if e[0] == "nat":
            return e[1]
        if e[0] == "import":
            return self.outcome(e[1:], chain)
        first = self.walk(e[1], chain, location)
        if e[0] == "or":
            passes = isinstance(first, At) and first.fault.passes
            return self.walk(e[2], chain, location) if passes else first
        if not isinstance(first, int):
            return first
        second = self.walk(e[2], chain, location) if len(e) > 2 else True
        if not isinstance(second, int):
            return second
        if e[0] == "ill":
            return At(location, Fault("type rule 14 at root, line 1, column 1", ILL, False))
        return first + second if e[0] == "sum" else first


def text_of(e):
    if e[0] == "nat":
        return str(e[1])
    if e[0] == "import":
        location, mode, digest = e[1:]
        text = location + (f" sha256:{digest.hex()}" if digest else "") + ["", " as Text", " as Location"][mode]
        return f"(let x = {text} in 1)" if mode else text
    a, b = text_of(e[1]), text_of(e[2]) if len(e) > 2 else None
    # The parts of a record stand in the order of their labels.
    return {"sum": f"({a} + {b})", "or": f"({a} ? {b})", "pick": f"{{ b = {b}, a = {a} }}.a", "ill": f"{a} + True"}[e[0]]


class Maker:
    def __init__(self, source, size):
        self.source, self.size = source, size
        self.badness = source.choice([0.03, 0.1, 0.3])
        self.looping = source.choice([0, 0, 0.05, 0.3])

    def target(self, n):
        """A location that file n may import."""
        roll = self.source.random()
        if roll < self.badness:
            return self.source.choice([*OUTSIDE, *SPOILT])
        if n + 1 >= self.size or roll > 1 - self.looping:
            return f"./f{self.source.randrange(self.size)}.dhall" if self.looping else "./last.dhall"
        return f"./f{self.source.randrange(n + 1, self.size)}.dhall"

    def importing(self, n):
        mode = self.source.choice([0, 0, 0, 0, 0, 0, 1, 2])
        digest = None
        if mode == 0 and self.source.random() < 0.1:
            digest = hashlib.sha256(expressions.encoded(("nat", self.source.randrange(4)))).digest()
        return ("import", self.target(n), mode, digest)

    def expression(self, n, depth):
        kind = self.source.choice(["nat", "import", "import", "sum", "sum", "or", "pick"]) if depth else "import"
        if kind == "nat":
            return ("nat", self.source.randrange(3))
        if kind == "import":
            return self.importing(n)
        return (kind, self.expression(n, depth - 1), self.expression(n, depth - 1))

    def files(self):
        made = {f"./f{n}.dhall": self.expression(n, self.source.randrange(1, 4)) for n in range(self.size)}
        for location in made:
            if self.source.random() < self.badness / 4:
                made[location] = ("ill", made[location])
        return {**made, "./last.dhall": ("nat", 1)}


def make_files(folder, files):
    for location, e in files.items():
        write(folder, location, text_of(e))
    for location, (data, _, _) in SPOILT.items():
        write(folder, location, data)
    os.mkdir(os.path.join(folder, "folder"))
    os.symlink("link", os.path.join(folder, "link"))


def wanted_of(end, verb):
    """What a command writes of a root that ended so; None where that is not worked out here."""
    if isinstance(end, Loop):
        return refused(f"in {end.least[0]}: import cycle".encode(), IMPORT)
    if isinstance(end, At):
        return refused(f"in {end.location}: {end.fault.line}".encode(), end.fault.status)
    digest = hashlib.sha256(expressions.encoded(("nat", end))).hexdigest()
    out = {"normalize": f"{end}\n", "type": "Natural\n", "hash": f"sha256:{digest}\n", "to-json": f"{end}\n"}
    return written(out[verb].encode()) if verb in out else None


def check_graph(runs, source, name, size):
    maker = Maker(source, size)
    files = maker.files()
    world = World({location: e for location, e in files.items()})
    with new_folder() as folder:
        make_files(folder, files)
        for k in range(3):
            root = maker.expression(-1, 3)
            end = world.walk(root, [], None)
            workers = {1, 4, source.randrange(2, 65)}
            runs.ends[type(end).__name__] += 1
            for verb in RESOLVING:
                wanted = wanted_of(end, verb)
                many = workers if verb == "normalize" else {source.randrange(1, 65)}
                if wanted is not None:
                    runs.check_by_workers("graphs with faults", f"root {k} of {name}", verb, text_of(root).encode(), many, wanted, folder=folder)
                else:
                    check_text(runs, f"{verb}, root {k} of {name}", verb, text_of(root).encode(), end, many, folder)


def check_text(runs, name, verb, text, end, many, folder):
    """What `resolve` and `freeze` write has the value of the root."""
    for n in many:
        ran = runs.run("graphs with faults", name, [verb, "--workers", str(n)], text, folder=folder)
        if ran is not None:
            runs.check("graphs with faults, again", name, ["normalize"], ran.out, wanted_of(end, "normalize"), folder=folder)


def attack(runs):
    runs.ends = collections.Counter()
    source = random.Random(runs.seed)
    for n in range(runs.few(120, 15)):
        check_graph(runs, source, f"graph {n}", source.choice([1, 2, 3, 5, 8, 13, 40]))
    runs.notes.append("roots of graphs with faults: " + ", ".join(f"{count} {kind}" for kind, count in sorted(runs.ends.items())))
