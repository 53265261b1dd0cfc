"""Random programs spread over files, folders and variables: a closed part may be the import of one that was made before, by a path
from its folder or from the root. Types, values, digests, the text with a value for each import, and the frozen text are known
beforehand; frozen texts are run again with the files, which fills a cache, and then without them."""

import hashlib
import os
import random
import shutil

import expressions
import programs
from attacks.runs import MOST_BYTES, RESOLVING, new_folder, write, written
from attacks.typed import answers, printed_line

FOLDERS = [[], ["a"], ["a", "b"], ["c d"], ["a", "b", "e"]]


def relative(here, there):
    """The location of a file as a path from a folder; both are lists of components from the working directory."""
    k = 0
    while k < len(here) and k < len(there) - 1 and here[k] == there[k]:
        k += 1
    ups = len(here) - k
    rest = there[k:]
    return ("./", tuple(rest)) if ups == 0 else ("../", tuple([".."] * (ups - 1) + rest))


class Maker(programs.Maker):
    """Makes programs in which a closed part may be an import."""

    def __init__(self, source, root):
        super().__init__(source)
        self.root = root
        self.here = []
        self.files = []

    def locations(self, at):
        """Ways to write where a part stands: a variable, or a file as components."""
        if isinstance(at, str):
            return [("env", at)]
        return [relative(self.here, at), ("/", tuple(self.root.strip("/").split("/") + at))]

    def make(self, t, depth, scope):
        ready = [file for file in self.files if file[1] == t]
        if ready and self.source.random() < 0.35:
            at, _, value = self.source.choice(ready)
            loc = self.source.choice(self.locations(at))
            return ("import", loc, 0, None), lambda values: value
        return super().make(t, depth, scope)

    def known(self):
        """The type and the value of each location that may stand in the root."""
        self.here = []
        return {loc: (t, value) for at, t, value in self.files for loc in self.locations(at)}


def with_each(e, put):
    """The expression with something put for each import."""
    if isinstance(e, tuple) and e[:1] == ("import",):
        return put(e)
    if isinstance(e, (tuple, list)):
        return type(e)(with_each(part, put) for part in e)
    return e


def imports_of(e):
    if isinstance(e, tuple) and e[:1] == ("import",):
        return [e]
    return [i for part in e for i in imports_of(part)] if isinstance(e, (tuple, list)) else []


def digest_of(t, value):
    return hashlib.sha256(expressions.encoded(programs.literal(t, value))).digest()


def make_graph(source, folder, size):
    """Files and variables of a graph, its maker, and the environment that it is run in."""
    maker, env = Maker(source, folder), {}
    for n in range(size):
        as_variable = source.random() < 0.15
        maker.here = [] if as_variable else source.choice(FOLDERS)
        e, t, value = maker.program(source.randrange(1, 5))
        text = expressions.spelled(source, e)
        at = f"V{n}" if as_variable else maker.here + [f"f{n}.dhall"]
        if len(text) > (100_000 if as_variable else MOST_BYTES):
            continue
        if as_variable:
            env[at] = text
        else:
            write(folder, "/".join(at), text)
        maker.files.append((at, t, value))
    maker.here = []
    return maker, env


def check_root(runs, source, name, folder, maker, env):
    """One root over a graph, by each command and by random numbers of workers."""
    e, t, value = maker.program(source.randrange(2, 6))
    known = maker.known()
    values = with_each(e, lambda i: programs.literal(*known[i[1]]))
    frozen = with_each(e, lambda i: (*i[:3], digest_of(*known[i[1]])))
    text, frozen_text = expressions.printed(e).encode(), expressions.printed(frozen).encode()
    if len(frozen_text) > MOST_BYTES:
        return
    wanted = {**answers(t, value), "resolve": printed_line(values), "freeze": written(frozen_text)}
    for verb in RESOLVING:
        runs.check_by_workers("graphs", name, verb, text, {1, source.randrange(2, 65)}, wanted[verb], folder=folder, env=env)
    spelt = expressions.spelled(source, e).encode()
    if len(spelt) <= MOST_BYTES:
        runs.check("graphs, spelt", name, ["hash"], spelt, wanted["hash"], folder=folder, env=env)
    if imports_of(e):
        check_frozen(runs, name, folder, env, frozen, frozen_text, {**wanted, "freeze": written(frozen_text)}, known)


def check_frozen(runs, name, folder, env, frozen, text, wanted, known):
    """The frozen root with its files, which fills a cache with just its values; then from that cache alone."""
    with new_folder() as cache:
        env = {**env, "XDG_CACHE_HOME": cache}
        runs.check("graphs, frozen", name, ["normalize"], text, wanted["normalize"], folder=folder, env=env)
        forms = {"1220" + d.hex(): expressions.encoded(programs.literal(*known[loc])) for _, loc, _, d in imports_of(frozen)}
        kept = {file: open(os.path.join(cache, "dhall", file), "rb").read() for file in os.listdir(os.path.join(cache, "dhall"))}
        if kept != forms:
            runs.report(f"cache of {name}", f"has {sorted(kept)}, wanted {sorted(forms)}")
        for verb in RESOLVING:
            runs.check("graphs, cached", f"{verb}, {name}", [verb], text, wanted[verb], folder=cache, env={"XDG_CACHE_HOME": cache})
        shutil.rmtree(os.path.join(cache, "dhall"))


def attack(runs):
    source = random.Random(runs.seed)
    for n in range(runs.few(40, 6)):
        with new_folder() as folder:
            maker, env = make_graph(source, folder, source.randrange(1, 60))
            for k in range(3):
                check_root(runs, source, f"root {k} of graph {n}", folder, maker, env)
