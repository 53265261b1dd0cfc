"""Little memory: each command on a small input, one with much output, a refused one and on imports, by one worker and by four, under
limits on its address space from 6 to 200 MB; no threads besides the first; small stacks. The answer is whole, or is that memory is
wanting; where the limit is too small for the program to tell its version, nothing is asked. The least limits for an answer are noted."""

import hashlib
import os
import resource

import expressions
from attacks.places import as_nobody
from attacks.runs import LONG, NO_JSON, NO_MEMORY, OK, RESOLVING, VERBS, new_folder, refused, shown, write, written
from attacks.streams import GOOD, good_run, much

MB = 1 << 20
SIZES = [6, 7, 8, 9, 10, 12, 14, 16, 20, 24, 28, 32, 40, 48, 56, 64, 72, 80, 100, 150, 200]


def limited(what, size):
    return lambda: resource.setrlimit(what, (size, size))


def run_under(runs, size, name, words, text, folder=None, env=None):
    """A run under a limit on its address space."""
    return runs.run("little memory", name, words, text, folder=folder, env=env, before=limited(resource.RLIMIT_AS, size),
                    is_formed=False, seconds=LONG)


def least_to_start(runs):
    """The least limit, in steps of a quarter of a megabyte, under which the program tells its version; None if that is large."""
    wanted = good_run(runs, "--version")
    return next((size for size in range(MB, 64 * MB, MB // 4) if run_under(runs, size, "start", ["--version"], b"") == wanted), None)


def digest_line(form):
    return f"sha256:{hashlib.sha256(form).hexdigest()}\n".encode()


def make_files(folder):
    """Files of which each imports the two behind it, and the value of the first."""
    values = [1] * 60
    for n in reversed(range(60)):
        values[n] = values[n + 1] + values[n + 2] if n < 58 else 1
        write(folder, f"f{n}", f"./f{n + 1} + ./f{n + 2}" if n < 58 else "1")
    return values[0]


def inputs(runs, verb, value):
    """Inputs of a command with what it writes of them; the value is that of `./f0`."""
    rows = [("little", GOOD[verb][0], good_run(runs, verb))]
    if verb in ("encode", "decode", "resolve", "normalize", "freeze", "to-json", "steps"):
        text, out = much(verb)
        rows.append(("much", text, written(out)))
    if verb in RESOLVING:
        rows.append(("refused", b"(" * 400_000, refused(b"nested deeper than 500")))
        rows.append(("a bad import", b"[ ./f0, ./gone ]", refused(b"in ./gone: absent", 3)))
        form = expressions.encoded(("nat", value))
        line, digest = b"%d\n" % value, digest_line(form)
        out = {"resolve": line, "type": b"Natural\n", "normalize": line, "hash": digest, "freeze": b"./f0 " + digest[:-1], "to-json": line}
        rows.append(("imports", b"./f0", written(out[verb])))
    return rows


def address_space(runs):
    start = least_to_start(runs)
    if start is None:
        runs.notes.append("the program does not start under 64 MB: nothing was asked under a limit")
        return
    runs.notes.append(f"the program starts under {start / MB:.2f} MB")
    sizes = {start + k * MB // 8 for k in range(0, 16, runs.few(2, 4))} | {n * MB for n in SIZES}
    with new_folder() as folder:
        value = make_files(folder)
        for verb in VERBS:
            leasts = []
            for name, text, wanted in inputs(runs, verb, value):
                for n in ["1", "4"]:
                    least = least_answer(runs, start, sizes, f"{verb}, {name}, {n} workers", [verb, "--workers", n], text, wanted, folder)
                    leasts.append(f"{name} {least} by {n}")
            runs.notes.append(f"{verb} answers from: " + ", ".join(leasts))


def least_answer(runs, start, sizes, name, words, text, wanted, folder):
    """The least of the limits from which on it answers. One under which it starts and does anything else is reported."""
    least, answers = None, True
    for size in sorted(sizes, reverse=True):
        ran = run_under(runs, size, f"{name}, {size / MB:.2f} MB", words, text, folder)
        answers = answers and ran == wanted
        least = size if answers else least
        if size >= start:
            runs.expect(f"{name}, {size / MB:.2f} MB", ran, wanted, NO_MEMORY)
    return "no limit" if least is None else f"{least / MB:.2f} MB"


def many_files(runs):
    """Two hundred files that each take some memory to work out: a worker that lacks memory leaves none of the others waiting."""
    with new_folder() as folder:
        for n in range(200):
            write(folder, f"f{n}", f"Natural/fold 3000 Natural (\\(x : Natural) -> x + 1) {n}")
        root = ("[ " + ", ".join(f"./f{n}" for n in range(200)) + " ]").encode()
        wanted = written(("[ " + ", ".join(str(n + 3000) for n in range(200)) + " ]\n").encode())
        for n in ["1", "4", "64"]:
            sizes = {size * MB for size in (8, 10, 12, 16, 20, 30, 40, 60, 80, 120, 200, 400, 800)}
            least = least_answer(runs, 6 * MB, sizes, f"many files, {n} workers", ["normalize", "--workers", n], root, wanted, folder)
            runs.notes.append(f"two hundred files, {n} workers: answers from {least}")


def no_threads(runs):
    """No thread may be started: the one that there is does the work, or memory is wanting."""
    def alone():
        as_nobody()
        resource.setrlimit(resource.RLIMIT_NPROC, (1, 1))

    if os.geteuid() != 0:
        return
    with new_folder() as folder:
        make_files(folder)
        for n in ("1", "2", "4", "64"):
            runs.check("no threads", f"{n} workers", ["type", "--workers", n], b"./f0", written(b"Natural\n"), NO_MEMORY, folder=folder, before=alone)


def stacks(runs):
    """What nests as deep as can be, on stacks of a megabyte and more, and on one without a limit."""
    n = 499
    deep, form = b"Some (" * (n - 1) + b"Some True" + b")" * (n - 1), b"\x83\x05\xf6" * n + b"\xf5"
    digest = digest_line(form)
    kind = b"Optional (" * (n - 1) + b"Optional Bool" + b")" * (n - 1)
    lines = {"resolve": deep + b"\n", "type": kind + b"\n", "normalize": deep + b"\n", "hash": digest}
    with new_folder() as folder:
        write(folder, "deep", deep)
        for size in (1 << 20, 2 << 20, 8 << 20, 64 << 20, resource.RLIM_INFINITY):
            for verb, out in {**lines, "encode": form, "freeze": deep}.items():
                runs.check("stacks", f"{verb}, a stack of {size >> 20} MB", [verb], deep, written(out), before=limited(resource.RLIMIT_STACK, size))
            for verb, out in {**lines, "freeze": b"./deep " + digest[:-1]}.items():
                for workers in ["1", "4"]:
                    runs.check("stacks", f"{verb} of an import, a stack of {size >> 20} MB, {workers} workers", [verb, "--workers", workers], b"./deep",
                               written(out), folder=folder, before=limited(resource.RLIMIT_STACK, size))


# What nests as deep as can be, in each way; all of it has a type.
DEEP = {
    "lists": "[" * 498 + "1" + "]" * 498, "records": "{ a = " * 498 + "1" + " }" * 498, "functions": "\\(x : Natural) -> " * 498 + "x",
    "lets": "let x = 1 in " * 498 + "x", "conditions": "if True then 1 else " * 498 + "1", "texts": '"${' * 498 + '"a"' + '}"' * 498,
    "sums": "1 + (" * 498 + "1" + ")" * 498, "sums to the left": "1 + " * 498 + "1", "record types": "{ a : " * 498 + "Natural" + " }" * 498,
    "calls": "(\\(x : Natural) -> x) (" * 496 + "1" + ")" * 496, "annotations": "(" * 498 + "1" + " : Natural)" * 498,
    "unions": "< A : " * 498 + "Natural" + " >" * 498, "function types": "Natural -> " * 498 + "Natural",
    "selections": "{ a = " * 240 + "1" + " }" * 240 + ".a" * 240, "updates": "{ a = 1 }" + " with a = 1" * 498,
    "choices": "merge { None = 1, Some = \\(x : Natural) -> x } (Some (" * 240 + "1" + "))" * 240, "projections": "{ a = 1 }" + ".{ a }" * 498,
}


def deep_forms(runs):
    """The answer is the same on a stack of a megabyte as on one of sixty-four."""
    with new_folder() as folder:
        for name, text in DEEP.items():
            write(folder, "deep", text)
            for given in (text.encode(), b"./deep"):
                for verb in RESOLVING:
                    ran = runs.run("deep forms", f"{verb}, {name}", [verb], given, folder=folder, before=limited(resource.RLIMIT_STACK, 64 * MB))
                    if ran is not None and ran.status not in ((OK, NO_JSON) if verb == "to-json" else (OK,)):
                        runs.report(f"{verb}, {name}", f"was {shown(ran)}")
                    for workers in ["1", "4"] if ran else []:
                        runs.check("deep forms", f"{verb}, {name}, a stack of 1 MB, {workers} workers", [verb, "--workers", workers], given, ran, folder=folder,
                                   before=limited(resource.RLIMIT_STACK, MB))


def attack(runs):
    address_space(runs)
    many_files(runs)
    no_threads(runs)
    stacks(runs)
    deep_forms(runs)
