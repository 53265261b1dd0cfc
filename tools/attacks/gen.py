"""`gen` for each small number and random larger ones up to 4,000, by 1 to 64 workers: its lines depend on the number alone. The counts are
those of this module, which walks the imports of the texts, and the digest is that of their values, and what `hash` says over the same texts
written as files. Words that are no number of a text; environments, folders and inputs, of which it uses none; closed and full streams; little
memory."""

import os
import random
import re
import resource

import expressions
from attacks.memory import MB, least_to_start, limited
from attacks.runs import LONG, NO_MEMORY, NOT_WRITTEN, WRITE, Ran, misused, new_folder, shown, write, written
from attacks.typed import digest_line

MOST = 4000
BAD_WORDS = ["-1", "01", "00", "4001", "9999", "10000", " 1", "1 ", "", "+1", "1.0", "1e3", "0x4", "1_000", "4,000", "x", "g1", "./g1", "\u0664", "\uff14", "root",
             "2147483648", "4294967296", "4294967297", "18446744073709551616", "18446744073709551617", "340282366920938463463374607431768211457",
             "9" * 1_000, "0" * 1_000 + "4", "4" + "0" * 100_000, "1\n", "\n1", "--help", "-", "--"]


def text_of(k):
    """The generated text of a number."""
    return str(k) if k < 2 else f"./g{k // 2} + ./g{k // 3} + {k}"


def list_text(n):
    return "[" + ", ".join(f"./g{k}" for k in range(n + 1)) + "]"


def values(n):
    """What the texts up to a number are."""
    found = [0, 1]
    for k in range(2, n + 1):
        found.append(found[k // 2] + found[k // 3] + k)
    return found[:n + 1]


def counts(n):
    """How many imports the list and the texts behind it name, and of how many texts that is."""
    named, left = set(), [list_text(n)]
    while left:
        new = set(re.findall(r"\./g\d+", left.pop())) - named
        named |= new
        left += [text_of(int(at[3:])) for at in new]
    return len(named), len(named)


def wanted_of(n):
    """What `gen` writes."""
    digest = digest_line(("list", [("nat", v) for v in values(n)]))
    return written(b"imports %d\nasked %d\n" % counts(n) + digest.out)


def check(runs, group, n, workers, **given):
    for w in workers:
        runs.check(group, f"gen {n}, {w} workers", ["gen", "--workers", str(w), str(n)], b"", wanted_of(n), **given)


def numbers(runs, source):
    for n in range(runs.few(130, 20)):
        check(runs, "small numbers", n, [1, 4, source.randrange(2, 65)])
        runs.check("small numbers", f"gen {n}", ["gen", str(n)], b"", wanted_of(n))
    larger = [MOST, MOST - 1, *(source.randrange(130, MOST + 1) for _ in range(runs.few(40, 3)))]
    for n in larger:
        check(runs, "larger numbers", n, {1, source.randrange(2, 9), source.randrange(9, 65)}, seconds=LONG)
    check(runs, "each number of workers", source.randrange(200, 400), runs.few(range(1, 65), [1, 2, 3, 64]))


def by_files(runs, source):
    """What `hash` says of the list over the texts as files."""
    with new_folder() as folder:
        for k in range(MOST + 1):
            write(folder, f"g{k}", text_of(k))
        for n in [0, 1, 2, 3, 5, 8, 100, MOST, *(source.randrange(MOST) for _ in range(runs.few(12, 1)))]:
            digest = wanted_of(n).out.split(b"\n")[2] + b"\n"
            runs.check_by_workers("the texts as files", f"{n}", "hash", list_text(n).encode(), {1, source.randrange(2, 65)}, written(digest), folder=folder, seconds=LONG)


def bad_words(runs):
    for word in BAD_WORDS:
        runs.check("words", f"gen {word!a:.60}", ["gen", word], b"", misused(2))
        runs.check("words", f"gen by workers {word!a:.60}", ["gen", "--workers", "2", word], b"", misused(4))
    # Of a word that is no text the system library tells nothing.
    runs.check("words", "a word that is no text", ["gen", b"1\xff"], b"", misused(1))
    rows = [([], 2), (["4", "4"], 3), (["4", ""], 3), (["4", "--workers", "2"], 3), (["--workers"], 3), (["--workers", "4"], 4), (["--workers", "0", "4"], 3),
            (["--workers", "65", "4"], 3), (["--workers", "04", "4"], 3), (["--workers", "2", "4", "4"], 5), (["4"] * 10_000, 3), (["01", "4"], 2)]
    for words, k in rows:
        runs.check("words", f"gen {words!r:.60}", ["gen", *words], b"", misused(k))


def alone(runs):
    """No variable, folder, file or input counts."""
    def removed():
        os.mkdir(os.path.join(folder, "work"))
        os.chdir(os.path.join(folder, "work"))
        os.rmdir(os.path.join(folder, "work"))

    with new_folder() as folder:
        write(folder, "g0", "7")
        write(folder, "g1", "1 +")
        cache = os.path.join(folder, "cache")
        check(runs, "alone", 40, [1, 4], folder=folder, env={"HOME": folder, "XDG_CACHE_HOME": cache})
        if os.path.exists(cache) or sorted(os.listdir(folder)) != ["g0", "g1"]:
            runs.report("gen 40", f"leaves {sorted(os.listdir(folder))}")
        check(runs, "alone", 40, [1, 4], folder=folder, env={b"HOME": b"/\xff", b"XDG_CACHE_HOME": b"\xff", b"g0": b"7"})
        check(runs, "alone", 40, [4], before=removed)
        runs.check("alone", "gen 40 with an input", ["gen", "40"], b"x" * 100_000, wanted_of(40))


def streams(runs):
    good = wanted_of(4)
    reader, writer = os.pipe()
    runs.check("streams", "stdin that never ends", ["gen", "4"], None, good, stdin=reader)
    for name, numbers, wanted in (("stdin closed", [0], good), ("stdout closed", [1], NOT_WRITTEN), ("stderr closed", [2], good)):
        runs.check("streams", name, ["gen", "4"], None, wanted, before=lambda: [os.close(n) for n in numbers])
    os.close(reader)
    os.close(writer)
    with open("/dev/full", "wb") as full:
        ran = runs.run("streams", "stdout full", ["gen", "4"], b"", is_formed=False, stdout=full)
    runs.expect("stdout full", ran, Ran(WRITE, None, NOT_WRITTEN.err))


def little_memory(runs):
    """Under a limit on its address space the answer is whole, or is that memory is wanting."""
    start = least_to_start(runs)
    if start is None:
        runs.notes.append("the program does not start under 64 MB: nothing was asked under a limit")
        return
    for n in (0, 40, MOST):
        for workers in ("1", "4", "64"):
            answers = []
            for size in [start + k * MB // 4 for k in range(0, 16, runs.few(1, 4))] + [mb * MB for mb in (12, 16, 24, 32, 48, 64, 100, 200, 400)]:
                name = f"gen {n}, {workers} workers, {size / MB:.2f} MB"
                ran = runs.run("little memory", name, ["gen", "--workers", workers, str(n)], b"", before=limited(resource.RLIMIT_AS, size), is_formed=False, seconds=LONG)
                if ran is not None and ran not in (wanted_of(n), NO_MEMORY):
                    runs.report(name, f"was {shown(ran)}")
                answers += [size] if ran == wanted_of(n) else []
            runs.notes.append(f"gen {n}, {workers} workers: answers from " + (f"{min(answers) / MB:.2f} MB" if answers else "no limit"))


def attack(runs):
    source = random.Random(runs.seed)
    numbers(runs, source)
    by_files(runs, source)
    bad_words(runs)
    alone(runs)
    streams(runs)
    little_memory(runs)
