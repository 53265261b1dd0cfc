"""Words that are no command line, for each command; each number of workers from 1 to 64 and numbers out of range; each number of a rule of
typing, and words that are none; words that are no text, long ones, many; streams that are closed while the words are wrong."""

import os

import type_rules
from attacks.runs import VERBS, misused, written
from attacks.streams import GOOD, good_run

WRONG = [([], 1), ([""], 1), (["Encode"], 1), (["encode "], 1), (["encod"], 1), (["encodes"], 1), (["-"], 1), (["x", "encode"], 1),
         ([b"\xff"], 1), ([b"encode\xff"], 1), (["e" * 100_000], 1), (["\u03bb"], 1), (["encode\n"], 1), (["--workers", "4", "encode"], 1),
         (["HELP"], 1), (["-help"], 1), (["--Help"], 1), (["-v"], 1), (["version"], 1), (["-h", "-h"], 2), (["--"], 1), (["batch"], 2), (["gen"], 2),
         (["to_json"], 1), (["tojson"], 1), (["to-json "], 1), (["step"], 1), (["root", "steps"], 1)]
NO_COUNTS = ["0", "65", "04", "+4", "4x", "", " 4", "4 ", "4.0", "0x4", "-1", "9" * 1_000, "4294967297", "18446744073709551620", "\u0664", b"4\xff"]


def of_no_command(runs):
    for words, k in WRONG:
        for text in (b"1", b"x"):
            runs.check("words", f"words {words!r:.60}", words, text, misused(k))


def of_a_command(runs, verb):
    text = GOOD[verb][0]
    rows = [(["", ], 2), ([verb], 2), (["-h"], 2), (["a", "b"], 2), (["x"] * 10_000, 2), (["--worker", "4"], 2), (["--workers=4"], 2), (["--workers"], 3),
            (["--workers", "--workers"], 3), (["--workers", "4", "x"], 4), (["--workers", "4", "--workers", "4"], 4), (["--workers", "4", ""], 4)]
    rows += [(["--workers", count], 3) for count in NO_COUNTS]
    for words, k in rows:
        # Of a word that is no text the system library tells nothing.
        wrong = misused(1 if any(isinstance(word, bytes) for word in words) else k)
        runs.check("words", f"words {[verb, *words]!r:.60}", [verb, *words], text, wrong)


def workers(runs, verb):
    text, good = GOOD[verb][0], good_run(runs, verb)
    for n in range(1, 65):
        runs.check("workers", f"{verb}, {n} workers", [verb, "--workers", str(n)], text, good)


def rules(runs):
    """What is told of each rule of typing is what its definition says."""
    all_rules = type_rules.rules()
    runs.check("rules", "explain", ["explain"], b"", written(type_rules.rule_list(all_rules).encode()))
    for rule in all_rules:
        for words, text in ((["explain"], b""), (["explain", "--workers", "2"], b"(")):
            runs.check("rules", f"{words} {rule.number}", [*words, str(rule.number)], text, written(rule.told().encode()))
    for word in ("57", "101", "014", "+14", " 14", "14 ", "14.0", "0x4", "1e1", "-14", "2147483648", "4294967310", "18446744073709551630", "9" * 1_000, "\u0664", "0" * 1_000 + "4"):
        runs.check("rules", f"explain {word!a:.60}", ["explain", word], b"", misused(2))
    runs.check("rules", "two rules", ["explain", "14", "14"], b"", misused(3))


def without_streams(runs):
    """Wrong words are told before the input is looked at, and leave standard output alone."""
    for name, numbers in (("stdin closed", [0]), ("stdout closed", [1]), ("both closed", [0, 1])):
        before = lambda: [os.close(n) for n in numbers]
        runs.check("words", f"no words, {name}", [], None, misused(1), before=before)
        runs.check("words", f"a word too many, {name}", ["type", "x"], None, misused(2), before=before)


def attack(runs):
    of_no_command(runs)
    for verb in VERBS:
        of_a_command(runs, verb)
        workers(runs, verb)
    for word in ("help", "-h"):
        runs.check("words", word, [word], b"", good_run(runs, "--help"))
    rules(runs)
    without_streams(runs)
