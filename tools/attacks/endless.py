"""Expressions whose normal form takes more than the budget, most of them more than the age of the world: folds of the greatest
number, powers and towers of functions, Ackermann's function, sharing whose written form is too long; in the input, below a binder,
in a type that has to be found, in an import, in one of many imports. Each ends in seconds, with the budget spent, or too deep where
what waits for the end of a fold piles up. Memory is limited to 3 GB: typing takes most of a kilobyte for each unit of its budget, so it
may want memory first."""

import resource

from attacks.runs import DEEP, LONG, NO_MEMORY, RESOLVING, SPENT, new_folder, refused, write, written

MOST = 2 ** 128 - 1
MOST_MEMORY = 3 << 30
SHOTS = "\\(f : Natural -> Natural) -> \\(x : Natural) -> f (f x)"


def fold(n, t, step, start):
    return f"Natural/fold {n} ({t}) ({step}) ({start})"


def towers(n):
    """A successor, 2 to the 2 to the .. times."""
    kind, calls = "Natural", []
    for _ in range(n):
        calls.insert(0, f"(two {kind})")
        kind = f"({kind} -> {kind})"
    return "let two = \\(a : Type) -> \\(f : a -> a) -> \\(x : a) -> f (f x) in " + " ".join(calls) + " (\\(x : Natural) -> x + 1) 0"


ACKERMANN = (
    "let next = \\(f : Natural -> Natural) -> \\(n : Natural) -> Natural/fold n Natural f (f 1)\n"
    "let ackermann = \\(m : Natural) -> Natural/fold m (Natural -> Natural) next (\\(x : Natural) -> x + 1)\n"
    "in  ackermann 4 3"
)


def pairs(n):
    """A record whose written form has 2^n leaves."""
    text = "let p0 = 1\n"
    for i in range(1, n + 1):
        text += f"let p{i} = {{ a = p{i - 1}, b = p{i - 1} }}\n"
    return text + f"in  p{n}"


ENDLESS = {
    "a fold that does nothing": fold(MOST, "Natural", "\\(x : Natural) -> x", "0"),
    "a fold that adds": fold(MOST, "Natural", "\\(x : Natural) -> x + 1", "0"),
    "a fold over truth values": fold(MOST, "Bool", "\\(x : Bool) -> x == False", "True"),
    "a fold over lists": fold(MOST, "List Natural", "\\(l : List Natural) -> List/reverse Natural l", "[ 1, 2 ]"),
    "a fold over optional values": fold(MOST, "Optional Natural", "\\(o : Optional Natural) -> merge { None = Some 0, Some = \\(n : Natural) -> Some n } o", "None Natural"),
    "a fold over records": fold(MOST, "{ a : Natural }", "\\(r : { a : Natural }) -> r // { a = 1 }", "{ a = 0 }"),
    "a fold over functions": "(" + fold(MOST, "Natural -> Natural", "\\(f : Natural -> Natural) -> \\(x : Natural) -> f x", "\\(x : Natural) -> x") + ") 0",
    "2^60 steps": "(" + fold(60, "Natural -> Natural", SHOTS, "\\(x : Natural) -> x + 1") + ") 0",
    "2^500 steps": "(" + fold(500, "Natural -> Natural", SHOTS, "\\(x : Natural) -> x") + ") 0",
    "a tower of powers": towers(6),
    "Ackermann's function": ACKERMANN,
    "a number built": f"Natural/build (\\(n : Type) -> \\(s : n -> n) -> \\(z : n) -> Natural/fold {MOST} n s z)",
    "folds of folds": fold(MOST, "Natural", "\\(x : Natural) -> " + fold(MOST, "Natural", "\\(y : Natural) -> y", "x"), "0"),
}


# The types of those that are no numbers.
TYPES = {"a fold over truth values": b"Bool", "a fold over lists": b"List Natural", "a fold over optional values": b"Optional Natural",
         "a fold over records": b"{ a : Natural }"}


def check(runs, group, name, words, text, *wanted, **given):
    limit = lambda: resource.setrlimit(resource.RLIMIT_AS, (MOST_MEMORY, MOST_MEMORY))
    return runs.check(group, name, words, text, *wanted, before=limit, seconds=LONG, **given)


def in_the_input(runs):
    for name, text in ENDLESS.items():
        text = text.encode()
        check(runs, "endless", name, ["normalize"], text, SPENT, DEEP)
        check(runs, "endless", f"type, {name}", ["type"], text, written(TYPES.get(name, b"Natural") + b"\n"))
    text = ENDLESS["a fold that does nothing"].encode()
    for verb in ["hash", "to-json"]:
        check(runs, "endless", verb, [verb], text, SPENT)
    check(runs, "endless", "freeze", ["freeze"], text, written(text))
    for name, around in (("below a binder", b"\\(n : Natural) -> %s + n"), ("in a list", b"[ %s ]"), ("in a record", b"{ a = %s }"),
                         ("as an argument", b"(\\(x : Natural) -> x + 1) (%s)"), ("in a text", b'"${Natural/show (%s)}"')):
        check(runs, "endless", name, ["normalize"], around % text, SPENT)
    for name, around in (("unused", b"let x = %s in 1"), ("in an assertion", b"assert : (%s) === 0"),
                         ("on both sides of an assertion", b"assert : (%s) === (%s)")):
        given = around.replace(b"%s", text)
        check(runs, "endless", f"{name}, type", ["type"], given, SPENT)
    for name, around, wanted in (("a function that is not called", b"let f = \\(x : Natural) -> 1 in f (%s)", b"1\n"),
                                 ("a branch that is not taken", b"if True then 1 else (%s)", b"1\n"),
                                 ("a field that is not selected", b"{ a = 1, b = %s }.a", b"1\n"),
                                 ("an element that is not looked at", b"List/length Natural [ %s ]", b"1\n")):
        check(runs, "endless, not asked", name, ["normalize"], around % text, written(wanted))


def in_imports(runs):
    """The fault is that of the import, which `?` does not pass over; of many the first one in the text is told."""
    line = b"in ./endless: budget of 16777216 spent"
    with new_folder() as folder:
        write(folder, "endless", ENDLESS["a fold that does nothing"])
        write(folder, "above", "./endless + 1")
        write(folder, "good", "1")
        for n in range(3):
            write(folder, f"e{n}", ENDLESS["2^500 steps"])
        for verb in RESOLVING:
            check(runs, "endless imports", verb, [verb], b"./endless", refused(line, 4), folder=folder)
        for name, text in (("from below", b"[ ./good, ./above ]"), ("before a choice", b"./endless ? 1"), ("behind a choice", b"./gone ? ./endless")):
            check(runs, "endless imports", name, ["normalize"], text, refused(line, 4), folder=folder)
        check(runs, "endless imports", "that is not asked", ["normalize"], b"./good ? ./endless", written(b"1\n"), folder=folder)
        check(runs, "endless imports", "as text", ["hash"], b"let t = ./endless as Text in 1", runs.run("endless imports", "1", ["hash"], b"1"), folder=folder)
        check(runs, "endless imports", "three at once", ["normalize", "--workers", "2"], b"[ ./e0, ./e1, ./e2 ]",
              refused(b"in ./e0: budget of 16777216 spent", 4), folder=folder)


def expected_pairs(n):
    return "1" if n == 0 else f"{{ a = {expected_pairs(n - 1)}, b = {expected_pairs(n - 1)} }}"


def shared(runs):
    """Values whose parts are shared: written out where that is within the budget, else spent; their types likewise."""
    for n in runs.few([4, 12, 16], [4, 12]):
        value = expected_pairs(n)
        check(runs, "shared", f"2^{n} leaves", ["normalize"], pairs(n).encode(), written(value.encode() + b"\n"))
        kind = value.replace("=", ":").replace("1", "Natural")
        check(runs, "shared", f"type of 2^{n} leaves", ["type"], pairs(n).encode(), written(kind.encode() + b"\n"))
    for n in [30, 120]:
        for verb in ["normalize", "type"]:
            check(runs, "shared", f"{verb}, 2^{n} leaves", [verb], pairs(n).encode(), SPENT, NO_MEMORY)


def attack(runs):
    in_the_input(runs)
    in_imports(runs)
    shared(runs)
