"""`to-json`: random programs whose values are known, of every kind that has a JSON value and with some of none; each character that
is escaped, both ends of numbers, labels that need escapes, large, wide and deep values. The bytes are those that Python writes; what
Python reads of them is the value, with the keys of objects in order, and so is what `jq` reads, where there is one. Values without a
JSON value, with the first place that has none; faults that come before, as `normalize` tells them; imports."""

import json
import random
import shutil
import subprocess

import expressions
import programs
from attacks.runs import DEEP, IMPORT, LONG, MOST_BYTES, NO_JSON, OK, TOO_LARGE, WIDE, new_folder, refused, write, written
from attacks.typed import json_line, json_text
from programs import BOOL, INTEGER, NATURAL, TEXT, builtin, call

# Every character below the space, those that JSON or Dhall escapes, and others at the ends of their ranges.
CHARACTERS = [*map(chr, range(0x20)), " ", "\"", "\\", "/", "$", "`", "'", "\x7f", "\x80", "\x85", "\x9f", "\xa0", "\u07ff", "\u0800",
              "\u2028", "\u2029", "\ud7ff", "\ue000", "\ufeff", "\ufffd", "\U00010000", "\U0001f600", "\U0010fffd"]
LABELS = [*expressions.LABELS, "\"", "\\", "a\"b", "\\n", "\\u0000", "~", " ", "mapKey", "mapValue", "None", "A", "Z", "Zz", "aa", "a/b"]
NATURALS = [0, 1, 9, 2 ** 53 - 1, 2 ** 53 + 1, 2 ** 63 - 1, 2 ** 63, 2 ** 64 - 1]
INTEGERS = [*NATURALS, -1, -2 ** 31, -2 ** 53 - 1, -2 ** 63 + 1, -2 ** 63]
WITHOUT = {NATURAL: [2 ** 64, 2 ** 64 + 1, 2 ** 128 - 1], INTEGER: [2 ** 64, 2 ** 127 - 1, -2 ** 63 - 1, -2 ** 64, -2 ** 127]}
# Functions, one value of each type; none has a JSON value.
FUNCTIONS = {
    ("function", BOOL, BOOL): (("lam", "x", builtin(BOOL), ("var", "x", 0)), lambda x: x),
    ("function", TEXT, TEXT): (("lam", "t", builtin(TEXT), ("text", ["a", ""], [("var", "t", 0)])), lambda t: "a" + t),
}
# `jq` may read no deeper values.
MOST_JQ_DEPTH = 200


def random_type(source, depth):
    """A type whose values have JSON values, mostly."""
    if depth <= 0 or source.random() < 0.2:
        return source.choice([NATURAL, INTEGER, BOOL, TEXT, INTEGER, TEXT])
    if source.random() < 0.03:
        return source.choice(list(FUNCTIONS))
    kind = source.choice(["List", "Optional", "record", "record", "union", "union"])
    if kind in ("List", "Optional"):
        return (kind, random_type(source, depth - 1))
    labels = source.sample(LABELS, source.randrange(1, 5) if kind == "union" else source.choice([0, 1, 2, 3, 4, 4, 12]))
    if kind == "union":
        return (kind, tuple((x, None if source.random() < 0.4 else random_type(source, depth - 1)) for x in labels))
    return (kind, tuple((x, random_type(source, depth - 1)) for x in labels))


class Maker(programs.Maker):
    """Makes programs of all types with JSON values."""

    def program(self, depth):
        while True:
            t = random_type(self.source, 3)
            e, run = self.make(t, depth, [])
            try:
                return e, t, run([])
            except programs.TooLarge:
                continue

    def given(self, e, value):
        return e, lambda values: value

    def leaf(self, t, scope):
        if t in FUNCTIONS:
            return self.given(*FUNCTIONS[t])
        if t in WITHOUT:
            n = self.source.choice(WITHOUT[t] if self.source.random() < 0.01 else NATURALS if t == NATURAL else INTEGERS)
            return self.given(programs.literal(t, n), n)
        if t == TEXT:
            s = "".join(self.source.choice(CHARACTERS) for _ in range(self.source.randrange(6)))
            return self.given(("text", [s], []), s)
        if t[0] == "union":
            return self.union(t, 0, scope)
        return super().leaf(t, scope)

    def own(self, t, depth, scope):
        if t in FUNCTIONS:
            return self.leaf(t, scope)
        if t[0] == "record" and not t[1]:
            return self.given(("record", []), {})
        if t == INTEGER:
            return self.integer(depth, scope)
        if t[0] == "union":
            return self.union(t, depth, scope)
        return super().own(t, depth, scope)

    def function(self, t, depth, scope):
        return self.leaf(t, scope) if t in FUNCTIONS else super().function(t, depth, scope)

    def integer(self, depth, scope):
        way = self.source.randrange(3)
        if way == 0:
            return self.leaf(INTEGER, scope)
        if way == 1:
            e, run = self.make(NATURAL, depth, scope)
            return call("Natural/toInteger", e), lambda values: self.within(run(values))
        e, run = self.make(INTEGER, depth, scope)
        return call("Integer/negate", e), lambda values: self.within(-run(values))

    def within(self, n):
        if not -2 ** 127 <= n < 2 ** 127:
            raise programs.TooLarge
        return n

    def union(self, t, depth, scope):
        label, u = self.source.choice(t[1])
        if u is None:
            return self.given(programs.alternative(t, label, None), (label, None))
        e, run = self.make(u, depth, scope)
        return programs.alternative(t, label, e), lambda values: (label, [run(values)])


class Readers:
    """What reads the answers: Python at once, and `jq` all of them in the end."""

    def __init__(self, runs):
        self.runs, self.jq, self.lines = runs, shutil.which("jq"), []

    def read(self, name, out, value):
        """Python reads the value, with keys in order, and each once."""
        self.lines.append((name, out, value))
        try:
            got = json.loads(out.decode(), object_pairs_hook=Pairs)
        except ValueError as fault:
            return self.runs.report(name, f"Python does not read {out[:60]!r}: {fault}")
        if not is_read(got, value):
            self.runs.report(name, f"Python reads {out[:60]!r} as {repr(got):.80}, wanted {repr(value):.80}")

    def finish(self):
        if self.jq is None:
            self.runs.notes.append(f"there is no jq, so {len(self.lines)} answers were not read by it")
            return
        done = subprocess.run([self.jq, "-c", "."], input=b"".join(out for _, out, _ in self.lines), stdout=subprocess.PIPE,
                              stderr=subprocess.PIPE, timeout=LONG * self.runs.slowness)
        lines = done.stdout.split(b"\n")[:-1]
        self.runs.notes.append(f"jq read {len(lines)} of {len(self.lines)} answers")
        if done.returncode or len(lines) != len(self.lines):
            return self.runs.report("jq", f"read {len(lines)} of {len(self.lines)} answers: {done.stderr[:100]!r}")
        for (name, _, value), line in zip(self.lines, lines):
            if not is_read(rounded(json.loads(line.decode(), object_pairs_hook=Pairs)), rounded(value)):
                self.runs.report(name, f"jq reads {line[:60]!r}, wanted {repr(value):.80}")


class Pairs(list):
    """The keys of an object with their values, in order."""


def is_read(got, value):
    """Whether what was read is the value; no truth value is a number."""
    if isinstance(value, dict):
        return isinstance(got, Pairs) and [x for x, _ in got] == list(value) and all(is_read(v, value[x]) for x, v in got)
    if isinstance(value, list):
        return type(got) is list and len(got) == len(value) and all(map(is_read, got, value))
    return type(got) is type(value) and got == value


def rounded(value):
    """The value with numbers as doubles, which is how `jq` takes them."""
    if isinstance(value, dict):
        return {x: rounded(v) for x, v in value.items()}
    if isinstance(value, (list, tuple)):
        return type(value)(map(rounded, value))
    return float(value) if type(value) is int else value


def check_value(runs, readers, group, name, words, text, value, **given):
    """A program of this JSON value."""
    ran = runs.check(group, name, words, text, written(json_text(value).encode() + b"\n"), **given)
    if ran is not None and ran.status == OK:
        readers.read(name, ran.out, value)


def no_value(place):
    return refused(b"no JSON value at " + place, NO_JSON)


def random_values(runs, readers):
    source = random.Random(runs.seed)
    maker, n = Maker(source), 0
    while n < runs.few(1500, 150):
        e, t, value = maker.program(source.randrange(6))
        spelling = expressions.spelled(source, e) if source.random() < 0.7 else expressions.printed(e)
        text = spelling.encode()
        if len(text) > MOST_BYTES:
            continue
        name, wanted, n = f"program {n} {text[:50]!r}", json_line(t, value), n + 1
        ran = runs.check("programs", name, ["to-json"], text, wanted)
        if ran is not None and ran.status == OK:
            readers.read(name, ran.out, programs.json_value(t, value))


def text_of(s):
    return expressions.printed(("text", [s], [])).encode()


def characters(runs, readers):
    """Each character alone, and all of them; each printable character as a label."""
    for c in [*CHARACTERS, "".join(CHARACTERS)]:
        check_value(runs, readers, "characters", f"character {ascii(c):.20}", ["to-json"], text_of(c), c)
    for c in map(chr, range(0x20, 0x7f)):
        if c != "`":
            check_value(runs, readers, "labels", f"label {c}", ["to-json"], b"{ `%s` = < `%s` | `%s%s` >.`%s` }" % ((c.encode(),) * 5), {c: c})


VALUES = [
    ("True", True), ("False", False), ("0", 0), ("-0", 0), ("+0", 0), ("+1", 1), ("-1", -1), ("18446744073709551615", 2 ** 64 - 1),
    ("+18446744073709551615", 2 ** 64 - 1), ("-9223372036854775808", -2 ** 63), ("9223372036854775808", 2 ** 63), ('""', ""),
    ('"${"a"}"', "a"), ("[] : List Bool", []), ("[] : List (List Text)", []), ("[ [] : List Bool, [ True ] ]", [[], [True]]),
    ("let L = List Bool in [] : L", []), ("None Bool", None), ("Some (None Bool)", None), ("Some (Some 1)", 1),
    ("[ None Natural, Some 1, None Natural ]", [None, 1, None]), ("{=}", {}), ("{ a = {=} }", {"a": {}}),
    ("{ b = 1, a = 2, B = 3, `` = 4 }", {"": 4, "B": 3, "a": 2, "b": 1}), ("{ a = None Natural, b = 1 }", {"a": None, "b": 1}),
    ("< A | B : Natural >.A", "A"), ("< A | B : Natural >.B 2", 2), ("let U = < A | B : Natural > in [ U.A, U.B 2 ]", ["A", 2]),
    ("< A : < B | C > >.A < B | C >.B", "B"), ("< A : {} >.A {=}", {}), ("< A : Optional Natural >.A (None Natural)", None),
    ("< `` >.``", ""), ("< Some : Natural >.Some 1", 1), ("[ { mapKey = \"a\", mapValue = 1 } ]", [{"mapKey": "a", "mapValue": 1}]),
    ("toMap { b = 1, a = 2 }", [{"mapKey": "a", "mapValue": 2}, {"mapKey": "b", "mapValue": 1}]),
    ("toMap {=} : List { mapKey : Text, mapValue : Bool }", []), ("merge { None = 1, Some = \\(n : Natural) -> n } (Some 5)", 5),
    ("(\\(x : Natural) -> { x }) 1", {"x": 1}), ("1 : Natural", 1), ("let f = \\(x : Bool) -> x in f True", True),
    ("{ f = \\(x : Bool) -> x, a = 1 }.a", 1), ("let t = \"a\" in \"${t}${t}\"", "aa"), ("{ a = 1 } with b.c = 2", {"a": 1, "b": {"c": 2}}),
]
# Programs without a JSON value, with the first place that has none, in the order of the text's parts.
NO_VALUES = [
    ("18446744073709551616", "root"), ("18446744073709551615 + 1", "root"), ("+18446744073709551616", "root"), ("-9223372036854775809", "root"),
    ("Integer/negate +9223372036854775809", "root"), ("\\(x : Bool) -> x", "root"), ("\\(t : Text) -> \"${t}a\"", "root"), ("Bool", "root"),
    ("Type", "root"), ("Kind", "root"), ("List", "root"), ("List Bool", "root"), ("None", "root"), ("Natural/show", "root"),
    ("Natural/subtract 1", "root"), ("Bool -> Bool", "root"), ("{}", "root"), ("{ a : Bool }", "root"), ("<>", "root"), ("< A | B : Bool >", "root"),
    ("< A | B : Bool >.B", "root"), ("1 === 1", "root"), ("assert : 1 === 1", "root"), ("{ f = \\(x : Bool) -> x }", "0"),
    ("{ b = Bool, a = 1 }", "1"), ("{ b = Bool, a = None }", "0"), ("{ a = Type }", "0"), ("[ \\(x : Bool) -> x ]", "0"),
    ("[ 1, 18446744073709551616, 18446744073709551617 ]", "1"), ("Some 18446744073709551616", "0"), ("Some (Some (None))", "0/0"),
    ("Some < A | B : Bool >.B", "0"), ("< A : Natural >.A 18446744073709551616", "1"), ("< A : Bool -> Bool >.A (\\(x : Bool) -> x)", "1"),
    ("< A : Type >.A Bool", "1"), ("{ a = 1, b = { c = [ Some 18446744073709551616 ], d = Bool }, e = Type }", "1/0/0/0"),
    ("{ a = [] : List (Bool -> Bool), b = None (Bool -> Bool), c = assert : 1 === 1 }", "2"),
    ("[ { x = +1, y = \"a\" }, { x = -9223372036854775809, y = \"b\" } ]", "1/0"), ("toMap { a = 18446744073709551616 }", "0/1"),
    ("let U = < A : { b : Natural } | B > in [ U.B, U.A { b = 18446744073709551616 } ]", "1/1/0"), ("{ a.b.c.d = Bool }", "0/0/0/0"),
    ("< A | B >.A === < A | B >.B", "root"),
]
# Faults that come before.
FAULTS = [
    ("1 + True", refused(b"type rule 14 at root, line 1, column 1", 2)), ("x", refused(b"type rule 1 at root, line 1, column 1", 2)),
    ("{ a = \\(x : Bool) -> x, b = [ 1, True ] }", refused(b"type rule 17 at 1, line 1, column 29", 2)), ("Sort", refused(b"type rule 2 at root, line 1, column 1", 2)),
    ("[ Bool ]", refused(b"type rule 16 at root, line 1, column 1", 2)), ("Some Bool", refused(b"type rule 18 at root, line 1, column 1", 2)),
    ("< A : Natural >.A True", refused(b"type rule 8 at root, line 1, column 1", 2)), ("{ a = Kind }", refused(b"type rule 20 at root, line 1, column 1", 2)),
    ("340282366920938463463374607431768211455 + 1", WIDE), ("Integer/negate -170141183460469231731687303715884105728", WIDE),
    ("[ Bool, 340282366920938463463374607431768211455 + 1 ]", refused(b"type rule 16 at root, line 1, column 1", 2)),
    ("{ a = Bool, b = 340282366920938463463374607431768211455 + 1 }", WIDE), ("340282366920938463463374607431768211456", refused(b"number too wide at 0")),
    ("(", refused(b"syntax at 1")), ("", refused(b"syntax at 0")), ("1.5", refused(b"left out of this profile at 0")),
    ("./gone", refused(b"in ./gone: absent", IMPORT)), ("{ a = Bool, b = ./gone }", refused(b"in ./gone: absent", IMPORT)),
    ("missing", refused(b"in missing: missing", IMPORT)),
]


def tables(runs, readers):
    with new_folder() as folder:
        for text, value in VALUES:
            check_value(runs, readers, "values", text, ["to-json"], text.encode(), value, folder=folder)
        for text, place in NO_VALUES:
            runs.check("without a value", text, ["to-json"], text.encode(), no_value(place.encode()), folder=folder)
        for text, wanted in FAULTS:
            runs.check("faults before", text, ["to-json"], text.encode(), wanted, folder=folder)
    runs.check("faults before", "bytes past the limit", ["to-json"], b"1" + b" " * MOST_BYTES, TOO_LARGE)


def as_normalize(runs):
    """Random expressions: what has no normal form has the fault that `normalize` tells; the others have one value or none."""
    source = random.Random(runs.seed)
    maker = expressions.Maker(source)
    with new_folder() as folder:
        for n in range(runs.few(400, 40)):
            text = expressions.printed(maker.expression(source.randrange(1, 5))).encode()
            form = runs.run("any expressions, normalize", f"expression {n}", ["normalize", "--workers", "1"], text, folder=folder)
            ran = runs.run("any expressions", f"expression {n}", ["to-json", "--workers", "1"], text, folder=folder)
            if form is None or ran is None:
                continue
            if form.status != OK:
                runs.expect(f"to-json, expression {n} {text[:40]!r}", ran, form)
            elif ran.status not in (OK, NO_JSON):
                runs.report(f"to-json, expression {n} {text[:40]!r}", f"was {ran}")
            elif len(form.out) <= MOST_BYTES:
                runs.check("any expressions, again", f"normal form {n}", ["to-json"], form.out, ran)


def imports(runs, readers):
    kind = "< Environment : Text | Local : Text | Missing | Remote : Text >"
    with new_folder() as folder:
        write(folder, "one", "1")
        write(folder, "text", "a\"b\\\n\x01\u2028\U0001f600")
        write(folder, "union", "< A | B : Natural >")
        write(folder, "record", "{ n = ./one, u = (./union).B ./one, t = ./text as Text }")
        write(folder, "function", "\\(x : Natural) -> { x, y = ./one }")
        write(folder, "wide", "{ a = [ 18446744073709551616 ] }")
        text = "a\"b\\\n\x01\u2028\U0001f600"
        record = {"n": 1, "t": text, "u": 1}
        rows = [
            ("./one", 1), ("./text as Text", text), ("./record", record), ("[ ./record, ./record ]", [record, record]), ("./function 5", {"x": 5, "y": 1}),
            ("(./union).A", "A"), ("./gone ? ./one", 1), ("./one ? ./wide", 1), ("./gone as Location", "./gone"), ("env:A", [True]), ("env:B as Text", "\x7f"),
            (f"[ ./gone as Location, {kind}.Missing ]", ["./gone", "Missing"]),
        ]
        for given, value in rows:
            for n in ("1", "4"):
                check_value(runs, readers, "imports", f"{given}, {n} workers", ["to-json", "--workers", n], given.encode(), value, folder=folder,
                            env={"A": "[ True ]", "B": "\x7f"})
        for given, wanted in (("./function", no_value(b"root")), ("{ a = 1, b = ./wide }", no_value(b"1/0/0")), ("./union", no_value(b"root")),
                              ("./wide ? ./one", no_value(b"0/0")), ("[ ./one, ./gone ]", refused(b"in ./gone: absent", IMPORT)),
                              ("{ a = ./function, b = ./gone }", refused(b"in ./gone: absent", IMPORT))):
            runs.check_by_workers("imports", given, "to-json", given.encode(), [1, 4], wanted, folder=folder)


def large(runs, readers):
    count = runs.few(100_000, 10_000)
    numbers = [k * 7919 % 1_000_000 for k in range(count)]
    check_value(runs, readers, "large", f"a list of {count}", ["to-json"], ("[ " + ", ".join(map(str, numbers)) + " ]").encode(), numbers, seconds=LONG)
    ones = "let double = \\(l : List Natural) -> l # l in " + "double (" * 20 + "[ 1 ]" + ")" * 20
    runs.check("large", "a list of 2^20", ["to-json"], ones.encode(), written(b"[" + b",".join([b"1"] * 2 ** 20) + b"]\n"), seconds=LONG)
    check_value(runs, readers, "large", "a text of a megabyte", ["to-json"], b'"' + b"k" * (MOST_BYTES - 2) + b'"', "k" * (MOST_BYTES - 2), seconds=LONG)
    check_value(runs, readers, "large", "a text of escapes", ["to-json"], b'"' + b"\\u0000" * 170_000 + b'"', "\0" * 170_000, seconds=LONG)
    check_value(runs, readers, "large", "a text of many bytes each", ["to-json"], ('"' + "\U0001f600" * 260_000 + '"').encode(), "\U0001f600" * 260_000, seconds=LONG)
    double = "let double = \\(t : Text) -> t ++ t in " + "double (" * 14 + '"' + "k" * 1024 + '"' + ")" * 14
    runs.check("large", "a text of 16 MiB", ["to-json"], double.encode(), written(b'"' + b"k" * 2 ** 24 + b'"\n'), seconds=LONG)
    runs.check("large", "a text of more", ["to-json"], (double + ' ++ "x"').encode(), WIDE, seconds=LONG)
    fields = {f"x{k:05}": k for k in range(runs.few(50_000, 5_000))}
    rows = list(fields.items())
    random.Random(runs.seed).shuffle(rows)
    check_value(runs, readers, "large", "a record of many fields", ["to-json"], ("{ " + ", ".join(f"{x} = {n}" for x, n in rows) + " }").encode(), fields, seconds=LONG)
    names = [f"A{k}" for k in range(runs.few(20_000, 2_000))]
    check_value(runs, readers, "large", "a union of many alternatives", ["to-json"], ("< " + " | ".join(names) + f" >.{names[-1]}").encode(), names[-1], seconds=LONG)
    faulty = "[ " + "1, " * (count - 1) + "18446744073709551616 ]"
    runs.check("large", "the last of many has no value", ["to-json"], faulty.encode(), no_value(b"%d" % (count - 1)), seconds=LONG)


# What stands around a value in another one, in a program and in its JSON value.
WRAPS = {"lists": (("[ ", " ]"), ("[", "]")), "optional values": (("Some (", ")"), ("", "")), "records": (("{ a = ", " }"), ('{"a":', "}"))}


def around(wrap, n, inner):
    return wrap[0] * n + inner + wrap[1] * n


def deep(runs, readers):
    """Values that nest as deep as a normal form may, and deeper."""
    for name, (form, shown) in WRAPS.items():
        for n in (2, 400, 498):
            runs.check("deep", f"{n} {name}", ["to-json"], around(form, n, "1").encode(), written(around(shown, n, "1").encode() + b"\n"), seconds=LONG)
        half = f"let x = {around(form, 250, '1')} in "
        runs.check("deep", f"500 {name}", ["to-json"], (half + around(form, 250, "x")).encode(), written(around(shown, 500, "1").encode() + b"\n"), seconds=LONG)
        runs.check("deep", f"501 {name}", ["to-json"], (half + around(form, 251, "x")).encode(), DEEP, seconds=LONG)
        half = half.replace("1", str(2 ** 64))
        at = b"/".join([b"0"] * 500)
        runs.check("deep", f"500 {name} around none", ["to-json"], (half + around(form, 250, "x")).encode(), no_value(at), seconds=LONG)
    value = 1
    for _ in range(MOST_JQ_DEPTH):
        value = [value]
    check_value(runs, readers, "deep", f"{MOST_JQ_DEPTH} lists, read", ["to-json"], around(WRAPS["lists"][0], MOST_JQ_DEPTH, "1").encode(), value)


def attack(runs):
    readers = Readers(runs)
    tables(runs, readers)
    characters(runs, readers)
    imports(runs, readers)
    large(runs, readers)
    deep(runs, readers)
    as_normalize(runs)
    random_values(runs, readers)
    readers.finish()
