"""Expressions that grow up to a limit and past it: texts of 16 MiB by each way to make one, lists of 2^20 elements, numbers at
both ends, values and types that nest 500 deep; and texts and lists that are made anew at each of many steps, under 2 GB of memory."""

import hashlib
import resource

import expressions
from attacks.runs import DEEP, LONG, NO_MEMORY, OK, SPENT, WIDE, new_folder, write, written

MOST_TEXT = 16_777_216
MOST_ELEMENTS = 1_048_576
MOST_NATURAL = 2 ** 128 - 1
MOST_INTEGER, LEAST_INTEGER = 2 ** 127 - 1, -2 ** 127
KIB = "k" * 1024
DOUBLE = "let double = \\(t : Text) -> t ++ t\n"


def doublings(n, start):
    return DOUBLE + "in  " + "double (" * n + start + ")" * n


def of_text(text):
    """What `hash` writes of a text."""
    form = expressions.Encoder().coded(18, expressions.Encoder().text(text))
    return written(b"sha256:%s\n" % hashlib.sha256(form).hexdigest().encode())


def full_texts(runs):
    """Each way to a text of just 16 MiB, and of more."""
    full = "k" * MOST_TEXT
    ways = {
        "++": (doublings(14, f'"{KIB}"'), full),
        "interpolation": ("let t = " + doublings(13, f'"{KIB}"') + ' in "${t}${t}"', full),
        "replaced": (f'Text/replace "a" "{"k" * 16384}" "{"a" * 1024}"', full),
        "shown": ("Text/show (" + DOUBLE + "in  " + "double (" * 22 + '"\\""' + ")" * 22 + ")", '"' + '\\"' * 2 ** 22 + '"'),
        "a fold": (f'Natural/fold 14 Text (\\(t : Text) -> t ++ t) "{KIB}"', full),
    }
    for name, (text, value) in ways.items():
        runs.check("full texts", f"{name}, hash", ["hash"], text.encode(), of_text(value), seconds=LONG)
        runs.check("full texts", f"{name}, type", ["type"], text.encode(), written(b"Text\n"), seconds=LONG)
    line = written(b'"' + full.encode() + b'"\n')
    runs.check("full texts", "normalize", ["normalize"], ways["++"][0].encode(), line, seconds=LONG)
    over = {
        "++ one": doublings(14, f'"{KIB}"') + ' ++ "x"',
        "one ++": '"x" ++ (' + doublings(14, f'"{KIB}"') + ")",
        "interpolation": '"${' + doublings(14, f'"{KIB}"') + '}x"',
        "replaced": f'Text/replace "a" "{"k" * 16384}" "{"a" * 1024}b"',
        "shown": "Text/show (" + doublings(14, f'"{KIB}"') + ")",
        "2^40 bytes": doublings(40, '"k"'),
        "2^500 bytes by a fold": 'Natural/fold 500 Text (\\(t : Text) -> t ++ t) "k"',
        "shown again and again": 'Natural/fold 60 Text Text/show "\\""',
    }
    for name, text in over.items():
        for verb in ["normalize", "hash"]:
            runs.check("texts too wide", f"{name}, {verb}", [verb], text.encode(), WIDE, seconds=LONG)


def texts_of_files(runs):
    """Sixteen files of a megabyte taken as text."""
    with new_folder() as folder:
        parts = []
        for n in range(16):
            parts.append(chr(ord("a") + n) * 1_048_576)
            write(folder, f"t{n}", parts[-1])
        write(folder, "one", "x")
        joined = " ++ ".join(f"./t{n} as Text" for n in range(16))
        for workers in ["1", "4"]:
            words = ["hash", "--workers", workers]
            runs.check("texts of files", f"16 MiB, {workers} workers", words, joined.encode(), of_text("".join(parts)), folder=folder, seconds=LONG)
            runs.check("texts of files", f"16 MiB and one, {workers} workers", words, f"{joined} ++ ./one as Text".encode(), WIDE, folder=folder, seconds=LONG)
        many = "[ " + ", ".join(f"./t{n} as Text" for n in range(16)) + " ]"
        wanted = written(("[ " + ", ".join(f'"{p}"' for p in parts) + " ]\n").encode())
        runs.check("texts of files", "sixteen texts", ["normalize"], many.encode(), wanted, folder=folder, seconds=LONG)


def lists(runs):
    ones = 'let double = \\(l : List Natural) -> l # l in ' + "double (" * 20 + "[ 1 ]" + ")" * 20
    full = "[ " + ", ".join(["1"] * MOST_ELEMENTS) + " ]\n"
    runs.check("lists", "2^20 elements", ["normalize"], ones.encode(), written(full.encode()), seconds=LONG)
    runs.check("lists", "their number", ["normalize"], f"List/length Natural ({ones})".encode(), written(b"1048576\n"), seconds=LONG)
    for name, text in (("one more", f"({ones}) # [ 1 ]"), ("one more in front", f"[ 1 ] # ({ones})"), ("2^30 elements", ones.replace("[ 1 ]", "double (" * 10 + "[ 1 ]" + ")" * 10)),
                       ("by a fold", "Natural/fold 500 (List Natural) (\\(l : List Natural) -> l # l) [ 1 ]")):
        runs.check("lists", name, ["hash"], text.encode(), WIDE, seconds=LONG)


NUMBERS = [
    (f"{MOST_NATURAL} + 0", str(MOST_NATURAL)), (f"{MOST_NATURAL} + 1", None), (f"1 + {MOST_NATURAL}", None),
    (f"{MOST_NATURAL} * 1", str(MOST_NATURAL)), (f"{MOST_NATURAL} * 2", None), (f"{2 ** 64} * {2 ** 64}", None),
    (f"{2 ** 64} * {2 ** 64 - 1}", str(2 ** 64 * (2 ** 64 - 1))), (f"{MOST_NATURAL} * 0", "0"),
    (f"Natural/subtract 1 {MOST_NATURAL}", str(MOST_NATURAL - 1)), (f"Natural/subtract {MOST_NATURAL} 1", "0"),
    (f"Natural/toInteger {MOST_INTEGER}", f"+{MOST_INTEGER}"), (f"Natural/toInteger {MOST_INTEGER + 1}", None),
    (f"Integer/negate +{MOST_INTEGER}", str(-MOST_INTEGER)), (f"Integer/negate {LEAST_INTEGER}", None),
    (f"Integer/clamp {LEAST_INTEGER}", "0"), (f"Natural/fold 127 Natural (\\(x : Natural) -> x + x) 1", str(2 ** 127)),
    ("Natural/fold 128 Natural (\\(x : Natural) -> x + x) 1", None), ("Natural/fold 8 Natural (\\(x : Natural) -> x * x) 2", None),
    ("Natural/fold 6 Natural (\\(x : Natural) -> x * x) 2", str(2 ** 64)), (f"Natural/even {MOST_NATURAL}", "False"),
    (f"Natural/show {MOST_NATURAL}", f'"{MOST_NATURAL}"'), (f"Integer/show {LEAST_INTEGER}", f'"{LEAST_INTEGER}"'),
]


def numbers(runs):
    for text, value in NUMBERS:
        wanted = WIDE if value is None else written(value.encode() + b"\n")
        runs.check("numbers", text, ["normalize"], text.encode(), wanted)


def somes(lets, each):
    """Lets, each of which puts the last value below so many `Some`."""
    text = "let x0 = 1\n"
    for i in range(lets):
        text += f"let x{i + 1} = " + "Some (" * each + f"x{i}" + ")" * each + "\n"
    return text + f"in  x{lets}"


def nested(runs):
    """Values and types at and past the nesting of a normal form."""
    for lets, each in ((4, 100), (5, 100), (2, 250)):
        n = lets * each
        value = "Some (" * (n - 1) + "Some 1" + ")" * (n - 1) + "\n"
        kind = "Optional (" * (n - 1) + "Optional Natural" + ")" * (n - 1) + "\n"
        text = somes(lets, each).encode()
        runs.check("nested", f"{n} deep in {lets} lets", ["normalize"], text, written(value.encode()), seconds=LONG)
        runs.check("nested", f"type, {n} deep in {lets} lets", ["type"], text, written(kind.encode()), seconds=LONG)
    for lets, each in ((3, 167), (2, 400)):
        for verb in ["normalize", "type", "hash"]:
            runs.check("nested", f"{verb}, {lets * each} deep", [verb], somes(lets, each).encode(), DEEP, seconds=LONG)
    deep = "Natural/fold 600 (Natural -> Natural) (\\(f : Natural -> Natural) -> \\(x : Natural) -> if Natural/even x then f x else 0) (\\(x : Natural) -> x)"
    runs.check("nested", "a function 600 deep", ["normalize"], deep.encode(), DEEP, seconds=LONG)


def asides(depth, count):
    """Values whose type is long to be found, though it is short: its parts are functions of so many types."""
    function = "".join(f"\\(a{i} : Type) -> " for i in range(depth)) + "a0"
    return f"\\(f : ({'Type -> ' * depth}Type) -> Type) -> \\(x : f ({function})) -> [ " + ", ".join(["Some x"] * count) + " ]"


ANEW = {
    "a text that gets longer at each step": 'Natural/fold 400000 Text (\\(t : Text) -> t ++ "0123456789abcdef0123456789abcdef") ""',
    "a text that is put into a longer one": 'Natural/fold 400000 Text (\\(t : Text) -> "0123456789abcdef${t}0123456789abcdef") ""',
    "a text replaced again and again": 'Natural/fold 60 Text (Text/replace "a" "aa") "a"',
    "a text with many replacements": 'Natural/fold 20000 Text (Text/replace "a" "ab") "' + "a" * 100 + '"',
    "five hundred copies of a long text": 'let t = "' + "k" * 33_000 + '" in ' + " ++ ".join(["t"] * 500),
    "lists joined by turns": "Natural/fold 20000 (List Natural) (\\(l : List Natural) -> [ 1 ] # l # [ 2 ]) ([] : List Natural)",
    "a list reversed at each step": "Natural/fold 20000 (List Natural) (\\(l : List Natural) -> List/reverse Natural (l # [ 1 ])) ([] : List Natural)",
    "a record that is joined at each step": "Natural/fold 100000 { a : Natural } (\\(r : { a : Natural }) -> r // { a = r.a + 1 }) { a = 0 }",
    "a value in ever more lets": somes(400, 1),
    "a list of deep values": "[ " + ", ".join(["Some (" * 400 + "1" + ")" * 400] * 100) + " ]",
    "types that are found again and again": asides(480, 200),
    "a list with indices": "List/length { index : Natural, value : Natural } (List/indexed Natural ("
                           "Natural/fold 20 (List Natural) (\\(l : List Natural) -> l # l) [ 1 ]))",
}


def made_anew(runs):
    """What is copied at each step may want more memory than there is, but never more time."""
    limit = 2 << 30
    for name, text in ANEW.items():
        ran = runs.run("made anew", name, ["hash"], text.encode(), seconds=LONG,
                       before=lambda: resource.setrlimit(resource.RLIMIT_AS, (limit, limit)))
        if ran is not None and ran.status != OK and ran not in (NO_MEMORY, WIDE, SPENT):
            runs.report(name, f"was {ran}")


def attack(runs):
    numbers(runs)
    nested(runs)
    lists(runs)
    full_texts(runs)
    texts_of_files(runs)
    made_anew(runs)
