"""Texts, read by `encode`: ones whose binary forms were worked out by hand; every byte and every two of an alphabet; random
expressions as they are printed, spelt in other ways, spoilt and cut; tokens and bytes at random; each production opened at and
past the limits; chains of each operator; long names and numbers; a megabyte, and a byte more, of each kind."""

import random

import expressions
from attacks.runs import MOST_BYTES, OK, TEXT_FAULT, TOO_LARGE, TOO_NESTED, refused, written


def encode(runs, group, name, text, *wanted):
    return runs.check(group, name, ["encode"], text, *wanted)


def check_text(runs, group, name, text):
    """One line of a fault in the text, or a binary form that is the same after the way to its printed text and back."""
    ran = runs.run(group, name, ["encode"], text)
    if not runs.expect_some(name, ran, TEXT_FAULT, text):
        return
    back = runs.run(group + ", printed", name, ["decode"], ran.out)
    if back is not None and back.status == OK and len(back.out) <= MOST_BYTES:
        encode(runs, group + ", again", name, back.out, written(ran.out), TOO_NESTED)
    elif back is not None and back.status != OK and len(ran.out) <= MOST_BYTES:
        runs.report(name, f"its bytes were answered by {back}")


def natural(n):
    return expressions.encoded(("nat", n))


DIGEST = b"sha256:" + b"0" * 64
TEXTS = [
    (b"1 + 2", written(bytes.fromhex("840304820f01820f02"))),
    (b"1 +2", written(bytes.fromhex("8300820f01821002"))),
    (b"1+ 2", written(bytes.fromhex("840304820f01820f02"))),
    (b"x", written(bytes.fromhex("82617800"))),
    (b"_@3", written(bytes.fromhex("03"))),
    (b"\xce\xbb(_ : Bool) -> _", written(bytes.fromhex("830164426f6f6c00"))),
    (b"\\(x : Bool) -> x", written(bytes.fromhex("8401617864426f6f6c82617800"))),
    (b"Bool -> Bool", written(bytes.fromhex("830264426f6f6c64426f6f6c"))),
    (b"{=}", written(bytes.fromhex("8208a0"))),
    (b"{}", written(bytes.fromhex("8207a0"))),
    (b"<>", written(bytes.fromhex("820ba0"))),
    (b"{ b = True, a.c = False }", written(bytes.fromhex("8208a261618208a16163f46162f5"))),
    (b"{ a = True, a = False }", written(bytes.fromhex("8208a161618403" "08f5f4"))),
    (b"{ x }", written(bytes.fromhex("8208a1617882617800"))),
    (b"[ True, ]", written(bytes.fromhex("8304f6f5"))),
    (b"[] : List Bool", written(bytes.fromhex("820464426f6f6c"))),
    (b"merge x y : Bool", written(bytes.fromhex("840682617800826179" "0064426f6f6c"))),
    (b"(merge x y) : Bool", written(bytes.fromhex("83181a8306826178008261790064426f6f6c"))),
    (b"x with a.b = True", written(bytes.fromhex("84181d8261780082616161" "62f5"))),
    (b"\"a${x}b\"", written(bytes.fromhex("841261618261780061" "62"))),
    (b"''\n  a\n   b''", written(bytes.fromhex("821264610a2062"))),
    (b"./a as Text", written(bytes.fromhex("851818f601036161"))),
    (b"missing " + DIGEST, written(bytes.fromhex("84181858221220" + "00" * 32 + "0007"))),
    (b"-0", written(bytes.fromhex("821000"))),
    (b"", refused(b"syntax at 0")),
    (b" ", refused(b"syntax at 1")),
    (b"(", refused(b"syntax at 1")),
    (b"1 )", refused(b"syntax at 2")),
    (b"[]", refused(b"syntax at 2")),
    (b"let x = 1", refused(b"syntax at 9")),
    (b"f(x)", refused(b"syntax at 1")),
    (b"1 2 +3 (", refused(b"syntax at 8")),
    (b"{ a : x, a : y }", refused(b"syntax at 9")),
    (b"< A | A >", refused(b"syntax at 6")),
    (b"x.{ a, a }", refused(b"syntax at 7")),
    (b"1@2147483648", refused(b"syntax at 1")),
    (b"x@2147483648", refused(b"number too wide at 2")),
    (b"340282366920938463463374607431768211456", refused(b"number too wide at 0")),
    (b"340282366920938463463374607431768211455", written(natural(2 ** 128 - 1))),
    (b"-170141183460469231731687303715884105729", refused(b"number too wide at 0")),
    (b"1.5", refused(b"left out of this profile at 0")),
    (b"0x1.5", refused(b"left out of this profile at 0")),
    (b"2020-01-02", refused(b"left out of this profile at 0")),
    (b"\"\\q", refused(b"syntax at 1")),
    (b"\"${ 1.5", refused(b"left out of this profile at 4")),
    (b"\"a", refused(b"syntax at 0")),
    (b"{- {- -}", refused(b"syntax at 0")),
    (b"a \xff", refused(b"not UTF-8 at 2")),
    (b"1" + b" " * MOST_BYTES, TOO_LARGE),
    (b"(" * 499 + b"1" + b")" * 499, written(natural(1))),
    (b"(" * 500 + b"1" + b")" * 500, TOO_NESTED),
    (b"[" * 500 + b"] )", refused(b"syntax at 502")),
    (b"1 + " * 500 + b"1", written(b"\x84\x03\x04" * 500 + natural(1) + natural(1) * 500)),
    (b"1 + " * 501 + b"1", TOO_NESTED),
    (b"1 + " * 501 + b"1 )", refused(b"syntax at 2006")),
]


def worked_texts(runs):
    for text, wanted in TEXTS:
        encode(runs, "worked texts", f"text {text[:60]!r}", text, wanted)


ALPHABET = [bytes([b]) for b in b" \t\n\r019(+)*|&TtF_-/.\x00\x7f\x80\xc3\xff\xef{\"'"]


def short_texts(runs):
    """Every single byte, and every two bytes of the alphabet."""
    for byte in range(256):
        check_text(runs, "one byte", f"byte {byte:02x}", bytes([byte]))
    for text in [a + b for a in ALPHABET for b in ALPHABET]:
        check_text(runs, "two bytes", f"bytes {text.hex()}", text)


PIECES = [word.encode() for word in (
    "True 0 1 24 +1 -0 18446744073709551616 x `a b` ( ) [ ] { } < > , . : = @ @1 | -> → λ \\ ∀ forall + - * ++ # ? || && == != "
    "/\\ ∧ // ⫽ //\\\\ ⩓ === ≡ :: if then else let in as with merge toMap Some missing assert using Text Location List "
    "Natural/fold ./a ../b/c ~/d /e \"f\" http://h/p https://h env:X \" ${ '' ''' ''${ \\n \\u{41} sha256: é {- -} -- 1.5 1e5 "
    "NaN").split()] + [b"\n", b"\r\n", b"\t"]


def changed(source, text):
    """The text with some bytes left out, put in or changed at one place."""
    at = source.randrange(len(text) + 1)
    more = source.choice([b"", source.choice(ALPHABET), source.choice(PIECES), b" " + source.choice(PIECES) + b" "])
    return text[:at] + more + text[at + source.randrange(3):]


def random_texts(runs, source, rounds):
    """Random expressions as they are printed and in other ways; spoilt ones, cut ones, tokens in a row, random bytes."""
    maker = expressions.Maker(source)
    for n in range(rounds):
        check_text(runs, "random bytes as text", f"random bytes {n}", source.randbytes(source.randrange(3, 80)))
        soup = b"".join(source.choice(PIECES) + source.choice([b"", b" "]) for _ in range(source.randrange(1, 12)))
        check_text(runs, "token soup", f"soup {soup!r}", soup)
        e = maker.expression(source.randrange(1, 6))
        form = expressions.encoded(e)
        layout, text = expressions.printed(e).encode(), expressions.spelled(source, e).encode()
        encode(runs, "layouts", f"layout {n} {layout[:60]!r}", layout, written(form))
        encode(runs, "texts", f"text {n} {text[:60]!r}", text, written(form))
        for given in (layout, text):
            bad = changed(source, given)
            check_text(runs, "changed texts", f"changed {bad!r}", bad)
        k = source.randrange(len(text))
        check_text(runs, "cut texts", f"cut to {k} {text[:60]!r}", text[:k])


OPENINGS = ["(", "[", "{ a = ", "< A : ", "\"${", "''${", "if ", "if x then ", "if x then y else ", "let x = ", "let x : ",
            "let x = y in ", "λ(x : ", "λ(x : y) → ", "∀(x : ", "x → ", "merge ", "merge x ", "Some ", "toMap ", "assert : ",
            "x with a = ", "x : ", "x.(", "x + ", "x ", "x.{ a, ", "f [ x, ", "x ? ", "x :: ", "{- ", "-", "x.a", "x@1 "]


def deep_texts(runs):
    """Each production opened below, at and past the limits and never closed, and each operator in long chains."""
    for n in (1, 499, 500, 501, 20_000):
        for opening in OPENINGS:
            check_text(runs, "deep", f"{opening!r}, {n}", (opening * n).encode())
            check_text(runs, "deep", f"{opening!r} and 1, {n}", (opening * n + " 1").encode())
        for mark in expressions.CODES:
            check_text(runs, "chains", f"chain of {mark}, {n}", (f"x {mark} " * n + "x").encode())
        for what, text in (("selections", "x" + ".a" * n), ("arguments", "f" + " x" * n), ("lets", "let x = 1 " * n + "in x"),
                           ("updates", "x" + " with a = x" * n)):
            check_text(runs, "chains", f"{what}, {n}", text.encode())


def long_texts(runs):
    """Long names, and numbers at each limit of a head and of the language."""
    limits = [0, 23, 24, 255, 256, 65535, 65536, 2 ** 32 - 1, 2 ** 32, 2 ** 64 - 1, 2 ** 64, 2 ** 127 - 1, 2 ** 127, 2 ** 128 - 1]
    wide = refused(b"number too wide at 0")
    for n in limits:
        for what, text in (("", b"%d" % n), ("hexadecimal ", b"0x%x" % n), ("hexadecimal with zeros ", b"0x00%x" % n)):
            encode(runs, "numbers", f"{what}{n}", text, written(natural(n)))
        encode(runs, "numbers", f"zeros and {n}", b"00%d" % n, refused(b"syntax at 1"))
        signed = written(expressions.encoded(("int", -n))) if n <= 2 ** 127 else wide
        encode(runs, "numbers", f"-{n}", b"-%d" % n, signed)
    for n in (40, 1_000, 1_000_000):
        for digit in (b"1", b"9"):
            encode(runs, "numbers", f"{n} digits {digit}", digit * n, wide)
        encode(runs, "numbers", f"{n} zeros", b"0" * n, refused(b"syntax at 1"))
    for n in (2, 100, 10_000, 1_000_000):
        for name in ("T" * n, "True" + "x" * n, "x" + "/" * n, "_" * n):
            form = written(expressions.encoded(("var", name, 0)))
            encode(runs, "names", f"name {name[:8]}.. of {len(name)}", name.encode(), form)


def balanced(n):
    """A sum of 2^n operands whose nesting is n, and its binary form."""
    text, form = b"1", natural(1)
    for _ in range(n):
        text = b"(" + text + b"+ " + text + b")"
        form = b"\x84\x03\x04" + form * 2
    return text, form


def large_texts(runs):
    """A megabyte, and one byte more, of each kind; and large expressions that are answered in time."""
    kinds = {byte.hex(): byte for byte in ALPHABET}
    kinds.update({piece.decode(): piece + b" " for piece in PIECES})
    for size in (MOST_BYTES, MOST_BYTES + 1):
        for what, piece in kinds.items():
            check_text(runs, "megabyte", f"{size} bytes of {what!r}", (piece * (size // len(piece) + 1))[:size])
    encode(runs, "large", "a balanced sum", balanced(16)[0], written(balanced(16)[1]))
    order = [f"f{k * 7919 % 30_000}" for k in range(30_000)]
    lets = ("var", "x", 0)
    for k in reversed(range(400)):
        lets = ("let", f"x{k}", None, ("nat", k), lets)
    rows = {
        "30,000 fields": ("{ " + ", ".join(f"{x} = True" for x in order) + " }", ("record", [(x, ("bool", True)) for x in order])),
        "100,000 elements": ("[ " + ", ".join(["1"] * 100_000) + " ]", ("list", [("nat", 1)] * 100_000)),
        "50,000 interpolations": ("\"" + "${x} a" * 50_000 + "\"", ("text", [""] + [" a"] * 50_000, [("var", "x", 0)] * 50_000)),
        "20,000 imports": ("[ " + ", ".join(f"./a{k}" for k in range(20_000)) + " ]",
                           ("list", [("import", ("./", (f"a{k}",)), 0, None) for k in range(20_000)])),
        "400 lets": ("".join(f"let x{k} = {k} " for k in range(400)) + "in x", lets),
    }
    for name, (text, e) in rows.items():
        encode(runs, "large", name, text.encode(), written(expressions.encoded(e)))
    encode(runs, "large", "five megabytes", b"1" + b" " * 5_000_000, TOO_LARGE)


def attack(runs):
    worked_texts(runs)
    short_texts(runs)
    random_texts(runs, random.Random(runs.seed), runs.few(700, 60))
    deep_texts(runs)
    long_texts(runs)
    large_texts(runs)
