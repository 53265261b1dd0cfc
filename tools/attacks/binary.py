"""Bytes, read by `decode`: ones whose answers were worked out by hand; encodings of random expressions, in shortest and in longer
heads; spoilt, cut and random ones; arrays and maps opened at and past the limits; heads that promise more than there is; large
ones."""

import random

import expressions
from attacks.runs import BYTES_FAULT, MOST_BYTES, TEXT, TOO_LARGE, TOO_NESTED, refused, written


def decode(runs, group, name, form, *wanted):
    runs.check(group, name, ["decode"], form, *wanted)


ENCODED = [
    ("840304820f01820f02", written(b"1 + 2\n")),
    ("840304820f01820f0200", refused(b"bytes left at 9")),
    ("98040304820f01820f02", written(b"1 + 2\n")),
    ("f93c00", refused(b"float at 0")),
    ("9fff", refused(b"indefinite length at 0")),
    ("830164426f6f6c00", written("λ(_ : Bool) → _\n".encode())),
    ("9bffffffffffffffff", refused(b"cut at 9")),
    ("8208a26161f56161f5", refused(b"shape at 6")),
    ("8213" * 501 + "f5", TOO_NESTED),
    ("8213" * 500 + "f5", written(b"assert : " * 500 + b"True\n")),
    ("81" * 1101 + "f5", refused(b"shape at 0")),
    ("", refused(b"cut at 0")),
    ("8100", refused(b"shape at 0")),
    ("83" "0f" "01" "01", refused(b"shape at 1")),
    ("820fc25101" + "00" * 16, refused(b"number too wide at 2")),
    ("820fc25100" + "00" * 16, refused(b"shape at 3")),
    ("d9d9f7f5", written(b"True\n")),
    ("d9d9f7d9d9f7f5", written(b"True\n")),
    ("82d9d9f70f01", refused(b"shape at 1")),
    ("c101", refused(b"tag at 0")),
    ("f5ff", refused(b"bytes left at 1")),
    ("1a80000000", refused(b"number too wide at 0")),
    ("82615f00", refused(b"shape at 1")),
    ("f6", refused(b"shape at 0")),
]


def worked_bytes(runs):
    for digits, wanted in ENCODED:
        decode(runs, "worked bytes", f"bytes {digits[:40]}", bytes.fromhex(digits), wanted)
    row = bytes.fromhex("840304820f01820f02")
    for k in range(9):
        decode(runs, "worked bytes", f"the first row cut to {k} bytes", row[:k], refused(b"cut at %d" % k))


def spoilt(source, given, more):
    """The bytes with some left out, put in or changed at one place."""
    at = source.randrange(len(given) + 1)
    return given[:at] + source.choice([b"", source.choice(more)]) + given[at + source.randrange(3):]


def random_bytes(runs, source, rounds):
    """Encodings of random expressions, as they are written and in other ways; spoilt ones, cut ones, and random bytes."""
    maker = expressions.Maker(source)
    for n in range(rounds):
        e = maker.expression(source.randrange(1, 6))
        form, layout = expressions.encoded(e), expressions.printed(e).encode()
        decode(runs, "encodings", f"encoding {n} {form.hex()[:60]}", form, written(layout + b"\n"))
        anyhow = expressions.encoded_anyhow(source, e)
        decode(runs, "encodings with longer heads", f"encoding {n} {anyhow.hex()[:60]}", anyhow, written(layout + b"\n"))
        pieces = [source.randbytes(k) for k in (1, 2, 9)]
        for what, given in (("changed bytes", spoilt(source, form, pieces)), ("random bytes", source.randbytes(source.randrange(1, 40)))):
            name = f"{what} {given.hex()[:80]}"
            runs.expect_some(name, runs.run(what, name, ["decode"], given), BYTES_FAULT, given)
        k = source.randrange(len(form))
        ran = runs.run("cut bytes", f"{form.hex()[:60]} cut to {k}", ["decode"], form[:k])
        if ran is not None and (ran.status != TEXT or not ran.err.startswith(b"cut at ")):
            runs.report(f"cut bytes {form.hex()[:60]} {k}", f"was {ran}")


def large_bytes(runs):
    """Deep encodings, promises of more than there is, and large ones, which are answered in time."""
    for n in (1, 499, 500, 501, 1100, 1101, 300_000):
        for what, front in (("arrays", b"\x81"), ("maps", b"\xa1"), ("asserts", b"\x82\x13"), ("tags", b"\xd9\xd9\xf7"),
                            ("somes", b"\x83\x05\xf6")):
            form = (front * n + b"\xf5")[:MOST_BYTES]
            ran = runs.run("deep bytes", f"{what}, {n}", ["decode"], form)
            runs.expect_some(f"{what}, {n}", ran, BYTES_FAULT, form)
    for promise in (b"\x9b", b"\xbb", b"\x7b", b"\x5b"):
        for n in (2 ** 63, 2 ** 32, 2 ** 20):
            form = promise + n.to_bytes(8, "big") + b"\x00" * 100
            name = f"{n} items or bytes promised by {promise.hex()}"
            runs.expect_some(name, runs.run("promises", name, ["decode"], form), BYTES_FAULT, form)
    order = [f"f{k * 7919 % 20_000}" for k in range(20_000)]
    large = {
        "20,000 fields in any order": ("record", [(x, ("bool", True)) for x in order]),
        "100,000 elements": ("list", [("nat", 1)] * 100_000),
        "a text of 700,000 bytes": ("text", ["a\n" * 350_000], []),
        "an application to 400 arguments": None, "400 lets": None,
    }
    spine = ("var", "f", 0)
    for k in range(400):
        spine = ("app", spine, ("nat", k))
    large["an application to 400 arguments"] = spine
    lets = ("var", "x", 0)
    for k in range(400):
        lets = ("let", f"x{k}", None, ("nat", k), lets)
    large["400 lets"] = lets
    shuffled = random.Random(7)
    for name, e in large.items():
        rows = e[1] if e[0] == "record" else None
        form = expressions.encoded(e)
        if rows is not None:
            writer = expressions.Encoder()
            form = writer.head(0, 8)
            form = writer.head(4, 2) + form + writer.head(5, len(rows)) + b"".join(
                writer.text(x) + b"\xf5" for x, _ in shuffled.sample(rows, len(rows)))
        decode(runs, "large bytes", name, form, written(expressions.printed(e).encode() + b"\n"))
    decode(runs, "large bytes", "five megabytes", b"\x82\x13" * 2_500_000, TOO_LARGE)


def attack(runs):
    worked_bytes(runs)
    random_bytes(runs, random.Random(runs.seed), runs.few(700, 60))
    large_bytes(runs)
