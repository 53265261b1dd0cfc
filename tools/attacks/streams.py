"""Standard streams that are closed, full, broken, endless, slow, not readable or would block, for every command: a failed read and a
failed write have their statuses and lines, the program is never ended by a signal, and reads no more than a byte past the limit."""

import os
import subprocess
import threading
import time

import expressions
from attacks.runs import NOT_READ, NOT_WRITTEN, OK, READING, TEXT, TOO_LARGE, VERBS, WRITE, Ran, refused, written
from attacks.texts import balanced

# An input, what is written of it, and an input with the line of its fault.
GOOD = {"encode": (b"True", b"\xf5"), "decode": (b"\xf5", b"True\n"), "resolve": (b"True", b"True\n"), "type": (b"True", b"Bool\n"),
        "normalize": (b"True", b"True\n"), "hash": (b"True", b"sha256:27abdeddfe8503496adeb623466caa47da5f63abd2bc6fa19f6cfcb73ecfed70\n"),
        "freeze": (b"True", b"True"), "to-json": (b"True", b"true\n"), "steps": (b"True", b"True\nnormal\n"), "explain": (b"", None), "--help": (b"", None), "--version": (b"", b"dhall 0.1.0, standard 23\n")}
BAD = {verb: (b"(", b"syntax at 1\n") for verb in READING} | {"decode": (b"\xff", b"indefinite length at 0\n")}


def closed(*numbers):
    return lambda: [os.close(n) for n in numbers]


def good_run(runs, verb):
    text, out = GOOD[verb]
    return written(out if out is not None else runs.run("streams", f"{verb}, once", [verb], text).out)


def closed_and_full(runs, verb):
    text, good = GOOD[verb][0], good_run(runs, verb)
    rows = [
        ("stdout closed", text, closed(1), {}, NOT_WRITTEN), ("stderr closed", text, closed(2), {}, good),
        ("both closed", text, closed(1, 2), {}, Ran(WRITE, b"", b"")),
        ("all closed", None, closed(0, 1, 2), {}, Ran(WRITE, b"", b"")),
        ("stdin closed", None, closed(0), {}, NOT_READ if verb in READING else good),
    ]
    if verb in BAD:
        rows += [("stdout closed, refused", BAD[verb][0], closed(1), {}, Ran(TEXT, b"", BAD[verb][1])),
                 ("stderr closed, refused", BAD[verb][0], closed(2), {}, Ran(WRITE, b"", b""))]
    with open("/dev/full", "wb") as full:
        rows += [("stdout full", text, None, {"stdout": full}, Ran(WRITE, None, NOT_WRITTEN.err)),
                 ("stderr full", text, None, {"stderr": full}, Ran(OK, good.out, None)),
                 ("both full", text, None, {"stdout": full, "stderr": full}, Ran(WRITE, None, None))]
        if verb in BAD:
            rows += [("stdout full, refused", BAD[verb][0], None, {"stdout": full}, Ran(TEXT, None, BAD[verb][1])),
                     ("stderr full, refused", BAD[verb][0], None, {"stderr": full}, Ran(WRITE, b"", None))]
        for name, given, before, streams, wanted in rows:
            name = f"{verb}, {name}"
            runs.expect(name, runs.run("streams", name, [verb], given, before=before, is_formed=False, **streams), wanted)


def inputs(runs, verb):
    """Inputs that cannot be read, and endless ones. Commands that read none leave them alone."""
    good = good_run(runs, verb)
    reads = verb in READING
    for path in ("/dev/zero", "/dev/urandom", "/dev/full"):
        with open(path, "rb") as endless:
            runs.check("streams", f"{verb} of {path}", [verb], None, TOO_LARGE if reads else good, stdin=endless)
    with open("/dev/null", "rb") as nothing:
        empty = refused(b"cut at 0" if verb == "decode" else b"syntax at 0")
        runs.check("streams", f"{verb} of nothing", [verb], None, empty if reads else good, stdin=nothing)
    folder, writer = os.open("/", os.O_RDONLY), os.open("/dev/null", os.O_WRONLY)
    waiting, other = os.pipe()
    os.set_blocking(waiting, False)
    for name, stdin in (("a folder", folder), ("what is only written", writer), ("a pipe that would block", waiting)):
        runs.check("streams", f"{verb} of {name}", [verb], None, NOT_READ if reads else good, stdin=stdin)
    for opened in (folder, writer, waiting, other):
        os.close(opened)


def endless_pipe(runs, verb):
    """A pipe that is never ended: the program reads what it needs and ends."""
    reader, writer = os.pipe()

    def feed():
        try:
            while True:
                os.write(writer, b"1 + " * 1024)
        except OSError:
            os.close(writer)

    feeder = threading.Thread(target=feed)
    feeder.start()
    runs.check("streams", f"{verb} of a pipe without an end", [verb], None, TOO_LARGE, stdin=reader)
    os.close(reader)
    feeder.join()


def broken_pipes(runs, verb):
    """Readers that are gone, and an output that would block."""
    text = GOOD[verb][0]
    rows = [("stdout without a reader", "stdout", text, Ran(WRITE, None, NOT_WRITTEN.err))]
    if verb in BAD:
        rows.append(("stderr without a reader", "stderr", BAD[verb][0], Ran(WRITE, b"", None)))
    for name, stream, given, wanted in rows:
        reader, writer = os.pipe()
        os.close(reader)
        runs.expect(f"{verb}, {name}", runs.run("streams", f"{verb}, {name}", [verb], given, is_formed=False, **{stream: writer}), wanted)
        os.close(writer)


def much(verb):
    """An input with much output, and that output."""
    text, form = balanced(16)
    texts = ("text", ["x" * 1_000_000], [])
    long = expressions.printed(texts).encode()
    ones = expressions.printed(("list", [("nat", 1)] * 300_000)).encode()
    rows = {"encode": (text, form), "decode": (expressions.encoded(texts), long + b"\n"), "freeze": (long, long),
            "steps": (ones, ones + b"\nnormal\n")}
    return rows.get(verb, (long, long + b"\n"))


def slow_outputs(runs, verb):
    """Input that comes in pieces, and output that is taken late, or that would block."""
    text, out = much(verb)
    child = subprocess.Popen([runs.program, verb], stdin=subprocess.PIPE, stdout=subprocess.PIPE, stderr=subprocess.PIPE, env={})
    for at in range(0, len(text), 30_011):
        child.stdin.write(text[at:at + 30_011])
        child.stdin.flush()
        time.sleep(0.002)
    child.stdin.close()
    start = time.monotonic()
    time.sleep(0.2)
    got, err = child.stdout.read(), child.stderr.read()
    status = child.wait()
    child.stdout.close()
    child.stderr.close()
    runs.count("streams", f"{verb}, much output, taken late", status, time.monotonic() - start)
    runs.expect(f"{verb}, much output, taken late", Ran(status, got, err), written(out))
    reader, writer = os.pipe()
    os.set_blocking(writer, False)
    ran = runs.run("streams", f"{verb}, an output that would block", [verb], text, is_formed=False, stdout=writer)
    runs.expect(f"{verb}, an output that would block", ran, Ran(WRITE, None, NOT_WRITTEN.err))
    os.close(writer)
    with os.fdopen(reader, "rb") as taken:
        if not out.startswith(taken.read()):
            runs.report(f"{verb}, an output that would block", "took what is no first part of the answer")


def byte_by_byte(runs):
    child = subprocess.Popen([runs.program, "normalize"], stdin=subprocess.PIPE, stdout=subprocess.PIPE, stderr=subprocess.PIPE, env={})
    for byte in b"1 + 2":
        child.stdin.write(bytes([byte]))
        child.stdin.flush()
        time.sleep(0.01)
    out, err = child.communicate()
    runs.count("streams", "input byte by byte", child.returncode, 0)
    runs.expect("input byte by byte", Ran(child.returncode, out, err), written(b"3\n"))


def attack(runs):
    for verb in VERBS:
        closed_and_full(runs, verb)
        inputs(runs, verb)
        broken_pipes(runs, verb)
    for verb in READING:
        endless_pipe(runs, verb)
    for verb in ["encode", "decode", "resolve", "normalize", "freeze", "to-json", "steps"]:
        slow_outputs(runs, verb)
    byte_by_byte(runs)
