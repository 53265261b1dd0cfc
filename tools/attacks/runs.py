"""One run of the program, and what holds of every run: it ends in time, with a status that the README names, and with an
answer, or one line of a fault that goes with the status."""

import collections
import os
import re
import subprocess
import tempfile
import time

MOST_BYTES = 1_048_576
MOST_KEYS = 4096
SECONDS = 10
# For runs that are to spend a whole budget.
LONG = 120

OK, TEXT, ILL, IMPORT, LIMIT, USAGE, READ, WRITE, DESK, MEMORY, NO_JSON, STEP = range(12)
RESOLVING = ["resolve", "type", "normalize", "hash", "freeze", "to-json"]
READING = ["encode", "decode", *RESOLVING, "steps"]
VERBS = [*READING, "explain", "--help", "--version"]

PLACE = rb"(?:in [^\n]+: )?"
DIGEST = rb"[0-9a-f]{64}"
TEXT_FAULT = (rb"(?:not UTF-8|syntax|number too wide|left out of this profile) at (\d+)"
              rb"|larger than 1048576 bytes|nested deeper than 500")
BYTES_FAULT = (rb"(?:cut|indefinite length|float|tag|number too wide|shape|bytes left) at (\d+)"
               rb"|larger than 1048576 bytes|nested deeper than 500")
PATH = rb"(?:root|\d+(?:/\d+)*)"
ILL_FAULT = rb"type rule (\d+) at " + PATH + rb", line (\d+), column (\d+)"
LIMIT_FAULT = rb"number or literal too wide|budget of 16777216 spent|too deep"
IMPORT_FAULT = (rb"absent|missing|status \d{1,3}|https is refused|digest differs: wanted " + DIGEST + rb" got " + DIGEST
                + rb"|may not import [^\n]+|cross-origin import of [^\n]+ refused|import cycle")
LINES = {
    TEXT: PLACE + rb"(?:" + TEXT_FAULT + rb"|" + BYTES_FAULT + rb")",
    ILL: PLACE + ILL_FAULT,
    IMPORT: rb"in [^\n]+: (?:" + IMPORT_FAULT + rb")",
    LIMIT: PLACE + rb"(?:" + LIMIT_FAULT + rb")|more than 4096 imports|grown too large at step \d+",
    USAGE: rb"usage: word \d+",
    READ: rb"read failed",
    WRITE: rb"write failed",
    DESK: rb"in [^\n]+: device failed",
    MEMORY: rb"out of memory",
    NO_JSON: rb"no JSON value at " + PATH,
    STEP: rb"not in the fragment at " + PATH + rb"|no rule at step \d+",
}
LINES = {status: re.compile(rb"(?:" + line + rb")\n") for status, line in LINES.items()}

Ran = collections.namedtuple("Ran", "status out err")


def written(out):
    """A run that writes this."""
    return Ran(OK, out, b"")


def refused(line, status=TEXT):
    """A run that ends with this line."""
    return Ran(status, b"", line + b"\n")


TOO_LARGE = refused(b"larger than 1048576 bytes")
TOO_NESTED = refused(b"nested deeper than 500")
WIDE = refused(b"number or literal too wide", LIMIT)
SPENT = refused(b"budget of 16777216 spent", LIMIT)
DEEP = refused(b"too deep", LIMIT)
TOO_MANY = refused(b"more than 4096 imports", LIMIT)
NO_MEMORY = refused(b"out of memory", MEMORY)
NOT_READ = refused(b"read failed", READ)
NOT_WRITTEN = refused(b"write failed", WRITE)


def misused(word):
    """A run on words of which this one is wrong."""
    return refused(b"usage: word %d" % word, USAGE)


def shown(ran):
    return ran and (ran.status, ran.out and ran.out[:60], ran.err and ran.err[:100])


def flaw(ran):
    """What is wrong with the form of a run, if anything is: its status, or what stands on the two outputs."""
    status, out, err = ran
    if status not in LINES and status != OK:
        return "no documented status" if status >= 0 else "ended by a signal"
    if status == OK and (err or out == b""):
        return "an answer with a line, or without a byte"
    if status != OK and err is not None and not LINES[status].fullmatch(err):
        return "not one line that goes with the status"
    if status not in (OK, WRITE) and out:
        return "a fault with an answer"
    return None


class Runs:
    """The runs of one part, and what was found."""

    def __init__(self, program, seed, quick, slowness):
        self.program, self.seed, self.quick, self.slowness = program, seed, quick, slowness
        self.counts = collections.Counter()
        self.slowest = []
        self.found = []
        self.notes = []

    def few(self, many, few):
        """How many of something, in a whole run and in a quick one."""
        return few if self.quick else many

    def report(self, name, what):
        self.found.append(f"{name}: {what}")
        print(f"FOUND {name}: {what}", flush=True)

    def count(self, group, name, status, seconds):
        self.counts[group, status] += 1
        self.slowest = sorted([*self.slowest, (seconds, name)], reverse=True)[:3]

    def run(self, group, name, words, text=None, folder=None, env=None, before=None, seconds=SECONDS, is_formed=True, program=None, **streams):
        """One run on words and an input, in a folder and with an environment; None where it hangs. `before` runs in the child; the program
        is `dhall`, unless another one is given."""
        streams.setdefault("stdout", subprocess.PIPE)
        streams.setdefault("stderr", subprocess.PIPE)
        if text is not None:
            streams["input"] = text
        elif before is None:
            streams.setdefault("stdin", subprocess.DEVNULL)
        start = time.monotonic()
        try:
            done = subprocess.run([program or self.program, *words], timeout=seconds * self.slowness, preexec_fn=before, cwd=folder,
                                  env={} if env is None else env, **streams)
        except subprocess.TimeoutExpired:
            self.count(group, name, "none", seconds * self.slowness)
            self.report(name, f"no end within {seconds * self.slowness} seconds")
            return None
        ran = Ran(done.returncode, done.stdout, done.stderr)
        self.count(group, name, ran.status, time.monotonic() - start)
        what = flaw(ran) if is_formed else None
        if what is not None:
            self.report(name, f"{what}: {shown(ran)}")
        return ran

    def expect(self, name, ran, *wanted):
        """The run is one of the wanted ones."""
        if ran is not None and ran not in wanted:
            self.report(name, f"was {shown(ran)}, wanted {shown(wanted[0])}")

    def expect_some(self, name, ran, fault, given):
        """Whether the run wrote an answer; else it tells one such fault, whose place is in the input."""
        if ran is None or ran.status == OK:
            return ran is not None
        line = re.fullmatch(rb"(?:" + fault + rb")\n", ran.err)
        if line is None or int(line.group(1) or 0) > len(given):
            self.report(name, f"was {shown(ran)}, which is no fault of its input")
        return False

    def check(self, group, name, words, text, *wanted, **given):
        """A run that is one of the wanted ones."""
        ran = self.run(group, name, words, text, **given)
        self.expect(name, ran, *wanted)
        return ran

    def check_by_workers(self, group, name, verb, text, workers, *wanted, **given):
        """The same run with each of these numbers of workers."""
        for n in workers:
            self.check(group, f"{verb}, {n} workers, {name}", [verb, "--workers", str(n)], text, *wanted, **given)


def new_folder():
    """A folder that is removed with what is in it. Any user may look into it."""
    folder = tempfile.TemporaryDirectory(prefix="hostile-", ignore_cleanup_errors=True)
    os.chmod(folder.name, 0o755)
    return folder


def write(folder, name, data):
    """Writes a file below a folder, and answers its path."""
    path = os.path.join(folder, name)
    os.makedirs(os.path.dirname(path), exist_ok=True)
    with open(path, "wb") as out:
        out.write(data if isinstance(data, bytes) else data.encode())
    return path
