"""Random scripts of the watcher: files are set to random texts, among them texts that are no UTF-8, that have faults, that import in
loops, that take the other side of `?` or that ask for a digest; some are dropped, and any is asked. The resolver of faults.py says over
the contents as they then are what each ask is, and this module counts whose text it asked; some asks are compared with
`dhall hash` and `dhall batch` over the same files. Lines that are no order are refused by their number before anything is asked, and so
are texts that are no script. With `--files` such texts stand in files, which are set, dropped and written again one by one while they
are watched: each edit writes the lines that are others by it, with the number of files that are fetched for them, and nothing else."""

import collections
import os
import random
import subprocess
import time

from attacks import faults
from attacks.runs import IMPORT, MOST_BYTES, NOT_READ, NOT_WRITTEN, OK, SECONDS, TEXT, TOO_LARGE, USAGE, WRITE
from attacks.runs import Ran, misused, new_folder, refused, write, written
from attacks.streams import closed

# Locations that no script sets, and what they are: a fault that is told without asking a text, or none.
UNASKED = {"missing": faults.OUTSIDE["missing"], "https://example.com/a": faults.OUTSIDE["https://example.com/a"]}
ABSENT = ["./gone", "./gone/away", "env:UNSET", "~/gone", "/gone", "../gone", "http://127.0.0.1:1/a"]
# Where `dhall` itself finds the same as the watcher: nothing, and no device.
SAFE = ["./gone", "./gone/away", "missing", "https://example.com/a"]

# Lines that are no order.
BAD_LINES = [
    b"", b" ", b"set", b"set ", b"set ./a", b"set ./a 3", b"set ./a 3g", b"set ./a 3 1", b"set ./a 31 ", b"set 31", b"set missing 31", b"set ./a\t31",
    b"SET ./a 31", b" set ./a 31", b"set./a 31", b"set ./a as Text 31", b"set 1 31", b"drop", b"drop ", b"drop missing", b"drop ./a 31", b"dropp ./a",
    b"ask", b"ask ", b"ask missing", b"ask ./a as Text", b"ask ./a as Location", b"ask ./a sha256:" + b"0" * 64, b"ask ./a ./b", b"ask ./a ? ./b", b"ask 1",
    b"ask ./", b"ask .", b"ask ./a/", b"ask ./a\r", b"ask a", b"ask \"./a\"", b"ask [ ./a ]", b"ask let x = 1 in ./a", "ask ./é".encode(), b"asks ./a",
    b"Ask ./a", b"#", b"-- ask ./a",
]
# Ways to write `ask ./a`.
ASKS = [b"ask ./a", b"ask  ./a", b"ask ./a ", b"ask ./\"a\"", b"ask ./b/../a", b"ask ././a", b"ask ./a {- a file -}", b"ask (./a)", b"ask {- \xce\xbb -}./a"]
ONE = b"./a: sha256:" + b"%s (asked %d)\n"


class Now(faults.World):
    """The contents as they are at one ask. It notes whose text was asked."""

    def __init__(self, contents):
        super().__init__(contents)
        self.asked = set()

    def work(self, key, chain):
        location, mode, digest = key
        if digest is not None:
            return self.compared(key, self.outcome((location, mode, None), chain))
        if mode == 2:
            return 1
        if location in UNASKED:
            return faults.At(location, UNASKED[location])
        self.asked.add(location)
        if location not in self.files:
            return faults.At(location, faults.ABSENT)
        _, e, spoilt = self.files[location]
        if spoilt is None:
            return 1 if mode == 1 else self.walk(e, chain, location)
        _, fault, is_no_text = spoilt
        return faults.At(location, fault) if mode == 0 or is_no_text else 1


class Maker(faults.Maker):
    """Makes the texts that a script sets."""

    def __init__(self, source, size, is_safe):
        super().__init__(source, size)
        self.is_safe = is_safe

    def target(self, n):
        roll = self.source.random()
        if roll < self.badness:
            return self.source.choice([*UNASKED, *(SAFE if self.is_safe else ABSENT)])
        if roll > 1 - self.looping:
            return f"./f{self.source.randrange(self.size)}"
        return f"./f{self.source.randrange(n + 1, self.size)}" if n + 1 < self.size else "./flast"

    def content(self, n):
        """Bytes, with the expression that they spell or the fault that they are."""
        if self.source.random() < self.badness / 3:
            spoilt = self.source.choice([s for name, s in faults.SPOILT.items() if name != "./large"])
            return spoilt[0], None, spoilt
        e = self.expression(n, self.source.randrange(3)) if n < self.size else ("nat", self.source.randrange(5))
        if self.source.random() < self.badness / 6:
            e = ("ill", e)
        return faults.text_of(e).encode(), e, None


def line_of(end):
    """What is written of an ask that ended so, and its status."""
    ran = faults.wanted_of(end, "hash")
    return (ran.out + ran.err).rstrip(b"\n"), ran.status


class Script:
    """A script as it is made, with what it is to write."""

    def __init__(self, source, size, is_safe):
        self.source, self.maker = source, Maker(source, size, is_safe)
        self.names = [f"./f{n}" for n in range(size)] + ["./flast"]
        self.lines, self.out, self.status = [], [], OK
        self.contents, self.kept = {}, set()
        self.counts = collections.Counter()

    def set(self, n):
        name = self.names[n]
        self.contents[name] = self.maker.content(n)
        self.kept.discard(name)
        digits = self.contents[name][0].hex()
        self.lines.append(f"set {name} {digits.upper() if self.source.random() < 0.5 else digits}".encode())

    def drop(self, name):
        self.contents.pop(name, None)
        self.kept.discard(name)
        self.lines.append(f"drop {name}".encode())

    def ask(self, name):
        now = Now(self.contents)
        end = now.outcome((name, 0, None), [])
        line, status = line_of(end)
        new = now.asked - self.kept
        self.kept |= new
        self.lines.append(f"ask {name}".encode())
        self.out.append(name.encode() + b": " + line + b" (asked %d)\n" % len(new))
        self.status = self.status or status
        self.counts[type(end).__name__] += 1
        return line, status

    def order(self, chances):
        roll = self.source.random()
        if roll < chances[0]:
            self.set(self.source.randrange(len(self.names)))
        elif roll < chances[0] + chances[1]:
            self.drop(self.source.choice([*self.names, *ABSENT[:2]]))
        else:
            self.ask(self.source.choice(self.names if self.source.random() < 0.9 else self.names + ABSENT + ["https://example.com/a"]))

    def text(self):
        return b"\n".join(self.lines) + (b"\n" if self.source.random() < 0.8 else b"")

    def wanted(self):
        return Ran(self.status, b"".join(self.out), b"")


def watch(runs, group, name, text, *wanted, words=(), **given):
    """One run of the watcher on a script, that is one of the wanted ones."""
    ran = runs.run(group, name, words, text, program=runs.watcher, is_formed=False, **given)
    if wanted:
        runs.expect(name, ran, *wanted)
    return ran


def check_script(runs, source, name, size):
    script = Script(source, size, False)
    chances = source.choice([(0.5, 0.1), (0.3, 0.05), (0.2, 0.02), (0.7, 0.1)])
    for n in range(size + 1):
        if source.random() < 0.8:
            script.set(n)
    for _ in range(source.choice([5, 20, 80, 300])):
        script.order(chances)
    text = script.text()
    ran = watch(runs, "random scripts", name, text)
    if ran is not None and ran != script.wanted():
        runs.report(name, f"was {first_other(ran, script)}")
    runs.ends += script.counts


def first_other(ran, script):
    """Where a run is another than it is to be."""
    for k, (line, wanted) in enumerate(zip(ran.out.splitlines(), b"".join(script.out).splitlines())):
        if line != wanted:
            return f"{line!r} at ask {k + 1}, wanted {wanted!r}"
    return f"{len(ran.out.splitlines())} lines with status {ran.status} and {ran.err!r}, wanted {len(script.out)} with status {script.status}"


def check_by_hash(runs, source, name, size):
    """Each line of a script is the one that `hash` and `batch` write over the same files."""
    script = Script(source, size, True)
    with new_folder() as folder:
        for n in range(size + 1):
            script.set(n)
        for _ in range(12):
            for _ in range(source.randrange(3)):
                script.set(source.randrange(size + 1))
            for at, (data, _, _) in script.contents.items():
                write(folder, at, data)
            asked = source.choice(script.names)
            line, status = script.ask(asked)
            wanted = written(line + b"\n") if status == OK else refused(line, status)
            runs.check("scripts by hash", f"{asked} of {name}", ["hash"], asked.encode(), wanted, folder=folder)
            of_batch = Ran(status, asked.encode() + b": " + line + b"\n", b"")
            runs.check("scripts by batch", f"{asked} of {name}", ["batch", asked], b"", of_batch, folder=folder, is_formed=False)
        watch(runs, "scripts by hash", name, script.text(), script.wanted())


def digest_line(n, asked):
    return ONE % (line_of(n)[0].removeprefix(b"sha256:"), asked)


def check_rows(runs):
    """Scripts whose answers were worked out by hand."""
    edited = b"set ./a 2E2F62202B2031\nset ./b 32\nask ./a\nask ./a\nset ./b 35\nask ./a\ndrop ./b\nask ./a\n"
    lines = digest_line(3, 2) + digest_line(3, 0) + digest_line(6, 1) + b"./a: in ./b: absent (asked 1)\n"
    watch(runs, "rows", "edits of an import", edited, Ran(IMPORT, lines, b""))
    watch(runs, "rows", "nothing", b"", Ran(OK, b"", b""))
    watch(runs, "rows", "no ask", b"set ./a 31\ndrop ./a\nset ./a ", Ran(OK, b"", b""))
    watch(runs, "rows", "an empty text", b"set ./a \nask ./a", Ran(TEXT, b"./a: in ./a: syntax at 0 (asked 1)\n", b""))
    watch(runs, "rows", "two names of one file", b"set ./b/../a 31\nask ./a\n", Ran(OK, digest_line(1, 1), b""))
    for line in ASKS:
        watch(runs, "rows", f"{line!r}", b"set ./a 31\n" + line, Ran(OK, digest_line(1, 1), b""))
    back = b"set ./a 2E2F62\nset ./b 2E2F61\nask ./a\nask ./b\nset ./b 31\nask ./b\nask ./a\n"
    lines = b"./a: in ./a: import cycle (asked 2)\n./b: in ./a: import cycle (asked 0)\n"
    lines += digest_line(1, 1).replace(b"./a", b"./b") + digest_line(1, 0)
    watch(runs, "rows", "a loop that is broken", back, Ran(IMPORT, lines, b""))


def check_refusals(runs, source):
    """Lines that are no order, in any place; texts that are no script; words."""
    for line in BAD_LINES:
        for before in (0, source.randrange(1, 40)):
            good = [source.choice([b"set ./a 31", b"drop ./a", b"ask ./a", b"ask ./b"]) for _ in range(before)]
            after = [source.choice([b"ask ./a", b"", b"no order"]) for _ in range(source.randrange(3))] or [b"ask ./a"]
            text = b"\n".join([*good, line, *after])
            watch(runs, "bad lines", f"{line!r} as line {before + 1}", text, refused(b"usage: line %d" % (before + 1), USAGE))
    for at in (0, 5, 12):
        text = bytearray(b"ask ./a\nask ./b\n")
        text[at] = 0xFF
        watch(runs, "no scripts", f"a byte that is no UTF-8 at {at}", bytes(text), refused(b"not UTF-8 at %d" % at))
    full = b"ask ./a\n" * (MOST_BYTES // 8)
    watch(runs, "no scripts", "a script of the greatest length", full, Ran(IMPORT, b"./a: in ./a: absent (asked 1)\n"
          + b"./a: in ./a: absent (asked 0)\n" * (MOST_BYTES // 8 - 1), b""), seconds=60)
    watch(runs, "no scripts", "one byte more", full + b" ", refused(b"larger than 1048576 bytes"))
    watch(runs, "no scripts", "one byte more, and no UTF-8", b"\xff" * (MOST_BYTES + 1), refused(b"larger than 1048576 bytes"))
    watch(runs, "words", "a word", b"\xff", misused(1), words=["ask"])
    watch(runs, "words", "an empty word", b"ask ./a", misused(1), words=[""])
    watch(runs, "words", "two words", b"ask ./a", misused(1), words=["a", "--help"])


def check_streams(runs):
    """Scripts whose standard streams are closed, full, endless or cannot be read."""
    text, good = b"set ./a 31\nask ./a\n", written(digest_line(1, 1))

    def check(name, given, wanted, **streams):
        runs.expect(name, runs.run("streams", f"script, {name}", [], given, program=runs.watcher, is_formed=False, **streams), wanted)

    check("stdout closed", text, NOT_WRITTEN, before=closed(1))
    check("stderr closed", text, good, before=closed(2))
    check("both closed", text, Ran(WRITE, b"", b""), before=closed(1, 2))
    check("stdin closed", None, NOT_READ, before=closed(0))
    check("stderr closed, refused", b"ask", Ran(WRITE, b"", b""), before=closed(2))
    with open("/dev/full", "wb") as full:
        check("stdout full", text, Ran(WRITE, None, NOT_WRITTEN.err), stdout=full)
        check("stderr full", text, Ran(OK, good.out, None), stderr=full)
        check("stderr full, refused", b"ask", Ran(WRITE, b"", None), stderr=full)
    for path, wanted in (("/dev/null", written(b"")), ("/dev/zero", TOO_LARGE), ("/dev/urandom", TOO_LARGE)):
        with open(path, "rb") as given:
            check(f"stdin {path}", None, wanted, stdin=given)
    folder, writer = os.open("/", os.O_RDONLY), os.open("/dev/null", os.O_WRONLY)
    for name, given in (("a folder", folder), ("what is only written", writer)):
        check(f"stdin {name}", None, NOT_READ, stdin=given)
        os.close(given)


def check_many(runs):
    """As many keys as an ask may visit, and one more."""
    def script(n):
        files = [f"set ./f{k} {f'./f{k + 1}'.encode().hex()}" for k in range(n - 1)]
        return "\n".join([*files, f"set ./f{n - 1} 31", *["ask ./f0", "ask ./f1"] * 2]).encode()

    line, refused = line_of(1)[0], b"./f0: more than 4096 imports\n"
    few = b"".join(b"./f0: %s (asked %d)\n./f1: %s (asked 0)\n" % (line, n, line) for n in (4096, 0))
    watch(runs, "many keys", "4096 files in a chain", script(4096), Ran(OK, few, b""), seconds=60)
    # (what the second ask decides is not free for the third)
    many = [refused + b"./f1: %s (asked %d)\n" % (line, n) + refused + b"./f1: %s (asked 0)\n" % line for n in range(4097)]
    ran = watch(runs, "many keys", "4097 files in a chain", script(4097), *[Ran(4, out, b"") for out in many], seconds=60)
    runs.notes.append(f"after an ask of 4097 keys: {ran and ran.out.splitlines()[-1][-20:]}")


class Watched:
    """Files that are watched while they are edited, and what is written of them. The last location is `./marker`, whose text is
    another each time that one waits for a look."""

    def __init__(self, runs, folder, names):
        self.folder, self.looks, self.seconds = folder, 0, SECONDS * runs.slowness
        self.mark()
        self.path = os.path.join(folder, "lines")
        # (it is read by another file: a seek in this one would move where the program writes)
        self.out = open(self.path, "ab")
        self.process = subprocess.Popen([runs.watcher, "--files", *names, "./marker"], stdin=subprocess.PIPE, stdout=self.out, stderr=subprocess.PIPE,
                                        cwd=folder, env={})

    def put(self, name, data):
        """Sets a file at once: no look finds a part of it."""
        os.replace(write(self.folder, "new", data), os.path.join(self.folder, name))

    def drop(self, name):
        if os.path.exists(os.path.join(self.folder, name)):
            os.remove(os.path.join(self.folder, name))

    def mark(self):
        self.looks += 1
        self.put("./marker", str(self.looks))

    def lines(self):
        with open(self.path, "rb") as file:
            return file.read().splitlines(keepends=True)

    def is_seen(self):
        """Waits for the line of the marker as it now is."""
        end = time.monotonic() + self.seconds
        while sum(line.startswith(b"./marker: ") for line in self.lines()) < self.looks:
            if time.monotonic() > end or self.process.poll() is not None:
                return False
            time.sleep(0.02)
        return True

    def is_looked_at(self):
        """Waits until a whole look was made: one that begins after the marker of another was seen ends with the next."""
        for _ in range(2):
            self.mark()
            if not self.is_seen():
                return False
        return True

    def ended(self):
        """Ends standard input, and answers what was written but for the marker, and what stands on standard error."""
        try:
            _, err = self.process.communicate(timeout=self.seconds)
        except subprocess.TimeoutExpired:
            self.process.kill()
            _, err = self.process.communicate()
        return Ran(self.process.returncode, b"".join(line for line in self.lines() if not line.startswith(b"./marker: ")), err)


class Showing(Script):
    """What is to be written of files that are watched."""

    def __init__(self, source, size, asked):
        super().__init__(source, size, True)
        self.asked, self.told = asked, {}

    def show(self):
        """Each location is asked; the lines are written that are others."""
        self.status = OK
        for name in self.asked:
            shown = len(self.out)
            line, _ = self.ask(name)
            if self.told.get(name) == line:
                del self.out[shown:]
            self.told[name] = line


def edit(source, script, watched):
    """One file is set, dropped, or written again as it was."""
    n = source.randrange(len(script.names))
    name = script.names[n]
    roll = source.random()
    if roll < 0.6:
        before = script.contents.get(name)
        kept = set(script.kept)
        script.set(n)
        if before is not None and before[0] == script.contents[name][0]:
            script.kept = kept
        watched.put(name, script.contents[name][0])
    elif roll < 0.8 and name in script.contents:
        script.drop(name)
        watched.drop(name)
    elif name in script.contents:
        watched.put(name, script.contents[name][0])


def check_files(runs, source, name, size):
    """Files are edited one by one while they are watched."""
    with new_folder() as folder:
        asked = source.sample([f"./f{n}" for n in range(size)], min(size, source.randint(1, 3)))
        script = Showing(source, size, asked)
        for n in range(size + 1):
            if source.random() < 0.9:
                script.set(n)
                write(folder, script.names[n], script.contents[script.names[n]][0])
        script.show()
        watched = Watched(runs, folder, asked)
        is_seen = watched.is_seen()
        for _ in range(runs.few(25, 8)):
            if not is_seen:
                runs.report(name, "a look was not made")
                break
            edit(source, script, watched)
            script.show()
            is_seen = watched.is_looked_at()
        ran = watched.ended()
        runs.count("files that are watched", name, ran.status, 0)
        if ran != script.wanted():
            runs.report(name, f"was {first_other(ran, script)}")
    runs.ends += script.counts


def check_file_rows(runs):
    """Words that name no location, files that are none, and outputs that are full."""
    def check(name, words, wanted, **given):
        runs.expect(name, runs.run("files", name, ["--files", *words], program=runs.watcher, is_formed=False, **given), wanted)

    with new_folder() as folder:
        write(folder, "one", b"1")
        write(folder, "large", b" " * (MOST_BYTES + 1))
        write(folder, "folder/two", b"./one")
        os.symlink("one", os.path.join(folder, "link"))
        one = line_of(1)[0]
        check("no word", [], misused(2), folder=folder)
        for n, word in enumerate([b"1", b"missing", b"./one as Text", b"./one ? ./one", b"", b"./", b"./one ./one", b"https://example.com/a sha256:" + b"0" * 64]):
            check(f"{word!r} as word", ["./one"] * n + [word], misused(n + 2), folder=folder)
        check("a word that is no UTF-8", [b"./\xff"], misused(1), folder=folder)
        check("one file", ["./one"], written(b"./one: %s (asked 1)\n" % one), folder=folder)
        check("one file by three names", ["./one", "./folder/../one", "./\"one\""], written(b"./one: %s (asked 1)\n" % one + b"./one: %s (asked 0)\n" % one * 2), folder=folder)
        check("a link", ["./link"], written(b"./link: %s (asked 1)\n" % one), folder=folder)
        check("a variable", ["env:A"], written(b"env:A: %s (asked 1)\n" % one), folder=folder, env={"A": "1"})
        check("a file too large", ["./large"], Ran(TEXT, b"./large: in ./large: larger than 1048576 bytes (asked 1)\n", b""), folder=folder)
        check("a folder", ["./one", "./folder"], Ran(IMPORT, b"./one: %s (asked 1)\n./folder: in ./folder: absent (asked 1)\n" % one, b""), folder=folder)
        check("a file that imports none", ["./folder/two"], Ran(IMPORT, b"./folder/two: in ./folder/one: absent (asked 2)\n", b""), folder=folder)
        with open("/dev/full", "wb") as full:
            check("a full output", ["./one"], Ran(WRITE, None, b"write failed\n"), folder=folder, stdout=full)
        check("a closed output", ["./one"], Ran(WRITE, b"", b"write failed\n"), folder=folder, before=lambda: os.close(1), stdin=subprocess.DEVNULL)


def attack(runs):
    runs.watcher = os.path.join(os.path.dirname(runs.program), "dhall_watch")
    if not os.access(runs.watcher, os.X_OK):
        runs.notes.append("there is no dhall_watch: nothing was run")
        return
    runs.ends = collections.Counter()
    source = random.Random(runs.seed)
    check_rows(runs)
    check_refusals(runs, source)
    check_streams(runs)
    check_many(runs)
    for n in range(runs.few(400, 40)):
        check_script(runs, source, f"script {n}", source.choice([1, 2, 3, 5, 8, 13, 40]))
    for n in range(runs.few(25, 4)):
        check_by_hash(runs, source, f"script {n} by hash", source.choice([2, 5, 13, 40]))
    check_file_rows(runs)
    for n in range(runs.few(20, 3)):
        check_files(runs, source, f"files {n}", source.choice([1, 2, 3, 5, 8, 13]))
    runs.notes.append("asks of random scripts: " + ", ".join(f"{count} {kind}" for kind, count in sorted(runs.ends.items())))
