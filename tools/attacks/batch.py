"""Random sets of files for `batch`: values that import each other, faults of each kind, loops, folders, links, sockets and devices in
place of files, files that may not be read, imports that share frozen parts, over caches whose entries are right, missing, torn, wrong or no
file; named by 1 to 256 words in every spelling, one file many times, by 1 to 64 workers. Each line is what `hash` says of an import of that
file alone, over a copy of the same cache, and afterwards the cache has what those runs kept. Words that spell no location and more than 256
of them are told before anything is kept; runs that share a cache and are killed; closed and full streams; little memory."""

import os
import random
import re
import resource
import shutil
import socket

import expressions
from attacks import faults, graphs
from attacks.caches import digest, entry_of, frozen, put, share_a_cache
from attacks.memory import MB, least_to_start, limited
from attacks.places import as_nobody
from attacks.runs import LONG, MEMORY, NO_MEMORY, NOT_WRITTEN, OK, WRITE, Ran, misused, new_folder, shown, write

MOST_FILES = 256
FRONTS = ("/", "./", "../", "~/")
# "local" of dhall.abnf, in ASCII.
LOCATION = re.compile(r'(?:\.\.?|~)?(?:/(?:[!$-\'*+\-.0-9:;=@A-Z^-z|~]+|"[ !#-.0-~]+"))+')
DEVICES = ["/dev/null", "/dev/zero", "/dev/full", "/dev", "/proc/self/mem", "/proc", "/nonexistent/a", "/dev/null/a"]
# Words that spell no location, as they stand or behind `./`.
NO_FILES = ["", " ", "a b", " a", "a ", "a/", "a//b", "/", "//", "./", ".//a", "../", "~/", '"a', 'a"', '""', 'a/""', '"a"b', "a#", "a,b", "a?b", "(./a)",
            "[ ./a ]", "{a}", "<a>", "a\\b", "a\n", "\ta", "a\x7f", "\u03bb", '"\u03bb"', "a as Text", "./a as Location", "a sha256:" + "0" * 64,
            "./a ? ./b", "./a -- b", "http://h/a", "https://h/a"]
# Words that look like something else, and spell a location behind `./`.
ODD_FILES = ["-", "--", "-h", "--help", "--workers", "4", ".", "..", "~", "~a", ".a", "..a", "...", "missing", "env:HOME", "hash", "a`b", "a:b", '"a b"',
             "a/../..", "a/.", '"."', '".."', '".."/a', "sha256:0", "True"]
LETTERS = ["a", "b", ".", "..", "/", "/", "/", "~", '"', '"', " ", "-", "#", "?", "x y", "\u03bb", ":", "1"]


def text_of(word):
    """The text of the import that a word stands for."""
    return word if word.startswith(FRONTS) else "./" + word


def names_file(word):
    return LOCATION.fullmatch(text_of(word)) is not None


def wanted_of(words, alone):
    """What `batch` is to write of these words: the lines that `hash` alone writes of each, and the status of the first that is not good."""
    ends = [alone(text_of(word)) for word in words]
    lines = b"".join(word.encode() + b": " + end.out + end.err for word, end in zip(words, ends))
    return Ran(next((end.status for end in ends if end.status != OK), OK), lines, b"")


def first_other(ran, wanted):
    """Where a run is another than it is to be."""
    got, lines = (it.out.split(b"\n") for it in (ran, wanted))
    for k, (line, right) in enumerate(zip(got, lines)):
        if line != right:
            return f"line {k + 1} is {line[:160]!r}, wanted {right[:160]!r}"
    return f"{len(got) - 1} lines with status {ran.status} and {ran.err[:80]!r}, wanted {len(lines) - 1} with status {wanted.status}"


def read(path):
    with open(path, "rb") as file:
        return file.read()


def entries(cache):
    """The names in a cache with their bytes, None where there is no file."""
    folder = os.path.join(cache, "dhall")
    paths = {name: os.path.join(folder, name) for name in os.listdir(folder)} if os.path.isdir(folder) else {}
    return {name: read(path) if os.path.isfile(path) else None for name, path in paths.items()}


class Room:
    """A folder with files of every kind, the folders `work`, in which the program runs, `home` and `cache`. What `hash` says of a file and
    keeps is found out once, over a copy of the cache."""

    def __init__(self, runs, source, folder):
        self.runs, self.source, self.folder = runs, source, folder
        self.work, self.cache = os.path.join(folder, "work"), os.path.join(folder, "cache")
        # Components from the folder.
        self.places = []
        self.env = {"HOME": os.path.join(folder, "home")}
        self.ends, self.kept = {}, {}
        self.copies = 0
        for make in (self.make_values, self.make_faults, self.make_odd, self.make_parts, self.make_home):
            make()
        os.chmod(self.cache, 0o777)

    # ---- files

    def make_values(self):
        """Programs over files and variables."""
        maker, env = graphs.make_graph(self.source, self.work, self.source.randrange(1, 25))
        self.env.update(env)
        self.places += [["work", *at] for at, _, _ in maker.files if not isinstance(at, str)]

    def make_faults(self):
        """A graph with faults and loops, in a folder of its own."""
        files = faults.Maker(self.source, self.source.choice([2, 5, 13, 40])).files()
        folder = os.path.join(self.work, "faults")
        faults.make_files(folder, files)
        self.places += [["work", "faults", *at.split("/")[1:]] for at in [*files, *faults.SPOILT, "./folder", "./link", "./gone"]]

    def make_odd(self):
        folder = os.path.join(self.work, "odd")
        for name, data in (("closed", "1"), ("a b", "2"), ("{}", "3"), ("shut/in", "4"), ("n" * 255, "5")):
            write(folder, name, data)
        os.symlink("a b", os.path.join(folder, "link"))
        os.symlink("gone", os.path.join(folder, "dangling"))
        with socket.socket(socket.AF_UNIX) as door:
            here = os.getcwd()
            os.chdir(folder)
            # (a socket's path has at most 107 bytes)
            door.bind("socket")
            os.chdir(here)
        os.chmod(os.path.join(folder, "closed"), 0)
        os.chmod(os.path.join(folder, "shut"), 0)
        names = ["closed", "a b", "{}", "n" * 255, "n" * 256, "link", "dangling", "socket", "gone", "shut"]
        self.places += [["work", "odd", name] for name in names] + [["work", "odd", "shut", "in"], ["work", "odd", "a b", "c"], ["work", "odd"]]

    def make_parts(self):
        """Files that import the same parts by their digests, by wrong ones, and where only the cache has them."""
        count = self.source.choice([1, 3, 10])
        forms = [expressions.encoded(("nat", k)) for k in range(count)]
        for k in range(count):
            write(self.work, f"parts/p{k}", self.source.choice([str(k), f"{k} + 0", f"let x = {k} in x"]))
        for n in range(self.source.randrange(1, 30)):
            items = [self.import_of(forms, self.source.randrange(count)) for _ in range(self.source.randrange(1, 6))]
            write(self.work, f"users/u{n}", "[ " + ", ".join(items) + " ]")
            self.places.append(["work", "users", f"u{n}"])
        os.makedirs(os.path.join(self.cache, "dhall"))
        os.chmod(os.path.join(self.cache, "dhall"), 0o777)
        states = self.source.choice([["none"], ["right"], ["none", "right"], ["none", "right", "torn", "wrong", "no expression", "folder"]])
        for form in forms:
            self.put_entry(form, self.source.choice(states), forms)

    def import_of(self, forms, k):
        here, gone = f"../parts/p{k} sha256:{digest(forms[k])}", f"../gone{k} sha256:{digest(forms[k])}"
        other = f"../parts/p{k} sha256:{digest(self.source.choice(forms))}"
        return self.source.choice([here, here, here, f"../parts/p{k}", f"({gone} ? {here})", f"({other} ? 7)", *([other, gone] if self.source.random() < 0.3 else [])])

    def put_entry(self, form, state, forms):
        if state == "folder":
            os.mkdir(entry_of(self.cache, form))
        elif state != "none":
            data = {"right": form, "torn": form[:self.source.randrange(len(form))], "wrong": self.source.choice(forms), "no expression": b"\xff" * 9}[state]
            put(self.cache, form, data)

    def make_home(self):
        write(self.folder, "home/h0", "1")
        write(self.folder, "home/h1", "~/h0 + ./h0 + ../work/parts/p0")
        write(self.folder, "home/h2", "env:UNSET ? (~/gone ? ~/h1)")
        write(self.folder, "home/h3", "../work/odd/closed + 1")
        self.places += [["home", f"h{n}"] for n in range(5)]

    # ---- words

    def spelled(self, part):
        is_plain = expressions.COMPONENT.match(part)
        return part if is_plain and self.source.random() < 0.9 else f'"{part}"'

    def spell(self, at):
        """A word that names what is at a place."""
        fronts = {"/": [*self.folder.split("/")[1:], *at], "../": at, "~/": ["..", *at]}
        if at[0] == "work":
            fronts["./"] = fronts[""] = at[1:]
        if at[0] == "home":
            fronts["~/"] = at[1:]
        front = self.source.choice(sorted(fronts))
        parts = []
        for part in fronts[front]:
            roll = self.source.random()
            parts += [".", "."] if roll < 0.03 else ["way", ".."] if roll < 0.06 else []
            parts.append(part if part == ".." else self.spelled(part))
        return front + "/".join(parts)

    def words(self, count):
        """So many words, of which some name one file."""
        pool = [self.spell(self.source.choice(self.places)) for _ in range(self.source.choice([1, 5, 30]))]
        pool += self.source.sample(DEVICES, self.source.randrange(2)) + self.source.sample(ODD_FILES, self.source.randrange(2))
        return [self.source.choice(pool) for _ in range(count)]

    # ---- runs

    def copy(self):
        """The environment with a copy of the cache, and its path."""
        self.copies += 1
        path = f"{self.cache}-{self.copies}"
        shutil.copytree(self.cache, path)
        return {**self.env, "XDG_CACHE_HOME": path}, path

    def given(self):
        return {"folder": self.work, "before": as_nobody if os.geteuid() == 0 else None}

    def alone(self, text):
        if text not in self.ends:
            env, cache = self.copy()
            self.ends[text] = self.runs.run("files alone", text[:80], ["hash"], text.encode(), env=env, **self.given()) or Ran(None, b"", b"")
            before = entries(self.cache)
            self.kept[text] = {name: data for name, data in entries(cache).items() if name not in before or before[name] != data}
            shutil.rmtree(cache)
        return self.ends[text]

    def cache_after(self, words):
        after = entries(self.cache)
        for word in words:
            after.update(self.kept[text_of(word)])
        return after

    def check(self, group, name, words, workers):
        """A run on words that all name files."""
        wanted = wanted_of(words, self.alone)
        for n in workers:
            env, cache = self.copy()
            what = f"{name}, {n} workers, {words!r:.60}"
            ran = self.runs.run(group, what, ["batch", "--workers", str(n), *words], is_formed=False, env=env, seconds=LONG, **self.given())
            if ran is not None and ran != wanted:
                self.runs.report(what, first_other(ran, wanted))
            self.expect_cache(what, cache, self.cache_after(words))
            shutil.rmtree(cache)

    def refuse(self, name, words, at):
        """A run of which the operand of this number, from 0, is at fault. It keeps nothing."""
        fronts = [["--workers", str(self.source.randrange(1, 65))]]
        # (a first word `--workers` is no file)
        for front in fronts if words[:1] == ["--workers"] else [[], *fronts]:
            env, cache = self.copy()
            self.runs.check("words", f"{name}, {words!r:.60}", ["batch", *front, *words], b"", misused(2 + len(front) + at), env=env, **self.given())
            self.expect_cache(name, cache, entries(self.cache))
            shutil.rmtree(cache)

    def expect_cache(self, name, cache, wanted):
        found = entries(cache)
        if found != wanted:
            others = sorted(it for it in {*found, *wanted} if found.get(it, 0) != wanted.get(it, 0))
            self.runs.report(name, f"left a cache of which {others} are not what the runs one by one leave")


def random_rooms(runs, source):
    for n in range(runs.few(40, 5)):
        with new_folder() as folder:
            room = Room(runs, source, folder)
            for k in range(runs.few(5, 2)):
                words = room.words(source.choice([1, 2, 5, 20, 100, 255, 256]))
                room.check("random files", f"set {k} of room {n}", words, {1, 4, source.randrange(2, 65), source.randrange(2, 65)})
            bad_words(room, source)
            os.chmod(os.path.join(room.work, "odd", "shut"), 0o700)


def bad_words(room, source):
    """A word that spells no location somewhere in a list; random words, which do or do not; a word too many."""
    good = [word for word in room.words(40) if names_file(word)]
    for word in [source.choice(NO_FILES), "".join(source.choice(LETTERS) for _ in range(source.randrange(1, 7)))]:
        at = source.choice([0, 1, len(good), 255])
        words = (good * MOST_FILES)[:at] + [word] + good[:source.randrange(3)]
        words += source.choice([[], [source.choice(NO_FILES)]])
        if names_file(word):
            room.check("random words", "a random word", [word], [1])
        else:
            room.refuse(f"no location {word!r}", words, at)
    many = [source.choice(good) for _ in range(MOST_FILES + 1 + source.choice([0, 1, 300]))]
    many[MOST_FILES] = source.choice([many[MOST_FILES], source.choice(NO_FILES)])
    room.refuse("a word too many", many, MOST_FILES)


def worked_words(runs, source):
    """Each word of the tables, in a folder with one file of each name."""
    with new_folder() as folder:
        room = Room(runs, source, folder)
        for word in NO_FILES:
            if names_file(word):
                runs.report(repr(word), "is a location after all")
            room.refuse(f"no location {word!r}", [word], 0)
        for word in ODD_FILES:
            room.check("odd words", f"{word!r}", ["./users/u0", word], [1, 4])
        room.check("odd words", "all of them", [*DEVICES, *ODD_FILES], [1, 3, 64])
        room.refuse("no word", [], 0)
        for words, k in ((["--workers"], 3), (["--workers", "0", "users/u0"], 3), (["--workers", "65", "users/u0"], 3), (["--workers", "04", "users/u0"], 3)):
            runs.check("words", f"{words}", ["batch", *words], b"", misused(k))
        # Of a word that is no text the system library tells nothing.
        runs.check("words", "a word that is no text", ["batch", b"a", b"\xff"], b"", misused(1))
        os.chmod(os.path.join(room.work, "odd", "shut"), 0o700)


def each_number_of_workers(runs, source):
    """One set of 256 words, of which some name one file, by each number of workers."""
    with new_folder() as folder:
        room = Room(runs, source, folder)
        words = [room.spell(source.choice(room.places)) for _ in range(60)]
        words = [source.choice(words) for _ in range(MOST_FILES)]
        room.check("each number of workers", "256 words", words, runs.few(range(1, 65), [1, 2, 3, 64]))
        same = [source.choice(words)] * MOST_FILES
        room.check("each number of workers", "one file 256 times", same, [1, 2, 63, 64])
        os.chmod(os.path.join(room.work, "odd", "shut"), 0o700)


def many_runs(runs):
    """Runs beside each other over one cache, some of which are killed on their way."""
    values = [("text", [f"{k}" + "k" * 20_000], []) for k in range(100)]
    forms = [expressions.encoded(v) for v in values]
    with new_folder() as folder:
        for k, form in enumerate(forms):
            write(folder, f"part{k}", expressions.printed(values[k]))
            write(folder, f"f{k}", frozen(f"./part{k}", form))
        lines = b"".join(b"f%d: sha256:%s\n" % (k, digest(form).encode()) for k, form in enumerate(forms))
        share_a_cache(runs, folder, ["batch", *(f"f{k}" for k in range(100))], b"", Ran(OK, lines, b""), forms)


def streams(runs):
    """No input is read, and an output that cannot be written has its status, whatever the files are."""
    with new_folder() as folder:
        write(folder, "a", "1")
        words, good = ["batch", "a"], Ran(OK, b"a: sha256:" + digest(expressions.encoded(("nat", 1))).encode() + b"\n", b"")
        reader, writer = os.pipe()
        for name, given, wanted in (("stdin closed", {"before": lambda: os.close(0)}, good), ("stdin that never ends", {"stdin": reader}, good),
                                    ("stdout closed", {"before": lambda: os.close(1)}, NOT_WRITTEN), ("stderr closed", {"before": lambda: os.close(2)}, good)):
            runs.check("streams", name, words, None, wanted, folder=folder, **given)
        os.close(reader)
        os.close(writer)
        for words in (["batch", "a"], ["batch", "gone", "a"]):
            with open("/dev/full", "wb") as full:
                ran = runs.run("streams", f"{words}, stdout full", words, b"", folder=folder, is_formed=False, stdout=full)
            runs.expect(f"{words}, stdout full", ran, Ran(WRITE, None, NOT_WRITTEN.err))


def lacks_memory(ran, good):
    """Whether a run differs from a good one in lines that say that memory is wanting, and in the status of that."""
    got, lines = ran.out.split(b"\n"), good.out.split(b"\n")
    are_lines = [line in (right, right.partition(b": ")[0] + b": out of memory") for line, right in zip(got, lines)]
    return len(got) == len(lines) and all(are_lines) and ran.err == b"" and ran.status == MEMORY


def little_memory(runs):
    """Under a limit on its address space the answer is whole, or is that memory is wanting, for some files or for all."""
    start = least_to_start(runs)
    if start is None:
        runs.notes.append("the program does not start under 64 MB: nothing was asked under a limit")
        return
    # (below that a stack may lack room to grow, as docs/OPEN.md says)
    start += MB // 2
    with new_folder() as folder:
        for n in range(40):
            write(folder, f"f{n}", f"Natural/fold 3000 Natural (\\(x : Natural) -> x + 1) {n}")
        lines = b"".join(b"f%d: sha256:%s\n" % (n, digest(expressions.encoded(("nat", n + 3000))).encode()) for n in range(40))
        wanted, leasts = Ran(OK, lines, b""), []
        for workers in ("1", "4", "64"):
            answers = []
            for size in [start + k * MB // 4 for k in range(0, 16, runs.few(1, 4))] + [mb * MB for mb in (12, 16, 24, 32, 48, 64, 100, 200, 400)]:
                name = f"40 files, {workers} workers, {size / MB:.2f} MB"
                ran = runs.run("little memory", name, ["batch", "--workers", workers, *(f"f{n}" for n in range(40))], b"", folder=folder,
                               before=limited(resource.RLIMIT_AS, size), is_formed=False, seconds=LONG)
                if ran is not None and ran not in (wanted, NO_MEMORY) and not lacks_memory(ran, wanted):
                    runs.report(name, f"was {shown(ran)}")
                answers += [size] if ran == wanted else []
            leasts.append(f"{min(answers) / MB:.2f} MB by {workers}" if answers else f"no limit by {workers}")
        runs.notes.append("forty files: answers from " + ", ".join(leasts))


def attack(runs):
    source = random.Random(runs.seed)
    worked_words(runs, source)
    random_rooms(runs, source)
    each_number_of_workers(runs, source)
    many_runs(runs)
    streams(runs)
    little_memory(runs)
