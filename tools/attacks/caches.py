"""Frozen imports over caches of each state: with the right entry, a wrong one, one that is torn at each byte, none, one that is a
folder or a link, entries with the right digest that are no good expression, entries at and past 16 MiB; caches that are unset, empty,
missing, read only, a file, no text, full of parts that other writers left; many runs at once, some of them killed; a limit on the size
of files. A good entry is used, any other is as none, a bad cache changes no answer, and what is kept is whole."""

import contextlib
import hashlib
import os
import random
import resource
import signal
import subprocess

import expressions
from attacks.places import as_nobody, text_line
from attacks.runs import IMPORT, LONG, RESOLVING, Ran, new_folder, refused, write, written

RECORD = ("record", [("a", ("nat", 1)), ("b", ("list", [("text", ["x"], []), ("text", ["λ"], [])]))])
FORM = expressions.encoded(RECORD)
TEXT_OF_IT = expressions.printed(RECORD).encode()
LINE = written(TEXT_OF_IT + b"\n")
MOST_ENTRY = 16_777_216


def digest(form):
    return hashlib.sha256(form).hexdigest()


def frozen(location, form):
    return f"{location} sha256:{digest(form)}".encode()


def entry_of(cache, form):
    return os.path.join(cache, "dhall", "1220" + digest(form))


def put(cache, form, data):
    """An entry of the digest of a form, with these bytes."""
    return write(cache, "dhall/1220" + digest(form), data)


def found(cache):
    """The files of a cache with their bytes."""
    folder = os.path.join(cache, "dhall")
    return {name: open(os.path.join(folder, name), "rb").read() for name in os.listdir(folder)} if os.path.isdir(folder) else {}


def expect_cache(runs, name, cache, *forms):
    wanted = {"1220" + digest(form): form for form in forms}
    if found(cache) != wanted:
        runs.report(name, f"the cache has {sorted(found(cache))}, wanted {sorted(wanted)}, or other bytes")


def torn(form):
    """Bytes that are not those of the form: each first part, one byte more, each byte changed."""
    yield from (form[:k] for k in range(len(form)))
    yield form + b"\x00"
    yield from (form[:k] + bytes([form[k] ^ 1]) + form[k + 1:] for k in range(len(form)))


def right_and_wrong(runs):
    """The entry is asked before the file, and is mended where it is no good one."""
    root = frozen("./f", FORM)
    gone = refused(b"in ./f: absent", IMPORT)
    differs = refused(b"in ./f: digest differs: wanted %s got %s" % (
        digest(FORM).encode(), digest(expressions.encoded(("nat", 2))).encode()), IMPORT)
    with new_folder() as folder:
        cache, env = os.path.join(folder, "cache"), {"XDG_CACHE_HOME": os.path.join(folder, "cache")}
        given = {"folder": folder, "env": env}
        runs.check("entries", "none, no file", ["normalize"], root, gone, **given)
        write(folder, "f", "2")
        runs.check("entries", "none, another file", ["normalize"], root, differs, **given)
        runs.check("entries", "none, another file, a choice", ["normalize"], root + b" ? 3", written(b"3\n"), **given)
        expect_cache(runs, "nothing is kept of a fault", cache)
        write(folder, "f", TEXT_OF_IT)
        runs.check("entries", "none, a file", ["normalize"], root, LINE, **given)
        expect_cache(runs, "what a run keeps", cache, FORM)
        write(folder, "f", "2")
        for verb in RESOLVING:
            runs.check_by_workers("entries", "right, another file", verb, root, [1, 4], seen(verb, root), **given)
        for data in torn(FORM):
            put(cache, FORM, data)
            runs.check("torn entries", f"torn to {data[:40].hex()}, another file", ["normalize"], root, differs, **given)
        write(folder, "f", TEXT_OF_IT)
        for data in torn(FORM):
            put(cache, FORM, data)
            runs.check("torn entries", f"torn to {data[:40].hex()}, a file", ["normalize"], root, LINE, **given)
            expect_cache(runs, f"an entry torn to {data[:40].hex()}, mended", cache, FORM)


def seen(verb, root):
    """What a command writes of a root that is the frozen record."""
    kind = ("record type", [("a", ("builtin", "Natural")), ("b", ("app", ("builtin", "List"), ("builtin", "Text")))])
    rows = {"resolve": LINE, "normalize": LINE, "type": written(expressions.printed(kind).encode() + b"\n"),
            "hash": written(f"sha256:{digest(FORM)}\n".encode()), "freeze": written(root),
            "to-json": written('{"a":1,"b":["x","λ"]}\n'.encode())}
    return rows[verb]


def odd_entries(runs):
    """Entries with the right digest. Those that are no expression, or have an import or a free variable, are as none."""
    https = "https://example.com/p"
    refusal = refused(f"in {https}: https is refused".encode(), IMPORT)
    sum_of_two = expressions.encoded(("bin", "+", ("nat", 1), ("nat", 1)))
    identity = expressions.encoded(("lam", "x", ("builtin", "Natural"), ("var", "x", 0)))
    deep = lambda n: b"\x83\x05\xf6" * n + b"\xf5"
    rows = [
        ("the right one", FORM, LINE), ("with longer heads", bytes.fromhex("9802180f01"), written(b"1\n")), ("with a tag", b"\xd9\xd9\xf7\x82\x0f\x01", written(b"1\n")),
        ("that is no normal form", sum_of_two, written(b"2\n")), ("with names of its own", identity, written("λ(x : Natural) → x\n".encode())),
        ("nested 499 deep", deep(499), written(b"Some (" * 498 + b"Some True" + b")" * 498 + b"\n")),
        ("without a byte", b"", refusal), ("that is cut", FORM[:-1], refusal), ("with a byte more", FORM + b"\x00", refusal),
        ("with an import", expressions.encoded(("import", ("./", ("f",)), 0, None)), refusal),
        ("with an import below", expressions.encoded(("list", [("nat", 1), ("import", ("missing",), 0, None)])), refusal),
        ("with a free variable", b"\x00", refusal), ("with a free name", expressions.encoded(("var", "x", 0)), refusal),
        ("that is no expression", b"\xff" * 100, refusal), ("with a float", bytes.fromhex("f93c00"), refusal),
        ("nested 501 deep", deep(501), refusal), ("of a megabyte of arrays", b"\x81" * 1_000_000, refusal),
        ("with a promise", b"\x9b" + b"\xff" * 8, refusal),
    ]
    for name, form, wanted in rows:
        with new_folder() as cache:
            put(cache, form, form)
            for n in ["1", "4"]:
                runs.check("odd entries", f"one {name}, {n} workers", ["normalize", "--workers", n], frozen(https, form), wanted, env={"XDG_CACHE_HOME": cache})
            expect_cache(runs, f"an entry {name} stays", cache, form)
    with new_folder() as cache:
        form = expressions.encoded(("bin", "+", ("nat", 1), ("bool", True)))
        put(cache, form, form)
        ran = runs.run("odd entries", "one without a type", ["normalize"], frozen(https, form), env={"XDG_CACHE_HOME": cache})
        runs.expect("one without a type", ran, refused(b"type rule 14 at root, line 1, column 1", 2))


def places_of_entries(runs):
    """What stands at an entry's name and is no file of it."""
    with new_folder() as folder:
        write(folder, "f", TEXT_OF_IT)
        write(folder, "right", FORM)
        root = frozen("./f", FORM)

        def check(name, make, keeps):
            cache = os.path.join(folder, name.replace(" ", "-"))
            os.makedirs(os.path.join(cache, "dhall"))
            make(entry_of(cache, FORM))
            runs.check("places of entries", name, ["normalize"], root, LINE, folder=folder, env={"XDG_CACHE_HOME": cache})
            names = os.listdir(os.path.join(cache, "dhall"))
            if names != [os.path.basename(entry_of(cache, FORM))]:
                runs.report(f"an entry that is {name}", f"leaves {names}")
            elif keeps and open(entry_of(cache, FORM), "rb").read() != FORM:
                runs.report(f"an entry that is {name}", "was not mended")

        check("a folder", os.mkdir, False)
        check("a full folder", lambda path: write(path, "a", b""), False)
        check("a link to the right bytes", lambda path: os.symlink(os.path.join(folder, "right"), path), True)
        check("a link to nothing", lambda path: os.symlink("nothing", path), True)
        check("a link to itself", lambda path: os.symlink(path, path), True)
        check("a link to a device", lambda path: os.symlink("/dev/zero", path), True)
        check("a file of another", lambda path: write(os.path.dirname(path), os.path.basename(path), b"x"), True)


def large_entries(runs):
    """Entries of 16 MiB are kept and used; larger ones are neither."""
    with new_folder() as folder:
        cache = os.path.join(folder, "cache")
        for n in range(16):
            write(folder, f"t{n}", "k" * (1_048_576 if n else 1_048_576 - 8))
        write(folder, "one", "x")
        parts = " ++ ".join(f"./t{n} as Text" for n in range(16))
        for name, text, length in (("of 16 MiB", parts, MOST_ENTRY - 8), ("of a byte more", parts + " ++ ./one as Text", MOST_ENTRY - 7)):
            write(folder, "f", text)
            value = "k" * (MOST_ENTRY - 8) + "x" * (length - (MOST_ENTRY - 8))
            form = expressions.encoded(("text", [value], []))
            env = {"XDG_CACHE_HOME": cache}
            wanted = written(f"sha256:{digest(form)}\n".encode())
            runs.check("large entries", f"one {name}, made", ["hash"], frozen("./f", form), wanted, folder=folder, env=env, seconds=LONG)
            if os.path.exists(entry_of(cache, form)) != (len(form) <= MOST_ENTRY):
                runs.report(f"an entry {name}", f"of {len(form)} bytes: {sorted(found(cache))}")
            os.rename(os.path.join(folder, "f"), os.path.join(folder, "g"))
            gone = refused(b"in ./f: absent", IMPORT)
            runs.check("large entries", f"one {name}, used", ["hash"], frozen("./f", form), wanted if len(form) <= MOST_ENTRY else gone, folder=folder, env=env, seconds=LONG)
        form = expressions.encoded(("text", ["k" * MOST_ENTRY], []))
        put(cache, form, form)
        runs.check("large entries", "one past the limit", ["hash"], frozen("./f", form), refused(b"in ./f: absent", IMPORT), folder=folder, env={"XDG_CACHE_HOME": cache}, seconds=LONG)


def cache_folders(runs):
    """Where the cache cannot be read or written, the answer is the same; where a folder lacks, it is made."""
    with new_folder() as folder:
        os.chmod(folder, 0o777)
        write(folder, "f", TEXT_OF_IT)
        root = frozen("./f", FORM)
        write(folder, "file", b"x")
        write(folder, "below/dhall", b"x")
        os.makedirs(os.path.join(folder, "locked", "dhall"))
        put(os.path.join(folder, "unread"), FORM, b"x")
        put(os.path.join(folder, "stuck"), FORM, b"x")
        for name in ("locked/dhall", "unread", "stuck/dhall"):
            os.chmod(os.path.join(folder, name), 0o555 if name != "unread" else 0)
        at = lambda name: {"XDG_CACHE_HOME": os.path.join(folder, name)}
        rows = [
            ("unset", {}, None), ("empty, no home", {"XDG_CACHE_HOME": ""}, None), ("empty", {"XDG_CACHE_HOME": "", "HOME": folder}, ".cache"),
            ("unset, a home", {"HOME": os.path.join(folder, "h")}, "h/.cache"), ("far below", at("a/b/c"), "a/b/c"), ("relative", {"XDG_CACHE_HOME": "rel"}, "rel"),
            ("with a slash", at("slash/"), "slash"), ("a file", at("file"), None), ("below a file", at("below"), None), ("no text", {b"XDG_CACHE_HOME": b"/\xff"}, None),
            ("too long", {"XDG_CACHE_HOME": "/n" * 3000}, None), ("a device", {"XDG_CACHE_HOME": "/dev/null"}, None), ("of the system", {"XDG_CACHE_HOME": "/proc"}, None),
            ("read only", at("locked"), None), ("not readable", at("unread"), None), ("read only with a wrong entry", at("stuck"), None),
            ("a home that is no text", {b"HOME": b"/\xff"}, None),
        ]
        for name, env, kept in rows:
            for n in ["1", "4"]:
                runs.check("cache folders", f"{name}, {n} workers", ["normalize", "--workers", n], root, LINE, folder=folder, env=env,
                           before=as_nobody if os.geteuid() == 0 else None)
            if kept is not None:
                expect_cache(runs, f"a cache that is {name}", os.path.join(folder, kept), FORM)
        os.chmod(os.path.join(folder, "unread"), 0o755)


def parts(runs):
    """Parts that other writers left are not touched; after a hundred of them nothing is kept."""
    for count, keeps in ((1, True), (99, True), (100, False), (150, False)):
        with new_folder() as folder:
            write(folder, "f", TEXT_OF_IT)
            cache = os.path.join(folder, "cache")
            for n in range(count):
                write(cache, os.path.join("dhall", os.path.basename(entry_of(cache, FORM)) + f".part{n}"), b"of another")
            runs.check("parts", f"{count} of them", ["normalize"], frozen("./f", FORM), LINE, folder=folder, env={"XDG_CACHE_HOME": cache})
            left = found(cache)
            if left.pop(os.path.basename(entry_of(cache, FORM)), None) != (FORM if keeps else None) or list(left.values()) != [b"of another"] * count:
                runs.report(f"{count} parts", f"left {sorted(found(cache))}")


def file_sizes(runs):
    """Where an entry cannot be written whole, none is there."""
    def small():
        signal.signal(signal.SIGXFSZ, signal.SIG_IGN)
        resource.setrlimit(resource.RLIMIT_FSIZE, (10, 10))

    with new_folder() as folder:
        write(folder, "f", TEXT_OF_IT)
        cache = os.path.join(folder, "cache")
        for n in ["1", "4"]:
            runs.check("sizes of files", f"at most 10 bytes, {n} workers", ["normalize", "--workers", n], frozen("./f", FORM), LINE, folder=folder,
                       env={"XDG_CACHE_HOME": cache}, before=small)
            expect_cache(runs, "an entry that cannot be written whole", cache)


def values_of_functions(runs):
    """An entry holds the form without the names of bound variables."""
    with new_folder() as folder:
        write(folder, "f", "λ(x : Natural) → λ(y : Natural) → x")
        form = expressions.encoded(("lam", "_", ("builtin", "Natural"), ("lam", "_", ("builtin", "Natural"), ("var", "_", 1))))
        env = {"XDG_CACHE_HOME": os.path.join(folder, "cache")}
        for line in ("λ(x : Natural) → λ(y : Natural) → x\n", "λ(_ : Natural) → λ(_ : Natural) → _@1\n"):
            runs.check("functions", line, ["normalize"], frozen("./f", form), written(line.encode()), folder=folder, env=env)
        runs.check("functions", "digest", ["hash"], frozen("./f", form), written(f"sha256:{digest(form)}\n".encode()), folder=folder, env=env)
        expect_cache(runs, "a function", env["XDG_CACHE_HOME"], form)


def many_runs(runs):
    """Runs beside each other over one cache, some of which are killed on their way: answers are right, and entries whole."""
    values = [("text", [f"{k}" + "k" * 20_000], []) for k in range(100)]
    forms = [expressions.encoded(v) for v in values]
    root = b"[ " + b", ".join(frozen(f"./f{k}", form) for k, form in enumerate(forms)) + b" ]"
    wanted = written(f"sha256:{digest(expressions.encoded(('list', values)))}\n".encode())
    with new_folder() as folder:
        for k, v in enumerate(values):
            write(folder, f"f{k}", expressions.printed(v))
        share_a_cache(runs, folder, ["hash"], root, wanted, forms)


def share_a_cache(runs, folder, words, text, wanted, forms):
    """Four such runs at once, again and again; between them half of the entries are dropped."""
    source = random.Random(runs.seed)
    cache = os.path.join(folder, "cache")
    for n in range(runs.few(12, 3)):
        children = [subprocess.Popen([runs.program, *words], stdin=subprocess.PIPE, stdout=subprocess.PIPE, stderr=subprocess.PIPE,
                                     cwd=folder, env={"XDG_CACHE_HOME": cache}) for _ in range(4)]
        for child in children:
            with contextlib.suppress(BrokenPipeError):
                child.stdin.write(text)
                child.stdin.close()
        for k, child in enumerate(children):
            try:
                if k % 2:
                    child.wait(source.random() / 10)
                ran = Ran(child.wait(LONG), child.stdout.read(), child.stderr.read())
                runs.count("many runs", f"run {k} of {n}", ran.status, 0)
                runs.expect(f"run {k} of {n} beside others", ran, wanted)
            except subprocess.TimeoutExpired:
                child.kill()
                child.wait()
                runs.count("many runs", f"run {k} of {n}", "killed", 0)
            child.stdout.close()
            child.stderr.close()
        whole = {"1220" + digest(form): form for form in forms}
        entries = {name: data for name, data in found(cache).items() if ".part" not in name}
        if any(whole.get(name) != data for name, data in entries.items()):
            runs.report("many runs", "left an entry that is not whole")
        for name in source.sample(sorted(entries), len(entries) // 2):
            os.remove(os.path.join(cache, "dhall", name))
    runs.check("many runs", "afterwards", words, text, wanted, folder=folder, env={"XDG_CACHE_HOME": cache})


def as_texts(runs):
    """Frozen texts, and one digest under many names."""
    with new_folder() as folder:
        write(folder, "t", "x\r\nλ")
        value = ("text", ["x\r\nλ"], [])
        form = expressions.encoded(value)
        env = {"XDG_CACHE_HOME": os.path.join(folder, "cache")}
        root = frozen("./t", form) + b" as Text"
        for k in range(2):
            runs.check("frozen texts", f"run {k}", ["normalize"], root, text_line("x\r\nλ"), folder=folder, env=env)
            write(folder, "t", "other")
        for k in range(20):
            write(folder, f"n{k}", "1")
        one = expressions.encoded(("nat", 1))
        many = b"[ " + b", ".join(frozen(f"./n{k}", one) for k in range(20)) + b" ]"
        for _ in range(2):
            runs.check_by_workers("frozen texts", "one digest under twenty names", "normalize", many, [1, 8], written(b"[ " + b", ".join([b"1"] * 20) + b" ]\n"), folder=folder, env=env)
        expect_cache(runs, "one digest under twenty names", env["XDG_CACHE_HOME"], form, one)


def attack(runs):
    for part in (right_and_wrong, odd_entries, places_of_entries, large_entries, cache_folders, parts, file_sizes, values_of_functions, as_texts, many_runs):
        part(runs)
