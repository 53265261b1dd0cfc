"""Graphs of imports of one shape up to the limit of 4,096 keys and past it: fans, chains, towers of diamonds, trees, loops of one, two
and 4,096; keys that are brought by the root, by a text, by a frozen import and by a mode; one key by many names; each by 1 to 64
workers."""

import hashlib

import expressions
from attacks.runs import IMPORT, LONG, MOST_KEYS, RESOLVING, TOO_MANY, new_folder, refused, write, written
from attacks.typed import digest_line

WORKERS = [1, 2, 4, 16, 64]


def items(parts):
    return ("[ " + ", ".join(parts) + " ]").encode()


def cycle(location):
    return refused(f"in {location}: import cycle".encode(), IMPORT)


def check(runs, name, text, wanted, folder, workers=WORKERS, verb="normalize", other=None):
    runs.check_by_workers("shapes", name, verb, text, workers, wanted, other or wanted, folder=folder, seconds=LONG)


def fans(runs, folder):
    for n in range(MOST_KEYS + 1):
        write(folder, f"f{n}", str(n))
    for n in (1, 2, 100, MOST_KEYS):
        root = items(f"./f{k}" for k in range(n))
        check(runs, f"a fan of {n}", root, written(items(map(str, range(n))) + b"\n"), folder)
    over = items(f"./f{k}" for k in range(MOST_KEYS + 1))
    for verb in RESOLVING:
        check(runs, f"{verb} of a fan of 4097", over, TOO_MANY, folder, [1, 4], verb)
    check(runs, "a fan of 4097 that are absent", items(f"./gone{k}" for k in range(MOST_KEYS + 1)), TOO_MANY, folder)
    check(runs, "a fan of 20000", items(f"./gone{k}" for k in range(20_000)), TOO_MANY, folder)
    check(runs, "20000 times one file", items(["./f7"] * 20_000), written(items(["7"] * 20_000) + b"\n"), folder)
    roundabout = ["./f7", "./a/../f7", "./a/b/../../f7", "./././f7", "./a/./../f7"] * 1000
    check(runs, "5000 names of one file", items(roundabout), written(items(["7"] * 5000) + b"\n"), folder)


def brought(runs, folder):
    """Keys that the root does not name itself."""
    for n in (MOST_KEYS - 1, MOST_KEYS):
        write(folder, f"brings{n}", items(f"./f{k}" for k in range(n)))
    good = written(b"4095\n")
    check(runs, "a text that brings 4095 keys", b"List/length Natural ./brings4095", good, folder)
    check(runs, "a text that brings 4096 keys", b"List/length Natural ./brings4096", TOO_MANY, folder)
    check(runs, "the same after a choice", b"(./gone ? ./brings4096)", TOO_MANY, folder)
    write(folder, "untaken", items(f"(1 ? ./gone{k})" for k in range(MOST_KEYS)))
    check(runs, "a text that names 4096 keys and asks none", b"./untaken", TOO_MANY, folder)
    write(folder, "half", items(f"./f{k}" for k in range(2047)))
    write(folder, "other", items(f"./f{k}" for k in range(2047, 4095)))
    write(folder, "another", items(f"./f{k}" for k in range(2047, 4094)))
    check(runs, "two texts that bring 4096 keys together", b"List/length Natural (./half # ./another)", written(b"4094\n"), folder)
    check(runs, "two texts that bring 4097 keys together", b"List/length Natural (./half # ./other)", TOO_MANY, folder)


def too_many_and_a_fault(runs):
    """Whether a text that brings too many keys is found before a fault ends the run is left to the workers: either line is right."""
    with new_folder() as folder:
        write(folder, "big", items(f"./gone{k}" for k in range(MOST_KEYS)))
        for n in (1, 5, 20):
            for k in range(n):
                write(folder, f"c{n}-{k}", f"./c{n}-{k + 1}" if k + 1 < n else "./big")
            root = f"[ ./gone, ./c{n}-0 ]".encode()
            check(runs, f"too many keys {n} files behind a fault", root, TOO_MANY, folder, other=refused(b"in ./gone: absent", IMPORT))


def by_digest(n):
    digest = hashlib.sha256(expressions.encoded(("nat", n))).hexdigest()
    return f"./f{n} sha256:{digest}"


def kinds_of_keys(runs, folder):
    """A frozen import has two keys, and a location one for each mode."""
    frozen = [by_digest(k) for k in range(2049)]
    check(runs, "2048 frozen imports", items(frozen[:2048]), written(items(map(str, range(2048))) + b"\n"), folder)
    check(runs, "2049 frozen imports", items(frozen), TOO_MANY, folder)
    modes = [f"(let x = ./f{k} as {mode} in 1)" for k in range(1365) for mode in ("Text", "Location")] + [f"./f{k}" for k in range(1365)]
    check(runs, "4095 keys of 1365 files", items(modes), written(items(["1"] * 2730 + [str(k) for k in range(1365)]) + b"\n"), folder)
    check(runs, "4097 keys of 1366 files", items([*modes, "./f1365", "./f1365 as Text"]), TOO_MANY, folder)
    located = items(f"./gone{k} as Location" for k in range(MOST_KEYS))
    kind = "< Environment : Text | Local : Text | Missing | Remote : Text >"
    value = items(f'{kind}.Local "./gone{k}"' for k in range(MOST_KEYS))
    check(runs, "4096 locations", located, written(value + b"\n"), folder, [1, 4])


def chains(runs):
    """Each file asks the next one; the workers have nothing to do beside each other."""
    for n in (1, 2, 500, MOST_KEYS, MOST_KEYS + 1):
        with new_folder() as folder:
            for k in range(n):
                write(folder, f"c{k}", f"./c{k + 1} + 1" if k + 1 < n else "1")
            wanted = written(b"%d\n" % n) if n <= MOST_KEYS else TOO_MANY
            check(runs, f"a chain of {n}", b"./c0", wanted, folder, [1, 4, 64])
    with new_folder() as folder:
        for k in range(1000):
            write(folder, f"c{k}", f"./gone{k} ? ./c{k + 1}" if k < 999 else "./gone999")
        gone = refused(b"in ./gone999: absent", IMPORT)
        check(runs, "a chain of choices that ends nowhere", b"./c0", gone, folder)


def towers(runs):
    """n levels of two files, each of which imports both of the level below, so there are 2^n ways down."""
    for n in (1, 12, 400, 2047):
        with new_folder() as folder:
            left, right = True, False
            write(folder, "l0", "True")
            write(folder, "r0", "False")
            for k in range(1, n + 1):
                write(folder, f"l{k}", f"./l{k - 1} == ./r{k - 1}")
                write(folder, f"r{k}", f"./l{k - 1} != ./r{k - 1}")
                left, right = left == right, left != right
            check(runs, f"a tower of {n}", f"[ ./l{n}, ./r{n} ]".encode(), written(f"[ {left}, {right} ]\n".encode()), folder)


def trees(runs):
    """A heap: file k imports 2 k + 1 and 2 k + 2, in folders of their own."""
    with new_folder() as folder:
        n = MOST_KEYS - 1
        for k in range(n):
            a, b = 2 * k + 1, 2 * k + 2
            write(folder, f"d{k % 7}/t{k}", f"../d{a % 7}/t{a} + ../d{b % 7}/t{b} + 1" if b < n else "1")
        check(runs, f"a tree of {n}", b"./d0/t0", written(b"%d\n" % n), folder)


def loops(runs):
    """The least name of a loop is told, by the order of their bytes, wherever it is entered."""
    for n in (1, 2, 3, 11, 500, MOST_KEYS - 2):
        with new_folder() as folder:
            for k in range(n):
                write(folder, f"k{k}", f"./k{(k + 1) % n}")
            write(folder, "into", f"./k{n // 2}")
            write(folder, "a", "./into + 1")
            check(runs, f"a loop of {n}", b"./k0", cycle("./k0"), folder)
            if n > 2:
                check(runs, f"into a loop of {n}", b"./a", cycle("./k0"), folder)
                check(runs, f"a loop of {n} behind a choice", b"./a ? 1", cycle("./k0"), folder)
                check(runs, f"a loop of {n} that is not asked", b"./k0 as Text", written_text(f"./k{1 % n}"), folder)


def written_text(text):
    return written(b'"' + text.encode() + b'"\n')


def many_loops(runs):
    """The first loop in the text decides, whatever comes to an end first."""
    with new_folder() as folder:
        for k in range(1000):
            write(folder, f"x{k}", f"./y{k}")
            write(folder, f"y{k}", f"./x{k}")
        write(folder, "bad", ")")
        write(folder, "self", "./self ? 1")
        write(folder, "frozen", by_digest(1).replace("./f1", "./frozen"))
        many = items(f"./y{k}" for k in range(999, -1, -1))
        check(runs, "a thousand loops", many, cycle("./x999"), folder)
        check(runs, "a thousand loops behind a fault", items(["./bad", "./x0"]), refused(b"in ./bad: syntax at 0"), folder)
        check(runs, "a loop before a fault", items(["./x0", "./bad"]), cycle("./x0"), folder)
        check(runs, "a file that asks itself before a choice", b"./self", cycle("./self"), folder)
        check(runs, "a file that asks itself frozen", b"./frozen", cycle("./frozen"), folder)
        check(runs, "a loop that a choice does not come to", b"1 ? ./x0", written(b"1\n"), folder)


def each_number_of_workers(runs):
    with new_folder() as folder:
        for k in range(100):
            write(folder, f"f{k}", f"./f{k * 2 + 1} + ./f{k * 2 + 2}" if k < 49 else str(k))
        wanted = digest_line(("nat", value_of_tree(0)))
        check(runs, "each number of workers", b"./f0", wanted, folder, range(1, 65), "hash")


def value_of_tree(k):
    return value_of_tree(2 * k + 1) + value_of_tree(2 * k + 2) if k < 49 else k


def attack(runs):
    with new_folder() as folder:
        fans(runs, folder)
        brought(runs, folder)
        kinds_of_keys(runs, folder)
    for part in (too_many_and_a_fault, chains, towers, trees, loops, many_loops, each_number_of_workers):
        part(runs)
