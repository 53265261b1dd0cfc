"""Imports of what is no ordinary file: folders, devices, sockets, pipes, files of the system, files that may not be read, files at
and past a megabyte, files that are not UTF-8, odd names; and of variables that are unset, empty, huge or no text, with a home
folder that is unset, empty, a file or no text. The program is run as another user where the test is run by root."""

import os
import resource
import socket
import subprocess
import threading
import time

import expressions
from attacks.runs import DESK, IMPORT, MOST_BYTES, RESOLVING, Ran, new_folder, refused, write, written

NOBODY = 65_534


def as_nobody():
    os.setgid(NOBODY)
    os.setuid(NOBODY)


def absent(location):
    return refused(b"in %s: absent" % location, IMPORT)


def failed(location):
    return refused(b"in %s: device failed" % location, DESK)


def spoilt(location, line):
    return refused(b"in %s: %s" % (location, line))


def check(runs, group, location, wanted, **given):
    """An import alone and below a choice, by one worker and by several, by each command that resolves."""
    name = f"{location[:60].decode(errors='replace')}"
    runs.check_by_workers(group, name, "normalize", location, [1, 4], wanted, **given)
    for verb in RESOLVING if wanted.status else []:
        runs.check(group, f"{verb}, {name}", [verb], location, wanted, **given)
    passes = wanted.err.endswith(b": absent\n")
    after = written(b"1\n") if passes else wanted
    runs.check(group, f"{name}, before a choice", ["normalize"], location + b" ? 1", after, **given)
    runs.check(group, f"{name}, behind a choice", ["normalize"], b"1 ? " + location, written(b"1\n"), **given)


def text_line(text):
    return written(expressions.printed(("text", [text], [])).encode() + b"\n")


def devices(runs):
    for path in (b"/dev/zero", b"/dev/urandom", b"/dev/full"):
        check(runs, "devices", path, spoilt(path, b"larger than 1048576 bytes"))
        runs.check("devices", f"{path} as text", ["normalize"], path + b" as Text", spoilt(path, b"larger than 1048576 bytes"))
    check(runs, "devices", b"/dev/null", spoilt(b"/dev/null", b"syntax at 0"))
    runs.check("devices", "/dev/null as text", ["normalize"], b"/dev/null as Text", written(b'""\n'))
    # No page stands at address 0 of a process.
    check(runs, "devices", b"/proc/self/mem", failed(b"/proc/self/mem"))
    for path in (b"/proc", b"/", b"/dev", b"/proc/self/fd", b"/nonexistent/a", b"/dev/null/a", b"/proc/self/task/0/a"):
        if path != b"/":
            check(runs, "devices", path, absent(path))
    many = b"[ " + b", ".join([b"/dev/zero as Text"] * 3 + [b"/dev/urandom"]) + b" ]"
    runs.check("devices", "several at once", ["hash"], many, spoilt(b"/dev/zero", b"larger than 1048576 bytes"))


def make_odd_files(folder):
    write(folder, "good", "1")
    write(folder, "closed", "1")
    os.chmod(os.path.join(folder, "closed"), 0)
    write(folder, "shut/good", "1")
    os.mkdir(os.path.join(folder, "folder"))
    os.symlink("loop", os.path.join(folder, "loop"))
    os.symlink("gone", os.path.join(folder, "dangling"))
    os.symlink("good", os.path.join(folder, "link"))
    os.symlink("folder", os.path.join(folder, "linked"))
    os.link(os.path.join(folder, "good"), os.path.join(folder, "hard"))
    with socket.socket(socket.AF_UNIX) as door:
        door.bind(os.path.join(folder, "socket"))
    write(folder, "a b", "2")
    write(folder, "{}", "3")
    write(folder, "n" * 255, "4")
    write(folder, "sparse", "")
    os.truncate(os.path.join(folder, "sparse"), 1 << 40)
    os.chmod(os.path.join(folder, "shut"), 0)


def odd_files(runs):
    long = b"./" + b"n" * 256
    far = b"./" + b"/".join([b"n" * 200] * 25)
    rows = [
        (b"./good", written(b"1\n")), (b"./link", written(b"1\n")), (b"./hard", written(b"1\n")), (b'./"a b"', written(b"2\n")),
        (b'./"{}"', written(b"3\n")), (b"./" + b"n" * 255, written(b"4\n")), (b"./folder/../good", written(b"1\n")),
        (b"./closed", failed(b"./closed")), (b"./shut/good", failed(b"./shut/good")), (b"./loop", failed(b"./loop")),
        (b"./loop/a", failed(b"./loop/a")), (b"./socket", failed(b"./socket")), (long, failed(long)), (far, failed(far)),
        (b"./folder", absent(b"./folder")), (b"./linked", absent(b"./linked")), (b"./dangling", absent(b"./dangling")),
        (b"./good/a", absent(b"./good/a")), (b"./gone", absent(b"./gone")), (b"./gone/a", absent(b"./gone/a")),
        (b'./"."', absent(b"./.")), (b'./".."', absent(b"./..")), (b'./" "', absent(b'./" "')),
        (b"./sparse", spoilt(b"./sparse", b"larger than 1048576 bytes")),
    ]
    before = as_nobody if os.geteuid() == 0 else None
    with new_folder() as folder:
        make_odd_files(folder)
        for location, wanted in rows:
            check(runs, "odd files", location, wanted, folder=folder, before=before)
        os.chmod(os.path.join(folder, "shut"), 0o700)


def sizes(runs):
    """Files at the limits of a text, and bytes that are no text."""
    rows = [
        ("full", b"1" + b" " * (MOST_BYTES - 1), None), ("over", b"1" + b" " * MOST_BYTES, b"larger than 1048576 bytes"),
        ("much", b"1" * 5_000_000, b"larger than 1048576 bytes"), ("latin", b'"\xe9"', b"not UTF-8 at 1"),
        ("late", b"1" + b" " * 1_000_000 + b"\xff", b"not UTF-8 at 1000001"), ("cut", "1 -- λ".encode()[:-1], b"not UTF-8 at 5"),
        ("half", b"\xed\xa0\x80", b"not UTF-8 at 0"), ("mark", b"\xef\xbb\xbf1", b"left out of this profile at 0"), ("nul", b"1\x00", b"syntax at 1"),
        ("empty", b"", b"syntax at 0"), ("blank", b" \n", b"syntax at 2"), ("deep", b"(" * 400_000, b"nested deeper than 500"),
        ("line", b"1\r\n", None), ("script", b"#!/usr/bin/dhall\n1", None),
    ]
    with new_folder() as folder:
        for name, data, line in rows:
            write(folder, f"{name}.dhall", data)
            location = f"./{name}.dhall".encode()
            check(runs, "sizes", location, written(b"1\n") if line is None else spoilt(location, line), folder=folder)
            no_text = line is not None and line.startswith((b"not UTF-8", b"larger"))
            wanted = spoilt(location, line) if no_text else text_line(data.decode())
            runs.check("sizes", f"{name} as text", ["normalize"], location + b" as Text", wanted, folder=folder)
        every = "".join(map(chr, [*range(1, 0xD800, 7), *range(0xE000, 0x11_0000, 97)]))
        write(folder, "every", every)
        runs.check("sizes", "characters as text", ["normalize"], b"./every as Text", text_line(every), folder=folder)


def pipes(runs):
    """A pipe that somebody writes is read to its end; one that nobody writes is waited for, and nothing is written meanwhile."""
    with new_folder() as folder:
        path = os.path.join(folder, "pipe")
        os.mkfifo(path)
        child = subprocess.Popen([runs.program, "normalize"], stdin=subprocess.PIPE, stdout=subprocess.PIPE, stderr=subprocess.PIPE, cwd=folder, env={})
        child.stdin.write(b"./pipe + 1")
        child.stdin.close()
        time.sleep(0.5)
        if child.poll() is not None:
            runs.report("a pipe that nobody writes", f"ended with {child.returncode}")
        start = time.monotonic()
        feeder = threading.Thread(target=lambda: write(folder, "pipe", b"41"), daemon=True)
        feeder.start()
        try:
            status = child.wait(10)
        except subprocess.TimeoutExpired:
            child.kill()
            status = child.wait()
        runs.count("pipes", "a pipe that is written late", status, time.monotonic() - start)
        runs.expect("a pipe that is written late", Ran(status, child.stdout.read(), child.stderr.read()), written(b"42\n"))
        child.stdout.close()
        child.stderr.close()


def variables(runs):
    huge = b"1" + b" " * 131_000
    env = {b"ONE": b"1", b"EMPTY": b"", b"HUGE": huge, b"BYTES": b"1 \xff", b"BLANK": b" ", b"_1a": b"2", b"a b": b"3", b"PATHS": b"./good",
           b"SELF": b"env:SELF", b"TEXT": "λ\n\t$".encode(), b"E" * 4095: b"5", b"256": b"6", b"X" * 256: b"x" * 255, b"Y" * 256: b"7" + b" " * 255}
    rows = [
        (b"env:ONE", written(b"1\n")), (b"env:_1a", written(b"2\n")), (b'env:"a b"', written(b"3\n")), (b"env:HUGE", written(b"1\n")),
        (b"env:UNSET", absent(b"env:UNSET")), (b"env:one", absent(b"env:one")), (b"env:EMPTY", spoilt(b"env:EMPTY", b"syntax at 0")),
        (b"env:BLANK", spoilt(b"env:BLANK", b"syntax at 1")), (b"env:BYTES", spoilt(b"env:BYTES", b"not UTF-8 at 2")),
        (b"env:SELF", refused(b"in env:SELF: import cycle", IMPORT)), (b"env:" + b"E" * 4095, written(b"5\n")), (b"env:PATHS", written(b"8\n")),
        (b"env:" + b"Y" * 256, written(b"7\n")), (b"env:" + b"N" * 4096, absent(b"env:" + b"N" * 4096)), (b'env:"256"', written(b"6\n")),
    ]
    with new_folder() as folder:
        write(folder, "good", "8")
        for location, wanted in rows:
            check(runs, "variables", location, wanted, env=env, folder=folder)
        for name, value in ((b"EMPTY", ""), (b"TEXT", "λ\n\t$"), (b"HUGE", huge.decode())):
            runs.check("variables", f"{name} as text", ["normalize"], b"env:" + name + b" as Text", text_line(value), env=env)
        runs.check("variables", "bytes as text", ["normalize"], b"env:BYTES as Text", spoilt(b"env:BYTES", b"not UTF-8 at 2"), env=env)
    many = {f"V{n}": f"{n}" for n in range(4000)}
    root = "[ " + ", ".join(f"env:V{n}" for n in range(4000)) + " ]"
    wanted = written(("[ " + ", ".join(map(str, range(4000))) + " ]\n").encode())
    runs.check_by_workers("variables", "4000 of them", "normalize", root.encode(), [1, 8], wanted, env=many)


def homes(runs):
    with new_folder() as folder:
        write(folder, "home/a", "1")
        write(folder, "home/b", "./a + ~/c")
        write(folder, "home/c", "2")
        home = os.path.join(folder, "home")
        rows = [
            ("set", {"HOME": home}, written(b"1\n")), ("with a slash", {"HOME": home + "/"}, written(b"1\n")),
            ("relative", {"HOME": "home"}, written(b"1\n")), ("unset", {}, absent(b"~/a")), ("empty", {"HOME": ""}, absent(b"~/a")),
            ("gone", {"HOME": folder + "/gone"}, absent(b"~/a")), ("a file", {"HOME": home + "/a"}, absent(b"~/a")),
            ("no text", {b"HOME": b"/\xff"}, failed(b"~/a")), ("too long", {"HOME": "/n" * 3000}, failed(b"~/a")),
            ("a device", {"HOME": "/dev/null"}, absent(b"~/a")),
        ]
        for name, env, wanted in rows:
            runs.check_by_workers("homes", f"a home that is {name}", "normalize", b"~/a", [1, 4], wanted, env=env, folder=folder)
        runs.check("homes", "a file below", ["normalize"], b"~/b", written(b"3\n"), env={"HOME": home})
        runs.check("homes", "input without imports", ["normalize"], b"1", written(b"1\n"), env={b"HOME": b"/\xff", b"XDG_CACHE_HOME": b"\xff"})


def gone_folders(runs):
    """A working directory that was removed, or that may not be entered."""
    with new_folder() as folder:
        def removed():
            os.mkdir(os.path.join(folder, "work"))
            os.chdir(os.path.join(folder, "work"))
            os.rmdir(os.path.join(folder, "work"))

        runs.check("working directories", "one that was removed", ["normalize"], b"./a", absent(b"./a"), before=removed)
        runs.check("working directories", "one that was removed, a choice", ["normalize"], b"../a ? 1", written(b"1\n"), before=removed)


def few_files(runs):
    """One file may be open besides the standard streams: enough for one worker, and a failed device for one of several."""
    before = lambda: resource.setrlimit(resource.RLIMIT_NOFILE, (4, 4))
    with new_folder() as folder:
        for n in range(200):
            write(folder, f"f{n}", "1")
        root = b"List/length Natural [ " + b", ".join(b"./f%d" % n for n in range(200)) + b" ]"
        for n in ["1", "2", "64"]:
            ran = runs.run("open files", f"one, {n} workers", ["normalize", "--workers", n], root, folder=folder, before=before)
            if ran is not None and ran != written(b"200\n") and (n == "1" or ran.status != DESK):
                runs.report(f"one open file, {n} workers", f"was {ran}")


def attack(runs):
    for part in (devices, odd_files, sizes, pipes, variables, homes, gone_folders, few_files):
        part(runs)
