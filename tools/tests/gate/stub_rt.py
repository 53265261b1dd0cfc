#!/usr/bin/env -S python3 -IS
"""A stand-in for rt, so that the gate's own tests take seconds: it proves nothing, and refuses by words in the text."""
import fcntl
import hashlib
import os
import re
import sys
import time

verb, words = (sys.argv[1:2] or [""])[0], sys.argv[2:]
SLEEP = float(os.environ.get("STUB_SLEEP", "0.2"))
LINE = "logic=proved functions=1 sum=0 native=nat,char,string logic-built=trusted libraries-built=trusted statements=trusted incremental=trusted"


def text(folder):
    found = ""
    for at, folders, names in os.walk(f"{folder}/src"):
        for name in sorted(names):
            with open(f"{at}/{name}") as it:
                found += it.read()
    return found


def note(what):
    with open(os.environ["STUB_LOG"], "a") as it:
        it.write(f"{what}\n")


name = os.path.basename(os.getcwd())
if verb == "version":
    print("stub 1")
    sys.exit(0)
note(f"{verb} {words[0] if verb == 'must-fail' else name}")
if verb == "fmt":
    if "NOT IN LAYOUT" in text("."):
        print("rt: formatted src/lib.rt")
    sys.exit(0)
if verb == "must-fail":
    time.sleep(SLEEP)
    name, status = words[0], 0
    note(f"{name} has {sorted(os.listdir(f'crates/{name}/out'))}")
    for it in sorted(os.listdir(f"crates/{name}/must-fail")):
        with open(f"crates/{name}/must-fail/{it}") as file:
            edit = file.read()
        time.sleep(600 * ("SLOW" in edit))
        is_refused = "Bottom" not in edit
        print(f"rt: must-fail {name}/{it}: " + ("refused, as it must be: src/lib.rt:1:1: error" if is_refused else "NOT REFUSED: the crate is still proved with this edit"), flush=True)
        status |= not is_refused
    sys.exit(status)
held = os.open(".", os.O_RDONLY)
fcntl.flock(held, fcntl.LOCK_EX)
rows = {}
with open("../../crates.txt") as it:
    for row in it:
        head, _, uses = row.partition(":")
        rows[head.strip()] = uses.split()
for it in rows[name]:
    if it in rows and not os.path.isfile(f"../{it}/out/rlib/stamp"):
        print(f"rt: the library {it} did not build")
        sys.exit(1)
time.sleep(SLEEP)
os.makedirs("out/incremental", exist_ok=True)
once = f"{os.environ['STUB_LOG']}.died"
if verb == "check" and "DIES ONCE" in text(".") and not os.path.exists(once):
    open(once, "w").close()
    os.kill(os.getpid(), 9)
if verb in ("check", "lib"):
    if "WRONG" in text("."):
        print("src/lib.rt:7:1: error: it is not proved\nlogic=not-proved")
        sys.exit(1)
    sum = hashlib.sha256(text(".").encode()).hexdigest()
    with open(f"out/incremental/{sum}", "w") as it:
        it.write(sum)
    if verb == "lib":
        os.makedirs(f"out/rlib/{name}.rlib", exist_ok=True)
        for file in (f"{name}.rlib/lib", "stamp"):
            with open(f"out/rlib/{file}", "w") as it:
                it.write(sum)
    print("warning: calls of a tactic that chose a term: 1\n" * ("CHOSEN" in text(".")) + LINE)
if verb == "test":
    print("logic=proved tests=1 " + LINE[13:])
    if re.search(r"(?m)^ *// FAILS", text(".")):
        print("test tests::it ... FAILED\ntest result: FAILED. 0 passed; 1 failed")
        sys.exit(1)
    print("test result: ok. 1 passed; 0 failed; 0 ignored")
if verb == "run":
    print(LINE)
    with open(f"out/{name}", "w") as it:
        it.write('#!/bin/sh\necho "3 $(cat note.txt)"\ncat > /dev/null\nprintf \'tea 1:35\\negg 7:00\\nrice: not a number\\nstew: an hour or more\\nno number in "soup"\\n\'\n')
    os.chmod(f"out/{name}", 0o755)
    print(f"rt: running out/{name}; to give it other input, run that file yourself")
sys.exit(0)
