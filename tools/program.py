#!/usr/bin/env python3
"""Proves and builds a program by tools/gate, and puts it where `make install` takes it from.

    python3 tools/program.py            crates/dhall/out/dhall
    python3 tools/program.py dhall_x    crates/dhall_x/out/dhall_x

The gate proves each crate below the program that has not been proved on this machine, and says which it is at, how many of how many
that is, and since when. What is proved stays in the gate's store, so a build that is broken off goes on from there.
"""

import importlib.machinery
import importlib.util
import os
import shutil
import subprocess
import sys

HERE = os.path.dirname(os.path.abspath(__file__))
ROOT = os.path.dirname(HERE)


def gate_module():
    """The gate as a module, for the key and the place of a program in its store."""
    loader = importlib.machinery.SourceFileLoader("gate", f"{HERE}/gate")
    module = importlib.util.module_from_spec(importlib.util.spec_from_loader("gate", loader))
    sys.dont_write_bytecode = True
    loader.exec_module(module)
    return module


def stored(name):
    """Returns the path of the program in the gate's store, by the text of this clone; None where it is not there."""
    gate = gate_module()
    kit = subprocess.run([gate.RT, "version"], capture_output=True, text=True, check=True).stdout.strip()
    crates, _ = gate.crates_of(ROOT, kit)
    crate = next(it for it in crates if it.name == name)
    store = gate.Store(gate.options_of([]).store, False)
    try:
        found = store.find("programs", crate)
    finally:
        store.close()
    return found and f"{found}/{name}"


def main():
    name = sys.argv[1] if len(sys.argv) > 1 else "dhall"
    ran = subprocess.run([sys.executable, f"{HERE}/gate", "--only", name], cwd=ROOT)
    if ran.returncode:
        return ran.returncode
    program = stored(name)
    if program is None:
        # (it passed here once, and is gone from the store: a script that needs it has it built again)
        ran = subprocess.run([sys.executable, f"{HERE}/gate", "--only", "test_install.py"], cwd=ROOT)
        program = None if ran.returncode else stored(name)
    if program is None:
        sys.exit(f"no program {name} was built")
    place = f"{ROOT}/crates/{name}/out/{name}"
    os.makedirs(os.path.dirname(place), exist_ok=True)
    # (a program that runs cannot be written over, but its file can be replaced)
    shutil.copyfile(program, f"{place}.new")
    os.chmod(f"{place}.new", 0o755)
    os.replace(f"{place}.new", place)
    print(f"built: crates/{name}/out/{name}")
    return 0


if __name__ == "__main__":
    sys.exit(main())
