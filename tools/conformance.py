#!/usr/bin/env python3
"""Runs the language's own acceptance tests on the built `dhall`: the folder `tests` of a checkout of the standard.

    git clone -b v23.0.0 https://github.com/dhall-lang/dhall-lang
    python3 tools/conformance.py dhall-lang/tests
    python3 tools/conformance.py dhall-lang/tests --suite import --program PATH

| Suite | success | failure |
|---|---|---|
| parser | XA.dhall encodes to XB.dhallb | X.dhall spells no expression |
| binary-decode | XA.dhallb is the expression that XB.dhall spells | X.dhallb is the form of none |
| import | XA.dhall resolves to what XB.dhall resolves to | X.dhall does not resolve |
| type-inference | the type of XA.dhall is XB.dhall | X.dhall has no type |
| normalization | the normal form of XA.dhall is XB.dhall | |
| alpha-normalization | the digest of XA.dhall is that of the binary form of XB.dhall | |
| semantic-hash | the digest of XA.dhall is in XB.hash | |

Each case runs in the folder of its file. DHALL_TEST_VAR is `6 * 7`, HOME is the folder import/home if it is there, and the cache is a
copy of import/cache. XENV.dhall beside XA.dhall, a list of `mapKey` and `mapValue`, sets more variables.

A case is left out where the program says so: a part of the language that it leaves out, `https:`, no network, one of its limits, or,
in normalization and alpha-normalization, an expression without a type, since the command types before it normalizes. Its name and the
reason are printed. Nothing else is left out: whatever the program refuses otherwise has failed.

Plain Python 3. It prints a line for each case and a table, and exits with 1 if a case failed, with 2 if there is none.
"""

import argparse
import collections
import concurrent.futures
import hashlib
import json
import os
import re
import shutil
import subprocess
import sys
import tempfile

HERE = os.path.dirname(os.path.abspath(__file__))
SECONDS = 300
PASSED, LEFT_OUT, FAILED = "passed", "left out", "failed"
# What stands where the program leaves a part of the language out, and what that part is called.
LEFT_OUT_FORMS = [
    (r"Date|[0-9]{4}-[0-9]{2}", "Date"),
    (r"TimeZone|[+-][0-9]{2}:[0-9]{2}", "TimeZone"),
    (r"Time|[0-9]{2}:[0-9]{2}", "Time"),
    (r"Double|NaN|-?Infinity|[+-]?[0-9]+(\.[0-9]|[eE])", "Double"),
    (r'Bytes|0x"', "Bytes"),
    (r"showConstructor", "showConstructor"),
    (r"using", "using"),
    (r"[+-]?0b", "binary numbers"),
    (r"\?", "? in a path of with"),
    (r"https?:", "URLs with users, brackets or signs past ASCII"),
    (r"env:", "names of variables with escapes"),
]
LIMITS = r"number too wide|number or literal too wide|larger than|nested deeper|budget of|too deep|more than [0-9]+ imports|out of memory"


class Refused(Exception):
    """The program answered a file with a line: which command, the status, and the line."""

    def __init__(self, command, status, line, text):
        super().__init__(f"{command}: status {status}: {line}")
        self.command, self.status, self.line, self.text = command, status, line, text


class Differs(Exception):
    """The program gave an answer, and it is not what is wanted."""


class Case:
    """One test: its suite, whether it is to succeed, its name, and its files."""

    def __init__(self, suite, succeeds, name, first, second):
        self.suite, self.succeeds, self.name, self.first, self.second = suite, succeeds, name, first, second


class Program:
    """The program with the variables of the tests."""

    def __init__(self, path, folder, room):
        self.path, home, caches = os.path.abspath(path), f"{folder}/import/home", f"{folder}/import/cache"
        self.env = {"PATH": os.environ.get("PATH", ""), "HOME": home if os.path.isdir(home) else room, "DHALL_TEST_VAR": "6 * 7"}
        self.env["XDG_CACHE_HOME"] = f"{room}/cache"
        if os.path.isdir(caches):
            shutil.copytree(caches, f"{room}/cache")

    def run(self, command, data, folder, more=()):
        """Returns what the program writes, and raises Refused where it refuses."""
        how = {"input": data, "cwd": folder, "env": {**self.env, **dict(more)}, "capture_output": True, "timeout": SECONDS}
        ran = subprocess.run([self.path, command], **how)
        if ran.returncode:
            raise Refused(command, ran.returncode, ran.stderr.decode(errors="replace").strip(), data)
        return ran.stdout

    def encoded(self, data, folder):
        return self.run("encode", data, folder)

    def variables(self, path):
        """The variables that a file XENV.dhall sets."""
        if not os.path.isfile(path):
            return []
        said = self.run("to-json", read(path), os.path.dirname(path))
        try:
            return [(entry["mapKey"], entry["mapValue"]) for entry in json.loads(said)]
        except (ValueError, TypeError, KeyError):
            raise Differs(f"{os.path.basename(path)} gives no variables, but {shown(said)}") from None


def read(path):
    with open(path, "rb") as file:
        return file.read()


# ---------------------------------------------------------------------------------------------------- the cases


def files_below(folder):
    found = []
    for at, folders, names in os.walk(folder):
        folders.sort()
        found += [f"{at}/{name}" for name in sorted(names)]
    return found


def cases_of(folder, suite):
    """Returns the cases of a suite in the order of their names."""
    ends = {"parser": (".dhall", ".dhallb"), "binary-decode": (".dhallb", ".dhall"), "semantic-hash": (".dhall", ".hash")}
    first, second = ends.get(suite, (".dhall", ".dhall"))
    cases = []
    for path in files_below(f"{folder}/{suite}/success"):
        if path.endswith("A" + first):
            stem = path[: -len("A" + first)]
            cases.append(Case(suite, True, os.path.relpath(stem, folder), path, f"{stem}B{second}"))
    for path in files_below(f"{folder}/{suite}/failure"):
        if path.endswith(first) and not path.endswith("ENV.dhall"):
            cases.append(Case(suite, False, os.path.relpath(path[: -len(first)], folder), path, None))
    return cases


# ----------------------------------------------------------------------------------------------- what is wanted


def same(wanted, got):
    if wanted != got:
        raise Differs(f"wanted {shown(wanted)}, got {shown(got)}")


def shown(data):
    try:
        text = data.decode().strip()
    except UnicodeDecodeError:
        text = data.hex()
    return text if len(text) <= 300 else f"{text[:300]}.."


def judge_success(program, case):
    """Raises where the case does not pass."""
    first, second, folder = read(case.first), read(case.second), os.path.dirname(case.first)
    if case.suite == "parser":
        same(second.hex().encode(), program.encoded(first, folder).hex().encode())
    elif case.suite == "binary-decode":
        same(program.encoded(second, folder), program.encoded(program.run("decode", first, folder), folder))
    elif case.suite == "import":
        more = program.variables(re.sub(r"A\.dhall$", "ENV.dhall", case.first))
        same_text(program, program.run("resolve", second, folder, more), program.run("resolve", first, folder, more), folder)
    elif case.suite == "type-inference":
        same_text(program, second, program.run("type", first, folder), folder)
    elif case.suite == "normalization":
        same_text(program, second, program.run("normalize", first, folder), folder)
    elif case.suite == "alpha-normalization":
        digest = hashlib.sha256(program.encoded(second, folder)).hexdigest()
        same(f"sha256:{digest}".encode(), program.run("hash", first, folder).strip())
    elif case.suite == "semantic-hash":
        same(second.strip(), program.run("hash", first, folder).strip())


def same_text(program, wanted, got, folder):
    """Two texts are of one expression, names of binders included."""
    if program.encoded(wanted, folder) != program.encoded(got, folder):
        raise Differs(f"wanted {shown(wanted)}, got {shown(got)}")


def judge_failure(program, case):
    command, statuses = {
        "parser": ("encode", [1]),
        "binary-decode": ("decode", [1]),
        "import": ("resolve", [1, 2, 3]),
        "type-inference": ("type", [2]),
    }[case.suite]
    more = program.variables(re.sub(r"\.dhall$", "ENV.dhall", case.first)) if case.suite == "import" else []
    try:
        got = program.run(command, read(case.first), os.path.dirname(case.first), more)
    except Refused as refused:
        if why_left_out(refused, case) or refused.status not in statuses:
            raise
        return
    raise Differs(f"wanted a refusal, got {shown(got)}")


def why_left_out(refused, case):
    """Returns the part that the program leaves out, where that is why it refuses, else None."""
    line = refused.line
    offset = re.search(r"(in \S+: )?left out of this profile at ([0-9]+)", line)
    if offset and offset[1]:
        return f"what an import has: {line}"
    if offset:
        rest = refused.text[int(offset[2]) :].decode(errors="replace")
        known = [name for form, name in LEFT_OUT_FORMS if re.match(form, rest)]
        return known[0] if known else "labels and paths past ASCII" if not rest.isascii() else f"{rest[:20]!r}"
    if re.search(r"\bfloat at [0-9]+$", line):
        return "Double"
    if "https is refused" in line:
        return "https"
    if refused.status == 8 and re.search(r"https?:", line + refused.text.decode(errors="replace")):
        return "no network"
    if re.search(LIMITS, line):
        return f"a limit of the program: {line}"
    if refused.status == 2 and case.suite in ("normalization", "alpha-normalization") and refused.command in ("normalize", "hash"):
        return f"it has no type: {line}"
    return None


def judge(program, case):
    """Returns how a case ended, and why."""
    try:
        if case.second and not os.path.isfile(case.second):
            raise Differs(f"there is no {os.path.basename(case.second)}")
        judge_success(program, case) if case.succeeds else judge_failure(program, case)
    except Refused as refused:
        why = why_left_out(refused, case)
        return (LEFT_OUT, why) if why else (FAILED, str(refused))
    except Differs as differs:
        return FAILED, str(differs)
    except subprocess.TimeoutExpired:
        return FAILED, f"it did not end in {SECONDS} seconds"
    return PASSED, ""


SUITES = ("parser", "binary-decode", "import", "type-inference", "normalization", "alpha-normalization", "semantic-hash")


def run(program_path, folder, suites, jobs):
    """Returns each case with how it ended and why."""
    folder = os.path.abspath(folder)
    with tempfile.TemporaryDirectory(prefix="conformance-") as room:
        program = Program(program_path, folder, room)
        cases = [case for suite in suites for case in cases_of(folder, suite)]
        with concurrent.futures.ThreadPoolExecutor(jobs) as pool:
            ended = list(pool.map(lambda case: judge(program, case), cases))
    return [(case, how, why) for case, (how, why) in zip(cases, ended)]


def show(results):
    for case, how, why in results:
        print(f"{how} {case.name}" + (f": {why}" if why else ""))
    counts = collections.Counter((case.suite, how) for case, how, _ in results)
    print(f"\n{'suite':<20}{'passed':>8}{'left out':>10}{'failed':>8}")
    for suite in [*dict.fromkeys(case.suite for case, _, _ in results)]:
        print(f"{suite:<20}{counts[suite, PASSED]:>8}{counts[suite, LEFT_OUT]:>10}{counts[suite, FAILED]:>8}")


def main():
    parser = argparse.ArgumentParser(description=__doc__, formatter_class=argparse.RawDescriptionHelpFormatter)
    parser.add_argument("folder", metavar="FOLDER", help="the folder tests of a checkout of the standard")
    parser.add_argument("--program", default=f"{HERE}/../crates/dhall/out/dhall", help="the program (crates/dhall/out/dhall)")
    parser.add_argument("--suite", action="append", choices=SUITES, help="only this suite; may be given again")
    parser.add_argument("--jobs", type=int, default=os.cpu_count(), help="how many cases run side by side")
    options = parser.parse_args()
    if not os.access(options.program, os.X_OK):
        sys.exit(f"no program at {options.program}: build it first (make build)")
    results = run(options.program, options.folder, options.suite or SUITES, options.jobs)
    if not results:
        print(f"no cases below {options.folder}", file=sys.stderr)
        return 2
    show(results)
    return 1 if any(how == FAILED for _, how, _ in results) else 0


if __name__ == "__main__":
    sys.exit(main())
