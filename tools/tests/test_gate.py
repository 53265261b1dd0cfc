#!/usr/bin/env python3
# needs: tools/gate tools/tests/gate
"""Tests of tools/gate on the small repository in gate/small. Its files NAME.rt.txt, NAME.antt.txt and crates.txt.txt lose
their last ending (in this repository no check would read them under their names).

    python3 tools/tests/test_gate.py              with a stand-in for rt, gate/stub_rt.py: a minute or two
    GATE_REAL=1 python3 tools/tests/test_gate.py  with the real rt, those that need no stand-in: a quarter of an hour
"""
import os
import re
import shutil
import signal
import subprocess
import sys
import tempfile
import time
import unittest
from concurrent.futures import ThreadPoolExecutor

HERE = os.path.dirname(os.path.abspath(__file__))
REAL = bool(os.environ.get("GATE_REAL"))
GATE = [sys.executable, f"{HERE}/../gate"]


class Repository(unittest.TestCase):
    @classmethod
    def setUpClass(cls):
        cls.room = tempfile.mkdtemp(prefix="gate-test-")
        os.chmod(cls.room, 0o755)
        cls.full = f"{cls.room}/full"
        cls.env = {**os.environ, "STUB_LOG": f"{cls.room}/calls", "STUB_SLEEP": "0.02"}
        if not REAL:
            cls.env["GATE_RT"] = f"{HERE}/gate/stub_rt.py"
        cls.clone_to(f"{cls.room}/first")
        ran = cls.gate_in(f"{cls.room}/first", cls.full)
        assert ran.returncode == 0, ran.stdout
        assert ran.stdout.endswith("5 passed, 0 failed\n"), ran.stdout

    @classmethod
    def tearDownClass(cls):
        shutil.rmtree(cls.room, ignore_errors=True)

    @classmethod
    def clone_to(cls, to):
        shutil.copytree(f"{HERE}/gate/small", to)
        for at, _, names in os.walk(to):
            for name in names:
                if name.endswith((".rt.txt", ".antt.txt", "crates.txt.txt")):
                    os.rename(f"{at}/{name}", f"{at}/{name[:-4]}")

    @classmethod
    def gate_in(cls, repo, store, *words, **env):
        began = time.time()
        ran = subprocess.run([*GATE, "--store", store, *words], cwd=repo, env={**cls.env, **env}, stdout=subprocess.PIPE, stderr=subprocess.STDOUT, text=True)
        print(f"\n-- {repo.rpartition('/')[2]} {' '.join(words)}: {time.time() - began:.1f} s: {ran.stdout.strip().rpartition(chr(10))[2]}", file=sys.stderr, flush=True)
        if os.environ.get("GATE_SHOW"):
            print(ran.stdout, file=sys.stderr)
        return ran

    def setUp(self):
        self.name = self.id().rpartition(".")[2]
        self.repo, self.store, self.calls = (f"{self.room}/{self.name}{it}" for it in ("", ".store", ".calls"))
        self.env = {**self.env, "STUB_LOG": self.calls}
        self.clone_to(self.repo)
        shutil.copytree(self.full, self.store)

    def tearDown(self):
        shutil.rmtree(self.store, ignore_errors=True)
        shutil.rmtree(self.repo, ignore_errors=True)

    def gate(self, *words, **env):
        return self.gate_in(self.repo, self.store, *words, STUB_LOG=self.calls, **env)

    def write(self, path, text):
        os.makedirs(os.path.dirname(f"{self.repo}/{path}"), exist_ok=True)
        with open(f"{self.repo}/{path}", "w") as it:
            it.write(text)

    def change(self, file, old, new):
        path = f"{self.repo}/crates/{file}"
        with open(path) as it:
            text = it.read()
        self.assertIn(old, text)
        with open(path, "w") as it:
            it.write(text.replace(old, new))

    def works_in(self, folder):
        """Returns the working folders, at and below this one, of the processes that live."""
        found = []
        for pid in filter(str.isdigit, os.listdir("/proc")):
            try:
                found.append(os.readlink(f"/proc/{pid}/cwd"))
            except OSError:
                pass
        return [it for it in found if it.startswith(folder)]

    def done(self, ran):
        """Returns what was done in the run: pairs of a crate and a part."""
        return {(a, b) for a, b in re.findall(r"(?m)^gate: \[\d+/\d+\] (\S+) (\w+): ", ran.stdout)}


class Small(Repository):
    def test_nothing_changed(self):
        ran = self.gate()
        self.assertEqual(ran.returncode, 0, ran.stdout)
        self.assertEqual(self.done(ran), set())
        for name in ("low", "mid", "app"):
            self.assertIn(f"gate: {name}: proved here before\n", ran.stdout)
        self.assertTrue(ran.stdout.endswith("\n5 passed, 0 failed\n"), ran.stdout)

    def test_clone_in_another_folder(self):
        shutil.move(self.repo, f"{self.repo}_elsewhere")
        self.repo += "_elsewhere"
        ran = self.gate()
        self.assertEqual((ran.returncode, self.done(ran)), (0, set()), ran.stdout)

    def test_edit_at_the_top(self):
        self.change("app/src/main.rt", "// Reads lines", "// It reads lines")
        ran = self.gate()
        self.assertEqual(ran.returncode, 0, ran.stdout)
        self.assertEqual(self.done(ran), {("app", "proof"), ("app", "tests"), ("app", "run")})
        self.assertIn("gate: mid: proved here before", ran.stdout)

    def test_edit_at_the_bottom(self):
        self.change("low/src/lib.rt", "// The bottom", "// At the bottom")
        ran = self.gate()
        self.assertEqual(ran.returncode, 0, ran.stdout)
        self.assertEqual(len(self.done(ran)), 7)
        with open(os.devnull if REAL else self.calls) as it:
            # (edits are tried over kept work)
            self.assertTrue(REAL or "mid has ['incremental', 'rlib']\n" in it.read())
        # and back: what passed before is not forgotten
        self.change("low/src/lib.rt", "// At the bottom", "// The bottom")
        ran = self.gate()
        self.assertEqual((ran.returncode, self.done(ran)), (0, set()), ran.stdout)

    def test_crate_that_fails(self):
        self.change("mid/src/lib.rt", "    low::echo(x)\n", "    // WRONG\n    low::echo(x / 2)\n")
        ran = self.gate()
        self.assertEqual(ran.returncode, 1, ran.stdout)
        self.assertIn("mid proof: FAILED", ran.stdout)
        self.assertIn("src/lib.rt:7:1", ran.stdout)
        self.assertIn("not run, since mid proof failed", ran.stdout)
        self.assertTrue(ran.stdout.endswith("gate: FAILED: mid app\n1 passed, 2 failed\n"), ran.stdout)
        # it is no more proved when asked again
        ran = self.gate("--only", "mid")
        self.assertEqual(ran.returncode, 1, ran.stdout)

    def test_test_that_fails(self):
        self.change("low/src/lib.rt", "        assert_eq!(rt; echo(7), 7);", "        // FAILS\n        assert_eq!(rt; echo(7), 8);")
        ran = self.gate("--only", "low")
        self.assertEqual(ran.returncode, 1, ran.stdout)
        self.assertIn("low tests: FAILED", ran.stdout)
        self.assertTrue(ran.stdout.endswith("gate: FAILED: low\n0 passed, 1 failed\n"), ran.stdout)
        # its proof has passed, and is not done again
        ran = self.gate("--only", "low")
        self.assertEqual(self.done(ran), {("low", "tests")}, ran.stdout)

    def test_edit_that_is_not_refused(self):
        with open(f"{self.repo}/crates/mid/must-fail/says-nothing.edit", "w") as it:
            it.write("file: src/lib.rt\nold: calls the bottom.\nnew: calls the Bottom.\n")
        ran = self.gate()
        self.assertEqual(ran.returncode, 1, ran.stdout)
        # (neither the proof nor the other two edits are done again)
        self.assertEqual(self.done(ran), {("mid", "edits")})
        self.assertIn("NOT REFUSED", ran.stdout)
        self.assertTrue(ran.stdout.endswith("gate: FAILED: mid/says-nothing.edit\n5 passed, 1 failed\n"), ran.stdout)

    def test_program_whose_output_differs(self):
        self.change("app/stdout", "egg 7:00", "egg 7:01")
        ran = self.gate()
        self.assertEqual(ran.returncode, 1, ran.stdout)
        self.assertEqual(self.done(ran), {("app", "run")})
        self.assertIn("differs from its file stdout first at byte 24, line 3", ran.stdout)
        self.assertTrue(ran.stdout.endswith("gate: FAILED: app (run)\n5 passed, 1 failed\n"), ran.stdout)

    def test_program_without_its_data(self):
        os.remove(f"{self.repo}/crates/app/data/note.txt")
        ran = self.gate()
        self.assertEqual(ran.returncode, 1, ran.stdout)
        self.assertEqual(self.done(ran), {("app", "run")})

    def test_damaged_store(self):
        # a note that is cut off, and a library in which one byte differs
        notes = [f"{at}/{it}" for at, _, names in os.walk(f"{self.store}/passed") for it in names]
        for path in notes:
            with open(path) as it:
                text = it.read()
            if '"app tests"' in text:
                with open(path, "w") as it:
                    it.write(text[:90])
        for at, _, names in os.walk(f"{self.store}/libs/low"):
            for name in names:
                if name == "stamp":
                    with open(f"{at}/{name}", "r+") as it:
                        it.write("0")
        ran = self.gate()
        self.assertEqual(ran.returncode, 0, ran.stdout)
        # (low is built again, since app stands on it)
        self.assertEqual(self.done(ran), {("low", "proof"), ("app", "tests")})

    def test_store_of_another_kind(self):
        with open(f"{self.store}/FORMAT", "w") as it:
            it.write("dhall-gate 0\n")
        ran = self.gate("--only", "low")
        self.assertEqual((ran.returncode, self.done(ran)), (0, {("low", "proof"), ("low", "tests")}), ran.stdout)

    def test_killed_and_run_again(self):
        shutil.rmtree(self.store)
        env = {**self.env, "STUB_SLEEP": "1"}
        with subprocess.Popen([*GATE, "--store", self.store], cwd=self.repo, env=env, stdout=subprocess.PIPE, text=True) as ran:
            for line in ran.stdout:
                if "mid proof: proved" in line:
                    time.sleep(0.5 if not REAL else 5)
                    os.kill(ran.pid, signal.SIGKILL)
                    break
        # nothing that it started lives on
        until = time.time() + 60
        while self.works_in(self.store) and time.time() < until:
            time.sleep(0.5)
        self.assertEqual(self.works_in(self.store), [])
        ran = self.gate()
        self.assertEqual(ran.returncode, 0, ran.stdout)
        self.assertNotIn(("low", "proof"), self.done(ran))
        self.assertNotIn(("mid", "proof"), self.done(ran))
        self.assertIn(("app", "run"), self.done(ran))
        self.assertEqual(os.listdir(f"{self.store}/lanes"), [])
        self.assertTrue(ran.stdout.endswith("5 passed, 0 failed\n"), ran.stdout)

    def test_fresh(self):
        ran = self.gate("--fresh", "--only", "low")
        self.assertEqual((ran.returncode, self.done(ran)), (0, {("low", "proof"), ("low", "tests")}), ran.stdout)

    def test_only_builds_what_it_stands_on(self):
        shutil.rmtree(self.store)
        ran = self.gate("--only", "mid")
        self.assertEqual((ran.returncode, self.done(ran)), (0, {("low", "proof"), ("mid", "proof"), ("mid", "edits")}), ran.stdout)
        self.assertTrue(ran.stdout.endswith("3 passed, 0 failed\n"), ran.stdout)

    def test_looks_at_the_text(self):
        with open(f"{self.repo}/crates/low/stray.rt", "w") as it:
            it.write("fn it() {}\n")
        self.change("low/src/lib.rt", "    #[test]", "    #[ignore]\n    #[test]")
        os.mkdir(f"{self.repo}/crates/mid/must-fail/more")
        with open(f"{self.repo}/crates/mid/must-fail/more/it.edit", "w") as it:
            it.write("")
        ran = self.gate("--only", "low", "mid")
        self.assertEqual(ran.returncode, 1, ran.stdout)
        self.assertIn("no check reads crates/low/stray.rt", ran.stdout)
        self.assertIn("under #[ignore]", ran.stdout)
        self.assertIn("more/it.edit: BAD EDIT", ran.stdout)
        with open(f"{self.repo}/HANDLES", "w") as it:
            it.write("Handles allowed: all.\n")
        ran = self.gate()
        self.assertEqual((ran.returncode, ran.stdout.split("\n")[-2]), (2, "0 passed, 1 failed"))


    def test_script(self):
        self.write("tools/tests/test_app.py", SCRIPT)
        self.write("tools/words.txt", "data\n")
        shutil.rmtree(f"{self.store}/programs")
        ran = self.gate()
        # (the program passed its run before, and is built again since it is not in the store)
        self.assertEqual((ran.returncode, self.done(ran)), (0, {("app", "run"), ("test_app.py", "script")}), ran.stdout)
        self.assertTrue(ran.stdout.endswith("\n6 passed, 0 failed\n"), ran.stdout)
        ran = self.gate()
        self.assertEqual((ran.returncode, self.done(ran)), (0, set()), ran.stdout)
        self.assertIn("gate: test_app.py: passed here before\n", ran.stdout)
        self.write("tools/words.txt", "other\n")
        ran = self.gate("--only", "test_app.py")
        self.assertEqual((ran.returncode, self.done(ran)), (1, {("test_app.py", "script")}), ran.stdout)
        self.assertIn("    the program wrote 3 other\n    (status 1)\n", ran.stdout)
        self.assertTrue(ran.stdout.endswith("gate: FAILED: test_app.py\n0 passed, 1 failed\n"), ran.stdout)


# It needs a file of the repository, and a program.
SCRIPT = """#!/usr/bin/env python3
# needs: tools/words.txt app
import os, shutil, subprocess, sys
shutil.copyfile(f"{os.environ['GATE_ROOT']}/tools/words.txt", "note.txt")
ran = subprocess.run([os.environ["APP"]], input=b"tea 95\\n", stdout=subprocess.PIPE)
first = ran.stdout.decode().partition(chr(10))[0]
print("the program wrote", first)
sys.exit(first != "3 data")
"""


# With the stand-in alone.
class Stub(Repository):
    def test_script_that_needs_what_is_not_there(self):
        self.write("tools/tests/test_app.py", SCRIPT)
        ran = self.gate("--only", "test_app.py")
        self.assertEqual(ran.returncode, 1)
        self.assertIn("names what is not there: tools/words.txt", ran.stdout)

    def test_edits_without_time(self):
        self.write("crates/app/must-fail/one.edit", "file: src/main.rt\nold: mid::echo(3)\nnew: mid::echo(4)\n")
        self.change("low/src/lib.rt", "// The bottom", "// At the bottom")
        ran = self.gate("--minutes", "0", "--only", "mid")
        self.assertEqual(ran.returncode, 0, ran.stdout)
        self.assertIn("first the next time: mid/no-value.edit mid/other-value.edit\n", ran.stdout)
        self.assertTrue(ran.stdout.endswith("\n1 passed, 0 failed, 2 skipped\n"), ran.stdout)
        # those of mid come first, though app has changed since, and last of all
        ran = self.gate("--lanes", "1")
        self.assertTrue(ran.stdout.endswith("\n6 passed, 0 failed\n"), ran.stdout)
        self.assertEqual(re.findall(r"\] (\w+ edits): ", ran.stdout), ["mid edits", "app edits"], ran.stdout)
        self.assertLess(ran.stdout.index("] app run: "), ran.stdout.index("] mid edits: "))
        # without edits that were left, those of a crate that changed come first
        self.change("low/src/lib.rt", "// At the bottom", "// Right at the bottom")
        self.change("app/src/main.rt", "// Reads lines", "// It reads lines")
        ran = self.gate("--lanes", "1")
        self.assertEqual(re.findall(r"\] (\w+ edits): ", ran.stdout), ["app edits", "mid edits"], ran.stdout)

    def test_edits_that_take_too_long(self):
        self.write("crates/mid/must-fail/slow.edit", "file: src/lib.rt\nold: low::echo\nnew: SLOW\n")
        self.change("low/src/lib.rt", "// The bottom", "// At the bottom")
        ran = self.gate("--minutes", "0.2", "--only", "mid", GATE_LATE="0.01")
        self.assertEqual(ran.returncode, 0, ran.stdout)
        self.assertIn("mid edits: ended for want of time", ran.stdout)
        self.assertIn("first the next time: mid/slow.edit\n", ran.stdout)
        # (the two that were refused by then count)
        self.assertTrue(ran.stdout.endswith("\n3 passed, 0 failed, 1 skipped\n"), ran.stdout)
        # and that one alone is left
        os.remove(f"{self.repo}/crates/mid/must-fail/slow.edit")
        ran = self.gate("--only", "mid")
        self.assertTrue(ran.stdout.endswith("\n3 passed, 0 failed\n"), ran.stdout)
        self.assertEqual(self.done(ran), set())

    def test_empty_file_of_a_run(self):
        self.write("crates/app/args", "")
        ran = self.gate()
        self.assertEqual((ran.returncode, self.done(ran)), (0, {("app", "run")}), ran.stdout)

    def test_costs(self):
        ran = self.gate("--costs")
        self.assertRegex(ran.stdout, r"(?m)^\| `mid` \| \d+ \| [\d.]+ \|")

    def test_two_at_once(self):
        shutil.rmtree(self.store)
        other = f"{self.repo}.other"
        self.clone_to(other)
        how = {"env": {**self.env, "STUB_SLEEP": "0.5"}, "stdout": subprocess.PIPE, "text": True}
        two = [subprocess.Popen([*GATE, "--store", self.store, "--lanes", "2"], cwd=it, **how) for it in (self.repo, other)]
        for it in two:
            said = it.communicate()[0]
            self.assertEqual(it.returncode, 0, said)
            self.assertTrue(said.endswith("5 passed, 0 failed\n"), said)
        with open(self.calls) as it:
            made = it.read().split("\n")
        # neither did what the other had done
        self.assertEqual((made.count("check low"), made.count("lib mid"), made.count("test app")), (1, 1, 1))

    def test_old_libraries(self):
        # of five libraries the store keeps the four that were used last, and of them those of the last 90 days
        libraries = f"{self.store}/libs/low"
        for days in (1, 2, 3, 4):
            os.makedirs(f"{libraries}/{days}")
            os.utime(f"{libraries}/{days}", (time.time() - days * 86400,) * 2)
        self.gate()
        self.assertEqual(len(os.listdir(libraries)), 4)
        for name in ("low", "mid"):
            for it in os.listdir(f"{self.store}/libs/{name}"):
                os.utime(f"{self.store}/libs/{name}/{it}", (time.time() - 91 * 86400,) * 2)
        # the notes stand, so nothing is done again until a library is needed
        ran = self.gate()
        self.assertEqual((ran.returncode, self.done(ran)), (0, set()), ran.stdout)
        self.assertEqual(os.listdir(libraries), [])
        self.change("app/src/main.rt", "// Reads lines", "// It reads lines")
        ran = self.gate()
        self.assertEqual(self.done(ran), {("low", "proof"), ("mid", "proof"), ("app", "proof"), ("app", "tests"), ("app", "run")}, ran.stdout)

    def test_memory(self):
        # the peaks as last seen would not fit side by side, so one runs at a time; and the table of the repository is written
        os.mkdir(f"{self.repo}/tools")
        shutil.rmtree(self.store)
        os.mkdir(self.store)
        with open(f"{self.store}/FORMAT", "w") as it:
            it.write("dhall-gate 1\n")
        with open(f"{self.repo}/tools/gate-memory.txt", "w") as it:
            it.write("".join(f"{a} {b} 9000000 1\n" for a in ("low", "mid", "app") for b in ("proof", "tests", "edits", "run")))
        ran = self.gate()
        self.assertTrue(ran.stdout.endswith("5 passed, 0 failed\n"), ran.stdout)
        self.assertEqual(len(self.done(ran)), 7, ran.stdout)
        with open(f"{self.repo}/tools/gate-memory.txt") as it:
            rows = dict((tuple(row.split()[:2]), int(row.split()[2])) for row in it if not row.startswith("#"))
        self.assertLess(rows["mid", "proof"], 1000)
        with open(self.calls) as it:
            made = [row for row in it.read().split("\n") if row]
        # (no part of another crate begins before the last command of one has begun)
        parts = [row for row in made if not row.startswith("fmt")]
        self.assertEqual(parts.index("lib low"), parts.index("check low") + 1, parts)
        self.assertEqual(parts.index("lib mid"), parts.index("check mid") + 1, parts)

    def test_killed_for_memory(self):
        self.change("low/src/lib.rt", "// The bottom", "// DIES ONCE: The bottom")
        ran = self.gate("--only", "low")
        self.assertIn("low proof: killed, most likely for memory: once more, with twice the memory", ran.stdout)
        self.assertEqual(ran.returncode, 0, ran.stdout)
        # one that then fails is not tried again
        self.change("low/src/lib.rt", "DIES ONCE", "WRONG, and DIES ONCE")
        os.remove(f"{self.calls}.died")
        ran = self.gate("--only", "low")
        self.assertEqual((ran.returncode, self.done(ran)), (1, {("low", "proof")}), ran.stdout)

    def test_layout(self):
        self.change("low/src/lib.rt", "// The bottom", "// NOT IN LAYOUT The bottom")
        ran = self.gate("--only", "low")
        self.assertIn("run rt fmt in the crate's folder: src/lib.rt", ran.stdout)
        self.assertEqual(ran.returncode, 1)

    def test_warning_that_rt_ci_refuses(self):
        self.change("low/src/lib.rt", "// The bottom", "// CHOSEN: The bottom")
        ran = self.gate("--only", "low")
        self.assertIn("a tactic chose a term", ran.stdout)
        self.assertEqual(ran.returncode, 1)

    def test_killed_at_any_point(self):
        shutil.rmtree(self.store)
        for after in (0.3, 0.5, 0.7, 0.9, 1.1, 1.3):
            ran = subprocess.Popen([*GATE, "--store", self.store], cwd=self.repo, env=self.env, stdout=subprocess.DEVNULL)
            time.sleep(after)
            ran.kill()
            ran.wait()
        ran = self.gate()
        self.assertEqual(ran.returncode, 0, ran.stdout)
        ran = self.gate()
        self.assertEqual((ran.returncode, self.done(ran)), (0, set()), ran.stdout)


def run_one(test):
    """Runs one test, and returns what is to be said if it failed."""
    result = unittest.TestResult()
    test.run(result)
    print(f"{test.id()}: {'passed' if result.wasSuccessful() else 'FAILED'}", flush=True)
    return "".join(text for _, text in result.failures + result.errors)


def main():
    wanted = sys.argv[1:]
    tests = [it for suite in unittest.defaultTestLoader.loadTestsFromModule(sys.modules[__name__]) for it in suite]
    tests = [it for it in tests if not (REAL and isinstance(it, Stub)) and (not wanted or it.id().rpartition(".")[2] in wanted)]
    Repository.setUpClass()
    try:
        # (with the real rt each run of the gate uses all processors)
        with ThreadPoolExecutor(1 if REAL else 4) as pool:
            failures = [it for it in pool.map(run_one, tests) if it]
    finally:
        Repository.tearDownClass()
    print(*failures, f"{len(tests) - len(failures)} passed, {len(failures)} failed", sep="\n")
    return 1 if failures or not tests else 0


if __name__ == "__main__":
    sys.exit(main())
