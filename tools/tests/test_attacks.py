#!/usr/bin/env python3
# needs: tools/attacks tools/expressions.py tools/programs.py tools/soak.py tools/waits.py
"""The references of the attacks on `batch` and `gen` are those that were worked out by hand, and the attacks, tools/waits.py and
tools/soak.py find what is wrong: each is run on a small script in place of the program, which answers as it should or does not.

    python3 tools/tests/test_attacks.py
"""

import os
import random
import subprocess
import sys
import tempfile
import unittest
import unittest.mock

HERE = os.path.dirname(os.path.abspath(__file__))
TOOLS = os.path.dirname(HERE)

sys.path.insert(0, TOOLS)
import soak
from attacks import batch, gen
from attacks.runs import OK, Ran, Runs, new_folder

# Words that spell a location, as they stand or behind `./`, and words that do not.
LOCATIONS = ["a", "a/b", "/a", "./a", "../a", "~/a/b.dhall", '"a b"/c', '/"a b"', ".", "..", "--workers", "~a", "a/../..", "env:X", "a`b"]
NO_LOCATIONS = ["", "/", "./", "../", "~/", "a/", "a//b", "a b", '"a', 'a"', '""', "a sha256:0", "http://a/b", "a#", "a\n", "\u03bb", "a as Text"]

# Programs in place of `dhall`. What `hash` says of an import is made from its text alone, in a module beside the program.
ALONE = """
import hashlib, os, sys
def alone(text):
    if "gone" in text:
        return "in %s: absent\\n" % text, 3
    return "sha256:%s\\n" % hashlib.sha256(text.encode()).hexdigest(), 0
words = sys.argv[1:]
workers = 4
if words[1:2] == ["--workers"]:
    workers = int(words[2])
    del words[1:3]
if words[0] == "hash":
    line, status = alone(sys.stdin.read())
    (sys.stderr if status else sys.stdout).write(line)
    sys.exit(status)
ends = [alone(w if w.startswith(("/", "./", "../", "~/")) else "./" + w) for w in words[1:]]
lines = ["%s: %s" % (w, line) for w, (line, _) in zip(words[1:], ends)]
status = ([s for _, s in ends if s] + [0])[0]
"""
RIGHT_BATCH = ALONE + "sys.stdout.write(''.join(lines)); sys.exit(status)\n"
WRONG_BATCHES = {
    "lines in another order": ALONE + "sys.stdout.write(''.join(reversed(lines))); sys.exit(status)\n",
    "faults on the other stream": ALONE + "[(sys.stdout if ' sha256:' in it else sys.stderr).write(it) for it in lines]; sys.exit(status)\n",
    "the status of the last file": ALONE + "sys.stdout.write(''.join(lines)); sys.exit(ends[-1][1])\n",
    "a line lost by many workers": ALONE + "sys.stdout.write(''.join(lines[workers > 8:])); sys.exit(status)\n",
    "an entry of the cache": ALONE + "open(os.environ['XDG_CACHE_HOME'] + '/dhall/12200', 'w').close(); sys.stdout.write(''.join(lines)); sys.exit(status)\n",
}
MADE = f"import sys, time\nsys.path.insert(0, {TOOLS!r})\nfrom attacks import gen\nn = int(sys.argv[-1])\nout = gen.wanted_of(n).out.decode()\n"
RIGHT_GEN = MADE + "print(out, end='')\n"
WRONG_GENS = {
    "one import more": MADE + "print(out.replace(f'imports {n + 1}', f'imports {n + 2}'), end='')\n",
    "one fetch more": MADE + "print(out.replace(f'asked {n + 1}', f'asked {n + 2}'), end='')\n",
    "another digest by many workers": MADE + "print(out if len(sys.argv[3]) < 2 else out[:-2] + '?', end='\\n' * (len(sys.argv[3]) > 1))\n",
    "a status": MADE + "print(out, end='')\nsys.exit(1)\n",
}


def program(folder, text):
    """A program that is a script in Python, which any user may run."""
    path = os.path.join(folder, "program")
    with open(path, "w", encoding="utf-8") as file:
        file.write(f"#!{sys.executable} -I\n{text}")
    os.chmod(path, 0o755)
    return path


def quietly(call, *given):
    """What a call finds, which it also prints."""
    shown, sys.stdout = sys.stdout, open(os.devnull, "w", encoding="utf-8")
    try:
        return call(*given)
    finally:
        sys.stdout.close()
        sys.stdout = shown


class Batch(unittest.TestCase):
    def test_words_that_name_files(self):
        for word in [*LOCATIONS, *batch.ODD_FILES, *batch.DEVICES]:
            self.assertTrue(batch.names_file(word), word)
        for word in [*NO_LOCATIONS, *batch.NO_FILES]:
            self.assertFalse(batch.names_file(word), word)

    def test_lines_stand_in_the_order_of_the_words_with_the_first_status(self):
        ends = {"./a": Ran(OK, b"sha256:1\n", b""), "./b": Ran(3, b"", b"in ./b: absent\n"), "~/c": Ran(2, b"", b"in ~/c: type rule 1\n")}
        wanted = Ran(3, b"a: sha256:1\nb: in ./b: absent\n~/c: in ~/c: type rule 1\na: sha256:1\n", b"")
        self.assertEqual(batch.wanted_of(["a", "b", "~/c", "a"], ends.get), wanted)

    def found(self, text):
        with new_folder() as at, new_folder() as folder:
            runs = Runs(program(at, text), 23, True, 6)
            room = batch.Room(runs, random.Random(1), folder)
            # (another user may not find Python)
            with unittest.mock.patch.object(batch, "as_nobody", lambda: None):
                room.check("files", "a set", ["a", "gone", "./c", "b", "a"], [1, 9])
            os.chmod(os.path.join(room.work, "odd", "shut"), 0o700)
            return runs.found

    def test_the_right_lines_are_no_finding(self):
        self.assertEqual(quietly(self.found, RIGHT_BATCH), [])

    def test_wrong_lines_are_found(self):
        for name, text in WRONG_BATCHES.items():
            self.assertNotEqual(quietly(self.found, text), [], name)


class Gen(unittest.TestCase):
    def test_texts_and_values(self):
        self.assertEqual([gen.text_of(k) for k in (0, 1, 2, 7)], ["0", "1", "./g1 + ./g0 + 2", "./g3 + ./g2 + 7"])
        self.assertEqual(gen.list_text(2), "[./g0, ./g1, ./g2]")
        self.assertEqual(gen.values(7), [0, 1, 3, 5, 8, 9, 14, 15])
        self.assertEqual((gen.values(0), gen.values(1)), ([0], [0, 1]))

    def test_the_lines_of_the_readme(self):
        wanted = b"imports 5\nasked 5\nsha256:d12343667c608e212d9ddaefc76eb84cdb634b6be1e87011466df113a59e0b95\n"
        self.assertEqual(gen.wanted_of(4), Ran(OK, wanted, b""))

    def found(self, text):
        with new_folder() as at:
            runs = Runs(program(at, text), 23, True, 6)
            gen.check(runs, "numbers", 7, [1, 64])
            return runs.found

    def test_wrong_lines_are_found(self):
        self.assertEqual(quietly(self.found, RIGHT_GEN), [])
        for name, text in WRONG_GENS.items():
            self.assertNotEqual(quietly(self.found, text), [], name)


class Waits(unittest.TestCase):
    def ran(self, text, *options):
        with tempfile.TemporaryDirectory() as at:
            words = [sys.executable, f"{TOOLS}/waits.py", "--program", program(at, text), "--shape", "generated", "--runs", "3", *options]
            done = subprocess.run(words, capture_output=True, text=True, timeout=300)
            return done.returncode, done.stdout

    def test_runs_that_end_alike(self):
        status, out = self.ran(RIGHT_GEN, "--seconds", "60", "--busy", "1")
        self.assertEqual(status, 0, out)
        self.assertIn("| generated | 3 | ", out)
        self.assertIn("seed 23, 1 spinning; 0 did not end, 0 differ", out)

    def test_one_that_does_not_end_is_found(self):
        status, out = self.ran(MADE + "time.sleep(1000)\n", "--seconds", "1")
        self.assertEqual((status, out.count("no end within 1.0 seconds")), (1, 3), out)

    def test_one_that_differs_is_found(self):
        status, out = self.ran(WRONG_GENS["one fetch more"], "--seconds", "60")
        self.assertEqual((status, "3 differ" in out), (1, True), out)


class Soak(unittest.TestCase):
    def in_soak(self, text, call):
        with tempfile.TemporaryDirectory() as at, tempfile.TemporaryDirectory() as folder:
            runs = soak.Soak(program(at, text), 23, folder)
            try:
                return call(runs), runs
            finally:
                runs.end()

    def test_a_run_has_its_streams_its_status_and_its_memory(self):
        text = "import os, sys\nkept = bytes(int(sys.argv[1]) << 20).replace(b'\\0', b'x')\nprint(sys.stdin.read(), os.getcwd(), len(kept))\nsys.stderr.write('e')\nsys.exit(3)\n"
        memory = {}
        for size in (1, 80):
            ran, runs = self.in_soak(text, lambda runs: runs.run("runs", "one", [str(size)], b"in", folder="/", is_formed=False))
            self.assertEqual(ran, Ran(3, b"in / %d\n" % (size << 20), b"e"))
            memory[size], _ = runs.greatest
        self.assertGreater(memory[80] - memory[1], 70 * 1024)

    def test_one_that_does_not_end_is_killed_and_found(self):
        ran, runs = quietly(self.in_soak, "import time\ntime.sleep(1000)\n", lambda runs: runs.run("runs", "one", [], seconds=1))
        self.assertEqual((ran.status, len(runs.found)), (-9, 1))

    def test_a_file_in_tmpdir_is_found(self):
        text = "import os, tempfile\nprint(tempfile.mkstemp()[1])\n"
        _, runs = quietly(self.in_soak, text, lambda runs: runs.run("runs", "one", [], seconds=60))
        self.assertEqual(len(runs.found), 1)

    def test_values_follow_the_edits(self):
        """The value of a program is that of the same program made anew, after each edit."""
        with tempfile.TemporaryDirectory() as folder:
            values = soak.Values(None, random.Random(5), folder, "a round")
            edits = 0
            for _ in range(40):
                before = [file.value() for _, _, file in values.maker.files]
                values.edit()
                after = [file.value() for _, _, file in values.maker.files]
                edits += before != after
                self.assertEqual(after, [file.run([]) for _, _, file in values.maker.files])
            self.assertGreater(edits, 5)

    def test_a_wrong_program_and_one_that_leaves_files_are_found(self):
        with tempfile.TemporaryDirectory() as at:
            wrong = program(at, "import os\nopen('left', 'w').close()\nprint('True')\n")
            done = subprocess.run([sys.executable, f"{TOOLS}/soak.py", "--program", wrong, "--minutes", "0.02"], capture_output=True, text=True, timeout=300)
        self.assertEqual(done.returncode, 1, done.stdout + done.stderr)
        self.assertIn("FOUND", done.stdout)
        self.assertIn("left", done.stdout)


if __name__ == "__main__":
    unittest.main()
