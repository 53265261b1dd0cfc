#!/usr/bin/env python3
# needs: dhall
"""The program on files, an environment and streams of this system: what it writes on both outputs, and its status. What a command
answers to its input is among the cases; here is what `main` hands on.

    DHALL=PATH python3 tools/tests/test_program.py
"""

import os
import subprocess
import tempfile
import unittest

HERE = os.path.dirname(os.path.abspath(__file__))
DHALL = os.path.abspath(os.environ.get("DHALL", f"{HERE}/../../crates/dhall/out/dhall"))

FILES = {
    "port.dhall": '{ name = "Bo", port = 80 + "80" }\n',
    "role.dhall": '{ name = "Ann", port = 80 }\n',
    "a": "./sub/b",
    "sub/b": "./c + 1",
    "sub/c": "env:ONE + 1",
    "cut": "1 +",
    "json": "{ xs = [ Some 1, None Natural ] }",
    **{f"n{number}": str(number) for number in range(64)},
}

DIGESTS = {
    "3": "sha256:15f52ecf91c94c1baac02d5a4964b2ed8fa401641a2c8a95e8306ec7c1e3b8d2",
    "Ann": "sha256:289fd78e1ff35fea37b6327b3dd18f7985910b38ce4efb7efa1fca6d9827b11e",
}
BAD_PORT = "in ./port.dhall: type rule 14 at 1, line 1, column 23\n"
MANY = "[ " + ", ".join(f"./n{number}" for number in range(64)) + " ]"
NUMBERS = "[ " + ", ".join(str(number) for number in range(64)) + " ]\n"

# The words, the input, the answer, the line on standard error, and the status.
RUNS = [
    ("normalize", "./a", "3\n", "", 0),
    ("normalize", "~/a", "3\n", "", 0),
    ("to-json", "./json", '{"xs":[1,null]}\n', "", 0),
    *((f"normalize --workers {workers}", MANY, NUMBERS, "", 0) for workers in (1, 2, 63, 64)),
    ("batch a ./role.dhall", "", f"a: {DIGESTS['3']}\n./role.dhall: {DIGESTS['Ann']}\n", "", 0),
    ("batch port.dhall a", "", f"port.dhall: {BAD_PORT}a: {DIGESTS['3']}\n", "", 2),
    ("type", "./cut", "", "in ./cut: syntax at 3\n", 1),
    ("type --workers 4", "[ ./role.dhall, ./port.dhall ]", "", BAD_PORT, 2),
    ("type", "./none", "", "in ./none: absent\n", 3),
    ("type", "env:NONE", "", "in env:NONE: absent\n", 3),
    ("normalize", f"{2**127} * 2", "", "number or literal too wide\n", 4),
    ("normalise", "1", "", "usage: word 1\n", 5),
    ("type --workers 65", "1", "", "usage: word 3\n", 5),
    ("type", "./sub", "", "in ./sub: absent\n", 3),
    # (no page stands at address 0 of a process)
    ("type", "/proc/self/mem", "", "in /proc/self/mem: device failed\n", 8),
    ("to-json", "λ(x : Bool) → x", "", "no JSON value at root\n", 10),
    ("steps root", "1 + 2", "", "not in the fragment at root\n", 11),
]


class Program(unittest.TestCase):
    def setUp(self):
        self.home = tempfile.TemporaryDirectory()
        for name, text in FILES.items():
            path = f"{self.home.name}/{name}"
            os.makedirs(os.path.dirname(path), exist_ok=True)
            with open(path, "w", encoding="utf-8") as file:
                file.write(text)

    def tearDown(self):
        self.home.cleanup()

    def run_on(self, words, **streams):
        """Runs the program, whose environment has a home, a cache and a variable, in the folder of the files."""
        env = {"HOME": self.home.name, "XDG_CACHE_HOME": f"{self.home.name}/cache", "ONE": "1"}
        how = {"stdout": subprocess.PIPE, "stderr": subprocess.PIPE, **streams}
        return subprocess.run([DHALL, *words.split()], cwd=self.home.name, env=env, timeout=60, **how)

    def test_runs(self):
        for words, text, out, err, status in RUNS:
            with self.subTest(words, text=text):
                ran = self.run_on(words, input=text.encode())
                self.assertEqual((ran.stdout.decode(), ran.stderr.decode(), ran.returncode), (out, err, status))

    def test_an_input_that_cannot_be_read(self):
        folder = os.open(self.home.name, os.O_RDONLY)
        ran = self.run_on("type", stdin=folder)
        os.close(folder)
        self.assertEqual((ran.stdout, ran.stderr, ran.returncode), (b"", b"read failed\n", 6))

    def test_an_output_that_cannot_be_written(self):
        with open("/dev/full", "wb") as full:
            ran = self.run_on("normalize", input=b"1", stdout=full)
            self.assertEqual((ran.stderr, ran.returncode), (b"write failed\n", 7))
            ran = self.run_on("normalise", input=b"1", stderr=full)
            self.assertEqual((ran.stdout, ran.returncode), (b"", 7))

    def test_a_frozen_import_goes_into_the_cache_and_comes_from_it(self):
        text = f"./a {DIGESTS['3']}".encode()
        self.assertEqual(self.run_on("normalize", input=text).stdout, b"3\n")
        os.remove(f"{self.home.name}/a")
        self.assertEqual(self.run_on("normalize", input=text).stdout, b"3\n")
        self.assertEqual(self.run_on("normalize", input=b"./a").returncode, 3)


if __name__ == "__main__":
    unittest.main()
