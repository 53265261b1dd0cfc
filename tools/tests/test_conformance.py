#!/usr/bin/env python3
# needs: tools/conformance.py tools/tests/conformance dhall
"""Runs tools/conformance.py on the small folder conformance/, which has the shape of the standard's tests: each case passes, but for
those that the program leaves out. Its cases were written by hand from the standard's rules, the binary forms too. And runs it with
programs that are wrong, so that it is known to see a fault.

    DHALL=PATH python3 tools/tests/test_conformance.py
"""

import os
import stat
import subprocess
import sys
import tempfile
import unittest

HERE = os.path.dirname(os.path.abspath(__file__))
CASES = f"{HERE}/conformance"
DHALL = os.environ.get("DHALL", f"{HERE}/../../crates/dhall/out/dhall")

sys.path.insert(0, f"{HERE}/..")
import conformance

LEFT_OUT = {
    "parser/success/Double": "Double",
    "import/failure/Https": "https",
    "normalization/success/FreeVariable": "it has no type",
    "alpha-normalization/success/FreeVariable": "it has no type",
}


def results_of(program):
    return conformance.run(program, CASES, conformance.SUITES, 4)


def written(folder, text):
    """A program that is a script in Python."""
    path = f"{folder}/dhall"
    with open(path, "w", encoding="utf-8") as file:
        file.write(f"#!{sys.executable}\nimport os, subprocess, sys\nDHALL = {os.path.abspath(DHALL)!r}\n{text}")
    os.chmod(path, os.stat(path).st_mode | stat.S_IXUSR)
    return path


class Conformance(unittest.TestCase):
    def test_all_pass_but_what_is_left_out(self):
        results = results_of(DHALL)
        self.assertEqual([f"{case.name}: {why}" for case, how, why in results if how == conformance.FAILED], [])
        left = {case.name: why for case, how, why in results if how == conformance.LEFT_OUT}
        self.assertEqual([*left], [*LEFT_OUT])
        for name, why in LEFT_OUT.items():
            self.assertTrue(left[name].startswith(why), f"{name}: {left[name]}")
        self.assertGreater(len(results), 60)

    def test_each_suite_has_cases_of_both_kinds(self):
        for suite in conformance.SUITES:
            kinds = {case.succeeds for case in conformance.cases_of(CASES, suite)}
            has_failures = suite not in ("normalization", "alpha-normalization", "semantic-hash")
            self.assertEqual(kinds, {True, False} if has_failures else {True}, suite)

    def failed_of(self, text):
        with tempfile.TemporaryDirectory() as folder:
            return [case for case, how, _ in results_of(written(folder, text)) if how == conformance.FAILED]

    def test_a_program_that_answers_nothing_fails_all_successes(self):
        failed = self.failed_of("sys.stderr.write('syntax at 0\\n'); sys.exit(1)")
        wanted = [case.name for suite in conformance.SUITES for case in conformance.cases_of(CASES, suite) if case.succeeds]
        self.assertEqual([case.name for case in failed if case.succeeds], wanted)

    def test_a_program_that_refuses_nothing_fails_all_failures(self):
        failed = self.failed_of("sys.stdout.write('1\\n')")
        wanted = [case.name for suite in conformance.SUITES for case in conformance.cases_of(CASES, suite) if not case.succeeds]
        self.assertEqual([case.name for case in failed if not case.succeeds], wanted)

    def test_a_signal_is_a_failure(self):
        failed = self.failed_of("os.kill(os.getpid(), 11)")
        self.assertEqual(len(failed), len(results_of(DHALL)))

    def test_one_wrong_command_fails_its_suite_alone(self):
        wrong = "if sys.argv[1] == 'hash': print('sha256:' + 64 * '0')\nelse: sys.exit(subprocess.run([DHALL, *sys.argv[1:]]).returncode)"
        self.assertEqual({case.suite for case in self.failed_of(wrong)}, {"alpha-normalization", "semantic-hash"})

    def test_the_command_line_says_what_passed_and_ends_with_its_status(self):
        tool = [sys.executable, f"{HERE}/../conformance.py"]
        ran = subprocess.run([*tool, CASES, "--suite", "parser", "--program", DHALL], capture_output=True, text=True)
        self.assertEqual(ran.returncode, 0, ran.stdout + ran.stderr)
        self.assertIn("passed parser/success/Lambda\n", ran.stdout)
        self.assertIn("left out parser/success/Double: Double\n", ran.stdout)
        self.assertEqual(subprocess.run([*tool, f"{HERE}", "--program", DHALL], capture_output=True).returncode, 2)


if __name__ == "__main__":
    unittest.main()
