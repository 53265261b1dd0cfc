#!/usr/bin/env python3
# needs: docs/TYPE_RULES.md crates/dh_explain/specs crates/dh_syntax/specs/Typing/TypeRules.antt crates/dhall_cases/data/type_rules.cases tools/type_rules.py dhall
"""docs/TYPE_RULES.md is what its definitions make, each of its texts is among the cases, and `dhall explain` prints the same.

    DHALL=PATH python3 tools/tests/test_type_rules.py
"""

import os
import re
import subprocess
import sys
import unittest

HERE = os.path.dirname(os.path.abspath(__file__))
ROOT = os.path.dirname(os.path.dirname(HERE))
DHALL = os.environ.get("DHALL", f"{ROOT}/crates/dhall/out/dhall")

sys.path.insert(0, f"{ROOT}/tools")
import type_rules


def explain(*words):
    ran = subprocess.run([DHALL, "explain", *words], stdin=subprocess.DEVNULL, capture_output=True, text=True, timeout=60)
    return ran.returncode, ran.stdout, ran.stderr


class TypeRules(unittest.TestCase):
    def test_the_page_is_what_its_definitions_make(self):
        ran = subprocess.run([sys.executable, f"{ROOT}/tools/type_rules.py", "--check"], capture_output=True, text=True)
        self.assertEqual((ran.returncode, ran.stdout + ran.stderr), (0, ""))

    def test_each_rule_has_a_number_of_its_own(self):
        self.assertEqual([rule.number for rule in type_rules.rules()], list(range(1, 57)))

    def test_a_page_or_an_example_that_differs_is_found(self):
        rules = type_rules.rules()
        self.assertNotEqual(type_rules.page(rules[:-1]), type_rules.page(rules))
        rules[0].fails, rules[1].types = "y", "1"
        self.assertEqual(len(type_rules.missing_cases(rules)), 2)

    def test_sentences_are_short(self):
        for rule in type_rules.rules():
            for sentence in re.split(r"(?<=[.`])\s+(?=[A-Z`])", " ".join(rule.wants)):
                self.assertLessEqual(len(re.sub(r"`[^`]*`", "code", sentence).split()), 30, sentence)

    def test_the_program_prints_the_same(self):
        rules = type_rules.rules()
        for rule in rules:
            self.assertEqual(explain(str(rule.number)), (0, rule.told(), ""))
        self.assertEqual(explain(), (0, type_rules.rule_list(rules), ""))
        for word in ("0", "57", "01", "x", "1x", "+1", "-1", "", "root", "18446744073709551617"):
            self.assertEqual(explain(word), (5, "", "usage: word 2\n"))


if __name__ == "__main__":
    unittest.main()
