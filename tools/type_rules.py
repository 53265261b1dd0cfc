#!/usr/bin/env python3
"""Makes docs/TYPE_RULES.md from the definitions of the rules of typing and of their explanations.

    python3 tools/type_rules.py            writes the page
    python3 tools/type_rules.py --check    compares: exits with 1 if the page is another, or if an example is not among the cases

The numbers are those of crates/dh_syntax/specs/Typing/TypeRules.antt, the texts those of crates/dh_explain/specs/Explained.antt.
crates/dhall_cases/data/type_rules.cases runs each example: the one that fails with the number of its rule, the other one with a type.
"""

import argparse
import os
import re
import sys

ROOT = os.path.dirname(os.path.dirname(os.path.abspath(__file__)))
NUMBERS = "crates/dh_syntax/specs/Typing/TypeRules.antt"
TEXTS = "crates/dh_explain/specs/Explained.antt"
CASES = "crates/dhall_cases/data/type_rules.cases"
PAGE = "docs/TYPE_RULES.md"

HEAD = """# Rules of typing

If an expression has no type, a command that needs one prints a line like `type rule 14 at 1, line 2, column 5`. The line has three parts:

- the number of the rule that fails;
- the way to the part that fails by it: `root`, or numbers of parts, joined by `/`;
- where that part begins in the text that was written.

`dhall explain 14` prints what this page says of rule 14, and `dhall explain` lists the rules. Neither reads its input.

Mostly the parts of an expression are typed from left to right, and then its own rules are asked. The first fault is told. Types are compared by their normal forms, in which the names of bound variables do not matter.

Every text on this page was tried: the first one of a rule fails by that rule, and the second one has a type.

"""


class Rule:
    """A rule: its number, its name, sentences, a text that fails by it (or none), and one that has a type."""

    def __init__(self, number, name, wants, fails, types):
        self.number, self.name, self.wants, self.fails, self.types = number, name, wants, fails, types

    def told(self):
        """What `dhall explain` prints of it."""
        fails = [] if self.fails is None else [f"fails: {self.fails}"]
        return "".join(f"{line}\n" for line in [f"type rule {self.number}: {self.name}", *self.wants, *fails, f"types: {self.types}"])

    def section(self):
        fails = [] if self.fails is None else [f"- fails: `{self.fails}`"]
        return "\n".join([f"## {self.number}: {self.name}", "", " ".join(self.wants), "", *fails, f"- types: `{self.types}`", ""])


def read(path):
    with open(f"{ROOT}/{path}", encoding="utf-8") as file:
        return file.read()


def literals(text):
    """The texts of the literals in a piece of a definition."""
    return [re.sub(r"\\(.)", r"\1", it) for it in re.findall(r'codes "((?:[^"\\]|\\.)*)"', text)]


def rules():
    """The rules, in the order of their numbers."""
    numbers = {name: int(number) for name, number in re.findall(r"(?m)^rule_number (\w+) = (\d+)$", read(NUMBERS))}
    found = []
    for name, body in re.findall(r"(?ms)^explained rule\.(\w+) = record \{\n(.*?)^\}$", read(TEXTS)):
        head, _, rest = body.partition("  wants =")
        wants, _, rest = rest.partition("\n  fails =")
        fails, _, types = rest.partition("\n  types =")
        found.append(Rule(numbers.pop(name), literals(head)[0], literals(wants), (literals(fails) or [None])[0], literals(types)[0]))
    if numbers:
        raise ValueError(f"rules without an explanation: {' '.join(numbers)}")
    return sorted(found, key=lambda rule: rule.number)


def rule_list(all_rules):
    """What `dhall explain` prints without a number."""
    return "".join(f"{rule.number}: {rule.name}\n" for rule in all_rules)


def page(all_rules):
    return HEAD + "\n".join(rule.section() for rule in all_rules)


def missing_cases(all_rules):
    """Which examples are not among the cases."""
    text = read(CASES)
    failing = set(re.findall(r"(?m)^  (.+) ~2> type rule (\d+) at ", text))
    typed = set(re.findall(r"(?m)^  (.+) ~> ", text))
    missing = [f"rule {rule.number}: no case has {rule.fails} fail by it" for rule in all_rules if rule.fails is not None and (rule.fails, str(rule.number)) not in failing]
    return missing + [f"rule {rule.number}: no case types {rule.types}" for rule in all_rules if rule.types not in typed]


def main():
    parser = argparse.ArgumentParser(description=__doc__.split("\n")[0])
    parser.add_argument("--check", action="store_true", help="compare, and write nothing")
    check = parser.parse_args().check
    all_rules = rules()
    wrong = missing_cases(all_rules)
    if not check:
        with open(f"{ROOT}/{PAGE}", "w", encoding="utf-8") as file:
            file.write(page(all_rules))
    elif not os.path.exists(f"{ROOT}/{PAGE}") or read(PAGE) != page(all_rules):
        wrong.append(f"{PAGE} is not what its definitions make: run python3 tools/type_rules.py")
    for line in wrong:
        print(line, file=sys.stderr)
    return 1 if wrong else 0


if __name__ == "__main__":
    sys.exit(main())
