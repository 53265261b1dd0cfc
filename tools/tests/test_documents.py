#!/usr/bin/env python3
# needs: README.md CONTRIBUTING.md CHANGELOG.md docs completions crates.txt tools dhall dhall_watch
"""The documents say what is: their command lines print what the pages say, their links lead to files, and the map of the crates has
each crate of crates.txt under its heading.

    DHALL=PATH DHALL_WATCH=PATH python3 tools/tests/test_documents.py
"""

import os
import re
import sys
import tempfile
import unittest

HERE = os.path.dirname(os.path.abspath(__file__))
ROOT = os.path.dirname(os.path.dirname(HERE))
DHALL = os.environ.get("DHALL", f"{ROOT}/crates/dhall/out/dhall")
DHALL_WATCH = os.environ.get("DHALL_WATCH", f"{ROOT}/crates/dhall_watch/out/dhall_watch")
PAGES = ["README.md", "CONTRIBUTING.md", "CHANGELOG.md", *(f"docs/{it}" for it in sorted(os.listdir(f"{ROOT}/docs")) if it.endswith(".md"))]

sys.path.insert(0, f"{ROOT}/tools")
import commands


def read(path):
    with open(f"{ROOT}/{path}", encoding="utf-8") as file:
        return file.read()


class Commands(unittest.TestCase):
    def run_page(self, page, program=DHALL, least=10):
        count, wrong = commands.check(f"{ROOT}/{page}", program)
        self.assertEqual("\n".join(wrong), "")
        self.assertGreaterEqual(count, least)

    def test_readme(self):
        self.run_page("README.md")

    def test_guide(self):
        self.run_page("docs/GUIDE.md")

    def test_watch(self):
        self.run_page("docs/WATCH.md", DHALL_WATCH, 6)

    def test_a_page_that_says_something_else_is_found(self):
        page = "```dhall\n-- a.dhall\n1\n```\n```console\n$ cat a.dhall\n-- a.dhall\n1\n$ printf x\nx\n$ false; echo $?\n1\n```\n"
        page += "    $ echo indented\n    indented\n"
        for text, differ in ((page, 0), (page.replace("\nx\n", "\ny\n"), 1), (page.replace("$ false", "$ true"), 1), (page + "\n    $ exit 3\n", 1)):
            with tempfile.NamedTemporaryFile("w", suffix=".md") as file:
                file.write(text)
                file.flush()
                count, wrong = commands.check(file.name, DHALL)
            self.assertEqual((count, len(wrong)), (4 + text.count("exit 3"), differ), wrong)


class Links(unittest.TestCase):
    def test_links_lead_to_files(self):
        for page in PAGES:
            for link in re.findall(r"\]\(([^)#]+)\)", read(page)):
                if "://" not in link:
                    path = os.path.join(ROOT, os.path.dirname(page), link)
                    self.assertTrue(os.path.exists(path), f"{page} has a link to {link}, which is not there")

    def test_files_of_definitions_are_there(self):
        for page in PAGES:
            for crate, path in re.findall(r"`(?:crates/)?(dh\w*)/((?:specs|src)/[\w/]+)(?:\.antt|\.rt)?`", read(page)):
                at = f"{ROOT}/crates/{crate}/{path}"
                found = [it for it in (at, f"{at}.antt", f"{at}.rt") if os.path.exists(it)]
                self.assertTrue(found, f"{page} names {crate}/{path}, which is not there")

    def test_files_that_pages_name_are_there(self):
        for page in PAGES:
            for path in re.findall(r"`((?:completions|crates|docs|tools)/[\w./-]+)`", read(page)):
                is_built = "/out/" in path
                self.assertTrue(is_built or os.path.exists(f"{ROOT}/{path}"), f"{page} names {path}, which is not there")


def groups_of_crates():
    """The crates of crates.txt by their headings."""
    groups, heading = {}, None
    for line in read("crates.txt").split("\n"):
        if line.startswith("# "):
            heading = line[2:]
        elif line.strip():
            groups.setdefault(heading, []).append(line.partition(":")[0].split()[0])
    return groups


class Map(unittest.TestCase):
    def test_each_crate_is_in_the_map_under_its_heading(self):
        text = read("docs/ARCHITECTURE.md")
        for heading, crates in groups_of_crates().items():
            self.assertTrue(f"\n### {heading}\n" in text, f"no heading {heading}")
            rows = text.partition(f"\n### {heading}\n")[2].partition("\n#")[0]
            found = [name for cell in re.findall(r"(?m)^\| (`[^|]*`) \|", rows) for name in re.findall(r"`(\w+)`", cell)]
            self.assertEqual([it for it in crates if it not in found], [], f"crates that are not in the map under {heading}")

    def test_a_crate_is_listed_after_those_below_it(self):
        listed = []
        names = {it for crates in groups_of_crates().values() for it in crates}
        for line in read("crates.txt").split("\n"):
            if line.strip() and not line.startswith("#"):
                name, _, below = line.partition(":")
                late = [it for it in below.split() if it in names and it not in listed]
                self.assertEqual(late, [], f"{name} is listed before crates that it stands on")
                listed.append(name.split()[0])


if __name__ == "__main__":
    unittest.main()
