#!/usr/bin/env python3
# needs: Makefile docs/dhall.1 completions tools/commands.py tools/need.sh dhall
"""`make install` puts the program, its manual page and its completions where they are found, and they work: the page is shown by man and
its examples are run; completions are called in bash and in fish, and zsh reads its file. `make uninstall` removes all of it.

    DHALL=PATH python3 tools/tests/test_install.py

It takes man, bash-completion, zsh and fish; tools/need.sh installs those that are missing.
"""

import os
import re
import shutil
import subprocess
import sys
import tempfile
import unittest

HERE = os.path.dirname(os.path.abspath(__file__))
ROOT = os.path.dirname(os.path.dirname(HERE))
DHALL = os.path.abspath(os.environ.get("DHALL", f"{ROOT}/crates/dhall/out/dhall"))
BASH_COMPLETION = "/usr/share/bash-completion/bash_completion"
COMMANDS = ["encode", "decode", "resolve", "type", "normalize", "hash", "to-json", "freeze", "batch", "steps", "gen", "explain", "help"]

sys.path.insert(0, f"{ROOT}/tools")
import commands


def run(*words, **how):
    return subprocess.run(words, capture_output=True, text=True, **how)


def files_below(folder):
    return sorted(os.path.relpath(f"{at}/{name}", folder) for at, _, names in os.walk(folder) for name in names)


class Install(unittest.TestCase):
    @classmethod
    def setUpClass(cls):
        ran = run(f"{ROOT}/tools/need.sh", "man:man-db", "zsh", "fish", f"{BASH_COMPLETION}:bash-completion")
        if ran.returncode:
            raise RuntimeError(ran.stderr)
        cls.room = tempfile.mkdtemp(prefix="install-")
        cls.make("install")

    @classmethod
    def tearDownClass(cls):
        shutil.rmtree(cls.room, ignore_errors=True)

    @classmethod
    def make(cls, goal):
        ran = run("make", "-C", ROOT, goal, f"DESTDIR={cls.room}/to", "PREFIX=/usr", f"PROGRAM={DHALL}")
        if ran.returncode:
            raise RuntimeError(ran.stdout + ran.stderr)

    def at(self, path):
        return f"{self.room}/to/usr/{path}"

    def test_files_are_where_they_are_found(self):
        wanted = [
            "bin/dhall",
            "share/bash-completion/completions/dhall",
            "share/fish/vendor_completions.d/dhall.fish",
            "share/man/man1/dhall.1",
            "share/zsh/site-functions/_dhall",
        ]
        self.assertEqual(files_below(self.at("")), wanted)
        self.assertEqual([oct(os.stat(self.at(it)).st_mode & 0o777) for it in wanted], ["0o755"] + 4 * ["0o644"])

    def test_the_program_runs(self):
        self.assertEqual(run(self.at("bin/dhall"), "normalize", input="1 + 2").stdout, "3\n")

    def test_nothing_is_installed_without_a_program(self):
        ran = run("make", "-C", ROOT, "install", f"DESTDIR={self.room}/none", "PROGRAM=/nowhere/dhall")
        self.assertEqual((ran.returncode, os.path.exists(f"{self.room}/none")), (2, False))
        self.assertIn("run make build first", ran.stderr)

    def test_uninstall_removes_all(self):
        with tempfile.TemporaryDirectory() as to:
            for goal, count in (("install", 5), ("uninstall", 0)):
                self.assertEqual(run("make", "-C", ROOT, goal, f"DESTDIR={to}", f"PROGRAM={DHALL}").returncode, 0)
                self.assertEqual(len(files_below(to)), count)

    # ---- the manual page

    def page(self):
        env = {**os.environ, "LC_ALL": "C.UTF-8", "MANWIDTH": "100", "MANPAGER": "cat", "PAGER": "cat"}
        ran = run("man", "--warnings", "-l", self.at("share/man/man1/dhall.1"), env=env)
        self.assertEqual((ran.returncode, ran.stderr), (0, ""))
        return ran.stdout

    def test_the_manual_page_is_shown(self):
        page = self.page()
        for heading in ("NAME", "SYNOPSIS", "COMMANDS", "EXIT STATUS", "FILES", "ENVIRONMENT", "EXAMPLES"):
            self.assertRegex(page, rf"(?m)^{heading}$")

    def test_the_manual_page_has_each_command_and_status_of_help(self):
        page, told = self.page(), run(DHALL, "help").stdout
        listed = [it for line in told.split("\n")[1:] for it in re.findall(r"^([\w-]+)(?: PLACE\.\.| FILE\.\.| N| \[RULE\])?(?:,[^:]*)?: ", line)]
        self.assertEqual([it for it in listed if not it.startswith("-")], COMMANDS)
        for name in COMMANDS:
            self.assertRegex(page, rf"(?m)^       {name}\b")
        statuses = re.findall(r"(?m)^status ([0-9]+):", told)
        shown = page.partition("EXIT STATUS")[2].partition("\nFILES")[0]
        self.assertEqual(re.findall(r"(?m)^       ([0-9]+) ", shown), statuses)

    def test_the_examples_of_the_manual_page_print_what_it_says(self):
        examples = self.page().partition("\nEXAMPLES\n")[2].partition("\nLIMITS\n")[0]
        text = "```console\n" + re.sub(r"(?m)^       ", "", examples).strip() + "\n```\n"
        with tempfile.NamedTemporaryFile("w", suffix=".md", encoding="utf-8") as file:
            file.write(text)
            file.flush()
            count, wrong = commands.check(file.name, self.at("bin/dhall"))
        self.assertEqual("\n".join(wrong), "")
        self.assertGreater(count, 4)

    # ---- completions

    def bash_words(self, *words):
        """The words that bash offers for the last of these."""
        script = (
            f'. {BASH_COMPLETION}; . "{self.at("share/bash-completion/completions/dhall")}"; complete -p dhall > /dev/null || exit 1; '
            'COMP_WORDS=("$@"); COMP_CWORD=$(($# - 1)); COMP_LINE="$*"; COMP_POINT=${#COMP_LINE}; _dhall; printf "%s\\n" "${COMPREPLY[@]}"'
        )
        ran = run("bash", "-c", script, "bash", *words)
        self.assertEqual((ran.returncode, ran.stderr), (0, ""))
        return ran.stdout.split()

    def test_bash(self):
        self.assertEqual(self.bash_words("dhall", "")[: len(COMMANDS)], COMMANDS)
        self.assertEqual(self.bash_words("dhall", "n"), ["normalize"])
        self.assertEqual(self.bash_words("dhall", "t"), ["type", "to-json"])
        self.assertEqual(self.bash_words("dhall", "normalize", "--w"), ["--workers"])
        self.assertIn("64", self.bash_words("dhall", "normalize", "--workers", ""))
        self.assertEqual(self.bash_words("dhall", "steps", "1", "r"), ["root"])
        self.assertEqual(self.bash_words("dhall", "hash", "x"), [])
        self.assertEqual(self.bash_words("dhall", "e"), ["encode", "explain"])
        self.assertEqual(self.bash_words("dhall", "explain", "5"), ["5", "50", "51", "52", "53", "54", "55", "56"])

    def fish_words(self, line):
        script = f'source "{self.at("share/fish/vendor_completions.d/dhall.fish")}"; complete -C "{line}"'
        ran = run("fish", "-c", script, env={**os.environ, "HOME": self.room, "XDG_CONFIG_HOME": self.room, "XDG_DATA_HOME": self.room})
        self.assertEqual(ran.returncode, 0, ran.stderr)
        return [it.partition("\t")[0] for it in ran.stdout.split("\n") if it]

    def test_fish(self):
        self.assertEqual(run("fish", "-n", self.at("share/fish/vendor_completions.d/dhall.fish")).returncode, 0)
        self.assertEqual(sorted(self.fish_words("dhall ")), sorted(COMMANDS))
        self.assertEqual(self.fish_words("dhall normalize --w"), ["--workers"])
        self.assertIn("64", self.fish_words("dhall normalize --workers "))
        self.assertEqual([it for it in self.fish_words("dhall explain ") if it.isdigit()], [str(n) for n in range(1, 57)])

    def test_zsh(self):
        path = self.at("share/zsh/site-functions/_dhall")
        ran = run("zsh", "-n", path)
        self.assertEqual((ran.returncode, ran.stderr), (0, ""))
        with open(path, encoding="utf-8") as file:
            text = file.read()
        self.assertTrue(text.startswith("#compdef dhall\n"))
        self.assertEqual(re.findall(r"(?m)^    '([a-z][\w-]*):", text), COMMANDS)


if __name__ == "__main__":
    unittest.main()
