#!/usr/bin/env python3
# needs: dhall
"""A warm cache changes nothing. Each graph of a table is run with an empty cache, and then with what that run kept, also after the
files behind frozen imports are gone, so that the second answer is known to come from the cache.

    DHALL=PATH python3 tools/tests/test_warm.py
"""

import os
import re
import shutil
import subprocess
import tempfile
import unittest

HERE = os.path.dirname(os.path.abspath(__file__))
DHALL = os.path.abspath(os.environ.get("DHALL", f"{HERE}/../../crates/dhall/out/dhall"))

# The files of each graph in an order in which each imports earlier ones alone, and then its root. `<a>` stands for the import of a file
# with its digest. Behind the root stand how many entries a run keeps.
GRAPHS = {
    "one leaf": ({"a": "1 + 2"}, "<a> * 2", 1),
    "names of binders": ({"a": "λ(x : Natural) → λ(y : Bool) → if y then x else x + 1"}, "{ f = <a>, g = λ(z : Natural) → <a> z True }", 1),
    "a binder below another of its name": ({"a": "λ(x : Natural) → λ(x : Natural) → x + x@1"}, "λ(x : Natural) → <a> x", 1),
    "a chain": ({"a": "[ 1, 2 ]", "b": "<a> # [ 3 ]", "c": "<b> # [ 4 ]"}, "<c>", 3),
    "a chain with an end that is not frozen": ({"a": "[ 1, 2 ]", "b": "./a # [ 3 ]", "c": "<b> # [ 4 ]"}, "<c> # ./a", 2),
    "two ways to one file": ({"a": "{ x = 1, y = True }", "b": "(<a>).x", "c": "<a> ∧ { z = 2 }"}, "{ b = <b>, c = <c>, a = <a> }", 3),
    "two files of one value": ({"a": "1 + 1", "b": "2"}, "[ <a>, <b> ]", 1),
    "beside imports without a digest": ({"a": "\"x\"", "b": "\"${<a>}y\"", "c": "Text"}, "{ b = <b>, again = ./a, raw = ./a as Text, at = ./b as Location } : { b : Text, again : ./c, raw : Text, at : < Environment : Text | Local : Text | Missing | Remote : Text > }", 2),
    "an alternative": ({"a": "True"}, "./none ? <a>", 1),
    "an alternative that is not come to": ({"a": "True", "b": "False"}, "<a> ? <b>", 1),
    "types": ({"a": "{ name : Text, of : < One | Many : List Natural > }", "b": "λ(of : < One | Many : List Natural >) → { name = \"n\", of } : <a>"}, "<b> < One | Many : List Natural >.One", 2),
    "a polymorphic function": ({"a": "λ(a : Type) → λ(f : a → a) → λ(x : a) → f (f x)"}, "<a> (Natural → Natural) (<a> Natural) (λ(n : Natural) → n + 1) 0", 1),
    "a text": ({"a": "''\n  one\n  two\n''"}, "<a as Text>", 1),
    "an environment variable": ({}, "<env:WARM> + 1", 1),
    "many files": ({f"a{i}": f"{i}" if i < 2 else f"<a{i // 2}> + <a{i // 3}> + {i}" for i in range(40)}, "[ " + ", ".join(f"<a{i}>" for i in range(40)) + " ]", 40),
}
EXACT = ("hash", "freeze")
UP_TO_NAMES = ("resolve", "type", "normalize")


class Graph:
    """The files of a graph in a folder of its own."""

    def __init__(self, files, root):
        self.folder = tempfile.mkdtemp()
        for name, text in files.items():
            with open(f"{self.folder}/{name}", "w", encoding="utf-8") as file:
                file.write(self.frozen(text))
        self.root = self.frozen(root)
        self.behind = set(re.findall(r"<(a\d*|b|c)(?: as Text)?>", " ".join([*files.values(), root])))
        self.bare = set(re.findall(r"\./(a\d*|b|c)\b", " ".join([*files.values(), root])))

    def frozen(self, text):
        return re.sub(r"<([\w:]+)( as Text)?>", lambda it: self.import_of(it[1], it[2] or ""), text)

    def import_of(self, name, mode):
        path = name if name.startswith("env:") else f"./{name}"
        out, err, status = self.run("hash", path + mode)
        assert status == 0, (path, err)
        return f"{path} {out.strip()}{mode}"

    def run(self, command, text, cache=None, workers=4):
        """Runs a command on a text; without a folder for the cache, with an empty one."""
        with tempfile.TemporaryDirectory() as empty:
            env = {**os.environ, "XDG_CACHE_HOME": cache or empty, "WARM": "1"}
            words = [DHALL, command, "--workers", str(workers)]
            done = subprocess.run(words, input=text.encode(), cwd=self.folder, env=env, capture_output=True, timeout=60)
        return done.stdout.decode(), done.stderr.decode(), done.returncode

    def lose(self, names):
        for name in names:
            os.remove(f"{self.folder}/{name}")


def entries_of(cache):
    return sum(len(names) for _, _, names in os.walk(cache))


class Warm(unittest.TestCase):
    def check(self, graph, cold, warm, command):
        self.assertEqual((cold[1:], warm[1:]), (("", 0), ("", 0)), command)
        if command in EXACT:
            self.assertEqual(cold[0], warm[0], command)
        else:
            self.assertEqual(graph.run("hash", cold[0]), graph.run("hash", warm[0]), command)

    def run_graph(self, files, root, entries, workers):
        graph = Graph(files, root)
        with tempfile.TemporaryDirectory() as cache:
            cold = {it: graph.run(it, graph.root, None, workers) for it in EXACT + UP_TO_NAMES}
            self.assertEqual(graph.run("hash", graph.root, cache, workers), cold["hash"])
            self.assertEqual(entries_of(cache), entries)
            for command, before in cold.items():
                self.check(graph, before, graph.run(command, graph.root, cache, workers), command)
            graph.lose(graph.behind - graph.bare)
            for command, before in cold.items():
                self.check(graph, before, graph.run(command, graph.root, cache, workers), command)
            self.assertEqual(entries_of(cache), entries)
        shutil.rmtree(graph.folder)

    def test_graphs(self):
        for name, (files, root, entries) in GRAPHS.items():
            for workers in (1, 4):
                with self.subTest(name, workers=workers):
                    self.run_graph(files, root, entries, workers)

    def test_without_its_files_a_cold_run_fails(self):
        graph = Graph({"a": "1"}, "<a>")
        graph.lose(["a"])
        self.assertEqual(graph.run("hash", graph.root)[2], 3)


if __name__ == "__main__":
    unittest.main()
