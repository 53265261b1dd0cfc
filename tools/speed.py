#!/usr/bin/env python3
"""Times the built program on named inputs and graphs of imports of growing size.

For each input and size it prints the time of a run, its greatest memory, and the time beside that of the size before; for a
graph that for each number of workers, and the time beside that of one worker. For files of a batch it also prints the time of a run of
`hash` for each of them, one after the other. The least of a few runs counts, since other work
on the machine only adds. With --compare it runs another Dhall program on the same inputs and graphs, and prints its time and
memory beside them. That is given by its path, takes the same commands, and reads standard input; its workers are its own. Plain
Python 3, some minutes for the inputs, and some for the graphs.
"""
import argparse
import os
import random
import subprocess
import sys
import tempfile
import time

ROOT = os.path.dirname(os.path.dirname(os.path.abspath(__file__)))


def run(program, words, data, folder=None):
    """The time in seconds, the memory in MB, the status, both outputs, of a run in a folder."""
    with tempfile.TemporaryFile() as inp, tempfile.TemporaryFile() as out, tempfile.TemporaryFile() as err:
        inp.write(data)
        inp.seek(0)
        began = time.monotonic()
        child = subprocess.Popen([program, *words], stdin=inp, stdout=out, stderr=err, cwd=folder)
        _, status, used = os.wait4(child.pid, 0)
        took = time.monotonic() - began
        child.returncode = os.waitstatus_to_exitcode(status)
        out.seek(0)
        err.seek(0)
        return took, used.ru_maxrss / 1024, child.returncode, out.read(), err.read()


# ---- texts

def brackets(n):
    text = "1234567890123456789"
    parts = [text] * n
    while len(parts) > 1:
        parts = [f"({a} + {b})" for a, b in zip(parts[::2], parts[1::2])] + ([parts[-1]] if len(parts) % 2 else [])
    return parts[0]


def record(n, value=lambda i: str(i)):
    return "{ " + ", ".join(f"a{i} = {value(i)}" for i in range(n)) + " }"


def numbers(n):
    return "[ " + ", ".join(str(i) for i in range(n)) + " ]"


def names(n):
    return "[ " + ", ".join(f'"name {i}"' for i in range(n)) + " ]"


def doublings(n):
    return "let f = \\(x : Natural) -> x + x in " + "f (" * n + "1" + ")" * n


def conditionals(n):
    binders = "".join(f"\\(p{i} : Bool) -> " for i in range(n))
    return binders + "".join(f"if p{i} then {i} else " for i in range(n)) + str(n)


def fold(n):
    return f"Natural/fold {n} Natural (\\(x : Natural) -> x + 1) 0"


def list_fold(n):
    return f"List/fold Natural {numbers(n)} Natural (\\(a : Natural) -> \\(b : Natural) -> a + b) 0"


def list_build(n):
    return (
        "List/length Natural (List/build Natural (\\(l : Type) -> \\(c : Natural -> l -> l) -> \\(z : l) -> "
        f"List/fold Natural {numbers(n)} l c z))"
    )


def uses(n):
    fields = 5 * n
    return f"let r = {record(fields)} in [ " + ", ".join(f"r.a{i}" for i in range(n)) + " ]"


def to_map(n):
    return "toMap " + record(n)


def combined(n):
    return record(n) + " /\\ " + record(n).replace("a", "b")


def preferred(n):
    return record(n) + " // " + record(n)


def replaced(n):
    return 'Text/replace "b" "xy" "' + "aab" * (n // 3) + '"'


def interpolations(n):
    return '\\(x : Text) -> "' + "a${x}" * n + '"'


def joined_texts(n):
    return "\\(x : Text) -> " + " ++ ".join(['"a"', "x"] * (n // 2))


def text_in_front(n):
    """A text that grows in front, as the folds of ordinary libraries build one."""
    return f'List/fold Text {names(n)} Text (\\(x : Text) -> \\(rest : Text) -> x ++ ", " ++ rest) ""'


def text_around(n):
    """A text that grows in front and keeps a variable at each step."""
    return f'\\(v : Text) -> List/fold Text {names(n)} Text (\\(x : Text) -> \\(rest : Text) -> "${{v}}${{x}}${{rest}}") ""'


def text_behind(n):
    return f'List/fold Text {names(n)} Text (\\(x : Text) -> \\(done : Text) -> done ++ ", " ++ x) ""'


def joined_lists(n):
    return " # ".join(["[ 1 ]"] * n)


MAP = (
    "let map = \\(a : Type) -> \\(b : Type) -> \\(f : a -> b) -> \\(xs : List a) -> "
    "List/build b (\\(list : Type) -> \\(cons : b -> list -> list) -> List/fold a xs list (\\(x : a) -> cons (f x))) in "
)


def mapped(n):
    return MAP + f"List/length Natural (map Natural Natural (\\(x : Natural) -> x + 1) {numbers(n)})"


FILTER = (
    "let filter = \\(a : Type) -> \\(f : a -> Bool) -> \\(xs : List a) -> "
    "List/build a (\\(list : Type) -> \\(cons : a -> list -> list) -> "
    "List/fold a xs list (\\(x : a) -> \\(rest : list) -> if f x then cons x rest else rest)) in "
)


def filtered(n):
    return FILTER + f"List/length Natural (filter Natural Natural/even {numbers(n)})"


def literal(n):
    return '"' + "x" * n + '"'


def lets(n):
    text = "let x0 = 1\n"
    for i in range(1, n):
        text += f"let x{i} = x{i - 1} + 1\n"
    return text + f"in x{n - 1}"


def parameters(n):
    text = "".join(f"\\(x{i} : Natural) -> " for i in range(n)) + "x0"
    return f"({text})" + " 1" * n


def merged(n):
    union = "< " + " | ".join(f"a{i} : Natural" for i in range(n)) + " >"
    handlers = "{ " + ", ".join(f"a{i} = \\(n : Natural) -> n + {i}" for i in range(n)) + " }"
    return f"merge {handlers} ({union}.a{n - 1} 1)"


def library(n):
    """A record of functions, of which a few are used."""
    entry = (
        "f{i} = \\(a : Type) -> \\(f : a -> a) -> \\(p : {{ x : a, y : List a }}) -> "
        "{{ x = f p.x, y = List/reverse a p.y, z = if True then [ f (f p.x) ] else p.y }}"
    )
    entries = ",\n  ".join(entry.format(i=i) for i in range(n))
    return "let lib = { " + entries + " }\nin  lib.f0 Natural (\\(n : Natural) -> n + 1) { x = 1, y = [ 2 ] }"


def doubled_types(n):
    """A type whose parts are shared, and whose size without sharing is exponential."""
    text = "let t0 = { a : Natural }\n"
    for i in range(1, n):
        text += f"let t{i} = {{ a : t{i - 1}, b : t{i - 1} }}\n"
    return text + f"in \\(x : t{n - 1}) -> (x : t{n - 1}).a"


def somes(n):
    """Lets, each of which is `Some` of the one before."""
    text = "let x0 = 1\n"
    for i in range(1, n + 1):
        text += f"let x{i} = Some x{i - 1}\n"
    return text + f"in x{n}"


def deep_typed(n):
    """A list of n values below `Some`, whose type is a function type that nests 480 deep."""
    nested = "Natural"
    for _ in range(480):
        nested = f"({nested} -> Natural)"
    return f"\\(f : {nested}) -> [ " + ", ".join(["Some f"] * n) + " ]"


# ---- graphs of imports: the text of the root, and each file's name and text in turn, so that this script itself stays small

SERVICES = (
    "let map = \\(a : Type) -> \\(b : Type) -> \\(f : a -> b) -> \\(xs : List a) ->\n"
    "      List/build b (\\(list : Type) -> \\(cons : b -> list -> list) -> List/fold a xs list (\\(x : a) -> cons (f x)))\n"
    "let sum = \\(xs : List Natural) -> List/fold Natural xs Natural (\\(x : Natural) -> \\(y : Natural) -> x + y) 0\n"
    "let Port = { name : Text, number : Natural, open : Bool }\n"
    "let Service = { name : Text, host : Text, ports : List Port, replicas : Natural, limits : { cpu : Natural, memory : Natural } }\n"
    "let defaults = { replicas = 1, limits = { cpu = 100, memory = 256 } }\n"
    "let port = \\(name : Text) -> \\(number : Natural) -> { name, number, open = Natural/even number } : Port\n"
    "let service = \\(name : Text) -> \\(base : Natural) -> \\(replicas : Natural) ->\n"
    "      let host = \"${name}.example.org\"\n"
    "      in  defaults // { name, host, ports = [ port \"http\" base, port \"admin\" (base + 1) ], replicas } : Service\n"
    "let services =\n"
)

SERVICES_END = (
    "let cpu = map Service Natural (\\(s : Service) -> s.replicas * s.limits.cpu) services\n"
    "let numbers = map Service (List Natural) (\\(s : Service) -> map Port Natural (\\(p : Port) -> p.number) s.ports) services\n"
    "let small = \\(s : Service) -> if Natural/isZero (Natural/subtract 4 s.replicas) then 1 else 0\n"
    "in  { name = \"group {i}\", cpu = sum cpu, ports = sum (map (List Natural) Natural sum numbers)\n"
    "    , small = sum (map Service Natural small services), count = List/length Service services }\n"
)


def services(i):
    """Ordinary code of 10 KB, whose value is a small record: its work is typing and normalising, not its size."""
    lines = []
    size = len(SERVICES) + len(SERVICES_END)
    while size < 10000:
        j = len(lines)
        line = f"service \"web-{i}-{j}\" {8000 + 10 * j + i % 7} {1 + (i + j) % 9}"
        if j % 3 == 0:
            line += f" // {{ limits = {{ cpu = {50 * (1 + j % 4)}, memory = {128 + i % 64} }} }}"
        lines.append(("      [ " if j == 0 else "      , ") + line + "\n")
        size += len(lines[-1])
    return SERVICES + "".join(lines) + "      ]\n" + SERVICES_END.replace("{i}", str(i))


def items(imports):
    return "[ " + "\n, ".join(imports) + " ]\n"


def fan(n):
    return items(f"./f{i}.dhall" for i in range(n)), ((f"f{i}.dhall", services(i)) for i in range(n))


def chain(n):
    def link(i):
        return f"let rest = ./c{i + 1}.dhall in rest // {{ length = rest.length + 1, last = Natural/even rest.length }}\n"

    end = "{ name = \"end\", length = 1, last = True }\n"
    return "./c0.dhall\n", ((f"c{i}.dhall", link(i) if i < n - 1 else end) for i in range(n))


def tower(n):
    """n levels of two files, each of which imports both of the level below; so there are 2^n ways down."""

    def both(i):
        return "1\n" if i == 0 else f"./l{i - 1}.dhall + ./r{i - 1}.dhall\n"

    return both(n), ((f"{side}{i}.dhall", both(i)) for i in range(n) for side in "lr")


def tangle(n):
    """Each file imports up to three later ones, and the root those that no file imports; the same graph each time."""
    chance = random.Random(n)
    later = [chance.sample(range(i + 1, n), min(chance.randint(0, 3), n - 1 - i)) for i in range(n)]
    imported = {j for js in later for j in js}

    def text(i):
        total = " + ".join([str(i)] + [f"./r{j}.dhall" for j in later[i]])
        return f"let parity = \\(x : Natural) -> if Natural/even x then 1 else 2 in parity ({total})\n"

    return items(f"./r{i}.dhall" for i in range(n) if i not in imported), ((f"r{i}.dhall", text(i)) for i in range(n))


def line(n):
    """Each file is the import of the next one."""
    return "./f0.dhall\n", ((f"f{i}.dhall", f"./f{i + 1}.dhall\n" if i < n - 1 else "1\n") for i in range(n))


def list_of_line(n):
    """A list of all files of a line; so the root waits for each of them, and they end from the last to the first."""
    return items(f"./f{i}.dhall" for i in range(n)), line(n)[1]


def choices(n):
    return items(f"(./missing{i}.dhall ? ./x{i}.dhall)" for i in range(n)), ((f"x{i}.dhall", f"{i}\n") for i in range(n))


def choice(n):
    return items(["(./missing.dhall ? ./x.dhall)"] * n), [("x.dhall", "1\n")]


# ---- files of a batch: the files that are named, and all files with their texts

def alone(n):
    """Files of ordinary code, each on its own: the work is typing and normalising."""
    files = [(f"b{i}.dhall", services(i)) for i in range(n)]
    return [name for name, _ in files], files


def frozen(program, folder, name):
    """The import of a file with its digest."""
    digest = run(program, ["hash"], f"./{name}".encode(), folder)[3].decode().strip()
    return f"./{name} {digest}"


def shared(n, program, folder, parts=32):
    """Files that each use all parts of one library, every part a frozen import; the cache has them from a run before."""
    library = [(f"part{i}.dhall", services(i)) for i in range(parts)]
    put(folder, library)
    imports = [frozen(program, folder, name) for name, _ in library]
    files = [(f"b{i}.dhall", "[ " + ", ".join(f"({it}).cpu" for it in imports) + f", {i} ]\n") for i in range(n)]
    return [name for name, _ in files], library + files


TEXTS = [
    ("sum in brackets", brackets, [10240, 20480, 40960]),
    ("record", record, [5000, 10000, 20000, 40000]),
    ("list of numbers", numbers, [25000, 50000, 100000]),
    ("text literal", literal, [250000, 500000, 1000000]),
]

NORMAL = [
    ("doublings", doublings, [20, 30, 40]),
    ("nested conditionals", conditionals, [30, 60, 120]),
    ("Natural/fold", fold, [250000, 500000, 1000000, 2000000]),
    ("List/fold", list_fold, [25000, 50000, 100000]),
    ("List/build over List/fold", list_build, [25000, 50000, 100000]),
    ("record of 5 n fields, n uses", uses, [500, 1000, 2000]),
    ("toMap", to_map, [2500, 5000, 10000]),
    ("records joined", combined, [2500, 5000, 10000]),
    ("records preferred", preferred, [2500, 5000, 10000]),
    ("Text/replace", replaced, [250000, 500000, 1000000]),
    ("interpolations", interpolations, [5000, 10000, 20000]),
    ("texts joined around a variable", joined_texts, [120, 240, 480]),
    ("text that grows in front", text_in_front, [12500, 25000, 50000]),
    ("text that grows behind", text_behind, [12500, 25000, 50000]),
    ("text that grows around a variable", text_around, [5000, 10000, 20000]),
    ("lists joined", joined_lists, [5000, 10000, 20000]),
    ("map", mapped, [2500, 5000, 10000]),
    ("filter", filtered, [2500, 5000, 10000]),
    ("lets", lets, [100, 200, 400]),
]


TYPED = [
    ("record of 5 n fields, n uses", uses, [500, 1000, 2000]),
    ("lets", lets, [100, 200, 400]),
    ("function of n parameters, applied", parameters, [60, 120, 240]),
    ("merge of n alternatives", merged, [500, 1000, 2000]),
    ("list of numbers", numbers, [25000, 50000, 100000]),
    ("library of n functions", library, [500, 1000, 2000]),
    ("record", record, [2500, 5000, 10000]),
    ("types that share their parts", doubled_types, [5, 10, 15]),
    ("lets of nested Some", somes, [100, 200, 400]),
    ("list of n values of a deep type", deep_typed, [250, 500, 1000]),
]

GRAPHS = [
    ("fan of n files of 10 KB", fan, [500, 1000, 2000]),
    ("chain of n files", chain, [125, 250, 500]),
    ("tower of n levels", tower, [3, 6, 12]),
    ("random graph of n files", tangle, [1000, 2000, 4000]),
    ("line of n files", line, [1000, 2000, 4000]),
    ("list of the n files of a line", list_of_line, [1000, 2000, 4000]),
    ("fan of n choices, each of its own", choices, [500, 1000, 2000]),
    ("fan of n choices, all the same", choice, [500, 1000, 2000]),
]

WORKERS = [1, 2, 4, 8]


def note(ran):
    return ran[4].decode().strip() or ran[3][:24].decode(errors="replace").strip()


def ratio(time, other):
    return "" if other is None else f"{time / other:5.2f}"


def best(program, words, data, tries, folder=None):
    return min((run(program, words, data, folder) for _ in range(tries)), key=lambda r: r[0])


def beside(given, command, data, ran, folder=None):
    """The cells of another program on the same input: its time, its memory, how much longer ours took, and whether it answers the same."""
    if not given.compare:
        return ""
    other = best(given.compare, [command], data, given.tries, folder)
    same = "the same" if other[2:4] == ran[2:4] else f"{other[2]} {note(other)}"
    return f" {other[0]:.3f} | {other[1]:.0f} | {ran[0] / other[0]:.2f} | {same} |"


def head(given, cells):
    cells += ["The other's seconds", "Its MB", "Ours to its", "It ends with"] if given.compare else []
    print("| " + " | ".join(cells) + " |")
    print("|" + "---|" * len(cells))


def show(given, command, name, sizes, make):
    before = None
    for size in sizes:
        data = make(size)
        ran = best(given.program, [command], data, given.tries)
        growth = "" if before is None else f"{ran[0] / before:5.1f}"
        line = f"| {command} | {name} | {size} | {len(data)} | {ran[0]:.3f} | {ran[1]:.0f} | {growth} | {ran[2]} {note(ran)} |"
        print(line + beside(given, command, data, ran), flush=True)
        before = ran[0]


def put(folder, files):
    """Writes files into a folder, and tells the length of all together."""
    os.makedirs(folder, exist_ok=True)
    length = 0
    for name, text in files:
        length += len(text)
        with open(os.path.join(folder, name), "w") as out:
            out.write(text)
    return length


def write(folder, graph):
    """The root of a graph, whose files are written into the folder, and the length of all together."""
    root, files = graph
    return root.encode(), len(root) + put(folder, files)


def show_graph(given, command, name, sizes, make, workers, folder):
    before = {}
    for size in sizes:
        place = os.path.join(folder, f"{make.__name__}-{size}")
        root, length = write(place, make(size))
        one = None
        for w in workers:
            words = [command, "--workers", str(w)]
            ran = best(given.program, words, root, given.tries, place)
            growth = ratio(ran[0], before.get(w))
            one = ran[0] if w == 1 else one
            to_one = ratio(ran[0], one)
            line = f"| {command} | {name} | {size} | {length} | {w} | {ran[0]:.3f} | {ran[1]:.0f} | {growth} | {to_one} | {ran[2]} {note(ran)} |"
            print(line + beside(given, command, root, ran, place), flush=True)
            before[w] = ran[0]


def show_graphs(given, folder):
    head(given, ["Command", "Graph", "Size", "Bytes in", "Workers", "Seconds", "MB", "Growth", "To one worker", "Ends with"])
    for name, make, sizes in GRAPHS:
        if given.command in (None, "normalize"):
            show_graph(given, "normalize", name, sizes, make, WORKERS, folder)
    for command in ["resolve", "type", "hash"]:
        if given.command in (None, command):
            name, make, sizes = GRAPHS[0]
            show_graph(given, command, name, sizes, make, [4], folder)


def one_by_one(program, names, folder):
    """The time of a run of `hash` for each file, and whether all end well."""
    runs = [run(program, ["hash"], f"./{name}".encode(), folder) for name in names]
    return sum(it[0] for it in runs), all(it[2] == 0 for it in runs)


def show_batch(given, name, files, folder):
    names, texts = files
    length = put(folder, texts)
    best(given.program, ["batch", *names], b"", 1, folder)  # the cache has then what is frozen
    apart, well = min(one_by_one(given.program, names, folder) for _ in range(given.tries))
    one = None
    for w in WORKERS:
        ran = best(given.program, ["batch", "--workers", str(w), *names], b"", given.tries, folder)
        one = ran[0] if w == 1 else one
        ends = f"{ran[2]}, {len(ran[3].splitlines())} lines" + ("" if well else "; a run of hash failed")
        print(f"| batch | {name} | {len(names)} | {length} | {w} | {ran[0]:.3f} | {ran[1]:.0f} | {one / ran[0]:.2f} | {apart:.3f} | {apart / ran[0]:.1f} | {ends} |", flush=True)


def show_generated(given, n):
    one = None
    for w in WORKERS:
        ran = best(given.program, ["gen", "--workers", str(w), str(n)], b"", given.tries)
        one = ran[0] if w == 1 else one
        print(f"| gen | list of generated texts | {n} | 0 | {w} | {ran[0]:.3f} | {ran[1]:.0f} | {one / ran[0]:.2f} | | | {ran[2]} {' '.join(ran[3].decode().split()[:4])} |", flush=True)


def show_batches(given, folder):
    os.environ["XDG_CACHE_HOME"] = os.path.join(folder, "cache")
    head(argparse.Namespace(compare=None), ["Command", "Files", "Number", "Bytes in", "Workers", "Seconds", "MB", "One worker to this", "One run each", "That to this", "Ends with"])
    if given.command in (None, "batch"):
        show_batch(given, "files of 10 KB", alone(256), os.path.join(folder, "alone"))
        place = os.path.join(folder, "shared")
        show_batch(given, "files that share 32 frozen imports", shared(256, given.program, place), place)
    if given.command in (None, "gen"):
        show_generated(given, 4000)


def show_inputs(given):
    head(given, ["Command", "Input", "Size", "Bytes in", "Seconds", "MB", "Growth", "Ends with"])
    for name, make, sizes in TEXTS:
        if given.command in (None, "encode"):
            show(given, "encode", name, sizes, lambda n: make(n).encode())
        if given.command in (None, "decode"):
            encoded = {n: run(given.program, ["encode"], make(n).encode())[3] for n in sizes}
            show(given, "decode", name, sizes, lambda n: encoded[n])
    if given.command in (None, "normalize"):
        for name, make, sizes in NORMAL:
            show(given, "normalize", name, sizes, lambda n: make(n).encode())
    for command in ["type", "hash"]:
        if given.command in (None, command):
            for name, make, sizes in TYPED:
                show(given, command, name, sizes, lambda n: make(n).encode())


def main():
    parser = argparse.ArgumentParser(description=__doc__.splitlines()[0])
    parser.add_argument("--program", default=os.path.join(ROOT, "crates", "dhall", "out", "dhall"))
    parser.add_argument("--compare", metavar="OTHER", help="another program that takes the same commands, to be run beside it")
    parser.add_argument("--command", help="only this command")
    parser.add_argument("--tries", type=int, default=3)
    parser.add_argument("--part", choices=["inputs", "graphs", "batches"], help="only the inputs alone, the graphs of imports, or the files of a batch and `gen`")
    parser.add_argument("--folder", help="where the files of the graphs are written (left out: a folder that is removed)")
    given = parser.parse_args()
    given.program = os.path.abspath(given.program)
    if not os.access(given.program, os.X_OK):
        sys.exit(f"no program at {given.program}: build it first (make build)")
    if given.compare:
        given.compare = os.path.abspath(given.compare)
        if not os.access(given.compare, os.X_OK):
            sys.exit(f"no program at {given.compare}")
    if given.part in (None, "inputs"):
        show_inputs(given)
    for part, show_part in (("graphs", show_graphs), ("batches", show_batches)):
        if given.part not in (None, part):
            continue
        if given.folder:
            show_part(given, os.path.abspath(given.folder))
        else:
            with tempfile.TemporaryDirectory() as folder:
                show_part(given, folder)


if __name__ == "__main__":
    main()
