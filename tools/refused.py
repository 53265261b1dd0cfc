#!/usr/bin/env python3
"""Refuses memory to the program, one allocation at a time, and compares each answer with that of a run to which none is refused.

For each row of a table (words, an input, files) it counts the allocations of a run. Then it runs the row once for each of some
points, which are spread evenly over that number. At each point that one allocation fails. The answer must be the same bytes with
the same status, or else status 9 with the line `out of memory` and nothing on standard output. The run to which nothing is refused
must answer what the table says. No run may end by a signal, stop at a check or hang.

`rt try --fail-alloc N` refuses the Nth allocation of a process, but it builds anew for each N. With `--cases` it builds once and runs
once for each case. So the program that is run is not `dhall` itself. It is a `main` of its own (DRIVER below) over the same crates,
in a copy of their sources. It first makes and frees as many pieces of memory as its first word says, and then does what that of
`dhall` does. With K pieces in front, N refuses what is else the allocation N - K. Two builds do: one to count, one for all points.

The runs are compiled with checks and without proofs. They have no environment, so no variable is set, and the folder of the cache is
the second word. DRIVER writes a mark behind the answer, so that standard output is compared to the last byte. Standard error is what
`rt try` tells line by line: an end of line that is missing there is not seen. What a run keeps in the cache is not looked at. With
more than one worker the allocations come in another order from run to run, and so the points are not the same each time.

Plain Python 3 with `rt` on the path. Each of the builds takes one to two minutes of one processor, and each point one to two seconds.
It prints a line for each row, and exits with 1 if a run did anything else than what is stated.
"""
import argparse
import collections
import hashlib
import os
import re
import shutil
import subprocess
import sys
import tempfile

ROOT = os.path.dirname(os.path.dirname(os.path.abspath(__file__)))
CRATE = "dhall_refused"
MARK = b"\n-- the end: "
# More than any row makes.
MANY = 100_000

DRIVER = r'''//! The program `dhall` behind as many allocations as its first word says, with its cache in the folder of the second word.
#![tactic(auto)]

use dh_desks::{Folder, Folders, make_desks};
use dh_ports::{OpenGate, Silent};
use dh_streams::{Source, Target};
use dh_syntax::Piece;
use dh_top::{exit_code, lack_memory, run_program};
use std::alloc::{AllocError, Global};
use std::env;
use std::io;
use std::process::ExitCode;

/// How many pieces go in front, if the run is not one that counts, and the folders.
#[derive(Drop)]
struct Order {
    pieces: Option<u32>,
    folders: Folders,
}

fn make_piece(alloc: Global, n: u32) -> Result<(), AllocError> {
    let _piece = Vec::from_slice(alloc, &[n])?;
    Ok(())
}

/// Reads the first two words, and makes the pieces.
fn begin(alloc: Global, words: io::Result<env::Args>) -> io::Result<Order> {
    let mut words = words?;
    let _ = words.next();
    let pieces = match words.next() {
        Some(word) => word.parse::<u32>().ok(),
        None => None,
    };
    let cache = match words.next() {
        Some(path) => Folder::At(Piece::of(path)),
        None => Folder::Unset,
    };
    for n in 0..pieces.unwrap_or(0) {
        make_piece(alloc, n)?;
    }
    Ok(Order { pieces, folders: Folders { home: Folder::Unset, cache } })
}

/// The words of the command. The word before them counts as the name of the program.
fn given(words: io::Result<env::Args>) -> io::Result<env::Args> {
    let mut words = words?;
    let _ = words.next();
    let _ = words.next();
    Ok(words)
}

/// How many pieces can be made before one is refused, up to a limit.
fn count_left(alloc: Global) -> u32 {
    for n in 0..MANY {
        if make_piece(alloc, n).is_err() {
            return n;
        }
    }
    MANY
}

fn main(rt: HostRuntime) -> ExitCode {
    let alloc = rt.alloc();
    let mut input = Source::new(rt.stdin());
    let mut out = Target::new(rt.stdout());
    let mut err = Target::new(rt.stderr());
    let Ok(order) = begin(alloc, env::args(&rt)) else {
        let code = exit_code(lack_memory(&mut out, &mut err));
        let _ = println!(rt; "\n-- the end: 0");
        return code;
    };
    let words = given(env::args(&rt));
    let code = match make_desks(rt, alloc, &order.folders) {
        Ok(mut desks) => run_program::<_, Silent, _, _, _, _, _>(
            &rt, alloc, words, &mut desks, &OpenGate, &mut input, &mut out, &mut err,
        ),
        Err(_) => exit_code(lack_memory(&mut out, &mut err)),
    };
    let left = match order.pieces {
        Some(_) => 0,
        None => count_left(alloc),
    };
    let _ = println!(rt; "\n-- the end: {left}");
    code
}
'''.replace("MANY", f"{MANY}u32")

Row = collections.namedtuple("Row", "name words text wanted cache", defaults=[None])
Ran = collections.namedtuple("Ran", "status out err")
NO_MEMORY = Ran(9, b"", b"out of memory\n")


# ---- the rows

def written(out):
    """A run that writes this."""
    return Ran(0, out if isinstance(out, bytes) else out.encode(), b"")


def refused(status, line):
    """A run that ends with this line."""
    return Ran(status, b"", line.encode() + b"\n")


def digest(form):
    return "sha256:" + hashlib.sha256(form).hexdigest()


def natural(n):
    """The binary form of a number below 24."""
    return bytes([0x82, 0x0F, n])


def naturals(*numbers):
    """That of a list of a few of them."""
    return bytes([0x82 + len(numbers), 4, 0xF6]) + b"".join(natural(n) for n in numbers)


FILES = {"graph/left": "./shared + 1", "graph/right": "./shared * 2", "graph/shared": "3", "list": "[ 1, 2, 3 ]"}
GRAPH = "[ ./graph/left, ./graph/right ]"
LIST = naturals(1, 2, 3)
RECORD, RECORD_FORM = "{ a = 1, b = [ True ] }", b"\x82\x08\xa2\x61a\x82\x0f\x01\x61b\x83\x04\xf6\xf5"
# The folder of the cache that has an entry; other rows begin with a folder that is not there.
KEPT = "kept"


def lets(n):
    return "let x0 = 1 " + " ".join(f"let x{i} = x{i - 1} + 1" for i in range(1, n)) + f" in x{n - 1}"


def conditionals(n, binder, arrow):
    return "".join(f"{binder}(p{i} : Bool) {arrow} " for i in range(n)) + "".join(f"if p{i} then {i} else " for i in range(n)) + str(n)


def table():
    """The rows: words, inputs and answers that were worked out by hand."""
    frozen_graph = f"[ ./graph/left {digest(natural(4))}, ./graph/right {digest(natural(6))} ]"
    return [
        Row("help", ["help"], "", None),
        Row("words", ["normalize", "--workers", "65"], "", refused(5, "usage: word 3")),
        Row("normalize a let", ["normalize"], "let x = 1 in x + 2", written("3\n")),
        Row("no type", ["type"], "1 + True", refused(2, "type rule 14 at root, line 1, column 1")),
        Row("encode", ["encode"], RECORD, written(RECORD_FORM)),
        Row("decode", ["decode"], RECORD_FORM, written(RECORD + "\n")),
        Row("to-json", ["to-json"], RECORD, written('{"a":1,"b":[true]}\n')),
        Row("steps", ["steps", "root"], "(\\(x : Natural) -> [ x, x ]) 1", written("[ 1, 1 ]\nnormal\n")),
        Row("explain", ["explain", "14"], "", None),
        Row("gen", ["gen", "4"], "", written("imports 5\nasked 5\nsha256:d12343667c608e212d9ddaefc76eb84cdb634b6be1e87011466df113a59e0b95\n")),
        Row("resolve imports", ["resolve"], GRAPH, written("[ 4, 6 ]\n")),
        Row("type imports", ["type"], GRAPH, written("List Natural\n")),
        Row("hash imports", ["hash"], GRAPH, written(digest(naturals(4, 6)) + "\n")),
        Row("freeze imports", ["freeze"], GRAPH, written(frozen_graph)),
        Row("freeze imports, one worker", ["freeze", "--workers", "1"], GRAPH, written(frozen_graph)),
        Row("import with ?", ["normalize"], "./none ? env:UNSET ? ./graph/shared", written("3\n")),
        Row("import that is absent", ["resolve"], "./none", refused(3, "in ./none: absent")),
        Row("frozen, in the cache", ["normalize"], f"./none {digest(LIST)}", written("[ 1, 2, 3 ]\n"), KEPT),
        Row("frozen, not in the cache", ["normalize"], f"./list {digest(LIST)}", written("[ 1, 2, 3 ]\n")),
        Row("300 lets", ["normalize"], lets(300), written("300\n")),
        Row("60 conditionals", ["normalize"], conditionals(60, "\\", "->"), written(conditionals(60, "λ", "→") + "\n")),
    ]


# ---- runs

def write(path, data):
    os.makedirs(os.path.dirname(path), exist_ok=True)
    with open(path, "wb") as out:
        out.write(data if isinstance(data, bytes) else data.encode())


def copy_sources(folder):
    """The sources of the repository, with a crate more."""
    for crate in os.listdir(os.path.join(ROOT, "crates")):
        sources = os.path.join(ROOT, "crates", crate, "src")
        if os.path.isdir(sources):
            shutil.copytree(sources, os.path.join(folder, "crates", crate, "src"))
    with open(os.path.join(ROOT, "crates.txt")) as crates:
        lines = crates.read()
    uses = re.search(r"^dhall:(.*)$", lines, re.M).group(1)
    write(os.path.join(folder, "crates.txt"), f"{lines}\n{CRATE}:{uses}\n")
    write(os.path.join(folder, "crates", CRATE, "src", "main.rt"), DRIVER)


def write_data(folder):
    """The words that hand `rt try` the files and the entry of the cache."""
    given = []
    for name, data in {**FILES, f"{KEPT}/1220{hashlib.sha256(LIST).hexdigest()}": LIST}.items():
        path = os.path.join(folder, "data", name)
        write(path, data)
        given += ["--data", f"{name}={path}"]
    return given


def write_cases(folder, cases):
    """A case is a name, the number of pieces in front or `count`, and a row."""
    shutil.rmtree(folder, ignore_errors=True)
    for name, pieces, row in cases:
        write(os.path.join(folder, name), row.text)
        words = [str(pieces), row.cache or f"new-{name}", *row.words]
        write(os.path.join(folder, name + ".args"), "".join(word + "\n" for word in words))


def run_cases(folder, cases, number):
    """Builds once, and runs the cases, each with this allocation refused. What each answered, by name."""
    write_cases(os.path.join(folder, "cases"), cases)
    words = ["rt", "try", "--fail-alloc", str(number), "--cases", os.path.join(folder, "cases"), *write_data(folder)]
    done = subprocess.run(words, cwd=os.path.join(folder, "crates", CRATE), stdin=subprocess.DEVNULL, capture_output=True)
    ran = read_runs(done.stdout, done.stderr, [name for name, _, _ in cases])
    if len(ran) != len(cases):
        sys.exit(f"rt try ran {len(ran)} of {len(cases)} cases:\n{done.stderr.decode(errors='replace')[-4000:]}")
    return ran


def read_runs(out, err, names):
    """The runs that `rt try` tells: the number that the driver ends with, or None, and status, standard output, standard error.
    A run that did not end by itself has what `rt try` says of it in the place of the status."""
    outs = {}
    heads = [(out.find(b"== %s\n" % name.encode()), name) for name in names]
    heads = sorted(head for head in heads if head[0] >= 0) + [(len(out), None)]
    for (start, name), (end, _) in zip(heads, heads[1:]):
        outs[name] = out[start + len(name) + 4:end]
    ran, lines = {}, []
    for line in err.splitlines(keepends=True):
        case = re.match(rb"case=(\S+) (run=.*)", line)
        if case:
            name, said = case[1].decode(), case[2].decode()
            status = re.match(r"run=ended status=(\d+) ", said)
            answer, mark, left = outs.get(name, b"").rpartition(MARK)
            whole = Ran(int(status[1]) if status else said, answer if mark else left, b"".join(lines))
            ran[name] = int(left) if mark else None, whole
            lines = []
        elif not line.startswith(b"allocations: "):
            lines.append(line)
    return ran


# ---- the two builds

def count(folder, rows):
    """For each row what a run answers to which nothing is refused, and how many allocations it makes."""
    ran = run_cases(folder, [(f"row{n}", "count", row) for n, row in enumerate(rows)], MANY)
    ran = [ran[f"row{n}"] for n in range(len(rows))]
    return [(whole, max(MANY - 1 - left, 0) if left is not None else 0) for left, whole in ran]


def spread(made, most):
    """So many of the numbers from 1 to what is made, spread evenly."""
    points = min(made, most)
    return sorted({1 + i * (made - 1) // max(points - 1, 1) for i in range(points)})


def try_points(folder, rows, counted, most):
    """For each row what was answered at each of its points."""
    points = [spread(made, most) for _, made in counted]
    number = max(made for _, made in counted) + 1
    cases = [(f"row{n}-{point}", number - point, row) for n, row in enumerate(rows) for point in points[n]]
    ran = run_cases(folder, cases, number)
    return [[(point, *ran[f"row{n}-{point}"]) for point in points[n]] for n in range(len(rows))]


def shown(ran):
    return ran.status, ran.out[:100], ran.err[-300:]


def judge(row, whole, made, answers):
    """Prints the line of a row, and answers what was found."""
    found = []
    if whole != row.wanted if row.wanted else whole.status != 0:
        found.append(f"{row.name}, nothing refused: was {shown(whole)}, wanted {row.wanted and shown(row.wanted)}")
    counts = collections.Counter()
    for point, left, ran in answers:
        kind = "no end" if left is None else "the same" if ran == whole else "out of memory" if ran == NO_MEMORY else "other"
        counts[kind] += 1
        if kind in ("no end", "other"):
            came = "" if left is not None else ", and did not come to its end"
            found.append(f"{row.name}, allocation {point} of {made} refused: was {shown(ran)}{came}; without a refusal {shown(whole)}")
    if not counts["out of memory"]:
        found.append(f"{row.name}: out of memory at none of {len(answers)} points")
    print(f"{row.name}: {len(answers)} points of {made}: {counts['the same']} answered the same, {counts['out of memory']} out of memory, "
          f"{len(found)} findings", flush=True)
    for what in found:
        print(f"FOUND {what}", flush=True)
    return found


def main():
    parser = argparse.ArgumentParser(description=__doc__, formatter_class=argparse.RawDescriptionHelpFormatter)
    parser.add_argument("--only", metavar="WORD", default="", help="only the rows whose name has this word")
    parser.add_argument("--points", metavar="N", type=int, default=24, help="at most so many points a row (24)")
    options = parser.parse_args()
    rows = [row for row in table() if options.only in row.name]
    if not rows or options.points < 1:
        sys.exit("no row has this name" if not rows else "--points is 1 or more")
    if shutil.which("rt") is None:
        sys.exit("no rt on the path")
    with tempfile.TemporaryDirectory(prefix="refused-") as folder:
        copy_sources(folder)
        counted = count(folder, rows)
        print(f"{len(rows)} rows make {sum(made for _, made in counted)} allocations", flush=True)
        tried = try_points(folder, rows, counted, options.points)
    found = [what for row, (whole, made), answers in zip(rows, counted, tried) for what in judge(row, whole, made, answers)]
    print(f"{sum(map(len, tried))} points, {len(found)} findings")
    return 1 if found else 0


if __name__ == "__main__":
    sys.exit(main())
