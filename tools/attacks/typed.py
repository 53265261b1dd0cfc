"""Random closed programs, whose types, values and digests are known; and random expressions, most of which have no type: a fault
is at a place that is there, a normal form is its own normal form, `resolve` and `freeze` leave what has no imports as it is, and
one with imports, of which hardly any is there, ends the same way by any number of workers."""

import hashlib
import json
import random
import re

import expressions
import programs
from attacks.runs import ILL, ILL_FAULT, MOST_BYTES, NO_JSON, OK, RESOLVING, TOO_NESTED, new_folder, refused, written

PLACE = re.compile(ILL_FAULT + rb"\n")


def digest_line(e):
    """What `hash` writes of a normal form without bound variables."""
    return written(f"sha256:{hashlib.sha256(expressions.encoded(e)).hexdigest()}\n".encode())


def printed_line(e):
    return written(expressions.printed(e).encode() + b"\n")


def json_text(value):
    """The compact text of a JSON value."""
    return json.dumps(value, ensure_ascii=False, separators=(",", ":"))


def place(path):
    return "/".join(map(str, path)) or "root"


def json_line(t, value):
    """What `to-json` writes of a program of this type and value."""
    try:
        return written(json_text(programs.json_value(t, value)).encode() + b"\n")
    except programs.NoValue as fault:
        return refused(f"no JSON value at {place(fault.args[0])}".encode(), NO_JSON)


def answers(t, value):
    """What the commands that infer a type write of a program of this type and value."""
    form = programs.literal(t, value)
    return {"type": printed_line(programs.type_of(t)), "normalize": printed_line(form), "hash": digest_line(form), "to-json": json_line(t, value)}


def has_imports(e):
    """Whether an import or a choice between imports stands somewhere in it."""
    if isinstance(e, (tuple, list)):
        return e[:1] == ("import",) or e[:2] == ("bin", "?") or any(map(has_imports, e))
    return False


def random_programs(runs, source, rounds):
    maker = programs.Maker(source)
    for n in range(rounds):
        e, t, value = maker.program(source.randrange(1, 7))
        text = expressions.spelled(source, e).encode()
        if len(text) <= MOST_BYTES:
            for verb, wanted in answers(t, value).items():
                runs.check("programs", f"{verb}, program {n} {text[:60]!r}", [verb], text, wanted)


def check_place(runs, name, text, ran):
    """A place without a type is in the text."""
    ill = PLACE.fullmatch(ran.err)
    if ran.status == ILL and ill:
        rule, line, column = map(int, ill.groups())
        lines = text.decode().split("\n")
        if not (1 <= rule <= 55 and 1 <= line <= len(lines) and 1 <= column <= len(lines[line - 1])):
            runs.report(name, f"{ran.err[:80]!r} for {text[:80]!r}")


def check_plain(runs, name, e, text):
    """An expression without imports."""
    runs.check("types", f"resolve, {name}", ["resolve"], text, printed_line(e))
    runs.check("types", f"freeze, {name}", ["freeze"], text, written(text))
    ran = runs.run("types", name, ["type"], text)
    if ran is None or ran.status != OK:
        for verb in ["normalize", "hash", "to-json"] if ran else []:
            runs.check("types", f"{verb}, {name}", [verb], text, ran)
        if ran:
            check_place(runs, name, text, ran)
        return
    ran = runs.run("normal forms", name, ["normalize"], text)
    if ran is not None and ran.status == OK:
        runs.check("normal forms, again", f"normalize, {name}", ["normalize"], ran.out, ran, TOO_NESTED)


def check_importing(runs, source, name, text, folder):
    """An expression with imports."""
    verb = source.choice(RESOLVING)
    ran = runs.run("imports that are not there", name, [verb, "--workers", "1"], text, folder=folder)
    if ran is not None:
        check_place(runs, name, text, ran)
        runs.check_by_workers("imports that are not there", name, verb, text, [source.randrange(2, 65)], ran, folder=folder)


def random_expressions(runs, source, rounds):
    maker = expressions.Maker(source)
    with new_folder() as folder:
        for n in range(rounds):
            e = maker.expression(source.randrange(1, 6))
            name, text = f"expression {n}", expressions.printed(e).encode()
            if has_imports(e):
                check_importing(runs, source, name, text, folder)
            else:
                check_plain(runs, name, e, text)


def attack(runs):
    random_programs(runs, random.Random(runs.seed), runs.few(700, 60))
    random_expressions(runs, random.Random(runs.seed), runs.few(700, 60))
