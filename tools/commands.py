#!/usr/bin/env python3
"""Runs the command lines of a page, and compares what they print with what the page says.

    python3 tools/commands.py README.md docs/GUIDE.md          with the built program, crates/dhall/out/dhall
    python3 tools/commands.py --program PATH README.md         with that one; it is found by its file's name

A fenced block `dhall` whose first line is `-- NAME` is written to the file NAME. In a fenced block `console`, or in an indented one, a
line `$ COMMAND` is run by bash, with the lines `> MORE` below it, and the other lines are what it prints, on either stream. The
blocks of a page are run in their order, by one shell, in a new folder with a home of its own; so a page reads as one session.

Plain Python 3 and bash. It prints each command whose output differs, and exits with 1 if one does.
"""

import argparse
import os
import re
import signal
import subprocess
import sys
import tempfile

HERE = os.path.dirname(os.path.abspath(__file__))
SECONDS = 1200


class Write:
    """A file that a page shows."""

    def __init__(self, line, name, text):
        self.line, self.name, self.text = line, name, text


class Command:
    """A command line of a page, with what the page says that it prints."""

    def __init__(self, line, text):
        self.line, self.text, self.wanted = line, text, []


def blocks_of(text):
    """Returns the blocks of a page: the number of the first line, the word behind the fence (console where the block is indented), and
    the lines."""
    blocks, fence, indented = [], None, None
    for number, line in enumerate(text.split("\n"), 1):
        if fence is not None:
            if line.startswith("```"):
                fence = None
            else:
                fence[2].append(line)
        elif line.startswith("```"):
            fence, indented = (number + 1, line[3:].strip(), []), None
            blocks.append(fence)
        elif line.startswith("    ") and (indented is not None or line.startswith("    $ ")):
            if indented is None:
                indented = (number, "console", [])
                blocks.append(indented)
            indented[2].append(line[4:])
        else:
            indented = None
    return blocks


def steps_of(text):
    """Returns the files and commands of a page in their order."""
    steps = []
    for number, kind, lines in blocks_of(text):
        named = re.fullmatch(r"-- (\S+)", lines[0]) if kind == "dhall" and lines else None
        if named:
            steps.append(Write(number, named[1], "".join(f"{line}\n" for line in lines)))
        elif kind == "console":
            command = None
            for at, line in enumerate(lines, number):
                if line.startswith("$ "):
                    command = Command(at, line[2:])
                    steps.append(command)
                elif command is None:
                    raise ValueError(f"line {at}: a block of commands begins with one: $ COMMAND")
                elif line.startswith("> ") and not command.wanted:
                    command.text += "\n" + line[2:]
                else:
                    command.wanted.append(line)
    return steps


def script_of(steps, mark):
    """Returns a script for bash that makes the steps, and prints the mark with a number after each command."""
    lines = ["exec 2>&1"]
    for number, step in enumerate(steps):
        if isinstance(step, Write):
            end = f"{mark}_{number}"
            lines.append(f"cat > '{step.name}' <<'{end}'\n{step.text}{end}")
        else:
            lines.append(step.text)
            lines.append(f"__status=$?; printf '%s\\n' '{mark} {number}'; (exit $__status)")
    return "\n".join(lines) + "\n"


def outputs_of(steps, program, room):
    """Returns what each command printed, by its place among the steps; a command that was not come to has none."""
    mark, home = f"==== {os.getpid()} ====", os.path.join(room, "home")
    folder, bin_folder = os.path.join(room, "work"), os.path.join(room, "bin")
    for it in (home, folder, bin_folder):
        os.makedirs(it)
    os.symlink(program, os.path.join(bin_folder, os.path.basename(program)))
    script = os.path.join(room, "script")
    with open(script, "w", encoding="utf-8") as file:
        file.write(script_of(steps, mark))
    env = {"PATH": f"{bin_folder}:{os.environ.get('PATH', '/usr/bin:/bin')}", "HOME": home, "LC_ALL": "C.UTF-8", "PWD": folder}
    running = subprocess.Popen(["bash", script], cwd=folder, env=env, stdin=subprocess.DEVNULL, stdout=subprocess.PIPE, start_new_session=True)
    try:
        said = running.communicate(timeout=SECONDS)[0].decode(errors="replace")
    except subprocess.TimeoutExpired:
        os.killpg(running.pid, signal.SIGKILL)
        said = running.communicate()[0].decode(errors="replace")
    try:
        # (a server that a page starts ends with it)
        os.killpg(running.pid, signal.SIGKILL)
    except ProcessLookupError:
        pass
    found, printed = {}, []
    for line in said.split("\n"):
        ended = re.fullmatch(f"(.*){re.escape(mark)} ([0-9]+)", line)
        if ended:
            # (an output without a line feed at its end stands before the mark)
            found[int(ended[2])] = printed + [ended[1]] * bool(ended[1])
            printed = []
        else:
            printed.append(line)
    return found


def check(page, program):
    """Runs a page, and returns a text for each command that printed something else."""
    with open(page, encoding="utf-8") as file:
        steps = steps_of(file.read())
    with tempfile.TemporaryDirectory(prefix="commands-") as room:
        found = outputs_of(steps, os.path.abspath(program), room)
    wrong = []
    for number, step in enumerate(steps):
        if isinstance(step, Command) and found.get(number) != step.wanted:
            got = found.get(number, ["(it was not come to)"])
            wrong.append("\n  ".join([f"{page}, line {step.line}: {step.text}", "wanted:", *step.wanted, "got:", *got]))
    return len([it for it in steps if isinstance(it, Command)]), wrong


def main():
    parser = argparse.ArgumentParser(description=__doc__, formatter_class=argparse.RawDescriptionHelpFormatter)
    parser.add_argument("pages", nargs="+", metavar="PAGE")
    parser.add_argument("--program", default=os.path.join(HERE, "..", "crates", "dhall", "out", "dhall"))
    options = parser.parse_args()
    if not os.access(options.program, os.X_OK):
        sys.exit(f"no program at {options.program}: build it first (make build)")
    status = 0
    for page in options.pages:
        count, wrong = check(page, options.program)
        print(f"{page}: {count} commands, {len(wrong)} differ")
        for it in wrong:
            print(it)
        status |= bool(wrong)
    return status


if __name__ == "__main__":
    sys.exit(main())
