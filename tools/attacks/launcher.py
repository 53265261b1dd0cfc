"""Runs programs for a script, and tells the greatest memory of each. The system counts to a child also what the process that started it has
in memory, so a Python of its own runs this file, without its site: it has some eight megabytes, below which no run is told apart.

A line of the input is a run: its words, folder, environment, time in seconds, and the paths of its input and its outputs. A line of the
output is its status, less than 0 for a signal, and its greatest memory in KB. A run that takes longer is killed."""

import os
import signal
import sys

running = 0


def stop(*_):
    if running:
        os.kill(running, signal.SIGKILL)


def start(words, folder, env, _, paths):
    """The child, which becomes the program."""
    child = os.fork()
    if child:
        return child
    try:
        os.chdir(folder)
        for number, (path, flags) in enumerate(zip(paths, (os.O_RDONLY, os.O_WRONLY | os.O_CREAT | os.O_TRUNC, os.O_WRONLY | os.O_CREAT | os.O_TRUNC))):
            os.dup2(os.open(path, flags, 0o600), number)
        os.closerange(3, 100)
        os.execve(words[0], words, env)
    finally:
        os._exit(127)


def main():
    global running
    signal.signal(signal.SIGALRM, stop)
    for line in sys.stdin:
        given = eval(line)
        running = start(*given)
        signal.setitimer(signal.ITIMER_REAL, given[3])
        _, status, used = os.wait4(running, 0)
        running = 0
        signal.setitimer(signal.ITIMER_REAL, 0)
        print(os.waitstatus_to_exitcode(status), used.ru_maxrss, flush=True)


if __name__ == "__main__":
    main()
