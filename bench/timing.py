"""Times commands against each other by their processor time, the shortest of several rounds taken in turn.

Processor time is user and system time together: the system divides the two by samples, so that the user time of a
short run alone is noise, while the sum is exact.
"""

import os
import subprocess
import sys

FEWEST_ROUNDS = 5


def rounds_of(words, default):
    """The number of rounds that the words ask for: none is the default; fewer than five measure nothing."""
    if len(words) > 1 or (words and not words[0].isdecimal()):
        sys.exit("usage: the number of rounds, if any")
    rounds = int(words[0]) if words else default
    if rounds < FEWEST_ROUNDS:
        sys.exit(f"{rounds} rounds are too few: at least {FEWEST_ROUNDS}")
    return rounds


def measured(command, source=os.devnull, errors=None):
    """Runs a command on a file: its processor seconds, its peak of resident bytes, its status, and what it printed."""
    with open(source, "rb") as text:
        child = subprocess.Popen(command, stdin=text, stdout=subprocess.PIPE, stderr=errors)
        printed = child.stdout.read()
        _, status, usage = os.wait4(child.pid, 0)
        child.returncode = os.waitstatus_to_exitcode(status)
    return usage.ru_utime + usage.ru_stime, usage.ru_maxrss * 1024, child.returncode, printed


def one_run(command, source=os.devnull, errors=None):
    """Runs a command on a file; its processor time in seconds, and what it printed."""
    seconds, _, status, printed = measured(command, source, errors)
    if status != 0:
        sys.exit(f"{command[0]} ended with status {status}")
    return seconds, printed


def shortest(commands, rounds, source=os.devnull, errors=None):
    """The shortest processor time of each of the named commands, and what each printed."""
    times, printed = {}, {}
    for _ in range(rounds):
        for name, command in commands.items():
            seconds, printed[name] = one_run(command, source, errors)
            times[name] = min(seconds, times.get(name, seconds))
    return times, printed
