"""Times commands against each other by the clock, the shortest of several rounds taken in turn, and makes the input of a
kernel's run."""

import os
import subprocess
import sys
import time

from harness import arrays_of
from kernel_texts import kernel_of

# What stands in front of the name of a command on a tiny case, whose time is that of a start.
START = "start of "


def clock(command, text=b""):
    """The seconds by the clock that a command takes on a text, and what it prints."""
    begin = time.perf_counter()
    done = subprocess.run(command, input=text, stdout=subprocess.PIPE, check=True)
    return time.perf_counter() - begin, done.stdout


def shortest(commands, rounds):
    """The shortest time of each of the named commands, run in turn, each with its text; and what each printed."""
    times, printed = {}, {}
    for _ in range(rounds):
        for name, (command, text) in commands.items():
            seconds, printed[name] = clock(command, text)
            times[name] = min(seconds, times.get(name, seconds))
    return times, printed


def net_times(kind, commands, starts, rounds):
    """The shortest times of commands that print the same arrays, each less that of its start."""
    times, printed = shortest(commands | starts, rounds)
    if len({printed[name] for name in commands}) != 1:
        sys.exit(f"{kind}: the arrays differ")
    return {name: times[name] - times[START + name] for name in commands}


def kernel_in(root, file):
    """The kernel of a file below the root, or the text that stands in its place."""
    return file if "\n" in file else kernel_of(os.path.join(root, file))


def input_of(kernel, values):
    """A kernel with the data of these parameters, and each array by the seed 0."""
    lines = [f"{name} = {value}" for name, value in values.items()] + [f"{name} = seed 0" for name, _ in arrays_of(kernel)]
    return (kernel + "\n%%\n" + "\n".join(lines) + "\n").encode()


def runs_in(program, text, start, ways, workers):
    """The runs of a text in each of the named ways by so many workers each, named with `start` in front."""
    return {
        f"{start}{name}, {k} workers": ([program, "run", "--workers", str(k)] + words, text)
        for k in workers
        for name, words in ways
    }


def compare_ways(kind, program, texts, ways, workers, rounds):
    """Times the runs of a text in two named ways, less those of a tiny one; prints the times, and the first to the second."""
    text, tiny = texts
    net = net_times(kind, runs_in(program, text, "", ways, workers), runs_in(program, tiny, START, ways, workers), rounds)
    for name, seconds in net.items():
        print(f"  {name}: {seconds:.3f} s")
    first, second = (name for name, _ in ways)
    for k in workers:
        ratio = net[f"{first}, {k} workers"] / net[f"{second}, {k} workers"]
        print(f"  {first} to {second}, {k} workers: {ratio:.2f}")
