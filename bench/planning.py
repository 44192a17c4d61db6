"""Times a planning command of polypar on kernels against gcc's own polyhedral passes. Called by schedule.sh and emit.sh.

usage: planning.py COMMAND PROGRAM FOLDER ROUNDS FILE..
"""

import os
import subprocess
import sys

from kernel_texts import kernel_of
from timing import rounds_of, shortest

PASSES = ["-floop-nest-optimize", "-floop-parallelize-all", "-ftree-parallelize-loops=4"]
GCC = ["gcc", "-O2", *PASSES, "-c", "-o", os.devnull]


def kernel_in(folder, file):
    """The kernel as a file for gcc, behind the header that it wants."""
    kernel = os.path.join(folder, os.path.basename(file))
    with open(kernel, "w", encoding="utf-8") as out:
        out.write("#include <stdint.h>\n" + kernel_of(file))
    return kernel


def kept_line(command, file):
    """The kept line of a kernel whose order is kept: `schedule` prints it, other commands tell it on standard error."""
    with open(file, "rb") as source:
        done = subprocess.run(command, stdin=source, capture_output=True, check=True)
    told = done.stdout if done.stdout.startswith(b"kept") else done.stderr
    return told.decode().strip()


def main():
    command, program, folder, rounds, *files = sys.argv[1:]
    sums = {command: 0.0, "gcc": 0.0}
    for file in files:
        commands = {command: [program, command], "gcc": GCC + [kernel_in(folder, file)]}
        times, _ = shortest(commands, rounds_of([rounds], 5), file, subprocess.DEVNULL)
        for name in sums:
            sums[name] += times[name]
        own, other = 1000 * times[command], 1000 * times["gcc"]
        kept = kept_line(commands[command], file)
        name = os.path.basename(file)
        print(f"{name:24} {command} {own:9.2f} ms  gcc {other:8.2f} ms  ratio {own / other:6.2f}  {kept}", flush=True)
    own, other = 1000 * sums[command], 1000 * sums["gcc"]
    print(f"{'sum':24} {command} {own:9.2f} ms  gcc {other:8.2f} ms  ratio {own / other:6.2f}")


main()
