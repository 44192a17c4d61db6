"""Times how `polypar run` reads long inputs against a C program that scans the same bytes. Called by reading.sh.

A run's peak of memory counts what it was forked from, so an input is made by a process of its own, and this one is small.
"""

import os
import random
import subprocess
import sys

from timing import measured, rounds_of

LONGEST = 1 << 27
HEAD = "void copy(int64_t N, uint64_t A[N], uint64_t B[N]) {\n  for (int64_t i = 0; i < N; i++)\n"
COPY = "    B[i] = A[i];\n"
DATA = "%%\nN = 4\nA = 1 2 3 4\n"
COPIED = b"A = 1 2 3 4\nB = 1 2 3 4\n"


def comment():
    """A comment in front of a kernel, as long as an input may be."""
    kernel = HEAD + COPY + "}\n" + DATA
    return "/*" + "x" * (LONGEST - len(kernel) - 4) + "*/" + kernel


def braces():
    """A statement in a million blocks."""
    return HEAD + "{" * 1_000_000 + COPY + "}" * 1_000_000 + "\n}\n" + DATA


def open_braces():
    """A kernel whose blocks never end, as long as an input may be."""
    return HEAD + "{" * (LONGEST - len(HEAD))


def numerals():
    """A list of 2^22 - 1 numerals, one too few, so that nothing is printed but the refusal."""
    draw = random.Random(1)
    cells = " ".join(str(draw.getrandbits(64)) for _ in range((1 << 22) - 1))
    return f"void zero(int64_t N, uint64_t A[64][N]) {{\n  A[0][0] = 0;\n}}\n%%\nN = 65536\nA = {cells}\n"


def statements():
    """32 statements, each in five loops, with 16 reads and 256 operators."""
    loops = "".join(f"for (int64_t {i} = 0; {i} < N; {i}++) " for i in "ijklm")
    value = " + ".join(["A[i][j][k][l + m]"] * 16 + ["7ULL"] * (256 - 15 - 16))
    lines = "".join(f"  {loops}\n    A[i][j][k][l] = {value};\n" for _ in range(32))
    return "void many(int64_t N, uint64_t A[N][N][N][2*N]) {\n" + lines + "}\n%%\nN = 1\nA = 0 0\n"


# Each input, the status with which it ends, and what is printed, where that is told.
INPUTS = {comment: (0, COPIED), braces: (0, COPIED), open_braces: (2, b""), numerals: (3, b""), statements: (0, None)}


def write(make, source):
    """Writes an input in a process of its own."""
    child = os.fork()
    if child == 0:
        with open(source, "w") as file:
            file.write(make())
        os._exit(0)
    if os.waitpid(child, 0)[1] != 0:
        sys.exit(f"{make.__name__}: the input could not be written")


def compare(make, program, baseline, source, rounds):
    """Prints the shortest times and the highest peaks over one input, and the ratio of the times."""
    write(make, source)
    wanted, text = INPUTS[make]
    runs = {"polypar": ([program, "run", "--budget", "1"], wanted, text), "gcc -O2": ([baseline], 0, None)}
    times, peaks = {}, {}
    for _ in range(rounds):
        for name, (command, status, told) in runs.items():
            seconds, peak, ended, printed = measured(command, source, subprocess.DEVNULL)
            if ended != status or told not in (None, printed):
                sys.exit(f"{make.__name__}: {name} ended with status {ended} and printed {printed[:80]}")
            times[name] = min(seconds, times.get(name, seconds))
            peaks[name] = max(peak, peaks.get(name, peak))
    each = "; ".join(f"{name} {1000 * times[name]:.1f} ms, {peaks[name] / 2**20:.0f} MiB" for name in runs)
    size = os.path.getsize(source)
    print(f"{make.__name__}: {size / 2**20:.1f} MiB; {each}; ratio {times['polypar'] / times['gcc -O2']:.2f}")


def main():
    program, baseline, source = sys.argv[1:4]
    rounds = rounds_of(sys.argv[4:], 5)
    for make in INPUTS:
        compare(make, program, baseline, source, rounds)


main()
