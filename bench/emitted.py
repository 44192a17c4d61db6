"""Times what `polypar emit` prints against the kernel's own text and compilers' polyhedral passes. Called by emitted.sh
and, for the kernels of bench/polybench, by polybench.py.

usage: emitted.py PROGRAM FOLDER ROUNDS TILE FILE..
"""

import os
import subprocess
import sys

from harness import arrays_of, built, call_of, declarations
from kernel_texts import kernel_of
from timing import rounds_of

# Parameters within the limits of the language, and how many times a kernel runs with them: its own text for about a
# second.
SIZES = {
    "axpy": ({"N": 60000, "stride": 1}, 20000),
    "convolution": ({"H": 1200, "W": 1200, "K": 24}, 1),
    "copy": ({"N": 60000}, 20000),
    "crc": ({"N": 2000, "L": 2000}, 30),
    "even": ({"N": 30000}, 10000),
    "fir": ({"N": 60000, "K": 20000}, 1),
    "fixed": ({"N": 60000, "K": 20000}, 1),
    "jacobi": ({"T": 120, "N": 2000}, 1),
    "lu": ({"N": 1400}, 1),
    "prefix": ({"N": 60000}, 10000),
    "product": ({"N": 900}, 1),
    "seidel": ({"T": 30000, "N": 30000}, 1),
    "solve": ({"N": 8000}, 8),
    "transpose": ({"N": 8000}, 6),
    "warshall": ({"N": 1200}, 1),
}

THREADS = 4
# The seconds after which a run is given up; its way is not run again.
PATIENCE = 60

MAIN = """
#include <stdio.h>
#include <stdlib.h>
#include <time.h>
int main(void) {
  struct timespec pp_begin, pp_end;
  uint64_t pp_sum = 0;
%(declared)s
%(filled)s
  clock_gettime(CLOCK_MONOTONIC, &pp_begin);
  for (int pp_k = 0; pp_k < %(runs)d; pp_k++) %(call)s
  clock_gettime(CLOCK_MONOTONIC, &pp_end);
%(summed)s
  printf("%%.6f %%016llx\\n", (double)(pp_end.tv_sec - pp_begin.tv_sec)
         + (double)(pp_end.tv_nsec - pp_begin.tv_nsec) / 1e9, (unsigned long long)pp_sum);
}
"""


def program_of(text, kernel, sizes, runs):
    """A C program that runs a text of the kernel so often, and prints its seconds and a sum of its cells."""
    each = [(f"  for (size_t pp_k = 0; pp_k < {cells}; pp_k++)", name) for name, cells in arrays_of(kernel)]
    parts = {
        "declared": "\n".join(declarations(kernel, sizes)),
        "filled": "\n".join(f"{loop} {name}[pp_k] = (pp_k + 1) * 11400714819323198485ULL;" for loop, name in each),
        "runs": runs,
        "call": call_of(kernel),
        "summed": "\n".join(f"{loop} pp_sum = pp_sum * 31 + {name}[pp_k];" for loop, name in each),
    }
    return text + MAIN % parts


def timed(program, patience):
    """The seconds of one run, and the sum of its cells; nothing where it was given up after so many seconds."""
    environment = dict(os.environ, OMP_NUM_THREADS=str(THREADS))
    try:
        done = subprocess.run([program], capture_output=True, check=True, env=environment, timeout=patience)
    except subprocess.TimeoutExpired:
        return None
    seconds, cells = done.stdout.split()
    return float(seconds), cells


def time_in_turn(programs, rounds, patience, times, sums):
    """Runs the programs in turn, and puts the shortest seconds of each and its sum of cells into the tables. Returns
    those that were given up."""
    given_up = set()
    for _ in range(rounds):
        for way, made in programs.items():
            told = None if way in given_up else timed(made, patience)
            if told is None:
                given_up.add(way)
                times[way] = float(patience)
            else:
                times[way] = min(told[0], times.get(way, told[0]))
                sums[way] = told[1]
    return given_up


COMPILERS = {
    "own": ["gcc", "-O2"],
    "graphite": ["gcc", "-O2", "-floop-nest-optimize", "-floop-parallelize-all", f"-ftree-parallelize-loops={THREADS}"],
    "polly": ["clang", "-O3", "-mllvm", "-polly", "-mllvm", "-polly-parallel", "-lgomp"],
    "emitted": ["gcc", "-O2", "-fopenmp"],
    "serial": ["gcc", "-O2"],
}


def programs_of(program, folder, tile, file, sizes, runs):
    """The programs of a file's kernel, with its parameters and runs, by their ways, and the line of a kept order."""
    kernel = kernel_of(file)
    name = os.path.splitext(os.path.basename(file))[0]
    with open(file, encoding="utf-8") as source:
        emitted = subprocess.run([program, "emit", "--tile", tile], stdin=source, capture_output=True, check=True)
    texts = {"emitted": emitted.stdout.decode(), "serial": emitted.stdout.decode()}
    programs = {}
    for way, compiler in COMPILERS.items():
        text = program_of(texts.get(way, "#include <stdint.h>\n" + kernel), kernel, sizes, runs)
        made, _ = built(folder, f"{name}_{way}", text, [*compiler, "-w"])
        if made is not None:
            programs[way] = made
    return programs, emitted.stderr.decode().strip()


def timed_ways(name, programs, rounds, patience):
    """The shortest seconds of the ways of a kernel, which were given up, and which compilers' ways end with other cells
    than its own text; that the emitted text does ends the bench."""
    times, sums = {}, {}
    given_up = time_in_turn(programs, rounds, patience, times, sums)
    wrong = {way for way, cells in sums.items() if cells != sums.get("own")}
    if wrong - {"graphite", "polly"}:
        sys.exit(f"{name}: the programs end with different cells: {sums}")
    return times, given_up, wrong


def main():
    program, folder, rounds, tile, *files = sys.argv[1:]
    for file in files:
        name = os.path.splitext(os.path.basename(file))[0]
        if name not in SIZES:
            sys.exit(f"no sizes are known for {name}")
        programs, kept = programs_of(program, folder, tile, file, *SIZES[name])
        times, given_up, wrong = timed_ways(name, programs, rounds_of([rounds], 5), PATIENCE)
        marks = {way: ">" if way in given_up else "wrong " if way in wrong else "" for way in times}
        line = "  ".join(f"{way} {marks[way]}{1000 * seconds:.1f}" for way, seconds in times.items())
        print(f"{name:12} {line}  emitted/own {times['emitted'] / times['own']:5.2f}  {kept}", flush=True)


if __name__ == "__main__":
    main()
