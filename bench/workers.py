"""Times parallel runs against a C compiler, by the clock. Called by workers.sh."""

import subprocess
import sys

from by_clock import START, input_of, kernel_in, net_times, shortest
from harness import arrays_of, built, numbers_of, run_of
from timing import rounds_of

WORKERS = (1, 2, 4)
TINY = 4
TRIANGLE = """#include <stdint.h>
void triangle(int64_t T, int64_t N, uint64_t L[N][N], uint64_t x[N]) {
  for (int64_t t = 0; t < T; t++)
    for (int64_t i = 0; i < N; i++)
      for (int64_t j = 0; j < i; j++)
        x[i] -= L[i][j] * x[j];
}
"""
GUARD = """#include <stdint.h>
void guard(int64_t T, int64_t N, uint64_t A[N][N], uint64_t B[N][N]) {
  for (int64_t t = 0; t < T; t++)
    for (int64_t i = 0; i < N; i++)
      for (int64_t j = 0; j < N; j++)
        if (i + j >= N) B[i][j] += A[i][j] + t;
}
"""
STRIDES = """#include <stdint.h>
void strides(int64_t T, int64_t N, uint64_t A[N][N], uint64_t B[N][N]) {
  for (int64_t t = 0; t < T; t++)
    for (int64_t i = 0; i < N; i += 2)
      for (int64_t j = 0; j < N; j += 3)
        B[i][j] += A[i][j] * 3;
}
"""
# Of each kernel its text or the file that has it, the values of its parameters, those of a start, and how many
# instances it has.
CASES = {
    "product": ("examples/product.c", {"N": 256}, {"N": TINY}, 256**3),
    "jacobi": ("examples/jacobi.c", {"T": 40, "N": 400}, {"T": 1, "N": TINY}, 2 * 40 * 398**2),
    "lu": ("examples/lu.c", {"N": 300}, {"N": TINY}, sum(k * k for k in range(300))),
    "seidel": ("examples/seidel.c", {"T": 400, "N": 20000}, {"T": 1, "N": TINY}, 400 * 19998),
    "triangle": (TRIANGLE, {"T": 200, "N": 300}, {"T": 1, "N": TINY}, 200 * sum(range(300))),
    "guard": (GUARD, {"T": 200, "N": 300}, {"T": 1, "N": TINY}, 200 * sum(range(300))),
    "strides": (STRIDES, {"T": 600, "N": 300}, {"T": 1, "N": TINY}, 600 * 150 * 100),
}

MAIN = """
#include <stdio.h>
#include <stdlib.h>
int main(void) {
%s
}
"""


def c_program(kernel, values):
    """A C program that runs a kernel on arrays by the seed 0, and prints all of them as `run` does."""
    data = {name: [str(value)] for name, value in values.items()}
    data.update((name, ["seed", "0"]) for name, _ in arrays_of(kernel))
    return kernel + MAIN % "\n".join(run_of(kernel, data))


def commands_of(program, folder, kind, kernel, values, start):
    """The commands for a case of a kernel, named with `start` in front."""
    text = input_of(kernel, values)
    compiled, said = built(folder, kind + start.strip(), c_program(kernel, values), ["gcc", "-O0"])
    if compiled is None:
        sys.exit(said)
    commands = {f"{start}{k} workers": ([program, "run", "--workers", str(k)], text) for k in WORKERS}
    commands[start + "gcc -O0"] = ([compiled], b"")
    return commands


def tell(kind, net, instances):
    """Prints what a kind takes of each command."""
    print(f"{kind}:")
    for name, seconds in net.items():
        print(f"  {name}: {seconds:.3f} s, {1e9 * seconds / instances:.1f} ns an instance")
    one = net["1 workers"]
    for name, seconds in net.items():
        if name != "1 workers":
            print(f"  1 worker to {name}: {one / seconds:.2f}")


def parts_of(command, text, rounds):
    """The seconds of the shortest of some runs before its tiles are begun, until they are done, and behind them."""
    told = []
    for _ in range(rounds):
        said = subprocess.run(command, input=text, stdout=subprocess.DEVNULL, stderr=subprocess.PIPE, check=True).stderr
        begun, done, ended = (int(line.split()[1]) / 1e9 for line in said.splitlines()[-3:])
        told.append((ended, begun, done - begun, ended - done))
    return min(told)[1:]


def tell_shares(clocked, kernel, values, tiny, rounds):
    """Prints which part of a run is planning (what a tiny case takes before its tiles), listing, running and writing."""
    for workers in WORKERS:
        command = [clocked, "run", "--workers", str(workers)]
        planning = parts_of(command, input_of(kernel, tiny), rounds)[0]
        begun, running, writing = parts_of(command, input_of(kernel, values), rounds)
        parts = {"planning": planning, "listing": begun - planning, "running": running, "writing": writing}
        whole = sum(parts.values())
        print(f"  {workers} workers: " + ", ".join(f"{name} {100 * part / whole:.0f} %" for name, part in parts.items()))


def main():
    program, clocked, root, folder = sys.argv[1:5]
    rounds = rounds_of(sys.argv[5:], 5)
    for kind, (file, values, tiny, instances) in CASES.items():
        kernel = kernel_in(root, file)
        if set(numbers_of(kernel)) != set(values):
            sys.exit(f"{kind}: the parameters are {numbers_of(kernel)}")
        commands = commands_of(program, folder, kind, kernel, values, "")
        starts = commands_of(program, folder, kind, kernel, tiny, START)
        tell(kind, net_times(kind, commands, starts, rounds), instances)
        tell_shares(clocked, kernel, values, tiny, rounds)
    times, _ = shortest({f"{k} workers": ([program, "gen", "product", "7", "256", "--workers", str(k)], b"") for k in WORKERS}, rounds)
    tell("gen product 7 256", times, 256**3)


main()
