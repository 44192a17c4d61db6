"""Times releases from tile to tile against waves, by the clock. Called by sync.sh."""

import subprocess
import sys

from by_clock import compare_ways, input_of, kernel_in
from timing import rounds_of

WORKERS = (2, 4)
WAYS = tuple((sync, ["--sync", sync]) for sync in ("waves", "tiles"))
TINY = 4
SOLVE = """#include <stdint.h>
void solve(int64_t T, int64_t N, uint64_t L[N][N], uint64_t b[N], uint64_t x[N]) {
  for (int64_t t = 0; t < T; t++)
    for (int64_t i = 0; i < N; i++) {
      x[i] = b[i];
      for (int64_t j = 0; j < i; j++)
        x[i] -= L[i][j] * x[j];
    }
}
"""
# Of each kernel its text or the file that has it, the values of its parameters, and those of a start.
CASES = {
    "seidel": ("examples/seidel.c", {"T": 400, "N": 20000}, {"T": 1, "N": TINY}),
    "lu": ("examples/lu.c", {"N": 300}, {"N": TINY}),
    "jacobi": ("examples/jacobi.c", {"T": 40, "N": 400}, {"T": 1, "N": TINY}),
    "solve": (SOLVE, {"T": 100, "N": 300}, {"T": 1, "N": TINY}),
    "prefix": ("examples/prefix.c", {"N": 65536}, {"N": TINY}),
}


def counts_of(program, text):
    """How many tiles, waves and pairs of tiles a run has, by the last lines of its report."""
    words = [program, "run", "--sync", "tiles", "--report"]
    done = subprocess.run(words, input=text, stdout=subprocess.DEVNULL, stderr=subprocess.PIPE, check=True)
    tiles, edges = done.stderr.decode().splitlines()[-2:]
    return f"{tiles.rsplit(' workers', 1)[0]} {edges}"


def main():
    program, root = sys.argv[1:3]
    rounds = rounds_of(sys.argv[3:], 5)
    for kind, (file, values, tiny) in CASES.items():
        kernel = kernel_in(root, file)
        text = input_of(kernel, values)
        print(f"{kind}: {counts_of(program, text)}")
        compare_ways(kind, program, (text, input_of(kernel, tiny)), WAYS, WORKERS, rounds)


main()
