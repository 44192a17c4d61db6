"""Times runs in which each instance has a copy of its own against runs without, by the clock. Called by expand.sh."""

import subprocess
import sys

from by_clock import compare_ways, input_of
from timing import rounds_of

WORKERS = (1, 2, 4)
WAYS = (("in place", []), ("copies", ["--expand"]))
TINY = 4
ONE_CELL = """#include <stdint.h>
void through(int64_t N, uint64_t A[N][N], uint64_t X[1]) {
  for (int64_t i = 0; i < N; i++)
    for (int64_t j = 0; j < N; j++) {
      X[0] = A[i][j] * 2;
      A[i][j] = X[0] + 1;
    }
}
"""
TEMPORARY = """#include <stdint.h>
void temporary(int64_t N, uint64_t A[N][N], uint64_t B[N][N], uint64_t X[N]) {
  for (int64_t i = 0; i < N; i++) {
    for (int64_t j = 0; j < N; j++)
      X[j] = A[i][j] * A[i][j] + 3;
    for (int64_t j = 0; j < N; j++)
      B[i][j] = X[j] ^ A[i][j];
  }
}
"""
JACOBI = """#include <stdint.h>
void jacobi(int64_t T, int64_t N, uint64_t A[N], uint64_t B[N]) {
  for (int64_t t = 0; t < T; t++) {
    for (int64_t i = 1; i < N - 1; i++)
      B[i] = A[i - 1] + A[i] + A[i + 1];
    for (int64_t i = 1; i < N - 1; i++)
      A[i] = B[i];
  }
}
"""
# Of each kernel its text, the values of its parameters, and those of a start.
CASES = {
    "one cell": (ONE_CELL, {"N": 700}, {"N": TINY}),
    "temporary": (TEMPORARY, {"N": 700}, {"N": TINY}),
    "jacobi": (JACOBI, {"T": 100, "N": 4000}, {"T": TINY, "N": TINY}),
}


def counts_of(program, text, words):
    """The last line of a report: tiles, waves and workers."""
    done = subprocess.run([program, "run", "--report"] + words, input=text, capture_output=True, check=True)
    return done.stderr.decode().splitlines()[-1]


def main():
    program = sys.argv[1]
    rounds = rounds_of(sys.argv[2:], 5)
    for kind, (kernel, values, tiny) in CASES.items():
        whole = input_of(kernel, values)
        print(kind)
        for name, words in WAYS:
            print(f"  {name}: {counts_of(program, whole, words)}")
        compare_ways(kind, program, (whole, input_of(kernel, tiny)), WAYS, WORKERS, rounds)


main()
