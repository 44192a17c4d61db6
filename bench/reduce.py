"""Times sums in any order against sums in the kernel's, by the clock. Called by reduce.sh."""

import sys

from by_clock import compare_ways, input_of, kernel_in
from timing import rounds_of

WORKERS = (1, 2, 4)
WAYS = (("in order", []), ("in any order", ["--reduce"]))
TINY = 4
DOT = """#include <stdint.h>
void dot(int64_t N, uint64_t A[N][N], uint64_t B[N][N], uint64_t X[1]) {
  for (int64_t i = 0; i < N; i++)
    for (int64_t j = 0; j < N; j++)
      X[0] += A[i][j] * B[i][j];
}
"""
SHARES = """#include <stdint.h>
void shares(int64_t T, int64_t N, uint64_t A[T][N], uint64_t X[N]) {
  for (int64_t t = 0; t < T; t++)
    for (int64_t j = 0; j < N; j++)
      X[j] += A[t][j] & 255;
}
"""
# Of each kernel its text or the file that has it, the values of its parameters, and those of a start.
CASES = {
    "dot": (DOT, {"N": 1200}, {"N": TINY}),
    "shares": (SHARES, {"T": 60000, "N": 32}, {"T": TINY, "N": 32}),
    "product": ("examples/product.c", {"N": 200}, {"N": TINY}),
}


def main():
    program, root = sys.argv[1:3]
    rounds = rounds_of(sys.argv[3:], 5)
    for kind, (file, values, tiny) in CASES.items():
        kernel = kernel_in(root, file)
        print(kind)
        texts = input_of(kernel, values), input_of(kernel, tiny)
        compare_ways(kind, program, texts, WAYS, WORKERS, rounds)


main()
