#!/bin/sh
# Times `polypar run` with 1, 2 and 4 workers beside the kernel's own text by gcc -O0, on a product of matrices, a
# two-dimensional Jacobi sweep, an LU decomposition, a sweep of Gauss and Seidel over a line, a triangle, a guard,
# strides 2 and 3, and `gen product 7 256`, in one run. Prints of each the seconds by the clock, the shortest of several
# rounds, less those of a start on a tiny case, nanoseconds an instance, the ratios of one worker to the others and to
# gcc, and which parts of one run are planning, listing tiles, running them and writing, by the clock of bench_cases.
# usage: bench/workers.sh [ROUNDS], at least 5
set -eu
root=$(CDPATH= cd -- "$(dirname -- "$0")/.." && pwd)
work=$(mktemp -d)
trap 'rm -rf "$work"' EXIT
. "$root/bench/programs.sh"
built bench_cases
python3 -B "$root/bench/workers.py" "$program" "$made" "$root" "$work" "$@"
