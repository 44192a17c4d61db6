#!/bin/sh
# Times `polypar run --sync tiles` beside `--sync waves`, each with 2 and 4 workers, on a sweep of Gauss and Seidel over a
# line, an LU decomposition, a two-dimensional Jacobi sweep, triangular solves and a running sum, in one run. Prints of
# each how many tiles, waves and pairs of tiles there are, the seconds by the clock, the shortest of several rounds, less
# those of a start on a tiny case, and the ratio of waves to tiles for each number of workers.
# usage: bench/sync.sh [ROUNDS], at least 5
set -eu
root=$(CDPATH= cd -- "$(dirname -- "$0")/.." && pwd)
. "$root/bench/programs.sh"
python3 -B "$root/bench/sync.py" "$program" "$root" "$@"
