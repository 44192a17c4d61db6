#!/bin/sh
# Times `polypar run --expand` beside `run`, each with 1, 2 and 4 workers, on a loop that passes values on in one cell, on
# two loops with a running temporary, and on a Jacobi sweep with one array, in one run. Prints tiles and waves of both, the
# seconds by the clock, the shortest of several rounds, less those of a start on a tiny case, and the ratio of both for each
# number of workers.
# usage: bench/expand.sh [ROUNDS], at least 5
set -eu
root=$(CDPATH= cd -- "$(dirname -- "$0")/.." && pwd)
. "$root/bench/programs.sh"
python3 -B "$root/bench/expand.py" "$program" "$@"
