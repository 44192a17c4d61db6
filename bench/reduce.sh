#!/bin/sh
# Times `polypar run --reduce` beside `run`, each with 1, 2 and 4 workers, on a dot product, on sums of the columns of a
# long thin matrix, and on a product of matrices, in one run. Prints the seconds by the clock, the shortest of several
# rounds, less those of a start on a tiny case, and the ratio of both for each number of workers.
# usage: bench/reduce.sh [ROUNDS], at least 5
set -eu
root=$(CDPATH= cd -- "$(dirname -- "$0")/.." && pwd)
. "$root/bench/programs.sh"
python3 -B "$root/bench/reduce.py" "$program" "$root" "$@"
