#!/bin/sh
# Times `polypar emit` on kernels, those of examples/ where none is given, beside what gcc takes to compile the same
# kernel with its own polyhedral passes (-O2 -floop-nest-optimize -floop-parallelize-all -ftree-parallelize-loops=4 -c),
# in one run. Prints of each kernel the milliseconds of both by the shortest processor times, their ratio, and the sums.
# usage: bench/emit.sh [ROUNDS [FILE..]], at least 5 rounds
set -eu
root=$(CDPATH= cd -- "$(dirname -- "$0")/.." && pwd)
rounds=${1:-5}
[ $# -eq 0 ] || shift
[ $# -ne 0 ] || . "$root/bench/example_kernels.sh"
work=$(mktemp -d)
trap 'rm -rf "$work"' EXIT
. "$root/bench/programs.sh"
python3 -B "$root/bench/planning.py" emit "$program" "$work" "$rounds" "$@"
