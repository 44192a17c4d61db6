#!/bin/sh
# Times the conflicts of the kernels in examples/ and the rows of all of them by Farkas's lemma (crates/bench_cases),
# and the same eliminations with the same order of variables by isl over rational sets (libisl-dev; left out with a word
# where it is missing). Prints of each kernel its dependences, the milliseconds of each call for all of them, by the
# shortest processor times, how many questions were asked of the solver (counted by gdb; left out where it is missing),
# and the ratio of both claims' rows to isl.
# usage: bench/farkas.sh [ROUNDS [FILE..]], the kernels of examples/ where no file is given; at least 5 rounds
set -eu
root=$(CDPATH= cd -- "$(dirname -- "$0")/.." && pwd)
rounds=${1:-5}
[ $# -eq 0 ] || shift
[ $# -ne 0 ] || . "$root/bench/example_kernels.sh"
work=$(mktemp -d)
trap 'rm -rf "$work"' EXIT
. "$root/bench/programs.sh"
built test_cases
cases=$made
built bench_cases
baseline=
if gcc -O2 -o "$work/baseline" "$root/bench/farkas_baseline.c" -lisl 2>"$work/missing"; then
  baseline=$work/baseline
else
  echo "libisl-dev is missing: no ratio"
fi
python3 -B "$root/bench/farkas.py" "$made" "$cases" "$baseline" "$rounds" "$@"
