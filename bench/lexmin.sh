#!/bin/sh
# Times the parametric lexicographic minimum of crates/test_cases against isl on the same problems (a C program of
# ours that calls isl_basic_set_lexmin; left out where the library is missing). Solving alone is measured, on both
# sides: each problem is solved many times over and once, and the difference is taken, so that reading, printing and
# starting fall out. Ours has in it a copy of the problem for each call, since the call takes the problem over; isl's
# a further reference to its set. Prints microseconds a move and the ratio of the times, by the shortest processor
# times.
# usage: bench/lexmin.sh [ROUNDS [CASES]]; ROUNDS is at least 5; CASES is a file of cases, without one the program's
# stored input.
set -eu
root=$(CDPATH= cd -- "$(dirname -- "$0")/.." && pwd)
rounds=${1:-}
cases=${2:-$root/crates/test_cases/stdin}
work=$(mktemp -d)
trap 'rm -rf "$work"' EXIT
. "$root/bench/programs.sh"
built test_cases
baseline=
if gcc -O2 -o "$work/baseline" "$root/bench/lexmin_isl.c" -lisl 2>/dev/null; then
    baseline=$work/baseline
else
    echo "isl is missing (libisl-dev): no comparison"
fi
python3 -B "$root/bench/lexmin.py" "$made" "$baseline" "$cases" $rounds
