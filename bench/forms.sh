#!/bin/sh
# Times the steps of crates/bench_cases against plain C with __int128 and the compiler's overflow tests (gcc -O2):
# checked products and sums within 64 bits and above, the value of a form of eight coefficients, and a pivot's
# combination of 60 rows of 40 numbers. Prints nanoseconds a step, by the shortest processor times, and the ratios.
# usage: bench/forms.sh [ROUNDS], at least 5
set -eu
root=$(CDPATH= cd -- "$(dirname -- "$0")/.." && pwd)
work=$(mktemp -d)
trap 'rm -rf "$work"' EXIT
. "$root/bench/programs.sh"
built bench_cases
gcc -O2 -o "$work/baseline" "$root/bench/forms_baseline.c"
python3 -B "$root/bench/forms.py" "$made" "$work/baseline" "$@"
