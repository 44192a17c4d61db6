#!/bin/sh
# Times how `polypar run` reads long inputs (one comment of 2^27 bytes, a million blocks, 2^27 bytes of blocks that never
# end, 2^22 cells by numerals, 32 statements at the limits) against a C program that reads and scans the same bytes
# (gcc -O2), in one run. Prints the ratio of the shortest processor times and the peaks of resident memory.
# usage: bench/reading.sh [ROUNDS], at least 5
set -eu
root=$(CDPATH= cd -- "$(dirname -- "$0")/.." && pwd)
work=$(mktemp -d)
trap 'rm -rf "$work"' EXIT
. "$root/bench/programs.sh"
gcc -O2 -o "$work/baseline" "$root/bench/reading_baseline.c"
python3 -B "$root/bench/reading.py" "$program" "$work/baseline" "$work/input" "$@"
