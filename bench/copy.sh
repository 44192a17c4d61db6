#!/bin/sh
# Times `polypar run` on the copy kernel at N = 65536 against a C program that does the same reading, copying and
# printing (gcc -O2), in one run, and prints the ratio of the shortest processor times.
# usage: bench/copy.sh [ROUNDS], at least 5
set -eu
root=$(CDPATH= cd -- "$(dirname -- "$0")/.." && pwd)
work=$(mktemp -d)
trap 'rm -rf "$work"' EXIT
. "$root/bench/programs.sh"
gcc -O2 -o "$work/baseline" "$root/bench/copy_baseline.c"
python3 -B "$root/bench/copy.py" "$program" "$work/baseline" "$work/input" "$@"
