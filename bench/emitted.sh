#!/bin/sh
# Times what `polypar emit` prints of kernels, those of examples/ where none is given, at sizes of about a second: under
# gcc -O2 -fopenmp with four threads (emitted) and without OpenMP (serial), beside the kernel's own text under gcc -O2
# (own), under gcc's polyhedral passes (graphite) and, where clang has Polly, under Polly, in one run. Prints of each
# kernel the shortest milliseconds of each (>60000 where a run was given up), and the ratio of the emitted text's to its
# own; all end with the same cells, but where a compiler's is told to be wrong.
# usage: bench/emitted.sh [ROUNDS [TILE [FILE..]]], at least 5 rounds
set -eu
root=$(CDPATH= cd -- "$(dirname -- "$0")/.." && pwd)
rounds=${1:-5}
[ $# -eq 0 ] || shift
tile=${1:-32}
[ $# -eq 0 ] || shift
[ $# -ne 0 ] || . "$root/bench/example_kernels.sh"
work=$(mktemp -d)
trap 'rm -rf "$work"' EXIT
. "$root/bench/programs.sh"
python3 -B "$root/bench/emitted.py" "$program" "$work" "$rounds" "$tile" "$@"
