#!/bin/sh
# Times `polypar deps` on kernels, those of examples/ where none is given, beside isl's flow of the same accesses
# (isl_union_access_info_compute_flow by a C program of ours; left out with a word where libisl-dev is missing), in one
# run. A file is a kernel, or a row of records of calls with a kernel each. Prints of each kernel and in all, by the
# shortest processor times, the milliseconds of both as whole calls, which read and print, and of isl's flow alone.
# usage: bench/deps.sh [ROUNDS [FILE..]], at least 5 rounds
set -eu
root=$(CDPATH= cd -- "$(dirname -- "$0")/.." && pwd)
rounds=${1:-5}
[ $# -eq 0 ] || shift
[ $# -ne 0 ] || . "$root/bench/example_kernels.sh"
work=$(mktemp -d)
trap 'rm -rf "$work"' EXIT
. "$root/bench/programs.sh"
baseline=
if gcc -O2 -o "$work/baseline" "$root/bench/deps_isl.c" -lisl 2>"$work/missing"; then
  baseline=$work/baseline
else
  echo "libisl-dev is missing: no ratio"
fi
python3 -B "$root/bench/deps.py" "$program" "$baseline" "$work" "$rounds" "$@"
