#!/bin/sh
# Times `polypar certify` and `check` on kernels, those of examples/ where none is given, beside `schedule`, in one run. A
# file is a kernel, or a row of records of calls with a kernel each. Prints of each kernel and in all, by the shortest
# processor times, the milliseconds of the three, how often `certify` takes what `schedule` does, and the certificate's
# lines.
# usage: bench/certify.sh [ROUNDS [FILE..]], at least 5 rounds
set -eu
root=$(CDPATH= cd -- "$(dirname -- "$0")/.." && pwd)
rounds=${1:-5}
[ $# -eq 0 ] || shift
[ $# -ne 0 ] || . "$root/bench/example_kernels.sh"
work=$(mktemp -d)
trap 'rm -rf "$work"' EXIT
. "$root/bench/programs.sh"
python3 -B "$root/bench/certify.py" "$program" "$work" "$rounds" "$@"
