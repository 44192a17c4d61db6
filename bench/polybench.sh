#!/bin/sh
# Makes docs/POLYBENCH.md: of each kernel of bench/polybench what is refused of PolyBench's own, its schedule, emitted
# text, sources and certificate, what the schedule takes, and the times of the ways of bench/emitted.py, the shortest of
# so many rounds. With --quick all but the times is made anew, and the times stay as they stand on the page; with names
# of kernels only theirs are made anew.
# usage: bench/polybench.sh [ROUNDS [NAME..] | --quick]; three rounds, which take some ten minutes, where none are given
set -eu
root=$(CDPATH= cd -- "$(dirname -- "$0")/.." && pwd)
work=$(mktemp -d)
trap 'rm -rf "$work"' EXIT
. "$root/bench/programs.sh"
[ $# -ne 0 ] || set -- 3
python3 -B "$root/bench/polybench.py" "$program" "$work" "$root/bench/polybench" \
    "$root/docs/POLYBENCH.md" "$@"
