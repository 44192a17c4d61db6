#!/bin/sh
# What a user runs to see that it works here, without the kit, in about three minutes: the scripts of tests/ that need no
# proof, some with smaller counts than they may have, a line for each with what it passed and how many seconds it took;
# what has failed is shown. What a script wants and this machine lacks (python3, gcc) is told, and the script left out.
# The last line is 'N passed, M failed'.
# usage: tests/all.sh
set -u
root=$(CDPATH= cd -- "$(dirname -- "$0")/.." && pwd)
tests=$root/tests
work=$(mktemp -d)
trap 'rm -rf "$work"' EXIT
passed=0
failed=0

# Runs the script $2 with the words behind it; $1 are the commands that it wants.
run() {
    wants=$1 name=${2##*/}
    shift
    [ "${1%.py}" = "$1" ] || set -- python3 -B "$@"
    for command in $wants; do
        command -v "$command" >/dev/null || { echo "$name: left out, since $command is missing" && return; }
    done
    begun=$(date +%s)
    "$@" >"$work/said" 2>&1 </dev/null
    last=$(tail -n 1 "$work/said")
    printf '%s: %s (%s s)\n' "$name" "$last" $(($(date +%s) - begun))
    counts=$(printf '%s\n' "$last" | sed -n 's/^\([0-9]*\) passed, \([0-9]*\) failed.*/\1 \2/p')
    [ -n "$counts" ] || counts="0 1"
    passed=$((passed + ${counts% *}))
    failed=$((failed + ${counts#* }))
    [ "${counts#* }" = 0 ] || cat "$work/said"
}

program=$(POLYPAR_WHICH=1 "$root/polypar") || exit 1
run "" "$tests/proved.sh"
run python3 "$tests/examples.sh"
. "$root/bench/example_kernels.sh"
run python3 "$tests/emitted.py" "$@"
run python3 "$tests/picture.sh"
run "python3 gcc" "$tests/cc.sh"
run python3 "$tests/completion.sh"
run "python3 gcc" "$tests/widths.py" "$program" 100
run python3 "$tests/certificates.py" "$program" 1000 "$root"/examples/*.c
echo "$passed passed, $failed failed"
[ "$failed" -eq 0 ]
