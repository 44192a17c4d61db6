#!/bin/sh
# Compares what tools/explain tells of the kernels of examples/ and of known ones with tests/explain/, and each dependence
# that it tells with all conflicts (tests/explained.py); tries what it says where the order is kept, where a read's source
# is not told, and where there is nothing to explain.
set -u
root=$(CDPATH= cd -- "$(dirname -- "$0")/.." && pwd)
cd "$root" || exit 1
POLYPAR=${POLYPAR:-$(POLYPAR_WHICH=1 "$root/polypar")} || exit 1
export POLYPAR
said=$(python3 -B tests/explained.py)
failed=$?
echo "$said" | sed '$d'
counts=${said##*
}
passed=${counts%% *}
case $counts in *' passed, '*' failed') failed=${counts#*passed, } failed=${failed%% *} ;; *) passed=0 failed=1 ;; esac

# Whether tools/explain, on the kernel $3 with the words behind it, ends with status $1 and has the line $2.
expect() {
    status=$1 line=$2 text=$3
    shift 3
    said=$(printf '%b' "$text" | tools/explain /dev/stdin "$@" 2>&1)
    ended=$?
    if [ "$ended" -eq "$status" ] && printf '%s\n' "$said" | grep -qxF -- "$line"; then
        passed=$((passed + 1))
    else
        failed=$((failed + 1))
        echo "$line: status $ended for $status, and it says $said"
    fi
}

loop='void c(int64_t N, uint64_t A[N]) { for (int64_t i = 0; i < N; i++) A[i] = A[i + 1]; }\n'
sum='void s(int64_t N, uint64_t A[N], uint64_t X[1]) {\nfor (int64_t i = 0; i < N; i++)\n  X[0] += A[N - 1 - i];\n}\n'
down='void d(int64_t N, uint64_t A[N]) {\nfor (int64_t i = N - 1; i >= 2; i -= 2) A[i] = A[i-2] + A[i];\n}\n'
expect 1 'explain: refused: Unended 1:7' 'void c'
expect 1 'explain: outside: S1 access 1 dimension 1 value 4 extent 4' "$loop%%\nN = 4\n" N=4
expect 1 'explain: M=1 gives no parameter a value' "$loop" M=1
expect 1 'explain: N=-1 gives no parameter a value' "$loop" N=-1
expect 1 'explain: no instance' "$sum" N=0
expect 1 'explain: more than 4000 instances' "$sum" N=4001
expect 0 'at N = 6: instances 6, by --tile 1 tiles 6 waves 6' "$sum"
expect 0 'at N = 5: instances 5, by --tile 1 tiles 5 waves 5' "$sum%%\nN = 7\n" N=5
expect 0 'at N = 6: instances 6, by --tile 1 tiles 6 waves 6' "$sum%%\nN = 4001\n"
expect 0 'would help at these parameters: --reduce (only added to: X): tiles 6 waves 1' "$sum"
expect 0 'row 1 carries: S1 reads A[i-2] (line 2), written as A[i] by S1 (line 2), distance -2; first at i = 5 -> i = 3 (anti)' \
    "$down"
expect 0 'kept: spent 1: a question has made all its moves (--budget), and is not answered; so the order of the source is kept' \
    "$sum" --budget 1
expect 0 'unresolved spent 1: the last write is not told where S1 reads X[0] (line 3): a question has made all its moves (--budget), and is not answered' \
    "$sum" --budget 1
echo "$passed passed, $failed failed"
[ "$failed" -eq 0 ]
