#!/bin/sh
# Makes each picture of docs/pictures anew with tools/picture, and compares; and tries what it refuses to draw.
set -u
root=$(CDPATH= cd -- "$(dirname -- "$0")/.." && pwd)
cd "$root" || exit 1
failed=0
passed=0

# Compares what `tools/picture` makes of the words behind $1 with the picture $1.
compare() {
    picture=docs/pictures/$1.svg
    shift
    if tools/picture "$@" | cmp -s - "$picture"; then
        passed=$((passed + 1))
    else
        failed=$((failed + 1))
        echo "$picture is not what this makes: tools/picture $*"
    fi
}

compare seidel examples/seidel.c T=6 N=8
compare triangle examples/fir.c N=8 K=8
compare shift docs/pictures/shift.c
compare product examples/product.c N=6

# Whether `tools/picture`, on the kernel $2 with the words behind it, ends with status 1 and the one line `picture: $1`.
refuse() {
    line=$1 text=$2
    shift 2
    said=$(printf '%b' "$text" | tools/picture /dev/stdin "$@" 2>&1)
    if [ $? -eq 1 ] && [ "$said" = "picture: $line" ]; then
        passed=$((passed + 1))
    else
        failed=$((failed + 1))
        echo "picture: $line: it says $said"
    fi
}

loop='void c(int64_t N, uint64_t A[N]) { for (int64_t i = 0; i < N; i++) A[i] = A[i + 1]; }\n'
refuse 'its schedule is found in one move, so no answer keeps the order of the source' \
    'void c(uint64_t A[9]) { for (int64_t i = 0; i < 9; i++) A[i] = 7; }'
refuse 'N has no value' "$loop"
refuse 'M=1 gives no parameter a value' "$loop" N=1 M=1
refuse 'N=-1 gives no parameter a value' "$loop" N=-1
refuse 'no instance' "$loop" N=0
refuse 'more than 400 instances' "$loop" N=401
refuse 'refused: Unended 1:7' 'void c'
refuse 'outside: S1 access 1 dimension 1 value 1 extent 1' "$loop%%\nN = 1\n"
echo "$passed passed, $failed failed"
[ "$failed" -eq 0 ]
