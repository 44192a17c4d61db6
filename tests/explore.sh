#!/bin/sh
# Makes pages with tools/explore and compares what they tell with the program's answers, as tests/explore.py says; and
# tries what it refuses to show.
set -u
root=$(CDPATH= cd -- "$(dirname -- "$0")/.." && pwd)
cd "$root" || exit 1
failed=0
passed=0
scratch=$(mktemp -d) || exit 1
trap 'rm -rf "$scratch"' EXIT

# Counts a status, and says what failed where it is not 0.
count() {
    if [ "$1" -eq 0 ]; then passed=$((passed + 1)); else failed=$((failed + 1)) && echo "$2"; fi
}

command -v chromium >/dev/null || command -v chromium-browser >/dev/null || command -v google-chrome >/dev/null ||
    echo "no Chromium is there: the data of pages is compared, and not what they tell"
printf '%s\n' 'void turn(uint64_t A[12][12]) { /* </script> */' \
    '  for (int64_t i = 0; i < 4; i++) { A[i][i] = A[0][i]; A[0][2 * i] = A[3][0]; } }' >"$scratch/kept.c"
for words in 'examples/seidel.c T=6 N=8 --tile 3' 'examples/product.c N=3' 'examples/even.c N=5' 'examples/prefix.c' \
    "$scratch/kept.c"; do
    python3 -B tests/explore.py $words
    count $? "the page is not right that this makes: tools/explore $words"
done

# Whether `tools/explore`, on the kernel $2 with the words behind it, ends with status 2 and the one line `explore: $1`.
refuse() {
    line=$1 text=$2
    shift 2
    said=$(printf '%b' "$text" | tools/explore /dev/stdin "$@" 2>&1)
    [ $? -eq 2 ] && [ "$said" = "explore: $line" ]
    count $? "explore: $line: it says $said"
}

loop='void c(int64_t N, uint64_t A[N]) { for (int64_t i = 0; i < N; i++) A[i] = A[i + 1]; }\n'
refuse 'S1 has 4 loops round it, and a page takes three' "$(cat examples/convolution.c)"
refuse 'N has no value' "$loop"
refuse 'M=1 gives no parameter a value' "$loop" N=1 M=1
refuse 'more than 1000 instances' "$loop" N=1001
refuse 'refused: Unended 1:7' 'void c'
refuse 'outside: S1 access 1 dimension 1 value 1 extent 1' "$loop%%\nN = 1\n"
echo "$passed passed, $failed failed"
[ "$failed" -eq 0 ]
