#!/bin/sh
# Tries tools/polypar-cc on the C files of tests/cc: what it makes of them is compared and run by tests/cc.py, what it
# tells of kernels that are refused or keep their order is compared with what is stored beside them; and its statuses,
# its outputs, and the places at which it finds the program.
set -u
root=$(CDPATH= cd -- "$(dirname -- "$0")/.." && pwd)
cd "$root" || exit 1
work=$(mktemp -d)
trap 'rm -rf "$work"' EXIT
failed=0
passed=0

# Whether the last call ended with status $2, and its message in $work/said is the text $3; $1 says what was tried.
expect() {
    if [ "$status" -eq "$2" ] && [ "$(cat "$work/said")" = "$3" ]; then
        passed=$((passed + 1))
    else
        failed=$((failed + 1))
        printf '%s: status %s for %s, and it says\n%s\nfor\n%s\n' "$1" "$status" "$2" "$(cat "$work/said")" "$3"
    fi
}

# Whether $2 and $3 are the same; $1 says what was tried.
expect_same() {
    if [ "$2" = "$3" ]; then
        passed=$((passed + 1))
    else
        failed=$((failed + 1))
        printf '%s: "%s" for "%s"\n' "$1" "$2" "$3"
    fi
}

# Calls the tool with these words; sets `status` and $work/said.
call() {
    tools/polypar-cc "$@" 2>"$work/said"
    status=$?
}

# The launcher is called once, and then the program itself.
call tests/cc/end.c -o "$work/end.c"
expect "by the launcher" 0 ""
[ -n "${POLYPAR:-}" ] || export POLYPAR="$(POLYPAR_WHICH=1 "$root/polypar")"

pairs="tests/cc/end.c $work/end.c"
for name in several tabs comments macros; do
    call "tests/cc/$name.c" -o "$work/$name.c"
    expect "$name" 0 ""
    pairs="$pairs tests/cc/$name.c $work/$name.c"
done
call tests/cc/named.c -o "$work/named.c" --function kernel_first kernel_second
expect "kernels by name" 0 ""
call tests/cc/none.c -o "$work/none.c"
expect "no kernel" 0 "tests/cc/none.c: there is no kernel, so $work/none.c is the same"
call tests/cc/narrow.c -o "$work/narrow.c" --check
expect "a certificate" 0 "$(cat tests/cc/narrow.told)"
call tests/cc/kept.c -o "$work/kept.c" --budget 1
expect "a kept order" 0 "$(cat tests/cc/kept.told)"
pairs="$pairs tests/cc/named.c $work/named.c tests/cc/none.c $work/none.c tests/cc/narrow.c $work/narrow.c"
for words in "$pairs" "--budget=1 tests/cc/kept.c $work/kept.c"; do
    if python3 -B tests/cc.py $words; then passed=$((passed + 1)); else failed=$((failed + 1)); fi
done

echo old >"$work/refused.c"
call tests/cc/refused.c -o "$work/refused.c"
expect "refused kernels" 2 "$(cat tests/cc/refused.told)"
expect_same "nothing is written where a kernel is refused" "$(cat "$work/refused.c")" old

kinds=$(sed -n '/^## The kinds of refusal/,/^## /s/^| \([A-Z][A-Za-z, ]*\) |.*/\1/p' docs/LANGUAGE.md | tr -d ,)
for kind in $kinds; do
    [ "$kind" = Kind ] || grep -q "^    (\"\(.*|\)*$kind\(|.*\)*\", " tools/polypar-cc || echo "$kind"
done >"$work/printed"
expect_same "a sentence for each of 25 kinds" "$(echo $kinds | wc -w) $(cat "$work/printed")" "26 "

# A file of its own for what is told of a place: the kernel $2 behind the text $1 is told of as $3, with status 2.
tell() {
    printf '%b#pragma polypar\n%b' "$1" "$2" >"$work/told.c"
    call "$work/told.c"
    expect_same "$3" "$status $(sed -n '1s/.*: error: //p' "$work/said")" "2 $3"
}
tell '' 'int k(uint64_t A[1]) { A[0] = 1; }' 'Token: a kernel is `void`: what it computes it leaves in arrays'
tell '' 'void k(uint64_t A[1]) { A[0] = 1; ' 'Unended: the file ends within a kernel: a `}` is missing'
tell '' 'void k(uint64_t A[1]) { A[0] = 1; /* }' 'UnendedComment: this comment has no end'
tell '' 'void k(uint64_t A[2]) {\n A[0] = 1; // a \\\n A[1] = 1;\n}' \
    'this joins two lines of a kernel: write them as one'
tell '' 'void k(uint64_t A[1]) { A[0] = k /* A */ (1); }' \
    'UnknownName: a call is not read: write out what `k` does, or call it outside of the kernel'
tell '' 'void k(uint64_t A[1]);' 'no definition of a function follows this line'
for front in 'static\n' 'void f(void) {\n'; do
    tell "$front" 'void k(uint64_t A[1]) { A[0] = 1; }' \
        'this line stands within a function or a declaration: put it in front of the whole'
done
tell '#define k3 4\n' 'void k(uint64_t k3[1]) { k3[0] = 1; }' \
    '`k3` is a word of what is written for `k`: give it another name'
tell 'static int pp_max;\n' 'void k(uint64_t A[1]) { A[0] = 1; }' \
    '`pp_max` is a word of what is written for `k`: give it another name'

call tests/cc/end.c -o - | sed 's/^#line .*//' >"$work/printed"
expect_same "standard output has the file" "$(cat "$work/printed")" "$(sed 's/^#line .*//' "$work/end.c")"
{ printf '#define h 1\n#define S1 2\n#define i 3\n#undef i\n'; cat tests/cc/end.c; } >"$work/beside.c"
call "$work/beside.c" --tile 7
expect_same "a file beside it, in tiles of 7" "$status $(grep -c '7\*pp_2 + 6' "$work/beside.polypar.c")" "0 1"
printf '\357\273\277#pragma polypar\r\nvoid k(uint64_t A[1]) {\r\n/* \303\205 \f\r */ A[0] /= 2; }' >"$work/mark.c"
call "$work/mark.c"
expect_same "behind a byte order mark, and bytes of other lines" \
    "$(sed -n 1p "$work/said" | cut -d : -f 2-5)" '3:18: error: Division'
call "$work/beside.c" -o "$work/beside.c"
expect "over its own source" 1 "polypar-cc: $work/beside.c would take the place of its own source"
call "$work/absent.c"
expect "an absent file" 1 "polypar-cc: $work/absent.c: No such file or directory"
call "$work/beside.c" -o "$work/no/folder.c"
expect_same "an absent folder" "$status" 1
call "$work/beside.c" --function kernel_first
expect "an absent function" 1 "polypar-cc: $work/beside.c defines no function \`kernel_first\`"
call
expect_same "no word" "$status" 1
call "$work/beside.c" --tile 1025
expect_same "a tile that is too large" "$status $(sed -n '1s/:.*//p' "$work/said")" "1 usage"
if [ -c /dev/full ]; then
    call "$work/beside.c" -o /dev/full
    expect "a full device" 1 "polypar-cc: /dev/full: No space left on device"
fi
expect_same "no file is left of one that was not written" "$(ls "$work" | grep -c '\.c')" 14

mkdir "$work/bin"
ln -s "$root/tools/polypar-cc" "$work/bin/polypar-cc"
printf '#!/bin/sh\necho "%s" >>"%s"\nexec "%s" "$@"\n' found "$work/found" "$POLYPAR" >"$work/bin/polypar"
chmod +x "$work/bin/polypar"
cp tools/polypar-cc "$work/polypar-cc"
(unset POLYPAR && PATH=$work/bin:$PATH && "$work/polypar-cc" "$work/beside.c" -o "$work/by_path.c")
expect_same "the program is found on the PATH" "$? $(cat "$work/found")" "0 found"
(POLYPAR=$work/bin/polypar "$work/bin/polypar-cc" "$work/beside.c" -o "$work/by_link.c")
expect_same "through a link, and by the name in POLYPAR" "$? $(cat "$work/found" | wc -l)" "0 2"
if command -v script >/dev/null; then
    script -qec "tools/polypar-cc tests/cc/several.c -o $work/several.c" /dev/null </dev/null | tr -d '\r' >"$work/said"
    status=0
    expect "on a terminal" 0 "tests/cc/several.c:17: \`kernel_sweep\` goes by tiles, in parallel
tests/cc/several.c:24: \`kernel_product\` goes by tiles, in parallel
tests/cc/several.c:34: \`kernel_prefix\` goes by tiles, but nothing runs at once"
fi
echo "$passed passed, $failed failed"
[ "$failed" -eq 0 ]
