#!/bin/sh
# Runs each kernel of examples/, by waves, with tiles released one by one, with sums in any order and with copies, and
# compares what it prints with the arrays beside it, and its schedule, the sources of its reads, its certificate and its
# emitted text with those beside it; the certificate is checked; looks that the stored calls of crates/test_cases have
# each of these files, byte for byte; and that a process ends with each exit status that its streams can be brought to
# give, and tells why tiles go by waves, or why no instance has a copy.
set -u
root=$(CDPATH= cd -- "$(dirname -- "$0")/.." && pwd)
failed=0
passed=0

# Compares what `polypar` with the words $1 prints of the kernel $2 with the file $3.
compare() {
    if "$root/polypar" $1 <"$2" | cmp -s - "$3"; then
        passed=$((passed + 1))
    else
        failed=$((failed + 1))
        echo "$1 of $2 does not print ${3##*/}"
    fi
}

# Whether `polypar check` and tools/check_certificate accept the certificate $2 of the kernel $1.
accept() {
    for reader in polypar tools/check_certificate; do
        word=check
        [ "$reader" = polypar ] || word=/dev/stdin
        if [ "$({ sed '/^%%$/,$d' "$1"; echo %%; cat "$2"; } | "$root/$reader" "$word")" = yes ]; then
            passed=$((passed + 1))
        else
            failed=$((failed + 1))
            echo "$reader does not accept ${2##*/}"
        fi
    done
}

. "$root/bench/example_kernels.sh"
for kernel in "$@"; do
    compare run "$kernel" "${kernel%.c}.out"
    compare 'run --sync tiles --tile 1 --workers 2' "$kernel" "${kernel%.c}.out"
    compare 'run --reduce --tile 1 --workers 2' "$kernel" "${kernel%.c}.out"
    compare 'run --expand --tile 1 --workers 2' "$kernel" "${kernel%.c}.out"
    compare schedule "$kernel" "${kernel%.c}.schedule"
    compare deps "$kernel" "${kernel%.c}.deps"
    compare emit "$kernel" "${kernel%.c}.emit.c"
    compare certify "$kernel" "${kernel%.c}.certificate"
    accept "$kernel" "${kernel%.c}.certificate"
    python3 -c 'import sys; sys.exit(open(sys.argv[1], "rb").read() not in open(sys.argv[2], "rb").read())' \
        "$kernel" "$root/crates/test_cases/stdin" || {
        failed=$((failed + 1))
        echo "$kernel is not among the stored calls"
    }
done

# Whether `polypar` with the words behind $3, on the text $3, ends with status $1 and says $2.
expect() {
    status=$1 line=$2 text=$3
    shift 3
    said=$(printf '%b' "$text" | "$root/polypar" "$@" 2>&1 >/dev/null)
    ended=$?
    if [ "$ended" -eq "$status" ] && [ "${said%%"$line"*}" != "$said" ]; then
        passed=$((passed + 1))
    else
        failed=$((failed + 1))
        echo "$line: status $ended for $status, and it says $said"
    fi
}

copy='void c(int64_t N, uint64_t A[N]) { for (int64_t i = 0; i < N; i++) A[i] = A[i + 1]; }\n%%\n'
expect 1 'usage: ' '' walk
expect 1 'usage: ' '' schedule --budget 0
expect 1 'usage: ' '' deps --budget 20001
expect 1 'usage: ' '' emit --tile 1025
expect 2 'refused: Unended 1:7' 'void c' run
expect 3 'data: Missing N' "$copy" run
expect 8 'rejected: Form line 1' "${copy}goal 1\n" check
expect 1 'usage: ' '' check --budget 2
expect 1 'usage: ' '' certify --tile 2
expect 4 'outside: S1 access 1 dimension 1 value 1 extent 1' "${copy}N = 1\n" run
many='void m(int64_t N, uint64_t A[8*N+16], uint64_t B[8*N]) { for (int64_t i = 0; i < 8*N + 15; i++) A[i] = i;\n'
many="$many"'for (int64_t i = 0; i < 8*N; i++) B[i] = A[i] + A[i+1] + A[i+2] + A[i+3] + A[i+4] + A[i+5] + A[i+6] + A[i+7] +\n'
many="$many"'A[i+8] + A[i+9] + A[i+10] + A[i+11] + A[i+12] + A[i+13] + A[i+14] + A[i+15]; }\n%%\nN = 40000\n'
expect 0 'waves: edges' "$many" run --tile 1 --sync tiles
sum='void s(int64_t N, uint64_t A[N], uint64_t X[1]) { for (int64_t i = 0; i < N; i++) X[0] += A[i]; }\n%%\nN = 4\n'
expect 0 'waves: reduce' "$sum" run --reduce --sync tiles
expect 0 'unexpanded: reduce' "$sum" run --reduce --expand
long='void l(int64_t N, int64_t M, uint64_t A[N]) { for (int64_t i = 0; i < N; i++) for (int64_t j = 0; j < M; j++) A[i] = j; }\n'
expect 0 'unexpanded: copies' "$long%%\\nN = 65\\nM = 65536\\n" run --expand
if [ -c /dev/full ]; then
    "$root/polypar" run <"$root/examples/copy.c" 2>/dev/null >/dev/full
    if [ $? -eq 6 ]; then passed=$((passed + 1)); else failed=$((failed + 1)) && echo "a full device is no write fault"; fi
fi
ended=$({ { sleep 1; "$root/polypar" schedule <"$root/examples/copy.c" 2>/dev/null; echo $? >&3; } | :; } 3>&1)
if [ "$ended" -eq 6 ]; then passed=$((passed + 1)); else failed=$((failed + 1)) && echo "a reader that is gone: $ended"; fi
"$root/polypar" run <"$root" 2>/dev/null >/dev/null
if [ $? -eq 5 ]; then passed=$((passed + 1)); else failed=$((failed + 1)) && echo "a folder is no read fault"; fi
echo "$passed passed, $failed failed"
[ "$failed" -eq 0 ]
