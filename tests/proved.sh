#!/bin/sh
# Looks at the proved program that the repository holds, in seconds and without the kit: that proved/record is of these
# sources and of the file proved/polypar, by the kit that README names; that this program gives all stored answers of the
# kernels of examples/; and, where the gate or ./polypar has built the program since the sources changed, that this is
# byte for byte the same file. Where this machine can't run it (another system or C library) the answers are left out,
# which is told. The last line is 'N passed, M failed'.
# usage: tests/proved.sh
set -u
root=$(CDPATH= cd -- "$(dirname -- "$0")/.." && pwd)
. "$root/tools/sources.sh"
program=$root/proved/polypar
built=$root/crates/polypar_main/out/polypar_main
passed=0
failed=0

# Counts whether $2 and $3 are the same; $1 says what they are.
same() {
    if [ "$2" = "$3" ]; then
        passed=$((passed + 1))
    else
        failed=$((failed + 1))
        printf '%s: "%s" for "%s"\n' "$1" "$2" "$3"
    fi
}

# Compares what the program with the word $1 prints of the kernel $2 with the file $3.
compare() {
    if "$program" "$1" <"$2" | cmp -s - "$3"; then
        passed=$((passed + 1))
    else
        failed=$((failed + 1))
        echo "$1 of ${2##*/} does not print ${3##*/}"
    fi
}

{ read -r built_from && read -r version && read -r sum && read -r library; } <"$root/proved/record" 2>/dev/null ||
    built_from=none version=none sum=none library=none
same "the sources of proved/record" "$built_from" "$(sources)"
same "the file of proved/record" "$sum" "$(sha256sum 2>/dev/null <"$program")"
same "its mode" "$([ -x "$program" ] && echo executable)" executable
same "the kit of README" "$(grep -c "\`$version\`" "$root/README.md")" 1
if [ -x "$built" ] && [ -z "$(cd "$root" && find $(places) -newer "$built" -print -quit)" ]; then
    same "what was built here since" "$(cmp "$built" "$program" 2>&1)" ""
fi
if "$program" run <"$root/examples/copy.c" >/dev/null 2>&1; then
    . "$root/bench/example_kernels.sh"
    for kernel in "$@"; do
        compare run "$kernel" "${kernel%.c}.out"
        compare schedule "$kernel" "${kernel%.c}.schedule"
        compare deps "$kernel" "${kernel%.c}.deps"
        compare emit "$kernel" "${kernel%.c}.emit.c"
        compare certify "$kernel" "${kernel%.c}.certificate"
    done
elif [ "$(uname -sm)" = "Linux x86_64" ] && [ -x "$program" ]; then
    same "it runs" "no: it wants glibc $library, and this is $(getconf GNU_LIBC_VERSION 2>&1)" yes
else
    echo "proved/polypar is for Linux on x86-64: no answer of it is looked at"
fi
echo "$passed passed, $failed failed"
[ "$failed" -eq 0 ]
